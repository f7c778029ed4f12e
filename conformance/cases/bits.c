/* Cases of bits, fields and checks: the letters b f l d p c k. */
#include "print.h"

#include "../reference/reference.h"

/* Lengths from none to a few dozen, with the short ones, where every edge is near, most often. */
static size_t draw_length(chance *c)
{
    static const size_t some[] = {0, 1, 1, 2, 2, 3, 4, 5, 8, 9, 23, 40};
    return some[below(c, sizeof some / sizeof some[0])];
}

static size_t draw_string(chance *c, uint8_t *bytes)
{
    size_t length = draw_length(c);
    for (size_t k = 0; k < length; k++)
        bytes[k] = draw_byte(c);
    return length;
}

/* A first bit inside the string, at a byte's edge, about its end, or past it. */
static uint64_t draw_at(chance *c, size_t length)
{
    uint64_t bits = 8 * (uint64_t)length;
    switch (below(c, 5)) {
    case 0: return 8 * below(c, length + 1);
    case 1: return bits < 12 ? below(c, 24) : bits - 12 + below(c, 24);
    case 2: return bits + below(c, 40);
    default: return below(c, bits + 1);
    }
}

static uint64_t draw_width(chance *c)
{
    static const uint64_t some[] = {0, 1, 2, 4, 6, 7, 8, 9, 11, 16, 17, 22, 24, 25, 25};
    return one_in(c, 2) ? below(c, 26) : some[below(c, sizeof some / sizeof some[0])];
}

/* The blocks of 01 cover 22 and 44 bits (User fields), 26 and 35 (overflow and first subfields), 18
 * and 54 (the further ones). */
static uint64_t draw_covered(chance *c)
{
    static const uint64_t some[] = {22, 44, 26, 35, 18, 54};
    return one_in(c, 4) ? below(c, 70) : some[below(c, sizeof some / sizeof some[0])];
}

void print_bit(chance *c, unsigned long k)
{
    uint8_t s[64];
    size_t length = draw_string(c, s);
    (void)k;
    print_letter('b');
    print_string(s, length);
    print_number(draw_at(c, length));
    print_end();
}

void print_field(chance *c, unsigned long k)
{
    uint8_t s[64];
    size_t length = draw_string(c, s);
    (void)k;
    print_letter('f');
    print_string(s, length);
    print_number(draw_at(c, length));
    print_number(draw_width(c));
    print_end();
}

void print_lacks(chance *c, unsigned long k)
{
    uint8_t s[64];
    size_t length = draw_string(c, s);
    (void)k;
    print_letter('l');
    print_string(s, length);
    print_number(draw_at(c, length));
    print_number(draw_width(c));
    print_end();
}

/* Two strings that agree but for one bit, or not at all, or but for their lengths. */
void print_difference(chance *c, unsigned long k)
{
    uint8_t s[64], t[64];
    size_t s_length = draw_string(c, s), t_length = s_length;
    (void)k;
    for (size_t k = 0; k < sizeof t; k++)
        t[k] = k < s_length ? s[k] : draw_byte(c);
    switch (below(c, 4)) {
    case 0: t_length = draw_length(c); break;
    case 1: t_length = draw_string(c, t); break;
    case 2: break;
    default: if (s_length != 0) t[below(c, s_length)] ^= (uint8_t)(1u << below(c, 8));
    }
    print_letter('d');
    print_string(s, s_length);
    print_string(t, t_length);
    print_number(one_in(c, 3) ? 0 : draw_at(c, s_length));
    print_number(one_in(c, 3) ? 17 : draw_width(c));
    print_end();
}

void print_put(chance *c, unsigned long k)
{
    uint8_t s[64];
    size_t length = draw_string(c, s);
    uint64_t width = draw_width(c), value = below(c, UINT64_C(1) << 25);
    (void)k;
    if (one_in(c, 4))
        value = (UINT64_C(1) << 25) - 1;
    if (!one_in(c, 4))
        value &= (UINT64_C(1) << width) - 1;
    print_letter('p');
    print_string(s, length);
    print_number(draw_at(c, length));
    print_number(width);
    print_number(value);
    print_end();
}

/* The first cases cover every number of bits from 0 to 130, which is past any block and past two machine words, from
 * every bit of a byte; those after them are drawn. */
static const unsigned long in_turn = 131 * 8;

static uint64_t block_at(chance *c, unsigned long k)
{
    return k < in_turn ? k % 8 : below(c, 40);
}

static uint64_t block_bits(chance *c, unsigned long k)
{
    return k < in_turn ? k / 8 : draw_covered(c);
}

#define MORE 8

/* A string that ends with a right block of `covered` bits from `at`, and MORE bytes after it. */
static size_t draw_block(chance *c, uint8_t *s, uint64_t at, uint64_t covered)
{
    size_t length = (size_t)((at + covered + 10 + 7) / 8);
    for (size_t k = 0; k < length + MORE; k++)
        s[k] = draw_byte(c);
    put_field(s, length, at + covered, 4, check_of(s, length, at, covered));
    put_field(s, length, at + covered + 4, 6, 0);
    return length;
}

/* Where the string ends: with its block, some bytes after it, or some bytes short. */
static size_t draw_end(chance *c, size_t length)
{
    switch (below(c, 4)) {
    case 0: return length + 1 + (size_t)below(c, MORE);
    case 1: return length - (size_t)below(c, (length < 8 ? length : 8) + 1);
    default: return length;
    }
}

void print_check(chance *c, unsigned long k)
{
    uint8_t s[64];
    uint64_t at = block_at(c, k), covered = block_bits(c, k);
    size_t length = draw_end(c, draw_block(c, s, at, covered));
    print_letter('c');
    print_string(s, length);
    print_number(at);
    print_number(covered);
    print_end();
}

/* A right block; else one bit of its covered bits, its check, its tail or beside it changed; or any of
 * these cut short. */
void print_block(chance *c, unsigned long k)
{
    uint8_t s[64];
    uint64_t at = block_at(c, k), covered = block_bits(c, k), i;
    size_t length = draw_end(c, draw_block(c, s, at, covered));
    switch (below(c, 7)) {
    case 0: i = at + below(c, covered + 1); break;
    case 1: i = at + covered + below(c, 4); break;
    case 2: i = at + covered + 4 + below(c, 6); break;
    case 3: i = at + covered + 10; break;
    default: i = 8 * sizeof s;
    }
    if (i / 8 < length)
        s[i / 8] ^= (uint8_t)(1u << (i % 8));
    print_letter('k');
    print_string(s, length);
    print_number(at);
    print_number(covered);
    print_end();
}
