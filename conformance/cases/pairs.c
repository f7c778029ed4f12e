/* Two frames to compare (02, T-06): alike but for something, of one bandwidth, or any. */
#include "cases.h"

#include "../reference/reference.h"

#include <string.h>

void row_of_frame(const frame *f, unsigned row[16])
{
    for (unsigned p = 0; p < positions_of(f->bandwidth); p++)
        row[p] = field_of(f->cc[p % 2], MOST_LENT, subfield_at(f->bandwidth, p / 2), 9);
}

/* Where User field k stands, channel 1's first: its channel and first bit; 0 where there is none. */
static int find_field(const frame *f, unsigned k, unsigned *ch, unsigned *at)
{
    unsigned n = fields_told(f, 0);
    *ch = k < n ? 0 : 1;
    k -= k < n ? 0 : n;
    *at = user_field_at(f->bandwidth, k);
    return k < (*ch < channels_of(f->bandwidth) ? fields_told(f, *ch) : 0);
}

void make_alike(const frame *x, frame *y)
{
    unsigned from, at, to, there;
    for (unsigned ch = 0; ch < channels_of(y->bandwidth); ch++)
        put_field(y->cc[ch], MOST_LENT, 0, 17, field_of(x->cc[0], MOST_LENT, 0, 17));
    for (unsigned k = 0; find_field(x, k, &from, &at) && find_field(y, k, &to, &there); k++)
        put_field(y->cc[to], MOST_LENT, there, 22, field_of(x->cc[from], MOST_LENT, at, 22));
    mend_checks(y);
}

void draw_padding(chance *c, frame *f)
{
    for (unsigned ch = 0; ch < channels_of(f->bandwidth); ch++) {
        unsigned end = bits_told(f, ch);
        f->length[ch] = bytes_told(f, ch) + (size_t)(one_in(c, 2) ? below(c, 3) : below(c, 513 - bytes_told(f, ch)));
        for (unsigned i = end; i < 8 * f->length[ch]; i++)
            put_field(f->cc[ch], MOST_LENT, i, 1, (uint32_t)below(c, 2));
    }
}

/* Some bits of a User field; the station may then be there twice. */
static void change_field(chance *c, frame *y)
{
    unsigned ch = (unsigned)below(c, channels_of(y->bandwidth)), n = fields_told(y, ch), at;
    if (n == 0)
        return;
    at = user_field_at(y->bandwidth, (unsigned)below(c, n));
    switch (below(c, 4)) {
    case 0: put_field(y->cc[ch], MOST_LENT, at, 11, one_in(c, 2) ? 2046 : (uint32_t)below(c, 2048)); break;
    case 1: put_field(y->cc[ch], MOST_LENT, at + 11, 11, (uint32_t)below(c, 2048)); break;
    default: at += (unsigned)below(c, 22); put_field(y->cc[ch], MOST_LENT, at, 1, 1 ^ bit_of(y->cc[ch], MOST_LENT, at));
    }
}

/* Other values: in some positions, or in one segment those of another good row. */
static void change_row(chance *c, const frame *x, frame *y)
{
    unsigned row[16], other[16], positions = positions_of(x->bandwidth), first = (unsigned)below(c, positions);
    row_of_frame(x, row);
    draw_good_row(c, positions, other);
    if (one_in(c, 3))
        row[first] = other[first];
    else
        for (unsigned p = first / 4 * 4; p < positions && p < first / 4 * 4 + 4; p++)
            row[p] = other[p];
    build_frame(c, x->bandwidth, row, y);
    make_alike(x, y);
}

void draw_change(chance *c, const frame *x, frame *y)
{
    *y = *x;
    if (one_in(c, 2))
        change_row(c, x, y);
    if (one_in(c, 4))
        for (unsigned ch = 0, k = (unsigned)below(c, 17); ch < channels_of(y->bandwidth); ch++)
            put_field(y->cc[ch], MOST_LENT, k, 1, 1 ^ bit_of(y->cc[ch], MOST_LENT, k));
    for (unsigned n = (unsigned)below(c, 4); n > 0; n--)
        change_field(c, y);
    mend_checks(y);
    if (one_in(c, 2))
        draw_padding(c, y);
}

void draw_pair(chance *c, frame *x, frame *y)
{
    unsigned row[16];
    draw_good_frame(c, x);
    switch (below(c, 6)) {
    case 0:
        draw_frame(c, y);
        if (one_in(c, 2))
            draw_frame(c, x);
        break;
    case 1:
        draw_good_row(c, positions_of(x->bandwidth), row);
        build_frame(c, x->bandwidth, row, y);
        if (one_in(c, 2))
            make_alike(x, y);
        break;
    default:
        draw_change(c, x, y);
    }
    if (one_in(c, 2)) {
        frame first = *x;
        *x = *y;
        *y = first;
    }
}
