/* Frames: built forward from a row, and damaged. */
#include "cases.h"

#include "../reference/reference.h"

#include <string.h>

/* The User fields that a channel's own values tell of, whatever their layout. */
unsigned fields_told(const frame *f, unsigned ch)
{
    unsigned n = 0;
    for (unsigned k = 0; k < subfields_of(f->bandwidth); k++)
        n += fields_of(field_of(f->cc[ch], MOST_LENT, subfield_at(f->bandwidth, k), 9));
    return n > MOST_FIELDS / 2 ? MOST_FIELDS / 2 : n;
}

unsigned bits_told(const frame *f, unsigned ch)
{
    return end_of_channel(f->bandwidth, fields_told(f, ch));
}

/* The bytes that hold a channel up to its padding. */
size_t bytes_told(const frame *f, unsigned ch)
{
    return (bits_told(f, ch) + 7) / 8;
}

static void mend_block(uint8_t *s, unsigned at, unsigned covered)
{
    put_field(s, MOST_LENT, at + covered, 4, check_of(s, MOST_LENT, at, covered));
    put_field(s, MOST_LENT, at + covered + 4, 6, 0);
}

static void mend_common(frame *f, unsigned ch)
{
    unsigned first = f->bandwidth < 2 ? 26 : 35, common = common_bits(f->bandwidth);
    mend_block(f->cc[ch], 0, first);
    if (common > first + 10)
        mend_block(f->cc[ch], first + 10, common - 10 - (first + 10));
}

/* Sets every check and tail to what it should be. */
void mend_checks(frame *f)
{
    for (unsigned ch = 0; ch < channels_of(f->bandwidth); ch++) {
        unsigned n = fields_told(f, ch);
        mend_common(f, ch);
        for (unsigned j = 0; j < n; j += 2)
            mend_block(f->cc[ch], user_field_at(f->bandwidth, j), j + 1 < n ? 44 : 22);
    }
}

/* This STA-ID in every User field of some channels: bit 0 is channel 1, bit 1 channel 2. */
void put_stations(frame *f, unsigned channels, uint32_t id)
{
    for (unsigned ch = 0; ch < channels_of(f->bandwidth); ch++) {
        unsigned n = fields_told(f, ch);
        for (unsigned j = 0; j < n && (channels >> ch & 1) != 0; j++)
            put_field(f->cc[ch], MOST_LENT, user_field_at(f->bandwidth, j), 11, id);
    }
    mend_checks(f);
}

/* Of one frame in six nobody has (02, T-01: STA-ID 2046) the fields of channel 1, of channel 2 or of both, or about half of
 * them. Drawn apart, so that all else of a frame, and the next one, is what it would be. */
static void unassign(const chance *c, frame *f)
{
    chance own = chance_from(c->state, 'u');
    unsigned channels = (unsigned)below(&own, 4);
    if (!one_in(&own, 6))
        return;
    if (channels != 0) {
        put_stations(f, channels, 2046);
        return;
    }
    for (unsigned ch = 0; ch < channels_of(f->bandwidth); ch++) {
        unsigned n = fields_told(f, ch);
        for (unsigned j = 0; j < n; j++)
            if (one_in(&own, 2))
                put_field(f->cc[ch], MOST_LENT, user_field_at(f->bandwidth, j), 11, 2046);
    }
    mend_checks(f);
}

/* A STA-ID that has not been drawn for this frame, or one of those that may repeat. */
static uint32_t draw_station(chance *c, uint8_t used[2048])
{
    uint32_t id = (uint32_t)below(c, 2048);
    if (one_in(c, 8))
        return one_in(c, 2) ? 0 : 2007 + (uint32_t)below(c, 41);
    if (one_in(c, 16))
        id = one_in(c, 2) ? 1 : 2006;
    while (used[id] && id >= 1 && id <= 2006)
        id = id % 2006 + 1;
    used[id] = 1;
    return id;
}

/* A frame of this row: random padding, overflow and User fields, checks right. */
void build_frame(chance *c, unsigned bandwidth, const unsigned *row, frame *f)
{
    uint8_t used[2048] = {0};
    unsigned ltf = (unsigned)below(c, 5);
    uint32_t overflow = (uint32_t)below(c, 1u << 17);
    f->bandwidth = bandwidth;
    f->fields = 0;
    for (unsigned ch = 0; ch < 2; ch++)
        for (size_t k = 0; k < MOST_LENT; k++)
            f->cc[ch][k] = draw_byte(c);
    for (unsigned ch = 0; ch < channels_of(bandwidth); ch++) {
        unsigned n;
        put_field(f->cc[ch], MOST_LENT, 0, 17, overflow);
        put_field(f->cc[ch], MOST_LENT, 6, 3, ltf);
        for (unsigned k = 0; k < subfields_of(bandwidth); k++)
            put_field(f->cc[ch], MOST_LENT, subfield_at(bandwidth, k), 9, row[2 * k + ch]);
        n = fields_told(f, ch);
        for (unsigned j = 0; j < n; j++)
            put_field(f->cc[ch], MOST_LENT, user_field_at(bandwidth, j), 11, draw_station(c, used));
        f->fields += n;
        f->length[ch] = bytes_told(f, ch);
        if (one_in(c, 3))
            f->length[ch] += (size_t)below(c, 513 - f->length[ch]);
        else if (one_in(c, 3))
            f->length[ch] += (size_t)below(c, 3);
    }
    if (bandwidth == 0)
        f->length[1] = 0;
    mend_checks(f);
}

static unsigned draw_bandwidth(chance *c)
{
    return (unsigned)below(c, 5);
}

void draw_good_frame(chance *c, frame *f)
{
    unsigned row[16], bandwidth = draw_bandwidth(c);
    draw_good_row(c, positions_of(bandwidth), row);
    build_frame(c, bandwidth, row, f);
    unassign(c, f);
}

static void flip(frame *f, unsigned ch, uint64_t i)
{
    f->cc[ch][i / 8] ^= (uint8_t)(1u << (i % 8));
}

/* One fault, of a kind that one of the answers 1 to 11 is for. */
static void damage_frame(chance *c, frame *f)
{
    unsigned bandwidth = f->bandwidth, ch = (unsigned)below(c, channels_of(bandwidth));
    unsigned common = common_bits(bandwidth), n = fields_told(f, ch), end = end_of_channel(bandwidth, n);
    unsigned k = (unsigned)below(c, subfields_of(bandwidth));
    switch (below(c, 12)) {
    case 0: /* 2: too long, or channel 2 at 20 MHz */
        f->length[one_in(c, 2)] = 513 + (size_t)below(c, MOST_LENT - 513);
        break;
    case 1:
        f->length[1] = bandwidth == 0 ? 1 + (size_t)below(c, 40) : f->length[1] / 2;
        break;
    case 2: /* 3: cut short in the common field */
        f->length[ch] = (size_t)below(c, common / 8 + 1);
        break;
    case 3: /* 4: one bit of the common field */
        flip(f, ch, below(c, common));
        break;
    case 4: /* 5: LTF symbols */
        put_field(f->cc[ch], MOST_LENT, 6, 3, 5 + (uint32_t)below(c, 3));
        mend_common(f, ch);
        break;
    case 5: /* 5: one bit of the overflow */
        flip(f, ch, below(c, 17));
        mend_common(f, ch);
        break;
    case 6: /* 6, or else 7 or 8 */
        put_field(f->cc[ch], MOST_LENT, subfield_at(bandwidth, k), 9, (uint32_t)below(c, one_in(c, 2) ? 128 : 512));
        mend_common(f, ch);
        break;
    case 7: /* 9: cut short in the User blocks, or by a byte */
        f->length[ch] = one_in(c, 2) ? (size_t)(end - 1) / 8 : (common + 7) / 8 + (size_t)below(c, (end - common) / 8 + 1);
        break;
    case 8: /* 10: one bit of the User blocks, or of the padding */
        if (n != 0)
            flip(f, ch, common + below(c, end - common + 4));
        break;
    case 9: /* 10: one bit of a check or a tail */
        if (n != 0)
            flip(f, ch, end - 10 - (n > 2 && one_in(c, 2) ? (n % 2 == 1 ? 32 : 54) : 0) + below(c, 10));
        break;
    case 10: /* 11: a station again */
        if (n != 0) {
            unsigned from = (unsigned)below(c, channels_of(bandwidth)), m = fields_told(f, from);
            uint32_t id = m == 0 ? 1 : field_of(f->cc[from], MOST_LENT, user_field_at(bandwidth, (unsigned)below(c, m)), 11);
            put_field(f->cc[ch], MOST_LENT, user_field_at(bandwidth, (unsigned)below(c, n)), 11, id);
            mend_checks(f);
        }
        break;
    default: /* 1 */
        f->bandwidth = one_in(c, 3) ? (uint32_t)draw(c) : one_in(c, 2) ? 5 + (uint32_t)below(c, 10) : (uint32_t)below(c, 5);
    }
}

static void draw_random_frame(chance *c, frame *f)
{
    f->bandwidth = draw_bandwidth(c);
    for (unsigned ch = 0; ch < 2; ch++) {
        f->length[ch] = (size_t)below(c, one_in(c, 4) ? MOST_LENT : 60);
        for (size_t k = 0; k < MOST_LENT; k++)
            f->cc[ch][k] = draw_byte(c);
    }
    if (f->bandwidth == 0 && !one_in(c, 4))
        f->length[1] = 0;
    f->fields = 0;
}

void draw_frame(chance *c, frame *f)
{
    unsigned row[16], bandwidth = draw_bandwidth(c);
    if (one_in(c, 25)) {
        draw_random_frame(c, f);
        return;
    }
    draw_row(c, positions_of(bandwidth), row);
    build_frame(c, bandwidth, row, f);
    unassign(c, f);
    if (one_in(c, 2))
        damage_frame(c, f);
    if (one_in(c, 12) && f->bandwidth <= 4)
        damage_frame(c, f);
}

/* Room for words: just enough, one too few, none, or plenty. */
size_t draw_words_room(chance *c, const frame *f)
{
    size_t needed = 10 + f->fields;
    switch (below(c, 8)) {
    case 0: return needed - 1;
    case 1: return (size_t)below(c, needed);
    case 2: return needed + 1;
    case 3: return 154;
    case 4: return one_in(c, 4) ? 0 : 156 + (size_t)below(c, 40);
    default: return needed;
    }
}
