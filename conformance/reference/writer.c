/* The writer: answers 1, 13, 14, in this order. */
#include "reference.h"

#include <string.h>

/* At most 8 subfields and 72 fields: 109 bits and 36 blocks of 54 are 2,053 bits, 257 bytes. */
#define MOST_CHANNEL 512

static unsigned subfield_of_word(const uint32_t *data, unsigned p)
{
    if (p == 0)
        return data[1] >> 13 & 0x1FF;
    return data[2 + (p - 1) / 3] >> (p - 1) % 3 * 10 & 0x1FF;
}

/* The GI+LTF whose size and GI these are; where there is none, any will do, as the words then do not
 * read back. */
static unsigned gi_ltf_of_word(uint32_t data_0)
{
    for (unsigned k = 0; k < 4; k++)
        if (size_and_gi_of(k) == (data_0 & 0x780))
            return k;
    return 0;
}

/* Puts the common field that the words tell of into one channel (0 or 1), with its checks and tails. */
static void put_common(unsigned bandwidth, const uint32_t *data, unsigned c, uint8_t *s)
{
    unsigned first = bandwidth < 2 ? 26 : 35, n = subfields_of(bandwidth);
    put_field(s, MOST_CHANNEL, 0, 4, data[0] >> 3);
    put_field(s, MOST_CHANNEL, 4, 2, gi_ltf_of_word(data[0]));
    put_field(s, MOST_CHANNEL, 6, 3, data[0] >> 11);
    put_field(s, MOST_CHANNEL, 9, 1, data[0] >> 14);
    put_field(s, MOST_CHANNEL, 10, 2, data[0] >> 15);
    put_field(s, MOST_CHANNEL, 12, 1, data[0] >> 17);
    put_field(s, MOST_CHANNEL, 13, 4, data[0] >> 18);
    for (unsigned k = 0; k < n; k++)
        put_field(s, MOST_CHANNEL, subfield_at(bandwidth, k), 9, subfield_of_word(data, 2 * k + c));
    put_field(s, MOST_CHANNEL, first, 4, check_of(s, MOST_CHANNEL, 0, first));
    if (common_bits(bandwidth) > first + 10) {
        unsigned at = first + 10, covered = common_bits(bandwidth) - 10 - at;
        put_field(s, MOST_CHANNEL, at + covered, 4, check_of(s, MOST_CHANNEL, at, covered));
    }
}

/* The 22 bits of a User field, of either format, that a word tells of. */
static void put_user_field(uint8_t *s, unsigned at, uint32_t word, int shared)
{
    put_field(s, MOST_CHANNEL, at, 11, word >> 8);
    put_field(s, MOST_CHANNEL, at + 11, 4, word >> 20);
    if (shared) {
        put_field(s, MOST_CHANNEL, at + 15, 1, word >> 19);
        put_field(s, MOST_CHANNEL, at + 16, 6, word >> 24);
    } else {
        put_field(s, MOST_CHANNEL, at + 15, 1, word >> 28);
        put_field(s, MOST_CHANNEL, at + 16, 4, word >> 24);
        put_field(s, MOST_CHANNEL, at + 20, 1, word >> 29);
        put_field(s, MOST_CHANNEL, at + 21, 1, word >> 19);
    }
}

static void put_user_blocks(unsigned bandwidth, const uint32_t *words, const layout *l, unsigned c, uint8_t *s)
{
    unsigned first_word = 10 + (c == 1 ? l->fields[0] : 0);
    for (unsigned j = 0; j < l->fields[c]; j++) {
        const record *owning = &l->record[l->owner[c][j]];
        put_user_field(s, user_field_at(bandwidth, j), words[first_word + j],
                       owning->fields[0] + owning->fields[1] >= 2);
    }
    for (unsigned j = 0; j < l->fields[c]; j += 2) {
        unsigned at = user_field_at(bandwidth, j), covered = j + 1 < l->fields[c] ? 44 : 22;
        put_field(s, MOST_CHANNEL, at + covered, 4, check_of(s, MOST_CHANNEL, at, covered));
    }
}

/* The channels that the words tell of, "padding zero", and the bytes of each: "the same number of bytes,
 * just enough for the longer". 0 where the words cannot be those of a frame: too few or too many, or of
 * a row that has no plan. */
static size_t candidate(unsigned bandwidth, const uint32_t *words, size_t count, uint8_t cc[2][MOST_CHANNEL])
{
    static layout l;
    unsigned row[MOST_POSITIONS], channels = bandwidth == 0 ? 1 : 2, longer = 0;
    memset(cc[0], 0, MOST_CHANNEL);
    memset(cc[1], 0, MOST_CHANNEL);
    if (count < 10 || count > MOST_WORDS)
        return 0;
    for (unsigned p = 0; p < positions_of(bandwidth); p++)
        row[p] = subfield_of_word(words + 1, p);
    lay_out(row, positions_of(bandwidth), &l);
    if (l.outcome.number != 0 || count != 10 + l.fields[0] + l.fields[1])
        return 0;
    for (unsigned c = 0; c < channels; c++) {
        put_common(bandwidth, words + 1, c, cc[c]);
        put_user_blocks(bandwidth, words, &l, c, cc[c]);
        if (end_of_channel(bandwidth, l.fields[c]) > longer)
            longer = end_of_channel(bandwidth, l.fields[c]);
    }
    return (longer + 7) / 8;
}

/* 13: "writer: no accepted channels read to exactly these words". Everything in accepted channels, up to
 * the end of their last blocks, is in the words or follows from it; so if any read to these words, the
 * candidate does. */
static int reads_back(unsigned bandwidth, const uint32_t *words, size_t count, uint8_t cc[2][MOST_CHANNEL], size_t bytes)
{
    static reading r;
    if (bytes == 0)
        return 0;
    if (read_frame(bandwidth, cc[0], bytes, cc[1], bandwidth == 0 ? 0 : bytes, &r).number != 0)
        return 0;
    return r.words == count && memcmp(r.word, words, count * sizeof *words) == 0;
}

/* "The writer's order is 1, 13, 14; accepted, it returns 0, 0 and the bytes per channel. It fills both
 * channels ..; at 20 MHz it neither measures nor touches channel 2. Bytes past the count keep what they
 * held." 14: "writer: a channel buffer is too short | channel, bytes needed". */
answer reference_write(uint32_t bandwidth, const uint32_t *words, size_t count, uint8_t *cc1, size_t cc1_room,
                       uint8_t *cc2, size_t cc2_room)
{
    uint8_t cc[2][MOST_CHANNEL];
    size_t bytes;
    if (bandwidth > 4)
        return answer_of(1, 0, 0);
    bytes = candidate(bandwidth, words, count, cc);
    if (!reads_back(bandwidth, words, count, cc, bytes))
        return answer_of(13, 0, 0);
    if (cc1_room < bytes)
        return answer_of(14, 1, bytes);
    if (bandwidth != 0 && cc2_room < bytes)
        return answer_of(14, 2, bytes);
    memcpy(cc1, cc[0], bytes);
    if (bandwidth != 0)
        memcpy(cc2, cc[1], bytes);
    return answer_of(0, 0, bytes);
}

/* "words then being little-endian .. a word text not divisible by four gives the writer's 13." */
answer reference_write_bytes(uint32_t bandwidth, const uint8_t *words, size_t length, uint8_t *cc1,
                             size_t cc1_room, uint8_t *cc2, size_t cc2_room)
{
    uint32_t word[MOST_WORDS + 1];
    size_t count = length / 4 < MOST_WORDS + 1 ? length / 4 : MOST_WORDS + 1; /* one too many is as good as any */
    if (bandwidth > 4)
        return answer_of(1, 0, 0);
    if (length % 4 != 0)
        return answer_of(13, 0, 0);
    for (size_t k = 0; k < count; k++)
        word[k] = field_of(words, length, 32 * (uint64_t)k, 32);
    return reference_write(bandwidth, word, count, cc1, cc1_room, cc2, cc2_room);
}
