/* The reader: answers 1 to 12, and the words. */
#include "reference.h"

#include <string.h>

/* "Overflow, 17 bits: Spatial Reuse 4, GI+LTF 2, LTF symbols 3, LDPC extra 1, Pre-FEC 2, PE Disambiguity
 * 1, Disregard 4." */
enum { SPATIAL_REUSE = 0, GI_LTF = 4, LTF_SYMBOLS = 6, LDPC_EXTRA = 9, PRE_FEC = 10, PE_DISAMBIGUITY = 12,
       DISREGARD = 13, OVERFLOW_BITS = 17 };

/* "At 20 MHz channel 2 is lent empty and only 2 looks at it." */
unsigned channels_of(unsigned bandwidth)
{
    return bandwidth == 0 ? 1 : 2;
}

/* "First RU Allocation subfields, 9 bits each: one at 20 and 40 MHz, two from 80 up." */
unsigned first_subfields(unsigned bandwidth)
{
    return bandwidth < 2 ? 1 : 2;
}

/* "At 160 two more subfields, at 320 six more, then check 4, tail 6." */
unsigned further_subfields(unsigned bandwidth)
{
    return bandwidth == 3 ? 2 : bandwidth == 4 ? 6 : 0;
}

unsigned subfields_of(unsigned bandwidth)
{
    return first_subfields(bandwidth) + further_subfields(bandwidth);
}

/* Where the first check stands, and where the second does. */
unsigned first_check_at(unsigned bandwidth)
{
    return OVERFLOW_BITS + 9 * first_subfields(bandwidth);
}

unsigned second_check_at(unsigned bandwidth)
{
    return first_check_at(bandwidth) + 10 + 9 * further_subfields(bandwidth);
}

/* The first bit of a channel's subfield k, from 0. */
unsigned subfield_at(unsigned bandwidth, unsigned k)
{
    if (k < first_subfields(bandwidth))
        return OVERFLOW_BITS + 9 * k;
    return first_check_at(bandwidth) + 10 + 9 * (k - first_subfields(bandwidth));
}

/* "A common field is thus 36, 36, 45, 73 or 109 bits." */
unsigned common_bits(unsigned bandwidth)
{
    if (further_subfields(bandwidth) == 0)
        return first_check_at(bandwidth) + 10;
    return second_check_at(bandwidth) + 10;
}

/* "User blocks of two fields of 22 bits, check 4, tail 6; the last block may have one." The first bit of
 * a channel's User field j, from 0. */
unsigned user_field_at(unsigned bandwidth, unsigned j)
{
    return common_bits(bandwidth) + j / 2 * 54 + j % 2 * 22;
}

/* "No fields, no block. What follows is padding, not looked at." The first bit of it. */
unsigned end_of_channel(unsigned bandwidth, unsigned fields)
{
    if (fields == 0)
        return common_bits(bandwidth);
    return user_field_at(bandwidth, fields - 1) + 22 + 10;
}

typedef struct {
    const uint8_t *bytes;
    size_t length;
} channel;

/* 2: "a channel over 512 bytes, or channel 2 not empty at 20 MHz | that channel, 0". */
static answer check_2(unsigned bandwidth, const channel *ch)
{
    if (ch[0].length > 512)
        return answer_of(2, 1, 0);
    if (ch[1].length > 512 || (bandwidth == 0 && ch[1].length != 0))
        return answer_of(2, 2, 0);
    return answer_of(0, 0, 0);
}

/* 3: "common field cut short", with 02's place (T-03): "the first bit of the field that didn't fit". */
static answer check_3(unsigned bandwidth, const channel *ch)
{
    for (unsigned c = 0; c < channels_of(bandwidth); c++)
        if (bits_lacking(ch[c].bytes, ch[c].length, 0, common_bits(bandwidth)) != 0)
            return answer_of(3, c + 1, first_that_lacks(bandwidth, 0, ch[c].bytes, ch[c].length));
    return answer_of(0, 0, 0);
}

/* 4: "common check or tail wrong | channel, first check bit". */
static answer check_4(unsigned bandwidth, const channel *ch)
{
    unsigned first = first_check_at(bandwidth), second = second_check_at(bandwidth);
    for (unsigned c = 0; c < channels_of(bandwidth); c++) {
        if (!block_is_right(ch[c].bytes, ch[c].length, 0, first))
            return answer_of(4, c + 1, first);
        if (further_subfields(bandwidth) != 0
            && !block_is_right(ch[c].bytes, ch[c].length, first + 10, second - (first + 10)))
            return answer_of(4, c + 1, second);
    }
    return answer_of(0, 0, 0);
}

/* 5: "channel 1's LTF symbols 5 to 7, else overflow differs | 1, 6; else 2, lowest differing bit". At 20
 * MHz there is no second overflow (decision). */
static answer check_5(unsigned bandwidth, const channel *ch)
{
    if (field_of(ch[0].bytes, ch[0].length, LTF_SYMBOLS, 3) >= 5)
        return answer_of(5, 1, LTF_SYMBOLS);
    if (channels_of(bandwidth) == 2) {
        uint64_t k = first_difference(ch[0].bytes, ch[0].length, ch[1].bytes, ch[1].length, 0, OVERFLOW_BITS);
        if (k < OVERFLOW_BITS)
            return answer_of(5, 2, k);
    }
    return answer_of(0, 0, 0);
}

/* 6: "value not carried | channel, its first bit". */
static answer check_6(unsigned bandwidth, const channel *ch)
{
    for (unsigned c = 0; c < channels_of(bandwidth); c++)
        for (unsigned k = 0; k < subfields_of(bandwidth); k++)
            if (!value_is_carried(field_of(ch[c].bytes, ch[c].length, subfield_at(bandwidth, k), 9)))
                return answer_of(6, c + 1, subfield_at(bandwidth, k));
    return answer_of(0, 0, 0);
}

/* 9: "User blocks cut short", with 02's place (T-03): "the first bit of the field that didn't fit". */
static answer check_9(unsigned bandwidth, const channel *ch, const layout *l)
{
    for (unsigned c = 0; c < channels_of(bandwidth); c++)
        if (bits_lacking(ch[c].bytes, ch[c].length, 0, end_of_channel(bandwidth, l->fields[c])) != 0)
            return answer_of(9, c + 1, first_that_lacks(bandwidth, l->fields[c], ch[c].bytes, ch[c].length));
    return answer_of(0, 0, 0);
}

/* 10: "User check or tail wrong | channel, first check bit". */
static answer check_10(unsigned bandwidth, const channel *ch, const layout *l)
{
    for (unsigned c = 0; c < channels_of(bandwidth); c++)
        for (unsigned j = 0; j < l->fields[c]; j += 2) {
            unsigned at = user_field_at(bandwidth, j), covered = j + 1 < l->fields[c] ? 44 : 22;
            if (!block_is_right(ch[c].bytes, ch[c].length, at, covered))
                return answer_of(10, c + 1, at + covered);
        }
    return answer_of(0, 0, 0);
}

/* 11: "a STA-ID from 1 to 2006 seen before (channel 1 then 2) | channel, first bit of the later field". */
static answer check_11(unsigned bandwidth, const layout *l, uint32_t station[2][MOST_FIELDS])
{
    uint32_t seen[MOST_FIELDS];
    unsigned n = 0;
    for (unsigned c = 0; c < 2; c++)
        for (unsigned j = 0; j < l->fields[c]; j++) {
            uint32_t id = station[c][j];
            for (unsigned k = 0; k < n; k++)
                if (seen[k] == id && id >= 1 && id <= 2006)
                    return answer_of(11, c + 1, user_field_at(bandwidth, j));
            seen[n++] = id;
        }
    return answer_of(0, 0, 0);
}

/* "GI+LTF 0, 1, 2, 3 gives LTF size 2, 2, 3, 3 and GI 0, 1, 0, 2." Both, as data[0] holds them. */
uint32_t size_and_gi_of(unsigned gi_ltf)
{
    static const uint32_t size[4] = {2, 2, 3, 3}, gi[4] = {0, 1, 0, 2};
    return size[gi_ltf] << 9 | gi[gi_ltf] << 7;
}

/* 002, data[0]: "0x78 Spatial Reuse, 0x180 GI, 0x600 LTF symbol size, 0x3800 number of LTF symbols, 0x4000
 * LDPC extra symbol segment, 0x18000 Pre-FEC padding factor, 0x20000 PE Disambiguity, 0x3c0000 Disregard,
 * 0x3c00000 CRC1, 0xfc000000 Tail1". "Checks are channel 1's, first sent bit lowest." */
static uint32_t data_0(unsigned bandwidth, const channel *ch)
{
    const uint8_t *s = ch[0].bytes;
    size_t n = ch[0].length;
    return field_of(s, n, SPATIAL_REUSE, 4) << 3 | size_and_gi_of(field_of(s, n, GI_LTF, 2))
        | field_of(s, n, LTF_SYMBOLS, 3) << 11 | field_of(s, n, LDPC_EXTRA, 1) << 14
        | field_of(s, n, PRE_FEC, 2) << 15 | field_of(s, n, PE_DISAMBIGUITY, 1) << 17
        | field_of(s, n, DISREGARD, 4) << 18 | field_of(s, n, first_check_at(bandwidth), 4) << 22
        | field_of(s, n, first_check_at(bandwidth) + 4, 6) << 26;
}

/* 002: RU Allocation 1 is 0x3fe000 of data[1], known by 0x400000; 2 to 16 follow, three to a word, in
 * data[2] to data[6] as 0x1ff, 0x7fc00, 0x1ff00000, known by 0x200, 0x80000, 0x20000000. Their order,
 * channel 1's and channel 2's in turn, is that of the positions. */
static void put_row(uint32_t *data, const unsigned *row, unsigned positions)
{
    data[1] |= (uint32_t)row[0] << 13 | 0x400000;
    for (unsigned p = 1; p < positions; p++)
        data[2 + (p - 1) / 3] |= ((uint32_t)row[p] | 0x200) << (p - 1) % 3 * 10;
}

/* 002, data[7]: "0xf CRC2, 0x3f0 Tail2". */
static uint32_t data_7(unsigned bandwidth, const channel *ch)
{
    unsigned at = second_check_at(bandwidth);
    if (further_subfields(bandwidth) == 0)
        return 0;
    return field_of(ch[0].bytes, ch[0].length, at, 4) | field_of(ch[0].bytes, ch[0].length, at + 4, 6) << 4;
}

/* "A User field alone on its resource: STA-ID 11, MCS 4, reserved 1, NSS 4, beamformed 1, coding 1."
 * "User words: known bits 0x3F". 002: "0x7ff00 STA-ID, 0x80000 Coding, 0xf00000 MCS, 0xf000000 NSS,
 * 0x10000000 Reserved, 0x20000000 Beamforming". */
static uint32_t alone_word(const uint8_t *s, size_t n, unsigned at)
{
    return 0x3F | field_of(s, n, at, 11) << 8 | field_of(s, n, at + 11, 4) << 20
        | field_of(s, n, at + 15, 1) << 28 | field_of(s, n, at + 16, 4) << 24
        | field_of(s, n, at + 20, 1) << 29 | field_of(s, n, at + 21, 1) << 19;
}

/* "Where the resource has two or more fields over both channels together: STA-ID 11, MCS 4, coding 1,
 * spatial configuration 6." ".. or 0x47 on a shared resource". 002: "0x3f000000 Spatial Configuration". */
static uint32_t shared_word(const uint8_t *s, size_t n, unsigned at)
{
    return 0x47 | field_of(s, n, at, 11) << 8 | field_of(s, n, at + 11, 4) << 20
        | field_of(s, n, at + 15, 1) << 19 | field_of(s, n, at + 16, 6) << 24;
}

/* "Words, lent as 32-bit numbers: known, nine data words, one per User field, channel 1 first. Known is
 * 0x61F6, or 0x1E1F6 at 160 and 320. .. All else as 002, unset bits 0." */
static void put_words(unsigned bandwidth, const channel *ch, const unsigned *row, reading *r)
{
    const layout *l = &r->layout;
    memset(r->word, 0, sizeof r->word);
    r->word[0] = bandwidth >= 3 ? 0x1E1F6 : 0x61F6;
    r->word[1] = data_0(bandwidth, ch);
    put_row(r->word + 1, row, positions_of(bandwidth));
    r->word[8] = data_7(bandwidth, ch);
    r->words = 10;
    for (unsigned c = 0; c < 2; c++)
        for (unsigned j = 0; j < l->fields[c]; j++) {
            const record *owning = &l->record[l->owner[c][j]];
            unsigned at = user_field_at(bandwidth, j);
            int shared = owning->fields[0] + owning->fields[1] >= 2;
            r->word[r->words++] = shared ? shared_word(ch[c].bytes, ch[c].length, at)
                                         : alone_word(ch[c].bytes, ch[c].length, at);
        }
}

/* The values by rising position: "Content channel 1 holds the even positions, channel 2 the odd ones." */
static void row_of(unsigned bandwidth, const channel *ch, unsigned row[MOST_POSITIONS])
{
    for (unsigned p = 0; p < positions_of(bandwidth); p++) {
        const channel *c = &ch[p % 2];
        row[p] = field_of(c->bytes, c->length, subfield_at(bandwidth, p / 2), 9);
    }
}

/* "Checks run in number order .. inside one, channel 1 first, lowest bit first." Answers 1 to 11, and on 0
 * what the channels say. */
answer read_frame(uint32_t bandwidth, const uint8_t *cc1, size_t cc1_length, const uint8_t *cc2,
                  size_t cc2_length, reading *r)
{
    const channel ch[2] = {{cc1, cc1_length}, {cc2, cc2_length}};
    unsigned row[MOST_POSITIONS];
    answer a;
    memset(r, 0, sizeof *r);
    if (bandwidth > 4) /* 1: "bandwidth code above 4 | 0, 0" */
        return answer_of(1, 0, 0);
    if ((a = check_2(bandwidth, ch)).number != 0)
        return a;
    if ((a = check_3(bandwidth, ch)).number != 0)
        return a;
    if ((a = check_4(bandwidth, ch)).number != 0)
        return a;
    if ((a = check_5(bandwidth, ch)).number != 0)
        return a;
    if ((a = check_6(bandwidth, ch)).number != 0)
        return a;
    row_of(bandwidth, ch, row);
    lay_out(row, positions_of(bandwidth), &r->layout);
    if (r->layout.outcome.number != 0) /* 7 and 8 */
        return r->layout.outcome;
    if ((a = check_9(bandwidth, ch, &r->layout)).number != 0)
        return a;
    if ((a = check_10(bandwidth, ch, &r->layout)).number != 0)
        return a;
    for (unsigned c = 0; c < 2; c++)
        for (unsigned j = 0; j < r->layout.fields[c]; j++)
            r->station[c][j] = field_of(ch[c].bytes, ch[c].length, user_field_at(bandwidth, j), 11);
    if ((a = check_11(bandwidth, &r->layout, r->station)).number != 0)
        return a;
    put_words(bandwidth, ch, row, r);
    return answer_of(0, 0, r->words);
}

/* 12: "fewer words lent than 10 plus fields | 0, words needed". "Words past the count keep what they
 * held." */
answer reference_read(uint32_t bandwidth, const uint8_t *cc1, size_t cc1_length, const uint8_t *cc2,
                      size_t cc2_length, uint32_t *words, size_t room)
{
    static reading r;
    answer a = read_frame(bandwidth, cc1, cc1_length, cc2, cc2_length, &r);
    if (a.number != 0)
        return a;
    if (room < r.words)
        return answer_of(12, 0, r.words);
    for (unsigned k = 0; k < r.words; k++)
        words[k] = r.word[k];
    return a;
}

/* "words then being little-endian. For the reader's room only whole words count". */
answer reference_read_bytes(uint32_t bandwidth, const uint8_t *cc1, size_t cc1_length, const uint8_t *cc2,
                            size_t cc2_length, uint8_t *words, size_t length)
{
    uint32_t word[MOST_WORDS];
    size_t room = length / 4 < MOST_WORDS ? length / 4 : MOST_WORDS; /* no frame needs more */
    answer a = reference_read(bandwidth, cc1, cc1_length, cc2, cc2_length, word, room);
    for (uint64_t k = 0; a.number == 0 && k < a.place; k++)
        put_field(words, length, 32 * k, 32, word[k]);
    return a;
}
