/* The EHT variant User Info of a Trigger frame (02, T-02): read, written back, and the overlaps of a list. */
#include "reference.h"

#include <string.h>

#define ENTRY_BYTES 5
#define RECORD_BYTES 32
#define MOST_ENTRIES 32 /* "a list of at most 32 such entries" */

/* "AID12 12, RU Allocation 8, coding 1, MCS 4, reserved 1, SS 6, target power 7, PS160 1": 40 bits, lowest bit
 * first, the RU Allocation here as its lowest bit B0 and the seven bits B7-B1 above it. */
enum { AID12, B0, B7_B1, CODING, MCS, RESERVED, SS, POWER, PS160, PARTS };
static const unsigned width_of[PARTS] = {12, 1, 7, 1, 4, 1, 6, 7, 1};

static unsigned first_bit_of(unsigned part)
{
    unsigned at = 0;
    for (unsigned k = 0; k < part; k++)
        at += width_of[k];
    return at;
}

static uint32_t part_of(const uint8_t *entry, unsigned part)
{
    return field_of(entry, ENTRY_BYTES, first_bit_of(part), width_of[part]);
}

/* "B7-B1: 0 to 36 are 26s (18 reserved), 37 to 52, 53 to 60, 61 to 64, 65 and 66, 67 in rising size, 82 to 86 and 89
 * are 106+26, 90 to 93 are 484+242." The index rises with the value; 18 keeps the place of the 26 that "doesn't
 * exist" (01), and 87 and 88 those of the 106+26 that 01 does not allow (50 in a third position, 48 in a fourth). */
static const struct {
    unsigned first, last;
    size_name size;
    unsigned index; /* of the first */
} named[] = {
    {0, 17, TONES_26, 1}, {19, 36, TONES_26, 20},
    {37, 52, TONES_52, 1},
    {53, 60, TONES_106, 1},
    {61, 64, TONES_242, 1},
    {65, 66, TONES_484, 1},
    {67, 67, TONES_996, 1},
    {82, 86, TONES_106_26, 1}, {89, 89, TONES_106_26, 8},
    {90, 93, TONES_484_242, 1},
};

/* Where a piece of one position lies: the position p and the place i, "the place among the nine, four or two of its
 * kind, from 1", that give its index. */
static void find_piece(record *r)
{
    unsigned kind = r->size == TONES_26 ? 9 : r->size == TONES_52 ? 4 : 2;
    for (unsigned p = 0; p < 4; p++)
        for (unsigned i = 1; i <= kind; i++) {
            piece x = {r->size, i};
            if (index_of_piece(x, p) == r->index) {
                r->position = p;
                r->piece = x;
            }
        }
}

/* The lowest position of the resource, and which of its pieces or which positions it is: "242 p+1; 484 1 or 2; 996 1;
 * 484+242 1 to 4 by the position left out" (01). */
static void find_place(record *r)
{
    switch (r->size) {
    case TONES_242:
        r->position = r->index - 1;
        r->places = 1u << r->position;
        break;
    case TONES_484:
        r->position = 2 * (r->index - 1);
        r->places = 3u << r->position;
        break;
    case TONES_996:
        r->places = 15;
        break;
    case TONES_484_242:
        r->position = r->index == 1 ? 1 : 0;
        r->places = 15 - (1u << (r->index - 1));
        break;
    default:
        find_piece(r);
    }
}

/* Whether B7-B1 name a resource, and which. */
static int resource_of(unsigned value, record *r)
{
    memset(r, 0, sizeof *r);
    for (unsigned k = 0; k < sizeof named / sizeof named[0]; k++)
        if (value >= named[k].first && value <= named[k].last) {
            r->size = named[k].size;
            r->index = named[k].index + (value - named[k].first);
            find_place(r);
            return 1;
        }
    return 0;
}

/* "A narrower bandwidth takes only what fits it": what lies in the positions that it has; "484 needs 40 MHz, 996 and
 * 484+242 need 80" (01). */
static int fits(const record *r, uint32_t bandwidth)
{
    unsigned needed = r->position + 1;
    if (r->size == TONES_484)
        needed = r->position + 2;
    if (r->size == TONES_996 || r->size == TONES_484_242)
        needed = 4;
    return needed <= positions_of(bandwidth);
}

/* Of an entry of five bytes: "24 AID12 is 2007, which has a layout of its own, 16 PS160 or B0 set, 17 a value not named
 * here or too wide, in that order". */
static uint32_t refusal_of(uint32_t bandwidth, const uint8_t *entry, record *r)
{
    if (part_of(entry, AID12) == 2007)
        return 24;
    if (part_of(entry, PS160) == 1 || part_of(entry, B0) == 1)
        return 16;
    if (!resource_of(part_of(entry, B7_B1), r) || !fits(r, bandwidth))
        return 17;
    return 0;
}

/* "A read entry gives the same resource record as a plan": its size, here as the number of its subcarriers, and its
 * index. As eight numbers of 32 bits, little-endian: AID12, size, index, coding, MCS, reserved, SS, target power. */
static void put_record(const uint8_t *entry, const record *r, uint8_t bytes[RECORD_BYTES])
{
    static const uint32_t subcarriers[] = {26, 52, 106, 242, 484, 996, 106 + 26, 484 + 242};
    uint32_t number[8] = {part_of(entry, AID12), subcarriers[r->size], r->index, part_of(entry, CODING),
                          part_of(entry, MCS), part_of(entry, RESERVED), part_of(entry, SS), part_of(entry, POWER)};
    for (unsigned k = 0; k < 8; k++)
        put_field(bytes, RECORD_BYTES, 32 * k, 32, number[k]);
}

/* "Bandwidth codes above 2 get 1 here. Refusals: 15 input not five bytes, 24 .., 16 .., 17 .., in that order after 1.
 * .. Channel and place are 0 here .. A buffer too short for a result of this or a later request gets 23 too, last, with
 * the bytes .. needed as place". */
answer reference_trigger_read(uint32_t bandwidth, const uint8_t *entry, size_t length, uint8_t *bytes, size_t room)
{
    uint32_t refused;
    record r;
    if (bandwidth > 2)
        return answer_of(1, 0, 0);
    if (length != ENTRY_BYTES)
        return answer_of(15, 0, 0);
    refused = refusal_of(bandwidth, entry, &r);
    if (refused != 0)
        return answer_of(refused, 0, 0);
    if (room < RECORD_BYTES)
        return answer_of(23, 0, RECORD_BYTES);
    put_record(entry, &r, bytes);
    return answer_of(0, 0, RECORD_BYTES);
}

/* "the writer gives the five bytes back": those that read to exactly this record, sought among all values of B7-B1. All
 * other bits of an entry that is read stand in its record, or are 0 (B0 and PS160); so if any five bytes read to it,
 * one of these does. Whether there are such. */
static int sought(uint32_t bandwidth, const uint8_t *bytes, size_t length, uint8_t entry[ENTRY_BYTES])
{
    static const unsigned part[8] = {AID12, PARTS, PARTS, CODING, MCS, RESERVED, SS, POWER}; /* PARTS: the resource */
    memset(entry, 0, ENTRY_BYTES);
    for (unsigned k = 0; k < 8; k++)
        if (part[k] != PARTS)
            put_field(entry, ENTRY_BYTES, first_bit_of(part[k]), width_of[part[k]],
                      field_of(bytes, length, 32 * k, 32));
    for (unsigned value = 0; value < 128; value++) {
        uint8_t read[RECORD_BYTES];
        put_field(entry, ENTRY_BYTES, first_bit_of(B7_B1), width_of[B7_B1], value);
        if (reference_trigger_read(bandwidth, entry, ENTRY_BYTES, read, RECORD_BYTES).number == 0
            && length == RECORD_BYTES && memcmp(read, bytes, RECORD_BYTES) == 0)
            return 1;
    }
    return 0;
}

/* "the writer gives the five bytes back, or the reader's refusal, 17 where no bytes read to it": 1, 24, 17, 23. A
 * record's first number tells its AID12 where it has one, whatever else is wrong (decision). */
answer reference_trigger_write(uint32_t bandwidth, const uint8_t *bytes, size_t length, uint8_t *entry, size_t room)
{
    uint8_t found[ENTRY_BYTES];
    if (bandwidth > 2)
        return answer_of(1, 0, 0);
    if (length >= 4 && field_of(bytes, length, 0, 32) == 2007)
        return answer_of(24, 0, 0);
    if (!sought(bandwidth, bytes, length, found))
        return answer_of(17, 0, 0);
    if (room < ENTRY_BYTES)
        return answer_of(23, 0, ENTRY_BYTES);
    memcpy(entry, found, ENTRY_BYTES);
    return answer_of(0, 0, ENTRY_BYTES);
}

/* A resource and its subcarriers under the list's bandwidth. */
typedef struct {
    record resource;
    unsigned runs;
    run run[MOST_RUNS];
} laid;

static int has_subcarrier(const laid *x, int subcarrier)
{
    for (unsigned k = 0; k < x->runs; k++)
        if (subcarrier >= x->run[k].first && subcarrier <= x->run[k].last)
            return 1;
    return 0;
}

/* "every pair that shares a subcarrier ..; entries of one and the same resource are a group and no overlap". */
static int overlap(const laid *x, const laid *y)
{
    if (x->resource.size == y->resource.size && x->resource.index == y->resource.index)
        return 0;
    for (unsigned k = 0; k < x->runs; k++)
        for (int subcarrier = x->run[k].first; subcarrier <= x->run[k].last; subcarrier++)
            if (has_subcarrier(y, subcarrier))
                return 1;
    return 0;
}

/* "every pair that shares a subcarrier is reported once, earlier entry first, pairs in rising order": two bytes a pair,
 * the entries counted from 1. How many there are. */
static size_t pairs_of(const laid *x, size_t count, uint8_t pairs[MOST_ENTRIES * (MOST_ENTRIES - 1)])
{
    size_t n = 0;
    for (size_t earlier = 0; earlier < count; earlier++)
        for (size_t later = earlier + 1; later < count; later++)
            if (overlap(&x[earlier], &x[later])) {
                pairs[2 * n] = (uint8_t)(earlier + 1);
                pairs[2 * n + 1] = (uint8_t)(later + 1);
                n++;
            }
    return n;
}

/* "For a list: 15 not whole entries, 25 over 32 of them, then the first refused entry's number with its place from 1,
 * then 26 room for fewer pairs than there are." After 1, as for one entry; "nothing written". */
answer reference_trigger_overlaps(uint32_t bandwidth, const uint8_t *entries, size_t length, uint8_t *pairs,
                                  size_t room)
{
    laid x[MOST_ENTRIES];
    uint8_t found[MOST_ENTRIES * (MOST_ENTRIES - 1)];
    size_t count = length / ENTRY_BYTES, n;
    if (bandwidth > 2)
        return answer_of(1, 0, 0);
    if (length % ENTRY_BYTES != 0)
        return answer_of(15, 0, 0);
    if (count > MOST_ENTRIES)
        return answer_of(25, 0, 0);
    for (size_t k = 0; k < count; k++) {
        uint32_t refused = refusal_of(bandwidth, entries + ENTRY_BYTES * k, &x[k].resource);
        if (refused != 0)
            return answer_of(refused, 0, k + 1);
        x[k].runs = tones_of(&x[k].resource, positions_of(bandwidth), x[k].run);
    }
    n = pairs_of(x, count, found);
    if (room / 2 < n)
        return answer_of(26, 0, 0);
    if (n != 0)
        memcpy(pairs, found, 2 * n);
    return answer_of(0, 0, n);
}
