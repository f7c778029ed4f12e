/* The driver's calls of the entries of T-02 (02): a Trigger frame's User Info read, written, and a list of them
 * searched for overlaps. Each takes bytes and gives bytes, so that one function makes the calls of all three. */
#include "driver.h"

#include <stdio.h>
#include <string.h>

#define MOST_BYTES 200      /* lent at most: 33 entries and a part of one */
#define HUGE_CODE 0xFFFFFFFF

typedef brachymel_answer library_call(uint32_t, const uint8_t *, size_t, uint8_t *, size_t);
typedef answer reference_call(uint32_t, const uint8_t *, size_t, uint8_t *, size_t);

static const struct {
    library_call *library;
    reference_call *reference;
    char letter; /* of the case that it is */
} side_of[ENTRIES] = {
    [TRIGGER_READ] = {brachymel_trigger_read, reference_trigger_read, 't'},
    [TRIGGER_WRITE] = {brachymel_trigger_write, reference_trigger_write, 'u'},
    [TRIGGER_OVERLAPS] = {brachymel_trigger_overlaps, reference_trigger_overlaps, 'o'},
};

/* Returns what the library answers; what it has written is in other.lent. */
static brachymel_answer call(chance *c, int entry, uint32_t bandwidth, const uint8_t *bytes, size_t length, size_t room)
{
    answer should;
    brachymel_answer is;
    lend(&cc1, c, bytes, length);
    lend(&other, c, NULL, room);
    should = side_of[entry].reference(bandwidth, bytes, length, expected(&other), room);
    in_call = entry_name[entry];
    is = side_of[entry].library(bandwidth, pointer(&cc1, c), length, pointer(&other, c), room);
    in_call = "no call";
    if (!compare(entry, should, is) && is_told()) {
        print_letter(side_of[entry].letter);
        print_number(bandwidth);
        print_string(bytes, length);
        print_number(room);
        print_end();
    }
    return is;
}

static const uint32_t refusals[3] = {24, 16, 17};

/* Any of so many entries as one that is refused. */
static void spoil_one(chance *c, uint32_t bandwidth, uint8_t *entries, size_t count)
{
    uint32_t number = refusals[below(c, 3)];
    spoil_entry(c, bandwidth, entries + 5 * below(c, count), number);
}

/* ---- reading and writing one */

static size_t any_room(chance *c, size_t enough)
{
    return one_in(c, 3) ? enough + (size_t)below(c, 9) : one_in(c, 3) ? (size_t)below(c, enough) : enough;
}

/* What is read is written back: the very five bytes. */
static void read_and_write(chance *c, uint32_t bandwidth, const uint8_t *entry)
{
    uint8_t record[32];
    if (call(c, TRIGGER_READ, bandwidth, entry, 5, 32).number != 0)
        return;
    memcpy(record, other.lent, 32);
    hold(call(c, TRIGGER_WRITE, bandwidth, record, 32, 5).number == 0 && memcmp(other.lent, entry, 5) == 0,
         "an entry that was read is written otherwise");
}

/* What is written is read back: the very record. */
static void write_and_read(chance *c, uint32_t bandwidth, const uint8_t *record)
{
    uint8_t entry[5];
    if (call(c, TRIGGER_WRITE, bandwidth, record, 32, 5).number != 0)
        return;
    memcpy(entry, other.lent, 5);
    hold(call(c, TRIGGER_READ, bandwidth, entry, 5, 32).number == 0 && memcmp(other.lent, record, 32) == 0,
         "a record that was written is read otherwise");
}

/* The record of an entry that is drawn. */
static void draw_record(chance *c, uint32_t bandwidth, uint8_t record[32])
{
    uint8_t entry[5];
    draw_entry(c, bandwidth, entry);
    reference_trigger_read(bandwidth, entry, 5, record, 32);
}

static void put_number(uint8_t *record, unsigned k, uint32_t number)
{
    put_field(record, 32, 32 * k, 32, number);
}

/* Every length of an entry and of a record, and every room. */
static void every_entry_length(chance *c, uint32_t bandwidth)
{
    uint8_t bytes[MOST_BYTES];
    for (size_t length = 0; length <= 12; length++)
        for (size_t room = 0; room <= 40; room++) {
            draw_entries(c, bandwidth, bytes, 3);
            call(c, TRIGGER_READ, bandwidth, bytes, length, room);
        }
    for (size_t length = 0; length <= 40; length++)
        for (size_t room = 0; room <= 40; room += bandwidth == 2 ? 1 : 1 + (size_t)below(c, 8)) {
            draw_record(c, bandwidth, bytes);
            memset(bytes + 32, one_in(c, 2) ? 0 : 0x5A, 8);
            if (one_in(c, 8))
                put_number(bytes, 0, 2007);
            call(c, TRIGGER_WRITE, bandwidth, bytes, length, room);
        }
    for (size_t room = 0; room <= 40; room++) {
        draw_record(c, bandwidth, bytes);
        call(c, TRIGGER_WRITE, bandwidth, bytes, 32, room);
    }
}

/* Codes above 2, whatever else is wrong. */
static void every_code(chance *c)
{
    static const uint32_t above[] = {3, 4, 5, 256, 0x10000, 0x80000002, HUGE_CODE};
    uint8_t bytes[MOST_BYTES] = {0};
    for (unsigned k = 0; k < sizeof above / sizeof above[0]; k++)
        for (size_t length = 0; length <= 40; length++) {
            draw_entries(c, 2, bytes, 8);
            if (one_in(c, 4))
                spoil_one(c, 2, bytes, 1);
            call(c, TRIGGER_READ, above[k], bytes, length, (size_t)below(c, 40));
            call(c, TRIGGER_OVERLAPS, above[k], bytes, length, (size_t)below(c, 40));
            draw_record(c, 2, bytes);
            call(c, TRIGGER_WRITE, above[k], bytes, length, (size_t)below(c, 40));
        }
}

/* Every value under every code, with B0 and PS160 in every way. */
static void every_value(chance *c)
{
    for (uint32_t bandwidth = 0; bandwidth <= 5; bandwidth++)
        for (unsigned value = 0; value < 128; value++)
            for (unsigned bits = 0; bits < 4; bits++) {
                uint8_t entry[5];
                put_entry(c, entry, value);
                put_field(entry, 5, 12, 1, bits & 1);
                put_field(entry, 5, 39, 1, bits >> 1);
                read_and_write(c, bandwidth, entry);
                if (one_in(c, 4))
                    put_field(entry, 5, 0, 12, 2007);
                call(c, TRIGGER_READ, bandwidth, entry, 5, any_room(c, 32));
            }
}

static void every_aid12(chance *c)
{
    for (uint32_t aid12 = 0; aid12 < 4096; aid12++) {
        uint32_t bandwidth = (uint32_t)below(c, 3);
        uint8_t entry[5];
        draw_entry(c, bandwidth, entry);
        put_field(entry, 5, 0, 12, aid12);
        if (aid12 % 8 == 7)
            read_and_write(c, bandwidth, entry);
        else
            call(c, TRIGGER_READ, bandwidth, entry, 5, 32);
    }
}

/* Each bit of an entry and of a record turned over, one by one. */
static void every_entry_bit(chance *c, uint32_t bandwidth)
{
    for (unsigned n = 0; n < 4; n++) {
        uint8_t entry[5], record[32];
        draw_entry(c, bandwidth, entry);
        for (unsigned i = 0; i < 40; i++) {
            entry[i / 8] ^= (uint8_t)(1u << i % 8);
            read_and_write(c, bandwidth, entry);
            entry[i / 8] ^= (uint8_t)(1u << i % 8);
        }
        draw_record(c, bandwidth, record);
        for (unsigned i = 0; i < 256 && n < 2; i++) {
            record[i / 8] ^= (uint8_t)(1u << i % 8);
            write_and_read(c, bandwidth, record);
            record[i / 8] ^= (uint8_t)(1u << i % 8);
        }
    }
}

/* Every size with every index, and sizes that there are not. */
static void every_resource(chance *c)
{
    static const uint32_t size[] = {26, 52, 106, 242, 484, 996, 132, 726}, no_size[] = {
        0, 1, 13, 25, 27, 51, 53, 78, 104, 105, 107, 131, 133, 158, 241, 243, 368, 483, 485, 725, 727, 968, 995, 997,
        1480, 1992, 3984, 256 + 26, 0x10000 + 52, 0x80000000 + 242, HUGE_CODE};
    uint8_t record[32];
    for (uint32_t bandwidth = 0; bandwidth <= 3; bandwidth++) {
        for (unsigned k = 0; k < sizeof size / sizeof size[0]; k++)
            for (uint32_t index = 0; index <= 40; index++) {
                draw_record(c, 2, record);
                put_number(record, 1, size[k]);
                put_number(record, 2, index);
                write_and_read(c, bandwidth, record);
            }
        for (unsigned k = 0; k < sizeof no_size / sizeof no_size[0]; k++) {
            draw_record(c, 2, record);
            put_number(record, 1, no_size[k]);
            put_number(record, 2, one_in(c, 2) ? 1 : (uint32_t)below(c, 41));
            call(c, TRIGGER_WRITE, bandwidth, record, 32, any_room(c, 5));
        }
    }
}

/* Each of the eight numbers as every power of two, and one less: the field's largest, and just past it. */
static void every_number(chance *c)
{
    for (unsigned k = 0; k < 8; k++)
        for (unsigned power = 0; power <= 32; power++)
            for (unsigned less = 0; less < 2; less++) {
                uint32_t bandwidth = (uint32_t)below(c, 3);
                uint8_t record[32];
                draw_record(c, bandwidth, record);
                put_number(record, k, (uint32_t)((UINT64_C(1) << power) - less));
                write_and_read(c, bandwidth, record);
            }
}

/* ---- lists */

/* A list of every length in bytes, whole entries or not. */
static void every_list_length(chance *c, uint32_t bandwidth)
{
    uint8_t entries[MOST_BYTES];
    for (size_t length = 0; length <= 170; length++) {
        draw_entries(c, bandwidth, entries, MOST_BYTES / 5);
        if (one_in(c, 4))
            spoil_one(c, bandwidth, entries, 34);
        call(c, TRIGGER_OVERLAPS, bandwidth, entries, length,
             one_in(c, 4) ? (size_t)below(c, 40) : BRACHYMEL_PAIRS_SIZE);
    }
}

/* Every two values that a bandwidth takes. */
static void every_pair(chance *c, uint32_t bandwidth)
{
    uint8_t value[MOST_VALUES];
    unsigned n = values_taken(bandwidth, value);
    for (unsigned i = 0; i < n; i++)
        for (unsigned j = 0; j < n; j++) {
            uint8_t entries[10];
            put_entry(c, entries, value[i]);
            put_entry(c, entries + 5, value[j]);
            call(c, TRIGGER_OVERLAPS, bandwidth, entries, 10, one_in(c, 8) ? (size_t)below(c, 3) : 2);
        }
}

/* An entry that is refused, at every place of lists of every length; then two of them, of which the first counts. */
static void every_refused(chance *c)
{
    uint8_t entries[MOST_BYTES];
    for (size_t count = 1; count <= 33; count++)
        for (size_t place = 0; place < count; place += count <= 32 ? 1 : 8)
            for (unsigned k = 0; k < 3; k++) {
                uint32_t bandwidth = (uint32_t)below(c, 3);
                draw_entries(c, bandwidth, entries, count);
                spoil_entry(c, bandwidth, entries + 5 * place, refusals[k]);
                call(c, TRIGGER_OVERLAPS, bandwidth, entries, 5 * count, one_in(c, 2) ? 0 : BRACHYMEL_PAIRS_SIZE);
            }
    for (size_t first = 0; first < 32; first++)
        for (size_t second = first + 1; second < 32; second++) {
            uint32_t bandwidth = (uint32_t)below(c, 3);
            size_t count = second + 1 + (size_t)below(c, 32 - second);
            draw_entries(c, bandwidth, entries, count);
            spoil_one(c, bandwidth, entries + 5 * first, 1);
            spoil_one(c, bandwidth, entries + 5 * second, 1);
            call(c, TRIGGER_OVERLAPS, bandwidth, entries, 5 * count, BRACHYMEL_PAIRS_SIZE);
        }
}

static size_t bytes_of_pairs(uint32_t bandwidth, const uint8_t *entries, size_t count)
{
    uint8_t pairs[BRACHYMEL_PAIRS_SIZE];
    return 2 * (size_t)reference_trigger_overlaps(bandwidth, entries, 5 * count, pairs, sizeof pairs).place;
}

/* Every room up to a few bytes, and around what the pairs need: of lists with no pairs, some, and the most, which are 460:
 * 32 entries of ten resources that all have the first 26. */
static void every_pairs_room(chance *c)
{
    uint8_t entries[MOST_BYTES];
    for (unsigned n = 0; n < 60; n++) {
        uint32_t bandwidth = n == 0 ? 2 : (uint32_t)below(c, 3);
        size_t count = n == 0 ? 32 : (size_t)below(c, n % 2 == 0 ? 33 : 8), needed;
        if (n == 0)
            draw_nested(c, bandwidth, entries, count);
        else
            draw_list(c, bandwidth, entries, count);
        needed = bytes_of_pairs(bandwidth, entries, count);
        for (size_t room = 0; room <= 4 && room + 4 < needed; room++)
            call(c, TRIGGER_OVERLAPS, bandwidth, entries, 5 * count, room);
        for (size_t room = needed < 4 ? 0 : needed - 4; room <= needed + 4; room++)
            call(c, TRIGGER_OVERLAPS, bandwidth, entries, 5 * count, room);
    }
}

/* ---- drawn */

static void any_list(chance *c)
{
    uint8_t entries[MOST_BYTES];
    uint32_t bandwidth = (uint32_t)below(c, 3);
    size_t count = (size_t)(one_in(c, 4) ? below(c, 34) : below(c, 12)), length = 5 * count;
    size_t room = BRACHYMEL_PAIRS_SIZE;
    draw_list(c, bandwidth, entries, count);
    if (count != 0 && one_in(c, 8))
        spoil_one(c, bandwidth, entries, count);
    if (length != 0 && one_in(c, 16))
        length -= (size_t)below(c, 5);
    if (one_in(c, 4))
        room = bytes_of_pairs(bandwidth, entries, count) + (size_t)below(c, 5);
    if (one_in(c, 2) && room >= 2)
        room -= 2;
    call(c, TRIGGER_OVERLAPS, one_in(c, 64) ? (uint32_t)draw(c) : bandwidth, entries, length, room);
}

/* One of a record's numbers as another, large or small. */
static void put_drawn(chance *c, uint8_t *record)
{
    unsigned k = (unsigned)below(c, 8), bits = (unsigned)below(c, 33);
    put_number(record, k, (uint32_t)(draw(c) >> 32) >> (bits == 0 ? 0 : bits - 1));
}

static void any_record(chance *c)
{
    uint8_t record[32];
    uint32_t bandwidth = (uint32_t)below(c, 3);
    draw_record(c, (uint32_t)below(c, bandwidth + 1), record);
    if (one_in(c, 3))
        put_drawn(c, record);
    if (one_in(c, 16))
        put_number(record, 0, 2007);
    if (one_in(c, 2)) {
        write_and_read(c, bandwidth, record);
    } else {
        size_t length = one_in(c, 8) ? (size_t)below(c, 32) : 32;
        bandwidth = (uint32_t)below(c, 3);
        call(c, TRIGGER_WRITE, bandwidth, record, length, any_room(c, 5));
    }
}

static void any_entry(chance *c)
{
    uint8_t entry[5];
    uint32_t bandwidth = (uint32_t)below(c, 3);
    if (one_in(c, 2))
        draw_entry(c, bandwidth, entry);
    else
        for (unsigned k = 0; k < 5; k++)
            entry[k] = draw_byte(c);
    if (one_in(c, 8))
        spoil_one(c, bandwidth, entry, 1);
    if (one_in(c, 2)) {
        read_and_write(c, bandwidth, entry);
    } else {
        bandwidth = (uint32_t)below(c, 3);
        call(c, TRIGGER_READ, bandwidth, entry, 5, any_room(c, 32));
    }
}

void every_trigger(chance *c, unsigned long drawn)
{
    for (uint32_t bandwidth = 0; bandwidth < 3; bandwidth++) {
        every_entry_length(c, bandwidth);
        every_entry_bit(c, bandwidth);
        every_list_length(c, bandwidth);
        every_pair(c, bandwidth);
    }
    every_code(c);
    every_value(c);
    every_aid12(c);
    every_resource(c);
    every_number(c);
    every_refused(c);
    every_pairs_room(c);
    for (unsigned long n = 0; n < drawn; n++)
        switch (below(c, 4)) {
        case 0: any_entry(c); break;
        case 1: any_record(c); break;
        default: any_list(c);
        }
}
