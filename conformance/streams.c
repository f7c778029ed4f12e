/* The driver's calls of the entries of T-11 (02): rows of streams by their numbers and back, and the streams of a frame.
 *
 * Beside the reference, three things are held of the library alone: a row that it gives has the number that was asked for, and a
 * number that it gives the row; both are as 000 prints them; and a frame's streams are what its words, its listing and the rows
 * say together. */
#include "driver.h"

#include <stdio.h>
#include <stdlib.h>
#include <string.h>

#define MOST_USERS 8
#define MOST_ROW 300 /* bytes lent at most as a row */

/* ---- rows */

/* Returns what the library answers; the row that it has written is in other.lent. */
static brachymel_answer call_row(chance *c, uint32_t users, uint32_t number, size_t room)
{
    answer should;
    brachymel_answer is;
    lend(&other, c, NULL, room);
    should = reference_streams_row(users, number, expected(&other), room);
    in_call = entry_name[STREAMS_ROW];
    is = brachymel_streams_row(users, number, pointer(&other, c), room);
    in_call = "no call";
    if (!compare(STREAMS_ROW, should, is) && is_told()) {
        print_letter('n');
        print_number(users);
        print_number(number);
        print_number(room);
        print_end();
    }
    return is;
}

static brachymel_answer call_number(chance *c, const uint8_t *row, size_t length)
{
    brachymel_answer is;
    lend(&cc1, c, row, length);
    in_call = entry_name[STREAMS_NUMBER];
    is = brachymel_streams_number(pointer(&cc1, c), length);
    in_call = "no call";
    if (!compare(STREAMS_NUMBER, reference_streams_number(row, length), is) && is_told()) {
        print_letter('i');
        print_string(row, length);
        print_end();
    }
    return is;
}

/* Every number of users and some that no byte holds, every number of a row and past the last one, every room. */
static void every_number(chance *c)
{
    static const uint32_t huge[] = {128, 256, 256 + 2, 256 + 5, 0x10000, 0x10000 + 8, 0x80000002, 0xFFFFFFFE, 0xFFFFFFFF};
    const unsigned some = sizeof huge / sizeof huge[0];
    for (unsigned u = 0; u <= 12 + some; u++)
        for (unsigned n = 0; n <= 70 + some; n++)
            for (size_t room = 0; room <= 10; room++)
                call_row(c, u <= 12 ? u : huge[u - 13], n <= 70 ? n : huge[n - 71], room);
}

/* A row that is given has the number that was asked for. */
static void number_and_back(chance *c)
{
    for (uint32_t users = 2; users <= MOST_USERS; users++)
        for (uint32_t number = 0; number < 64; number++) {
            uint8_t row[MOST_USERS];
            brachymel_answer a;
            if (call_row(c, users, number, MOST_USERS).number != 0)
                continue;
            memcpy(row, other.lent, users);
            a = call_number(c, row, users);
            hold(a.number == 0 && a.place == number, "a row of streams that was given has another number");
        }
}

/* A row's number has this row. */
static void row_and_back(chance *c, const uint8_t *row, size_t length)
{
    brachymel_answer a = call_number(c, row, length);
    if (a.number != 0)
        return;
    hold(a.place < 64 && call_row(c, (uint32_t)length, (uint32_t)a.place, length).number == 0
             && memcmp(other.lent, row, length) == 0,
         "the number of a row of streams has another row");
}

/* Every row of so many entries, each from `first` on, one of so many values. */
static void every_row(chance *c, size_t length, uint8_t first, unsigned values)
{
    unsigned long all = 1;
    for (size_t u = 0; u < length; u++)
        all *= values;
    for (unsigned long k = 0; k < all; k++) {
        uint8_t row[MOST_USERS];
        unsigned long rest = k;
        for (size_t u = 0; u < length; u++, rest /= values)
            row[u] = (uint8_t)(first + rest % values);
        row_and_back(c, row, length);
    }
}

/* Mostly falling, now and then with a rise, an entry out of 1 to 4, or a sum just about 16. */
static void any_row(chance *c)
{
    uint8_t row[MOST_USERS + 1];
    size_t length = 6 + (size_t)below(c, 4);
    unsigned entry = 2 + (unsigned)below(c, 3);
    for (size_t u = 0; u < length; u++) {
        row[u] = (uint8_t)entry;
        if (entry > 1 && one_in(c, 3))
            entry--;
    }
    if (one_in(c, 6))
        row[below(c, length)] = (uint8_t)(one_in(c, 2) ? 1 + below(c, 4) : draw(c));
    row_and_back(c, row, length);
}

/* Every row that there is with each of its entries as another; with an entry more, and with one less. */
static void every_changed_row(chance *c, const printed_row *p)
{
    static const uint8_t instead[] = {0, 1, 2, 3, 4, 5, 128 + 1, 255};
    uint8_t row[MOST_USERS + 1];
    memcpy(row, p->row, MOST_USERS);
    row[p->users] = row[p->users - 1];
    row_and_back(c, row, p->users + 1);
    row_and_back(c, row, p->users - 1);
    for (unsigned u = 0; u < p->users; u++) {
        for (unsigned k = 0; k < sizeof instead; k++) {
            row[u] = instead[k];
            row_and_back(c, row, p->users);
        }
        row[u] = p->row[u];
    }
}

/* "every row of 000's printed table" by the library alone, and changed. */
static void every_printed_row(chance *c)
{
    static printed_row printed[PRINTED_ROWS];
    unsigned n = printed_rows(printed);
    for (unsigned k = 0; k < n; k++) {
        const printed_row *p = &printed[k];
        brachymel_answer a = call_row(c, p->users, p->number, p->users);
        hold(a.number == 0 && a.place == p->users && memcmp(other.lent, p->row, p->users) == 0, "a row is not as 000 prints it");
        a = call_number(c, p->row, p->users);
        hold(a.number == 0 && a.place == p->number, "a row's number is not as 000 prints it");
        every_changed_row(c, p);
    }
}

/* Rows that are far too long, as long as a byte cannot tell. */
static void long_rows(chance *c)
{
    uint8_t row[MOST_ROW];
    for (size_t length = 0; length <= MOST_ROW; length++) {
        memset(row, 1 + (int)below(c, 2), length);
        call_number(c, row, length);
    }
}

void every_row_of_streams(chance *c)
{
    every_number(c);
    number_and_back(c);
    every_printed_row(c);
    long_rows(c);
    for (size_t length = 0; length <= 5; length++)
        every_row(c, length, 0, 6);
    every_row(c, 6, 1, 4);
    for (unsigned n = 0; n < 8000; n++)
        any_row(c);
}

/* ---- frames */

/* Returns what the library answers; the streams that it has written are in other.lent. */
static brachymel_answer call(chance *c, const frame *f, size_t room)
{
    answer should;
    brachymel_answer is;
    lend(&cc1, c, f->cc[0], f->length[0]);
    lend(&cc2, c, f->cc[1], f->length[1]);
    lend(&other, c, NULL, room);
    should = reference_streams(f->bandwidth, f->cc[0], f->length[0], f->cc[1], f->length[1], expected(&other), room);
    in_call = entry_name[STREAMS];
    is = brachymel_streams(f->bandwidth, pointer(&cc1, c), f->length[0], pointer(&cc2, c), f->length[1], pointer(&other, c), room);
    in_call = "no call";
    if (!compare(STREAMS, should, is) && is_told())
        print_frame('N', f, room);
    return is;
}

static uint32_t word_at(const uint8_t *words, size_t k)
{
    return field_of(words, BRACHYMEL_WORDS_SIZE, 32 * k, 32);
}

static unsigned number_after(const char *line, const char *key)
{
    return (unsigned)strtoul(strstr(line, key) + strlen(key), NULL, 10);
}

/* The streams of a User field by its word, on a resource of so many users, of which so many stand before it. */
static uint8_t by_word(uint32_t word, unsigned users, unsigned before)
{
    uint8_t row[BRACHYMEL_ROW_SIZE] = {0};
    uint32_t nss = word >> 24 & 0xF;
    if ((word >> 8 & 0x7FF) == BRACHYMEL_UNASSIGNED)
        return 0;
    if ((word & 0x40) == 0)
        return nss < 8 ? (uint8_t)(nss + 1) : 0;
    brachymel_streams_row(users, word >> 24 & 0x3F, row, sizeof row);
    return row[before];
}

/* The streams of an accepted frame by the library's other entries: words, listing and rows. How many there are. */
static size_t by_others(const frame *f, uint8_t streams[BRACHYMEL_STREAMS_SIZE])
{
    static uint8_t words[BRACHYMEL_WORDS_SIZE];
    static char text[BRACHYMEL_LISTING_SIZE + 1];
    unsigned users[BRACHYMEL_STREAMS_SIZE + 1], before[BRACHYMEL_STREAMS_SIZE + 1] = {0}, resources = 0;
    size_t n = 0;
    brachymel_answer a = brachymel_list(f->bandwidth, f->cc[0], f->length[0], f->cc[1], f->length[1], (uint8_t *)text,
                                        BRACHYMEL_LISTING_SIZE);
    text[a.number == 0 ? a.place : 0] = 0;
    brachymel_read(f->bandwidth, f->cc[0], f->length[0], f->cc[1], f->length[1], words, sizeof words);
    for (char *line = strtok(text, "\n"); line != NULL; line = strtok(NULL, "\n")) {
        if (strncmp(line, "ru=", 3) == 0)
            users[++resources] = number_after(line, " users=");
        if (strncmp(line, "sta=", 4) == 0) {
            unsigned owning = number_after(line, " resource=");
            streams[n] = by_word(word_at(words, 10 + n), users[owning], before[owning]++);
            n++;
        }
    }
    return n;
}

/* A frame with enough room; if it is accepted, held to what the library's other entries say. */
static void whole(chance *c, const frame *f)
{
    uint8_t streams[BRACHYMEL_STREAMS_SIZE];
    brachymel_answer a = call(c, f, BRACHYMEL_STREAMS_SIZE + (size_t)below(c, 3));
    size_t n;
    if (a.number != 0)
        return;
    n = by_others(f, streams);
    hold(a.place == n && memcmp(other.lent, streams, n) == 0, "a frame's streams are not what words, listing and rows say");
}

static answer outcome_of(const frame *f)
{
    static reading r;
    return read_frame(f->bandwidth, f->cc[0], f->length[0], f->cc[1], f->length[1], &r);
}

static void good_frame(chance *c, unsigned bandwidth, frame *f)
{
    do
        draw_good_frame(c, f);
    while (f->bandwidth != bandwidth || outcome_of(f).number != 0);
    put_rows_of_streams(c, f);
}

/* Resources that can be shared, none wider than a segment, and a bandwidth that has each. */
static const struct {
    unsigned bandwidth;
    wide_resource resource;
} narrow[] = {{0, {64, 1}}, {1, {64, 2}}, {1, {72, 3}}, {2, {64, 4}}, {2, {72, 12}}, {2, {80, 15}}, {2, {96, 14}}, {2, {104, 13}},
              {2, {112, 11}}, {2, {120, 7}}, {3, {72, 0x30}}, {3, {80, 0xF0}}, {3, {112, 0xB0}}, {4, {64, 0x8000}}, {4, {80, 0xF00}},
              {4, {120, 0x7000}}};

#define NARROW (sizeof narrow / sizeof narrow[0])

/* A frame in which this resource has so many fields, at any of its places, and the other positions have a few of their own. */
static void shared_frame(chance *c, unsigned bandwidth, wide_resource w, unsigned users, frame *f)
{
    static const unsigned beside[] = {26, 26, 27, 64, 65, 66, 25, 24};
    unsigned row[16];
    for (unsigned p = 0; p < 16; p++)
        row[p] = beside[below(c, sizeof beside / sizeof beside[0])];
    put_empty(w, row);
    for (; users > 0; users--) {
        unsigned p = draw_place(c, w.places);
        row[p] = row[p] < 64 ? w.value : row[p] + 1;
    }
    build_frame(c, bandwidth, row, f);
    put_rows_of_streams(c, f);
}

/* Every configuration of so many users of a resource: in all its fields, or in one of them. */
static void every_configuration(chance *c, unsigned bandwidth, wide_resource w, unsigned users, unsigned step)
{
    static frame f;
    for (uint32_t configuration = (uint32_t)below(c, step); configuration < 64; configuration += step) {
        shared_frame(c, bandwidth, w, users, &f);
        put_configuration(&f, w.places, one_in(c, 2) ? ALL_FIELDS : (unsigned)below(c, users), configuration);
        whole(c, &f);
    }
}

static void every_shared(chance *c)
{
    for (unsigned users = 2; users <= MOST_USERS; users++) {
        for (size_t k = 0; k < NARROW; k++)
            every_configuration(c, narrow[k].bandwidth, narrow[k].resource, users, 1);
        for (unsigned k = 0; k < WIDE; k++)
            every_configuration(c, wide_lies_in(wide_of(k), 8) && one_in(c, 2) ? 3 : 4, wide_of(k), users, 8);
    }
}

/* A field alone on its resource, of each kind, with every NSS; and nobody's. */
static void every_nss(chance *c)
{
    static frame f;
    for (size_t k = 0; k < NARROW + 4; k++)
        for (uint32_t nss = 0; nss < 16; nss++) {
            wide_resource w = k < NARROW ? narrow[k].resource : wide_of((unsigned)below(c, WIDE));
            shared_frame(c, k < NARROW ? narrow[k].bandwidth : 4, w, 1, &f);
            put_configuration(&f, w.places, ALL_FIELDS, nss | (uint32_t)below(c, 4) << 4);
            if (one_in(c, 8))
                put_stations(&f, 1 + (unsigned)below(c, 3), BRACHYMEL_UNASSIGNED);
            whole(c, &f);
        }
}

/* Nobody has the fields of channel 1, of channel 2, of both, or some, whatever configurations they have; the last row and just past
 * it in the others. */
static void nobodys(chance *c)
{
    static frame f;
    for (unsigned n = 0; n < 400; n++) {
        size_t k = (size_t)below(c, NARROW + 8);
        unsigned users = 2 + n % 7, channels = n / 7 % 4;
        wide_resource w = k < NARROW ? narrow[k].resource : wide_of((unsigned)below(c, WIDE));
        shared_frame(c, k < NARROW ? narrow[k].bandwidth : 4, w, users, &f);
        put_configuration(&f, w.places, ALL_FIELDS, count_of_rows(users) - 1 + (uint32_t)below(c, 2));
        if (channels == 0)
            put_nobodys(c, &f);
        else
            put_stations(&f, channels, BRACHYMEL_UNASSIGNED);
        whole(c, &f);
    }
}

/* Every room about what a frame needs, also of one that gets 21, which comes before 23. */
static void rooms(chance *c)
{
    static frame f;
    for (unsigned n = 0; n < 48; n++) {
        const size_t k = n % NARROW;
        size_t needed;
        if (n < 10)
            good_frame(c, n % 5, &f);
        else
            shared_frame(c, narrow[k].bandwidth, narrow[k].resource, 2 + n % 7, &f);
        needed = f.fields;
        if (n % 3 == 2)
            put_configuration(&f, narrow[k].resource.places, (unsigned)below(c, 2), 63);
        for (size_t room = 0; room <= needed + 6; room += room < 12 || room + 12 > needed ? 1 : 5)
            call(c, &f, room);
    }
}

/* No User field at all. */
static void none(chance *c)
{
    static const unsigned rows[][4] = {{26, 27, 28, 26}, {27, 27, 27, 27}, {29, 29, 28, 28}, {30, 30, 30, 30}};
    static frame f;
    for (unsigned bandwidth = 0; bandwidth <= 4; bandwidth++)
        for (unsigned k = 0; k < 4; k++)
            for (size_t room = 0; room <= 3; room++) {
                unsigned row[16];
                for (unsigned p = 0; p < 16; p++)
                    row[p] = rows[k][p % 4];
                build_frame(c, bandwidth, row, &f);
                call(c, &f, room);
            }
}

/* The largest frames: 144 fields alone, and 128 shared by eight; 144 bytes are just enough. */
static void largest(chance *c)
{
    static const unsigned zeros[16] = {0}, shared[16] = {71, 71, 71, 71, 71, 71, 71, 71, 71, 71, 71, 71, 71, 71, 71, 71};
    static frame f;
    build_frame(c, 4, zeros, &f);
    for (size_t room = BRACHYMEL_STREAMS_SIZE - 3; room <= BRACHYMEL_STREAMS_SIZE + 3; room++)
        call(c, &f, room);
    hold(call(c, &f, 0).place == BRACHYMEL_STREAMS_SIZE, "BRACHYMEL_STREAMS_SIZE is not what the largest frame needs");
    hold(call_row(c, MOST_USERS, 0, 0).place == BRACHYMEL_ROW_SIZE, "BRACHYMEL_ROW_SIZE is not what eight users need");
    for (unsigned n = 0; n < 8; n++) {
        build_frame(c, 4, shared, &f);
        put_rows_of_streams(c, &f);
        whole(c, &f);
        put_past_the_last(c, &f);
        whole(c, &f);
    }
}

/* Each answer of the reader, whatever the configurations and the room. */
static void refusals(chance *c)
{
    static frame f;
    for (uint32_t number = 1; number <= 11; number++)
        for (unsigned n = 0; n < 12; n++) {
            do
                draw_frame(c, &f);
            while (outcome_of(&f).number != number);
            call(c, &f, one_in(c, 2) ? BRACHYMEL_STREAMS_SIZE : (size_t)below(c, 12));
        }
}

static void flip(frame *f, unsigned ch, size_t i)
{
    f->cc[ch][i / 8] ^= (uint8_t)(1u << i % 8);
}

/* Each bit of a frame turned over, as it is and with the checks made right again. */
static void every_bit(chance *c, unsigned bandwidth, const unsigned *row)
{
    static frame f, turned;
    build_frame(c, bandwidth, row, &f);
    put_rows_of_streams(c, &f);
    for (unsigned ch = 0; ch < channels_of(bandwidth); ch++) {
        f.length[ch] = bytes_told(&f, ch) + 1;
        for (size_t i = 0; i < 8 * f.length[ch]; i++) {
            turned = f;
            flip(&turned, ch, i);
            call(c, &turned, BRACHYMEL_STREAMS_SIZE);
            if (i < 17 && channels_of(bandwidth) == 2)
                flip(&turned, 1 - ch, i);
            mend_checks(&turned);
            whole(c, &turned);
        }
    }
}

static void any_frame(chance *c)
{
    static frame f;
    if (one_in(c, 6))
        draw_frame(c, &f);
    else
        draw_streams_frame(c, &f);
    if (one_in(c, 3))
        call(c, &f, (size_t)below(c, 150));
    else
        whole(c, &f);
}

void every_stream(chance *c, unsigned long drawn)
{
    static const struct {
        unsigned bandwidth, row[16];
    } of_bits[] = {{0, {66}}, {1, {73, 74}}, {2, {26, 97, 96, 29}}, {3, {72, 73, 65, 25, 81, 30, 30, 80}},
                   {4, {30, 153, 30, 30, 29, 152, 29, 257, 30, 30, 30, 258, 30, 30, 256, 30}}};
    none(c);
    largest(c);
    every_shared(c);
    every_nss(c);
    nobodys(c);
    rooms(c);
    refusals(c);
    for (size_t k = 0; k < sizeof of_bits / sizeof of_bits[0]; k++)
        every_bit(c, of_bits[k].bandwidth, of_bits[k].row);
    for (unsigned long n = 0; n < drawn; n++)
        any_frame(c);
}
