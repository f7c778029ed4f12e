/* Rows of streams and their numbers, and the streams of a frame (02, T-11).
 *
 * Each kind of call has its own inputs. Before it is timed, both sides are held to the reference on each of them.
 */
#include "streams.h"

#include "cases/cases.h"
#include "fast.h"
#include "reference/reference.h"
#include "rounds.h"

#include <stdio.h>
#include <stdlib.h>
#include <string.h>

#define INPUTS 64

typedef brachymel_answer gives_row(uint32_t, uint32_t, uint8_t *, size_t);
typedef brachymel_answer gives_number(const uint8_t *, size_t);
typedef brachymel_answer gives_streams(uint32_t, const uint8_t *, size_t, const uint8_t *, size_t, uint8_t *, size_t);

static gives_row *const row_by[SIDES] = {brachymel_streams_row, fast_streams_row};
static gives_number *const number_by[SIDES] = {brachymel_streams_number, fast_streams_number};
static gives_streams *const streams_by[SIDES] = {brachymel_streams, fast_streams};

enum { ROW, NUMBER, FRAME };

/* bench/count has these in the same order. Of a frame with no row here the values are drawn. */
static const struct {
    const char *name;
    int entry;
    unsigned users_or_bandwidth;
    unsigned row[16];
} kinds[] = {
    {"a number's row, 2 users", ROW, 2, {0}},
    {"a number's row, 5 users", ROW, 5, {0}},
    {"a number's row, 8 users", ROW, 8, {0}},
    {"a row's number, 2 users", NUMBER, 2, {0}},
    {"a row's number, 5 users", NUMBER, 5, {0}},
    {"a row's number, 8 users", NUMBER, 8, {0}},
    {"80 MHz, one field", FRAME, 2, {80, 30, 30, 30}},
    {"80 MHz, a 996 of eight", FRAME, 2, {81, 82, 82, 30}},
    {"80 MHz, four 242s of eight", FRAME, 2, {71, 71, 71, 71}},
    {"160 MHz, a 2x996 of eight", FRAME, 3, {89, 88, 30, 91, 30, 30, 88, 30}},
    {"320 MHz, 144 fields alone", FRAME, 4, {0}},
    {"320 MHz, 16 242s of eight", FRAME, 4, {71, 71, 71, 71, 71, 71, 71, 71, 71, 71, 71, 71, 71, 71, 71, 71}},
    {"320 MHz, random", FRAME, 4, {511}},
};

static unsigned kind, used = INPUTS; /* how many of the inputs are in use */
static uint32_t number[INPUTS];
static uint8_t row[INPUTS][BRACHYMEL_ROW_SIZE];
static frame frames[INPUTS];
static uint8_t buffer[BRACHYMEL_STREAMS_SIZE];

static void draw_input(chance *c, unsigned n)
{
    static reading r;
    unsigned users = kinds[kind].users_or_bandwidth, drawn[16];
    frame *f = &frames[n];
    if (kinds[kind].entry != FRAME) {
        number[n] = (uint32_t)below(c, count_of_rows(users));
        reference_streams_row(users, number[n], row[n], BRACHYMEL_ROW_SIZE);
        return;
    }
    do {
        if (kinds[kind].row[0] == 511)
            draw_good_row(c, positions_of(users), drawn);
        else
            memcpy(drawn, kinds[kind].row, sizeof drawn);
        build_frame(c, users, drawn, f);
        put_rows_of_streams(c, f);
    } while (read_frame(f->bandwidth, f->cc[0], f->length[0], f->cc[1], f->length[1], &r).number != 0);
}

static void of_kind(unsigned k)
{
    chance c = chance_from(1, 'S');
    c.narrow = 1;
    kind = k;
    for (unsigned n = 0; n < used; n++)
        draw_input(&c, n);
}

static brachymel_answer call(int side, unsigned n)
{
    unsigned users = kinds[kind].users_or_bandwidth;
    const frame *f = &frames[n];
    switch (kinds[kind].entry) {
    case ROW: return row_by[side](users, number[n], buffer, BRACHYMEL_ROW_SIZE);
    case NUMBER: return number_by[side](row[n], users);
    default:
        return streams_by[side](f->bandwidth, f->cc[0], f->length[0], f->cc[1], f->length[1], buffer, sizeof buffer);
    }
}

static answer should_be(unsigned n, uint8_t *right)
{
    unsigned users = kinds[kind].users_or_bandwidth;
    const frame *f = &frames[n];
    switch (kinds[kind].entry) {
    case ROW: return reference_streams_row(users, number[n], right, BRACHYMEL_ROW_SIZE);
    case NUMBER: return reference_streams_number(row[n], users);
    default:
        return reference_streams(f->bandwidth, f->cc[0], f->length[0], f->cc[1], f->length[1], right, sizeof buffer);
    }
}

static void hold_to_reference(int side)
{
    for (unsigned n = 0; n < used; n++) {
        uint8_t right[sizeof buffer];
        answer should;
        brachymel_answer is;
        memset(right, 0x5A, sizeof right);
        memset(buffer, 0x5A, sizeof buffer);
        should = should_be(n, right);
        is = call(side, n);
        if (is.number != should.number || is.channel != should.channel || is.place != should.place
            || memcmp(buffer, right, sizeof buffer) != 0) {
            printf("bench: %s is not what the reference says of %s\n", side_name[side], kinds[kind].name);
            exit(1);
        }
    }
}

static void pass(int side, unsigned times)
{
    while (times-- > 0)
        for (unsigned n = 0; n < used; n++)
            kept += call(side, n).place;
}

void print_streams(void)
{
    print_head("spatial streams");
    for (unsigned k = 0; k < sizeof kinds / sizeof kinds[0]; k++) {
        of_kind(k);
        for (int side = 0; side < SIDES; side++)
            hold_to_reference(side);
        print_line(kinds[k].name, pass, used);
    }
}

void call_streams(unsigned k, int side, int times)
{
    used = 1;
    of_kind(k);
    while (times-- > 0)
        call(side, 0);
}
