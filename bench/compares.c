/* Two frames compared (02, T-06): equal, all different, and between.
 *
 * Each kind has its own pairs. Before it is timed, both sides are held to the reference on each of them.
 */
#include "compares.h"

#include "cases/cases.h"
#include "fast.h"
#include "reference/reference.h"
#include "rounds.h"

#include <stdio.h>
#include <stdlib.h>
#include <string.h>

#define PAIRS 16

typedef brachymel_answer calls(uint32_t, const uint8_t *, size_t, const uint8_t *, size_t, uint32_t, const uint8_t *, size_t,
                               const uint8_t *, size_t, uint8_t *, size_t);

static calls *const compare_of[SIDES] = {brachymel_compare, fast_compare};

static const unsigned few[16] = {80, 30, 30, 30, 80, 30, 30, 30, 80, 30, 30, 30, 80, 30, 30, 30}, zeros[16] = {0},
                      shared[16] = {71, 71, 71, 71, 71, 71, 71, 71, 71, 71, 71, 71, 71, 71, 71, 71},
                      lower[16] = {26, 26, 256, 29, 30, 30, 30, 30, 257, 30, 30, 30, 80, 30, 30, 30},
                      upper[16] = {80, 30, 30, 30, 26, 26, 256, 29, 257, 30, 30, 30, 30, 30, 30, 30};

/* How a pair's second frame comes from its first: it is the same; its User fields are others, or one is; its row is
 * another. bench/count has these in the same order. */
enum { SAME, OTHER_FIELDS, ONE_FIELD, OTHER_ROW };

static const struct {
    const char *name;
    const unsigned *row, *other;
    int change;
} kinds[] = {
    {"4 fields, equal", few, few, SAME},
    {"144 fields, equal", zeros, zeros, SAME},
    {"144 fields, one differs", zeros, zeros, ONE_FIELD},
    {"144 fields, all differ", zeros, zeros, OTHER_FIELDS},
    {"144 and 128 fields, all differs", zeros, shared, OTHER_ROW},
    {"a 2x996+484, equal", lower, lower, SAME},
    {"a 2x996+484, beside the other", lower, upper, OTHER_ROW},
};

static unsigned used = PAIRS; /* how many of the pairs are in use */
static frame good[PAIRS], bad[PAIRS];
static uint8_t buffer[BRACHYMEL_COMPARE_SIZE];

/* Every User field of a frame with each of these bits turned over. */
static void turn_fields(frame *f, uint32_t bits, unsigned most)
{
    for (unsigned ch = 0; ch < 2; ch++) {
        unsigned n = fields_told(f, ch);
        for (unsigned j = 0; j < n && j < most; j++) {
            unsigned at = user_field_at(f->bandwidth, j);
            put_field(f->cc[ch], MOST_LENT, at, 22, field_of(f->cc[ch], MOST_LENT, at, 22) ^ bits);
        }
        most = most > n ? most - n : 0;
    }
    mend_checks(f);
}

static void of_kind(unsigned k)
{
    chance c = chance_from(1, 'K');
    for (unsigned n = 0; n < used; n++) {
        build_frame(&c, 4, kinds[k].row, &good[n]);
        if (kinds[k].change == OTHER_ROW)
            build_frame(&c, 4, kinds[k].other, &bad[n]);
        else
            bad[n] = good[n];
        if (kinds[k].change == OTHER_FIELDS)
            turn_fields(&bad[n], 0x3FF800, MOST_FIELDS); /* all but the station, which would be there twice */
        if (kinds[k].change == ONE_FIELD)
            turn_fields(&bad[n], 0x200000, 1);
    }
}

static brachymel_answer call(int side, unsigned n)
{
    const frame *x = &good[n], *y = &bad[n];
    return compare_of[side](x->bandwidth, x->cc[0], x->length[0], x->cc[1], x->length[1], y->bandwidth, y->cc[0], y->length[0],
                            y->cc[1], y->length[1], buffer, sizeof buffer);
}

static void hold_to_reference(int side, const char *name)
{
    static uint8_t right[sizeof buffer];
    for (unsigned n = 0; n < used; n++) {
        const frame *x = &good[n], *y = &bad[n];
        answer should;
        brachymel_answer is;
        memset(right, 0x5A, sizeof right);
        memset(buffer, 0x5A, sizeof buffer);
        should = reference_compare(x->bandwidth, x->cc[0], x->length[0], x->cc[1], x->length[1], y->bandwidth, y->cc[0],
                                   y->length[0], y->cc[1], y->length[1], right, sizeof right);
        is = call(side, n);
        if (is.number != should.number || is.channel != should.channel || is.place != should.place
            || memcmp(buffer, right, sizeof buffer) != 0) {
            printf("bench: %s is not what the reference says of %s\n", side_name[side], name);
            exit(1);
        }
    }
}

static void pass(int side, unsigned times)
{
    while (times-- > 0)
        for (unsigned n = 0; n < used; n++)
            kept += call(side, n).place;
}

void print_comparisons(void)
{
    print_head("comparing at 320 MHz");
    for (unsigned k = 0; k < sizeof kinds / sizeof kinds[0]; k++) {
        of_kind(k);
        for (int side = 0; side < SIDES; side++)
            hold_to_reference(side, kinds[k].name);
        print_line(kinds[k].name, pass, used);
    }
}

void call_comparisons(unsigned k, int side, int times)
{
    used = 1;
    of_kind(k);
    while (times-- > 0)
        call(side, 0);
}
