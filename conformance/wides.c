/* The driver's calls on rows with resources wider than a segment (02, T-07). */
#include "driver.h"

static unsigned bandwidth_of(unsigned positions)
{
    return positions == 16 ? 4 : 3;
}

static void read_row(chance *c, unsigned bandwidth, const unsigned *row)
{
    static frame f;
    build_frame(c, bandwidth, row, &f);
    call_read(c, &f, BRACHYMEL_WORDS_SIZE);
}

/* Read, listed, and what is read written back. */
static void whole_row(chance *c, unsigned bandwidth, const unsigned *row)
{
    static frame f;
    static words_case w;
    answer a;
    build_frame(c, bandwidth, row, &f);
    call_read(c, &f, BRACHYMEL_WORDS_SIZE);
    call_list(c, &f, BRACHYMEL_LISTING_SIZE);
    a = reference_read_bytes(bandwidth, f.cc[0], f.length[0], f.cc[1], f.length[1], w.bytes, sizeof w.bytes);
    if (a.number != 0)
        return;
    w.bandwidth = bandwidth;
    w.length = 4 * (size_t)a.place;
    w.room[0] = w.room[1] = BRACHYMEL_CHANNEL_SIZE;
    call_write(c, &w);
}

/* Every place of every resource as the only one with a value of its own; then that place with another value: with no field, so
 * that the resource is not named, another's, or one of another family. */
static void every_place(chance *c)
{
    static const unsigned instead[] = {26, 27, 28, 29, 30, 64, 72, 80};
    for (unsigned k = 0; k < WIDE_ROWS; k++) {
        unsigned row[16], bandwidth = bandwidth_of(draw_wide_in_turn(c, k, row)), own = 0;
        whole_row(c, bandwidth, row);
        while (row[own] < 128 && row[own] / 8 != 11)
            own++;
        for (unsigned n = 0; n < sizeof instead / sizeof instead[0]; n++) {
            row[own] = instead[n];
            read_row(c, bandwidth, row);
        }
        row[own] = wide_of((unsigned)below(c, WIDE)).value;
        read_row(c, bandwidth, row);
    }
}

/* The row in which this resource has no field yet, all other positions being punctured. */
static void begin_row(wide_resource w, unsigned *row)
{
    for (unsigned p = 0; p < 16; p++)
        row[p] = 26;
    put_empty(w, row);
}

/* No value of its own: "a row of 30s alone stays single 996s". Then with a field of one of these, or of a 484. */
static void not_named(chance *c, wide_resource w, unsigned positions)
{
    unsigned row[16], p = draw_place(c, w.places);
    begin_row(w, row);
    whole_row(c, bandwidth_of(positions), row);
    row[p] = row[p] == 30 ? 80 : 72;
    whole_row(c, bandwidth_of(positions), row);
}

/* A named resource with 28, 29 and 30 at each position, of which one is right at its places; and places that are missing. */
static void every_empty(chance *c, wide_resource w, unsigned positions)
{
    static const unsigned there[] = {28, 29, 30, 26, 64};
    unsigned row[16];
    for (unsigned p = 0; p < positions; p++) {
        begin_row(w, row);
        row[draw_place(c, w.places & ~(1u << p))] = w.value;
        for (unsigned n = 0; n < sizeof there / sizeof there[0]; n++) {
            row[p] = there[n];
            read_row(c, bandwidth_of(positions), row);
        }
    }
}

/* Eight fields at every two places, and nine: "8 the lowest segment of a resource over eight fields". */
static void every_two_places(chance *c, wide_resource w, unsigned positions)
{
    unsigned row[16];
    for (unsigned p = 0; p < positions; p++)
        for (unsigned q = 0; q < p; q++) {
            unsigned fields = 1 + (unsigned)below(c, 7);
            if (!(w.places >> p & w.places >> q & 1))
                continue;
            begin_row(w, row);
            row[p] = w.value + fields - 1;
            row[q] = w.value + 8 - fields - 1;
            read_row(c, bandwidth_of(positions), row);
            row[q]++;
            read_row(c, bandwidth_of(positions), row);
        }
}

/* What may stand in the pairs that it leaves out, and what may not. */
static void every_gap(chance *c, wide_resource w, unsigned positions)
{
    static const unsigned pairs[][2] = {
        {29, 29}, {72, 29}, {29, 73}, {79, 72}, {64, 71}, {28, 28}, {28, 64}, {26, 27}, {27, 28}, {0, 15}, {25, 24}, {48, 48}, {50, 50},
        {48, 50}, {50, 48}, {28, 29}, {29, 64}, {30, 30}, {30, 29}};
    for (unsigned k = 0; k < sizeof pairs / sizeof pairs[0]; k++) {
        unsigned row[16];
        for (unsigned p = 0; p < 16; p++)
            row[p] = pairs[k][p % 2];
        put_empty(w, row);
        for (unsigned n = 1 + (unsigned)below(c, 3); n > 0; n--)
            row[draw_place(c, w.places)] = w.value + (unsigned)below(c, 2);
        whole_row(c, bandwidth_of(positions), row);
    }
}

/* Every two that have no place in common, whether or not one lies in the other's gaps, with fields of either. */
static void every_two(chance *c, unsigned positions)
{
    for (unsigned j = 0; j < WIDE; j++)
        for (unsigned k = 0; k < j; k++) {
            wide_resource two[2] = {wide_of(j), wide_of(k)};
            unsigned row[16];
            if ((two[0].places & two[1].places) != 0 || !wide_lies_in(two[0], positions) || !wide_lies_in(two[1], positions))
                continue;
            begin_row(two[0], row);
            put_empty(two[1], row);
            for (unsigned n = 0; n < 4; n++) {
                for (unsigned p = 0; p < 16; p++)
                    for (unsigned r = 0; r < 2; r++)
                        if ((two[r].places >> p & 1) && one_in(c, 4))
                            row[p] = one_in(c, 3) ? value_without_field(two[r], p) : two[r].value + (unsigned)below(c, 3);
                whole_row(c, bandwidth_of(positions), row);
            }
        }
}

/* Every value at every position of every bandwidth, all others 30. */
static void every_value(chance *c)
{
    for (unsigned bandwidth = 0; bandwidth <= 4; bandwidth++)
        for (unsigned p = 0; p < positions_of(bandwidth); p++)
            for (unsigned value = 0; value < 512; value++) {
                unsigned row[16];
                for (unsigned q = 0; q < 16; q++)
                    row[q] = q == p ? value : 30;
                read_row(c, bandwidth, row);
            }
}

void every_wide(chance *c)
{
    every_value(c);
    every_place(c);
    for (unsigned positions = 8; positions <= 16; positions += 8) {
        for (unsigned k = 0; k < WIDE; k++)
            if (wide_lies_in(wide_of(k), positions)) {
                not_named(c, wide_of(k), positions);
                every_empty(c, wide_of(k), positions);
                every_two_places(c, wide_of(k), positions);
                every_gap(c, wide_of(k), positions);
            }
        every_two(c, positions);
    }
    for (unsigned k = 0; k < CUT_ROWS; k++) {
        static frame f;
        unsigned wide = 0;
        for (unsigned p = 0; p < 16; p++)
            wide |= cut_rows[k].row[p] / 8 == 11 || cut_rows[k].row[p] >= 128;
        build_frame(c, cut_rows[k].bandwidth, cut_rows[k].row, &f);
        if (wide)
            turn_every_bit(c, &f);
    }
}
