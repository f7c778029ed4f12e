/* Rows with resources wider than a segment (02, T-07), built forward from their places. */
#include "cases.h"

/* By what each leaves out: nothing of a half; a pair of a half; a segment; a pair; a pair of the lower three segments, and of
 * the upper three. */
wide_resource wide_of(unsigned k)
{
    if (k < 2)
        return (wide_resource){88, 0xFFu << 8 * k};
    if (k < 10)
        return (wide_resource){128 + 8 * ((k - 2) % 4), (0xFF - (3u << 2 * ((k - 2) % 4))) << (k - 2) / 4 * 8};
    if (k < 14)
        return (wide_resource){160 + 8 * (k - 10), 0xFFFF - (0xFu << 4 * (k - 10))};
    if (k < 22)
        return (wide_resource){192 + 8 * (k - 14), 0xFFFF - (3u << 2 * (k - 14))};
    if (k < 28)
        return (wide_resource){256 + 8 * (k - 22), 0xFFF - (3u << 2 * (k - 22))};
    return (wide_resource){256 + 8 * (k - 28), (0xFFF - (3u << 2 * (k - 28))) << 4};
}

int wide_lies_in(wide_resource w, unsigned positions)
{
    return w.places >> positions == 0;
}

unsigned value_without_field(wide_resource w, unsigned p)
{
    return (w.places >> p / 4 * 4 & 15) == 15 ? 30 : (w.places >> p / 2 * 2 & 3) == 3 ? 29 : 28;
}

void put_empty(wide_resource w, unsigned *row)
{
    for (unsigned p = 0; p < 16; p++)
        if (w.places >> p & 1)
            row[p] = value_without_field(w, p);
}

unsigned draw_place(chance *c, unsigned places)
{
    unsigned p;
    do
        p = (unsigned)below(c, 16);
    while (!(places >> p & 1));
    return p;
}

/* The User fields of a resource, at least one: mostly up to eight, now and then nine, which is one too many, or more. They
 * stand at one place or two, near or far, or at any; a place has at most eight. */
static void draw_wide_fields(chance *c, wide_resource w, unsigned *row)
{
    unsigned fields = one_in(c, 8) ? 9 : one_in(c, 12) ? 10 + (unsigned)below(c, 20) : 1 + (unsigned)below(c, 8);
    unsigned few = 1u << draw_place(c, w.places) | 1u << draw_place(c, w.places);
    if (one_in(c, 3))
        few = w.places;
    put_empty(w, row);
    for (; fields > 0; fields--) {
        unsigned p = draw_place(c, few);
        if (row[p] < 64)
            row[p] = w.value;
        else if (row[p] % 8 < 7)
            row[p]++;
    }
}

/* Almost right: 28, 29 or 30 where another of them is due; no value of its own; a place that is another's, or nobody's; a value
 * of another family at one place or at all; a value of its own, or one without fields, where it has no place. */
static void spoil_wide(chance *c, wide_resource w, unsigned positions, unsigned *row)
{
    unsigned p = draw_place(c, w.places), beside = (1u << positions) - 1 - w.places, other = wide_of((unsigned)below(c, WIDE)).value;
    switch (below(c, 7)) {
    case 0:
    case 1: row[p] = 28 + (value_without_field(w, p) - 27 + (unsigned)below(c, 2)) % 3; break;
    case 2: put_empty(w, row); break;
    case 3: row[p] = one_in(c, 2) ? 64 + (unsigned)below(c, 8) : 26 + (unsigned)below(c, 3); break;
    case 4: row[p] = other + (unsigned)below(c, 8); break;
    case 5:
        for (p = 0; p < positions; p++)
            if (row[p] >= w.value && row[p] < w.value + 8)
                row[p] += other - w.value;
        break;
    default:
        if (beside != 0)
            row[draw_place(c, beside)] = one_in(c, 2) ? w.value + (unsigned)below(c, 8) : 28 + (unsigned)below(c, 3);
    }
}

/* One resource, and perhaps others that have their places beside it or in its gaps; then anything at the other positions. */
void draw_wide_row(chance *c, unsigned positions, int spoilt, unsigned *row)
{
    unsigned taken = 0, more = (unsigned)one_in(c, 2), from = (unsigned)below(c, WIDE);
    wide_resource first;
    do
        first = wide_of((unsigned)below(c, WIDE));
    while (!wide_lies_in(first, positions));
    draw_wide_fields(c, first, row);
    taken = first.places;
    for (unsigned k = 0; k < WIDE && more; k++) {
        wide_resource w = wide_of((from + k) % WIDE);
        if (!wide_lies_in(w, positions) || (w.places & taken) != 0 || !one_in(c, 2))
            continue;
        draw_wide_fields(c, w, row);
        taken |= w.places;
    }
    draw_rest(c, positions, taken, row);
    if (spoilt)
        spoil_wide(c, first, positions, row);
}

/* A half of such a row, or a quarter or less, as a row of its own: its resources lack places. */
void draw_part_of_wide_row(chance *c, unsigned positions, unsigned *row)
{
    unsigned whole[16];
    unsigned first = (unsigned)below(c, 16 / positions) * positions;
    draw_wide_row(c, 16, 0, whole);
    for (unsigned p = 0; p < positions; p++)
        row[p] = whole[first + p];
}

/* Of the (k + 1)-th pair of a bandwidth and a place of a resource: the only value of its own stands at this place. */
unsigned draw_wide_in_turn(chance *c, unsigned long k, unsigned *row)
{
    k %= WIDE_ROWS;
    for (unsigned positions = 8;; positions = 16)
        for (unsigned n = 0; n < WIDE; n++) {
            wide_resource w = wide_of(n);
            for (unsigned p = 0; p < positions && wide_lies_in(w, positions); p++) {
                if (!(w.places >> p & 1) || k-- != 0)
                    continue;
                draw_rest(c, positions, w.places, row);
                put_empty(w, row);
                row[p] = w.value + (unsigned)below(c, 8);
                return positions;
            }
        }
}
