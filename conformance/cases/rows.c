/* Rows, built forward from the owners of their positions. */
#include "cases.h"

/* Of each bandwidth two rows of few User fields, in odd numbers and even; from 40 MHz on, one of a pair has larger
 * resources. Then rows of none and of many, and rows of resources wider than a segment. A row's places that are left out are
 * 0. */
const cut_row cut_rows[CUT_ROWS] = {
    {0, {25}}, {0, {48}}, {1, {48, 25}}, {1, {73, 72}}, {2, {25, 64, 64, 50}}, {2, {26, 97, 96, 29}},
    {3, {26, 97, 29, 29, 120, 29, 28, 50}}, {3, {64, 25, 26, 27, 26, 27, 64, 27}},
    {4, {25, 26, 26, 26, 26, 26, 26, 26, 26, 26, 26, 26, 26, 26, 26, 50}},
    {4, {80, 30, 30, 30, 30, 80, 30, 30, 30, 30, 30, 81, 30, 30, 30, 30}},
    {0, {26}}, {0, {64}}, {0, {71}}, {0, {0}}, {1, {26, 27}}, {1, {75, 75}}, {1, {0, 1}},
    {2, {26, 27, 28, 26}}, {2, {83, 83, 30, 30}}, {2, {1}}, {3, {30, 30, 30, 30, 29, 29, 26, 28}}, {3, {0, 1}},
    {4, {30, 30, 30, 30, 30, 30, 30, 30, 29, 29, 29, 29, 26, 27, 28, 26}}, {4, {1}}, {4, {0}},
    {3, {88, 30, 30, 30, 30, 30, 30, 90}}, {3, {50, 26, 129, 29, 30, 30, 128, 30}},
    {4, {30, 30, 30, 30, 30, 30, 30, 30, 30, 241, 30, 30, 25, 64, 240, 29}},
    {4, {30, 153, 30, 30, 29, 152, 29, 257, 30, 30, 30, 258, 30, 30, 256, 30}},
};

/* A value for a position given to itself. 48 and 50 are left out where they may not stand. */
static unsigned draw_own_value(chance *c, unsigned p, unsigned n)
{
    switch (below(c, 8)) {
    case 0: return 0;
    case 1: return 26 + (unsigned)below(c, 3);
    case 2: return 64 + (unsigned)below(c, 8);
    case 3: return 64;
    case 4:
        if (n < 4 || p < 2)
            return one_in(c, 2) ? 48 : 50;
        return p == 2 ? 48 : 50;
    default: return (unsigned)below(c, 29);
    }
}

/* A resource of some places: each has `empty` (its own, by place) or a value of the family from `first`
 * on, eight fields in all at most; now and then more. `named` asks for one place of the family at least. */
static void draw_places(chance *c, unsigned *row, const unsigned *empty, const unsigned *place, unsigned places,
                        unsigned first, int named)
{
    unsigned over = (unsigned)one_in(c, 10), left = over ? 8 * places : 8, must = (unsigned)below(c, places);
    for (unsigned k = 0; k < places; k++) {
        unsigned fields = 0, most = left < 8 ? left : 8;
        if (most != 0 && (over || one_in(c, 3) || (named && k == must)))
            fields = 1 + (unsigned)below(c, over || one_in(c, 3) ? most : most < 3 ? most : 3);
        if (named && k < must && fields == left)
            fields--;
        left -= fields;
        row[place[k]] = fields == 0 ? empty[k] : first + fields - 1;
    }
}

static void draw_484(chance *c, unsigned *row, unsigned first)
{
    static const unsigned empty[2] = {29, 29};
    unsigned place[2] = {first, first + 1};
    draw_places(c, row, empty, place, 2, 72, 0);
}

static void draw_996(chance *c, unsigned *row)
{
    static const unsigned empty[4] = {30, 30, 30, 30}, place[4] = {0, 1, 2, 3};
    draw_places(c, row, empty, place, 4, 80, 0);
}

static void draw_484_242(chance *c, unsigned *row, unsigned left_out)
{
    unsigned empty[3], place[3], n = 0;
    for (unsigned p = 0; p < 4; p++) {
        if (p == left_out)
            continue;
        empty[n] = p / 2 == left_out / 2 ? 28 : 29;
        place[n++] = p;
    }
    draw_places(c, row, empty, place, 3, 96 + 8 * left_out, !one_in(c, 20));
    row[left_out] = draw_own_value(c, left_out, 4);
}

static void draw_own(chance *c, unsigned *row, unsigned first, unsigned count, unsigned n)
{
    for (unsigned p = first; p < first + count; p++)
        row[p] = draw_own_value(c, p, n);
}

static void draw_segment(chance *c, unsigned *row, unsigned n)
{
    if (n == 4 && one_in(c, 3)) {
        draw_484_242(c, row, (unsigned)below(c, 4));
    } else if (n == 4 && one_in(c, 5)) {
        draw_996(c, row);
    } else {
        for (unsigned p = 0; p < n; p += 2) {
            if (n >= 2 && one_in(c, 3))
                draw_484(c, row, p);
            else
                draw_own(c, row, p, n < 2 ? 1 : 2, n);
        }
    }
}

static void draw_narrow_row(chance *c, unsigned positions, unsigned *row)
{
    unsigned n = positions < 4 ? positions : 4;
    for (unsigned p = 0; p < positions; p += n)
        draw_segment(c, row + p, n);
}

/* The rest of a row of 160 or 320 MHz, some segments or pairs of which are taken. */
void draw_rest(chance *c, unsigned positions, unsigned taken, unsigned *row)
{
    for (unsigned first = 0; first < positions; first += 4) {
        unsigned segment = taken >> first & 15;
        if (segment == 0)
            draw_segment(c, row + first, 4);
        for (unsigned p = 0; p < 4 && segment != 0; p += 2) {
            if ((segment >> p & 3) != 0)
                continue;
            if (one_in(c, 3))
                draw_484(c, row + first, p);
            else
                draw_own(c, row + first, p, 2, 4);
        }
    }
}

/* One row of three from 160 MHz on has wider resources instead; of those that may be spoilt, one of sixteen in a narrower
 * channel is a part of such a row. Drawn apart, so that the other rows, and all that is drawn next, are what they would be. */
static void draw_instead(const chance *c, unsigned positions, int may_be_spoilt, unsigned *row)
{
    chance own = chance_from(c->state, 'w');
    if (c->narrow)
        return;
    if (positions >= 8 && one_in(&own, 3)) {
        draw_wide_row(&own, positions, may_be_spoilt && one_in(&own, 3), row);
        if (may_be_spoilt && one_in(&own, 12))
            damage_row(&own, positions, row);
    } else if (may_be_spoilt && positions < 16 && one_in(&own, 16)) {
        draw_part_of_wide_row(&own, positions, row);
    }
}

void draw_good_row(chance *c, unsigned positions, unsigned *row)
{
    draw_narrow_row(c, positions, row);
    draw_instead(c, positions, 0, row);
}

/* Another value at one position, near or far; or two positions exchanged. */
void damage_row(chance *c, unsigned positions, unsigned *row)
{
    unsigned p = (unsigned)below(c, positions), q = (unsigned)below(c, positions), kept = row[p];
    switch (below(c, 6)) {
    case 0: row[p] = row[q]; row[q] = kept; break;
    case 1: row[p] = 28 + (unsigned)below(c, 3); break;
    case 2: row[p] = one_in(c, 2) ? 48 : 50; break;
    case 3: row[p] = 64 + (unsigned)below(c, 64); break;
    case 4: row[p] = (unsigned)below(c, 128); break;
    default: row[p] = row[q] ^ 1u << below(c, 7);
    }
}

void draw_row(chance *c, unsigned positions, unsigned *row)
{
    draw_narrow_row(c, positions, row);
    if (one_in(c, 4))
        damage_row(c, positions, row);
    if (one_in(c, 40))
        damage_row(c, positions, row);
    draw_instead(c, positions, 1, row);
}
