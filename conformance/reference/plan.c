/* What a plan is: found by trying every way of dividing the positions into resources. */
#include "reference.h"

#include <stdio.h>
#include <stdlib.h>
#include <string.h>

/* "Code 0, 1, 2, 3, 4 is 20, 40, 80, 160, 320 MHz. The positions of 20 MHz are numbered upward from 0:
 * 1, 2, 4, 8, 16 of them." */
unsigned positions_of(unsigned bandwidth)
{
    return 1u << bandwidth;
}

/* A larger resource, one of all that there are at 320 MHz. "A plan gives each position either to itself .. or to one larger
 * resource". */
typedef struct {
    size_name size;
    unsigned index;
    unsigned value;  /* the first of the eight of its own family */
    unsigned places; /* bit p for each position p that is its place */
} resource;

#define MOST_RESOURCES 62

/* 000's table, in its order: the first of eight values, and what they name, drawn from the lowest position on, [] being left
 * out. The index counts in the positions that are drawn; a 484 is "1 or 2" in its segment (01). 72 to 127 are 01's own list. */
static const struct {
    unsigned value, positions;
    size_name size;
    unsigned index;
    const char *drawn;
} family[] = {
    {72, 2, TONES_484, 1, "484"},
    {80, 4, TONES_996, 1, "996"},
    {88, 8, TONES_2X996, 1, "996-996"}, /* 000: "2x996" */
    {96, 4, TONES_484_242, 1, "[]-242-484"},
    {104, 4, TONES_484_242, 2, "242-[]-484"},
    {112, 4, TONES_484_242, 3, "484-[]-242"},
    {120, 4, TONES_484_242, 4, "484-242-[]"},
    {128, 8, TONES_996_484, 1, "[]-484-996"},
    {136, 8, TONES_996_484, 2, "484-[]-996"},
    {144, 8, TONES_996_484, 3, "996-[]-484"},
    {152, 8, TONES_996_484, 4, "996-484-[]"},
    {160, 16, TONES_3X996, 1, "[]-996-996-996"},
    {168, 16, TONES_3X996, 2, "996-[]-996-996"},
    {176, 16, TONES_3X996, 3, "996-996-[]-996"},
    {184, 16, TONES_3X996, 4, "996-996-996-[]"},
    {192, 16, TONES_3X996_484, 1, "[]-484-996-996-996"},
    {200, 16, TONES_3X996_484, 2, "484-[]-996-996-996"},
    {208, 16, TONES_3X996_484, 3, "996-[]-484-996-996"},
    {216, 16, TONES_3X996_484, 4, "996-484-[]-996-996"},
    {224, 16, TONES_3X996_484, 5, "996-996-[]-484-996"},
    {232, 16, TONES_3X996_484, 6, "996-996-484-[]-996"},
    {240, 16, TONES_3X996_484, 7, "996-996-996-[]-484"},
    {248, 16, TONES_3X996_484, 8, "996-996-996-484-[]"},
    {256, 12, TONES_2X996_484, 1, "[]-484-996-996"},
    {264, 12, TONES_2X996_484, 2, "484-[]-996-996"},
    {272, 12, TONES_2X996_484, 3, "996-[]-484-996"},
    {280, 12, TONES_2X996_484, 4, "996-484-[]-996"},
    {288, 12, TONES_2X996_484, 5, "996-996-[]-484"},
    {296, 12, TONES_2X996_484, 6, "996-996-484-[]"},
};

/* How many positions the part has that is drawn here: a 996 four, a 484 two, a 242 one. 0 where it is [], which has the rest. */
static unsigned width_drawn(const char *part)
{
    return *part == '9' ? 4 : *part == '4' ? 2 : *part == '2' ? 1 : 0;
}

static const char *next_drawn(const char *part)
{
    part += strcspn(part, "-");
    return *part == '-' ? part + 1 : part;
}

/* The places among the positions that are drawn. */
static unsigned places_drawn(const char *drawn, unsigned positions)
{
    unsigned places = 0, p = 0, left_out = positions;
    for (const char *part = drawn; *part != 0; part = next_drawn(part))
        left_out -= width_drawn(part);
    for (const char *part = drawn; *part != 0; part = next_drawn(part)) {
        unsigned width = width_drawn(part);
        places |= ((1u << width) - 1) << p;
        p += width == 0 ? left_out : width;
    }
    return places;
}

static resource larger[MOST_RESOURCES];

/* Wherever what is drawn can lie in 320 MHz: beginning at a multiple of its positions. Of a 2x996+484, which is drawn on
 * three segments, "MRU1 or MRU 7" and so on (000): the lower three segments or the upper three. */
static void list_resources(void)
{
    unsigned n = 0;
    if (larger[0].value != 0)
        return;
    for (unsigned k = 0; k < sizeof family / sizeof family[0]; k++) {
        unsigned places = places_drawn(family[k].drawn, family[k].positions);
        unsigned step = family[k].positions == 12 ? 4 : family[k].positions;
        for (unsigned first = 0; first + family[k].positions <= MOST_POSITIONS; first += step) {
            resource r = {family[k].size, family[k].index, family[k].value, places << first};
            if (r.size == TONES_484)
                r.index = first % 4 / 2 + 1;
            if (r.size == TONES_2X996_484 && first == 4)
                r.index += 6;
            larger[n++] = r;
        }
    }
}

static int has_place(const resource *r, unsigned p)
{
    return r->places >> p & 1;
}

/* Whether the n positions around p, from a multiple of n on, all are places of r. */
static int has_all_around(const resource *r, unsigned p, unsigned n)
{
    for (unsigned q = p / n * n; q < p / n * n + n; q++)
        if (!has_place(r, q))
            return 0;
    return 1;
}

/* "(each place its own family's value or, with no field, 29 on its whole pair and 28 on its single position)", "30 in a segment
 * wholly its own, 29 on a pair, 28 on a single position" (02, T-07); likewise "a 484 .. (each place 29 or 72 to 79); a 996 ..
 * (each 30 or 80 to 87)". */
static unsigned value_without_field(const resource *r, unsigned p)
{
    return has_all_around(r, p, 4) ? 30 : has_all_around(r, p, 2) ? 29 : 28;
}

static int in_family(const resource *r, unsigned value)
{
    return value >= r->value && value <= r->value + 7;
}

/* A 484+242 "with at least one place in its own family"; a resource wider than a segment "has at least one place with its own
 * value, so a row of 30s alone stays single 996s" (02, T-07). */
static int must_be_named(const resource *r)
{
    return r->size != TONES_484 && r->size != TONES_996;
}

/* A position given to itself is given to no larger resource. */
#define ITSELF NULL

/* Whether the value may stand at position p when that is given to r: of each place by itself (decision). */
static int fits(const resource *r, unsigned p, unsigned value)
{
    if (r != ITSELF)
        return has_place(r, p) && (in_family(r, value) || value == value_without_field(r, p));
    /* "48 isn't allowed in a fourth position nor 50 in a third (004), in segments of four." */
    if ((value == 48 && p % 4 == 3) || (value == 50 && p % 4 == 2))
        return 0;
    /* "to itself (values 0 to 28, 48, 50, 64 to 71)" */
    return value <= 28 || value == 48 || value == 50 || (value >= 64 && value <= 71);
}

/* The positions from `first` up to `end`, and to what each is given so far. */
typedef struct {
    unsigned first, end;
    const resource *owner[MOST_POSITIONS];
    int given[MOST_POSITIONS];
} division;

/* Whether the division signals the row: each value fits its owner, each larger resource has all its places, here ("484 needs
 * 40 MHz, 996 and 484+242 need 80"), and is named if it must be. */
static int signals(const division *d, const unsigned *row)
{
    for (unsigned p = d->first; p < d->end; p++) {
        const resource *r = d->owner[p];
        int named = 0;
        if (!fits(r, p, row[p]))
            return 0;
        if (r == ITSELF)
            continue;
        for (unsigned q = 0; q < MOST_POSITIONS; q++) {
            int is_given = q >= d->first && q < d->end && d->owner[q] == r;
            if (has_place(r, q) != is_given)
                return 0;
            if (is_given && in_family(r, row[q]))
                named = 1;
        }
        if (must_be_named(r) && !named)
            return 0;
    }
    return 1;
}

/* Gives all places of r, or takes them back. */
static void give(division *d, const resource *r, int given)
{
    for (unsigned p = 0; p < MOST_POSITIONS; p++)
        if (has_place(r, p)) {
            d->owner[p] = r;
            d->given[p] = given;
        }
}

/* Whether all places of r are here and given to nothing yet, and hold what fits it. (Where one does not, no way with it
 * signals.) */
static int can_be_given(const division *d, const resource *r, const unsigned *row)
{
    for (unsigned p = 0; p < MOST_POSITIONS; p++)
        if (has_place(r, p) && (p < d->first || p >= d->end || d->given[p] || !fits(r, p, row[p])))
            return 0;
    return 1;
}

/* Tries every way of dividing the positions from p on that are not given yet: the lowest of them to itself, or to each larger
 * resource. Returns how many ways signal the row, and keeps one of them in `found`. */
static unsigned try_every_way(const unsigned *row, unsigned p, division *d, division *found)
{
    unsigned plans = 0;
    while (p < d->end && d->given[p])
        p++;
    if (p == d->end) {
        if (!signals(d, row))
            return 0;
        *found = *d;
        return 1;
    }
    if (fits(ITSELF, p, row[p])) {
        d->owner[p] = ITSELF;
        d->given[p] = 1;
        plans += try_every_way(row, p + 1, d, found);
        d->given[p] = 0;
    }
    for (unsigned k = 0; k < MOST_RESOURCES; k++)
        if (has_place(&larger[k], p) && can_be_given(d, &larger[k], row)) {
            give(d, &larger[k], 1);
            plans += try_every_way(row, p + 1, d, found);
            give(d, &larger[k], 0);
        }
    return plans;
}

/* How many plans signal the n values from `first` on: 01's third demand says none or one. */
static unsigned search(const unsigned *row, unsigned first, unsigned n, division *found)
{
    division d;
    memset(&d, 0, sizeof d);
    d.first = first;
    d.end = first + n;
    list_resources();
    return try_every_way(row, first, &d, found);
}

unsigned plans_of_part(const unsigned *row, unsigned first, unsigned n)
{
    division found;
    return search(row, first, n, &found);
}

static void third_demand(int holds, const char *broken)
{
    if (holds)
        return;
    fprintf(stderr, "reference: %s: 01's third demand is broken\n", broken);
    abort();
}

static int has_plan(const unsigned *row, unsigned first, unsigned n, division *found)
{
    unsigned plans = search(row, first, n, found);
    third_demand(plans <= 1, "two plans signal one part");
    return plans == 1;
}

/* "sought in the whole width, then in each half, down to one segment": whether the segment "lies in .. such part with a plan"
 * (02, T-07). "Each group of four positions is a segment (20 and 40 MHz have one short segment)." */
static int lies_in_a_plan(const unsigned *row, unsigned positions, unsigned segment)
{
    division found;
    unsigned n = positions;
    while (!has_plan(row, 4 * segment / n * n, n, &found)) {
        if (n <= 4)
            return 0;
        n /= 2;
    }
    return 1;
}

/* "At position p of its segment, i the place among the nine, four or two of its kind, from 1: 26 has
 * index 9p+i, plus 1 where p is 2 or 3 (19 doesn't exist); 52 4p+i; 106 2p+i; 106+26 2p+1 (48) or 2p+2
 * (50)". */
unsigned index_of_piece(piece x, unsigned p)
{
    switch (x.size) {
    case TONES_26: return 9 * p + x.place + (p == 2 || p == 3 ? 1 : 0);
    case TONES_52: return 4 * p + x.place;
    default: return 2 * p + x.place;
    }
}

static record *add_record(layout *l, size_name size, unsigned index, unsigned position)
{
    record *r = &l->record[l->records++];
    memset(r, 0, sizeof *r);
    r->size = size;
    r->index = index;
    r->segment = position / 4;
    r->position = position;
    r->places = 1u << position;
    return r;
}

/* "Content channel 1 holds the even positions, channel 2 the odd ones." A field of the position goes to
 * the record; "A channel's User fields follow its values in rising position". */
static void add_field(layout *l, unsigned position, unsigned owning)
{
    unsigned channel = position % 2;
    l->record[owning].fields[channel]++;
    l->owner[channel][l->fields[channel]++] = owning;
}

/* The records of a position given to itself. "26 and 27 are none; 28 by itself is a 242 with no field." */
static void lay_out_itself(layout *l, unsigned position, unsigned value)
{
    piece pieces[9];
    unsigned n = pieces_of(value, pieces);
    for (unsigned k = 0; k < n; k++) {
        record *r = add_record(l, pieces[k].size, index_of_piece(pieces[k], position % 4), position);
        r->piece = pieces[k];
        add_field(l, position, l->records - 1);
    }
    if (value == 28 || value >= 64) {
        add_record(l, TONES_242, position % 4 + 1, position); /* "242 p+1" */
        for (unsigned k = 0; k < fields_of(value); k++)
            add_field(l, position, l->records - 1);
    }
}

/* "A plan lists resources by lowest position, then frequency". */
static void list_records(layout *l, const unsigned *row, const division *d)
{
    unsigned record_at[MOST_POSITIONS];
    for (unsigned p = d->first; p < d->end; p++) {
        const resource *r = d->owner[p];
        int is_lowest = r != ITSELF && (r->places & ((1u << p) - 1)) == 0;
        if (r == ITSELF) {
            lay_out_itself(l, p, row[p]);
            continue;
        }
        if (is_lowest)
            add_record(l, r->size, r->index, p)->places = r->places;
        for (unsigned q = p; q < d->end && is_lowest; q++)
            if (has_place(r, q))
                record_at[q] = l->records - 1;
        /* "A resource's fields are those of all its places" */
        for (unsigned k = 0; k < fields_of(row[p]); k++)
            add_field(l, p, record_at[p]);
    }
}

/* 7: "no plan, even with any number of fields", and "Refusal 7 names the lowest segment that lies in no such part with a
 * plan, 8 the lowest segment of a resource over eight fields" (02, T-07). "Segments count from 0." */
void lay_out(const unsigned *row, unsigned positions, layout *l)
{
    division found;
    memset(l, 0, sizeof *l);
    if (!has_plan(row, 0, positions, &found)) {
        unsigned segment = 0;
        while (4 * segment < positions && lies_in_a_plan(row, positions, segment))
            segment++;
        third_demand(4 * segment < positions, "every part has a plan, and the whole has none");
        l->outcome = answer_of(7, 0, segment);
        return;
    }
    list_records(l, row, &found);
    for (unsigned r = 0; r < l->records; r++) {
        if (l->record[r].fields[0] + l->record[r].fields[1] > 8) {
            l->outcome = answer_of(8, 0, l->record[r].segment);
            return;
        }
    }
    l->outcome = answer_of(0, 0, l->records);
}
