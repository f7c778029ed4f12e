/* reference --self-test: the reference held to what the papers print. */
#include "reference.h"

#include <stdio.h>
#include <string.h>

static int passed, failed;

static void expect(int holds, const char *what)
{
    if (holds) {
        passed++;
    } else {
        failed++;
        printf("reference: WRONG: %s\n", what);
    }
}

/* 004's example: channel 2, and channel 1 as printed and with the check that the rule gives. */
static const uint8_t channel_2[23] = {
    0xBF, 0xE6, 0xC3, 0x74, 0x58, 0xA0, 0x83, 0x8C, 0x07, 0x42, 0xAB, 0x09,
    0xD1, 0x52, 0x62, 0x00, 0xD2, 0x52, 0xA8, 0xB4, 0x17, 0x32, 0x00};
static const uint8_t channel_1_printed[23] = {
    0xBF, 0xE6, 0x35, 0x74, 0x30, 0x00, 0x0F, 0x87, 0x07, 0x46, 0x8B, 0x63, 0x06};
static const uint8_t channel_1_mended[23] = {
    0xBF, 0xE6, 0x35, 0x74, 0x30, 0x00, 0x0F, 0x87, 0x07, 0x46, 0x8B, 0xE3, 0x01};

/* Writes bits, given as the papers print them (first sent first), into a string; returns how many. */
static unsigned sent(const char *printed, uint8_t *bytes, size_t length)
{
    unsigned n = 0;
    memset(bytes, 0, length);
    for (; *printed != 0; printed++)
        if (*printed != ' ')
            put_field(bytes, length, n++, 1, *printed == '1');
    return n;
}

static void bits_and_fields(void)
{
    const uint8_t s[4] = {0x01, 0x80, 0xF0, 0x0F};
    uint8_t t[2] = {0xFF, 0xFF};
    expect(bit_of(s, 4, 0) == 1 && bit_of(s, 4, 1) == 0, "the first bit is the lowest bit of byte 0");
    expect(bit_of(s, 4, 15) == 1 && bit_of(s, 4, 14) == 0, "bit 15 is the highest bit of byte 1");
    expect(bit_of(s, 4, 32) == 0, "a bit past the end is 0");
    expect(field_of(s, 4, 20, 8) == 0xFF, "a field over two bytes, lowest bit first");
    expect(field_of(s, 4, 0, 0) == 0, "a field of no bits");
    expect(bits_lacking(s, 4, 30, 9) == 7 && bits_lacking(s, 4, 40, 9) == 9, "bits past the end");
    put_field(t, 2, 6, 4, 0);
    expect(t[0] == 0x3F && t[1] == 0xFC, "a field put over two bytes, all else kept");
    put_field(t, 2, 14, 9, 0);
    expect(t[1] == 0x3C, "bits past the end are dropped");
    expect(first_difference(s, 4, t, 2, 0, 16) == 1, "the lowest differing bit");
    expect(first_difference(s, 4, s, 4, 3, 25) == 25, "no difference");
}

/* "(P) the 18 bits 000111100 001110000 have check 1111", and the blocks of 004 as it prints them. */
static void checks(void)
{
    static const struct { const char *covered, *check; } block[] = {
        {"000111100 001110000", "1111"},
        {"1111 11 010 1 10 0 1111 010110000 101110000", "0110"},
        {"1111 11 010 1 10 0 1111 100001100 101110000", "1101"},
        {"101110000 010011000", "1111"},
        {"11000101101 0001 1 1000 1 1", "1100"}, /* "the rule gives 1100 and decides" */
        {"10000101101 0101 1 001000 01000101101 0010 1 001000", "1100"},
        {"00100101101 0010 1 0000 1 0 10100101101 1110 1 0000 1 0", "0110"},
    };
    for (size_t i = 0; i < sizeof block / sizeof block[0]; i++) {
        uint8_t s[16], c[1];
        unsigned n = sent(block[i].covered, s, sizeof s);
        sent(block[i].check, c, 1);
        expect(check_of(s, sizeof s, 0, n) == c[0], block[i].covered);
    }
    expect(block_is_right(channel_2, 23, 0, 35) && block_is_right(channel_2, 23, 45, 18)
        && block_is_right(channel_2, 23, 73, 44) && block_is_right(channel_2, 23, 127, 44),
        "004's channel 2, each block");
    expect(block_is_right(channel_1_mended, 23, 0, 35) && block_is_right(channel_1_mended, 23, 45, 18)
        && block_is_right(channel_1_mended, 23, 73, 22), "004's channel 1 mended, each block");
    expect(!block_is_right(channel_1_printed, 23, 73, 22), "004's channel 1 as printed, the User block");
}

/* A row's answer and the count of its fields, as "40: (75,75) 8 fields". */
static void row_is(const unsigned *row, unsigned positions, unsigned number, unsigned place, unsigned fields,
                   const char *what)
{
    static layout l;
    lay_out(row, positions, &l);
    expect(l.outcome.number == number && l.outcome.channel == 0 && l.outcome.place == place, what);
    if (number == 0)
        expect(l.fields[0] + l.fields[1] == fields, what);
}

static void only_record_is(const unsigned *row, unsigned positions, size_name size, unsigned index, const char *what)
{
    static layout l;
    lay_out(row, positions, &l);
    expect(l.records == 1 && l.record[0].size == size && l.record[0].index == index, what);
}

/* 01's bench checks on rows, all of them; "Rows by rising position". */
static void rows(void)
{
    static const unsigned
        r_25[1] = {25}, r_29[1] = {29}, r_72_29[2] = {72, 29}, r_29_28[2] = {29, 28}, r_75_75[2] = {75, 75},
        r_75_76[2] = {75, 76}, r_97[4] = {26, 97, 29, 29}, r_97_28[4] = {26, 97, 29, 28},
        r_83[4] = {30, 30, 30, 83}, r_30_29[4] = {30, 30, 30, 29}, r_48_third[4] = {64, 64, 48, 64},
        r_48_fourth[4] = {64, 64, 64, 48}, r_50_third[4] = {28, 28, 50, 28}, r_all_0[16] = {0};
    row_is(r_25, 1, 0, 3, 3, "20: 25 has 3 fields");
    row_is(r_29, 1, 7, 0, 0, "20: 29 is 7");
    row_is(r_72_29, 2, 0, 1, 1, "40: (72,29) one 484, 1 field");
    only_record_is(r_72_29, 2, TONES_484, 1, "40: (72,29) one 484");
    row_is(r_29_28, 2, 7, 0, 0, "40: (29,28) 7");
    row_is(r_75_75, 2, 0, 1, 8, "40: (75,75) 8 fields");
    row_is(r_75_76, 2, 8, 0, 0, "40: (75,76) 8 refused");
    row_is(r_97, 4, 0, 1, 2, "80: (26,97,29,29) 484+242 index 1, 2 fields");
    only_record_is(r_97, 4, TONES_484_242, 1, "80: (26,97,29,29) 484+242 index 1");
    row_is(r_97_28, 4, 7, 0, 0, "80: (26,97,29,28) 7");
    row_is(r_83, 4, 0, 1, 4, "80: (30,30,30,83) 996, 4 fields");
    only_record_is(r_83, 4, TONES_996, 1, "80: (30,30,30,83) 996");
    row_is(r_30_29, 4, 7, 0, 0, "80: (30,30,30,29) 7");
    row_is(r_48_third, 4, 0, 5, 5, "80: (64,64,48,64) accepted");
    row_is(r_48_fourth, 4, 7, 0, 0, "80: (64,64,64,48) 7");
    row_is(r_50_third, 4, 7, 0, 0, "80: (28,28,50,28) 7");
    row_is(r_all_0, 16, 0, 144, 144, "320, all 0, 144 fields");
}

/* "If any plan .. signals that row .., only that plan does": every row of one, two and four carried values,
 * one value standing for each family's eight. */
static void one_plan(void)
{
    static const unsigned value[] = {0, 16, 24, 26, 27, 28, 29, 30, 48, 50, 64, 72, 80, 96, 104, 112, 120};
    const unsigned n = sizeof value / sizeof value[0];
    unsigned most = 0;
    for (unsigned way = 0; way < n * n * n * n; way++) {
        unsigned row[4], rest = way;
        for (unsigned p = 0; p < 4; p++, rest /= n)
            row[p] = value[rest % n];
        for (unsigned positions = 1; positions <= 4; positions *= 2) {
            unsigned plans = plans_of_part(row, 0, positions);
            if (plans > most)
                most = plans;
        }
    }
    expect(most == 1, "no row of a segment is signalled by two plans");
}

/* Each resource of a row has as many subcarriers as its name says, shares none with another and has none in
 * a punctured position. */
static int lie_apart(const unsigned *row, unsigned positions)
{
    static const int count[] = {26, 52, 106, 242, 484, 996, 132, 726, 1992, 1480, 2988, 2476, 3472};
    static char taken[4096];
    static layout l;
    int holds = 1;
    memset(taken, 0, sizeof taken);
    lay_out(row, positions, &l);
    for (unsigned p = 0; p < positions; p++) {
        run runs[MOST_RUNS];
        unsigned n = row[p] == 26 ? punctured_tones(p, positions, runs) : 0;
        for (unsigned k = 0; k < n; k++)
            for (int t = runs[k].first; t <= runs[k].last; t++)
                taken[t + 2048] = 1;
    }
    for (unsigned r = 0; r < l.records; r++) {
        run runs[MOST_RUNS];
        unsigned n = tones_of(&l.record[r], positions, runs);
        int tones = 0;
        for (unsigned k = 0; k < n; k++)
            for (int t = runs[k].first; t <= runs[k].last; t++, tones++) {
                holds = holds && !taken[t + 2048];
                taken[t + 2048] = 1;
            }
        holds = holds && tones == count[l.record[r].size];
    }
    return l.outcome.number == 0 && holds;
}

static void apart(const unsigned *row, unsigned positions, const char *what)
{
    expect(lie_apart(row, positions), what);
}

static void subcarriers(void)
{
    static const unsigned segment[][4] = {
        {0, 15, 26, 19}, {24, 25, 23, 27}, {48, 50, 48, 50}, {64, 28, 71, 9}, {72, 29, 29, 79}, {30, 80, 30, 86},
        {26, 96, 29, 29}, {104, 26, 29, 29}, {29, 29, 26, 112}, {29, 29, 120, 26}, {0, 28, 97, 29}, {29, 127, 28, 0}};
    for (unsigned k = 0; k < sizeof segment / sizeof segment[0]; k++) {
        unsigned row[16];
        for (unsigned p = 0; p < 16; p++)
            row[p] = segment[(k + p / 4) % (sizeof segment / sizeof segment[0])][p % 4];
        for (unsigned positions = 4; positions <= 16; positions *= 2)
            apart(row, positions, "resources apart, each of its size, from 80 MHz");
    }
    for (unsigned value = 0; value <= 50; value++) {
        unsigned row[2] = {value, value};
        if (value <= 28 || value == 48 || value == 50) {
            apart(row, 1, "resources apart, each of its size, at 20 MHz");
            apart(row, 2, "resources apart, each of its size, at 40 MHz");
        }
    }
}

/* The 26s of a segment of zeros have the indices 1 to 18 and 20 to 37: "19 doesn't exist". */
static void indices(void)
{
    static layout l;
    unsigned row[4] = {0, 0, 0, 0}, right = 1;
    lay_out(row, 4, &l);
    for (unsigned k = 0; k < 36; k++)
        right = right && l.record[k].index == k + 1 + (k >= 18);
    expect(l.records == 36 && right, "the 26s of a segment, 19 left out");
}

/* "Add the published values from 88 up"; "6 shrinks to the values still not carried, 52+26 among them" (02, T-07): 31 to 47, 49,
 * 51 to 63 and 304 to 511. */
static void carried_values(void)
{
    for (unsigned value = 0; value < 512; value++) {
        int refused = (value >= 31 && value <= 47) || value == 49 || (value >= 51 && value <= 63) || value >= 304;
        unsigned row[2] = {value, 26};
        static layout l;
        expect(value_is_carried(value) == !refused, "a value that is carried, or not");
        if (value < 72 && value != 29 && value != 30)
            continue;
        lay_out(row, 1, &l);
        expect(l.outcome.number == 7 && (refused || fields_of(value) == (value < 64 ? 0 : value % 8 + 1)), "a value too wide for 20 MHz");
    }
}

/* A larger resource of 320 MHz as 001's table 9-31i1 has it, "RU2 (484T) + RU2 (996T)" and so on: which 484, and which 996s,
 * counted in 160 MHz for a 996+484 and else in 320; a 2x996 is two 996s. */
static const struct {
    size_name size;
    unsigned index, rus_996[3], ru_484;
} mru_of_001[] = {
    {TONES_996_484, 1, {2}, 2}, {TONES_996_484, 2, {2}, 1}, {TONES_996_484, 3, {1}, 4}, {TONES_996_484, 4, {1}, 3},
    {TONES_2X996_484, 1, {2, 3}, 2}, {TONES_2X996_484, 2, {2, 3}, 1}, {TONES_2X996_484, 3, {1, 3}, 4}, {TONES_2X996_484, 4, {1, 3}, 3},
    {TONES_2X996_484, 5, {1, 2}, 6}, {TONES_2X996_484, 6, {1, 2}, 5}, {TONES_2X996_484, 7, {3, 4}, 4}, {TONES_2X996_484, 8, {3, 4}, 3},
    {TONES_2X996_484, 9, {2, 4}, 6}, {TONES_2X996_484, 10, {2, 4}, 5}, {TONES_2X996_484, 11, {2, 3}, 8}, {TONES_2X996_484, 12, {2, 3}, 7},
    {TONES_3X996, 1, {2, 3, 4}, 0}, {TONES_3X996, 2, {1, 3, 4}, 0}, {TONES_3X996, 3, {1, 2, 4}, 0}, {TONES_3X996, 4, {1, 2, 3}, 0},
    {TONES_3X996_484, 1, {2, 3, 4}, 2}, {TONES_3X996_484, 2, {2, 3, 4}, 1}, {TONES_3X996_484, 3, {1, 3, 4}, 4}, {TONES_3X996_484, 4, {1, 3, 4}, 3},
    {TONES_3X996_484, 5, {1, 2, 4}, 6}, {TONES_3X996_484, 6, {1, 2, 4}, 5}, {TONES_3X996_484, 7, {1, 2, 3}, 8}, {TONES_3X996_484, 8, {1, 2, 3}, 7},
};

/* A larger resource of a row: the first of its values, its places, and what each holds with no field. */
typedef struct {
    size_name size;
    unsigned index, value, places, empty[MOST_POSITIONS];
} known;

static known all_known[62];
static unsigned known_ones;

/* 000: "corresponding to 242-tone RU .. 28", "484-tone RU .. 29", "996-tone RU .. 30". */
static void add_part(known *x, unsigned first, unsigned positions, unsigned empty)
{
    for (unsigned p = first; p < first + positions; p++) {
        x->places |= 1u << p;
        x->empty[p] = empty;
    }
}

static known *add_known(size_name size, unsigned index, unsigned value)
{
    known *x = &all_known[known_ones++];
    x->size = size;
    x->index = index;
    x->value = value;
    return x;
}

/* Those that lie in a segment by 01's words: a pair, four, three of four by the position left out. */
static void add_segment(unsigned first)
{
    for (unsigned k = 0; k < 2; k++)
        add_part(add_known(TONES_484, k + 1, 72), first + 2 * k, 2, 29);
    add_part(add_known(TONES_996, 1, 80), first, 4, 30);
    for (unsigned k = 0; k < 4; k++) {
        known *x = add_known(TONES_484_242, k + 1, 96 + 8 * k);
        add_part(x, first + (k < 2 ? 2 : 0), 2, 29);
        add_part(x, first + (k ^ 1), 1, 28);
    }
}

/* An entry of 001's table, its values by 000's: "996+484" from 128 on, "3x996" from 160, "3x996+484" from 192, and of
 * "2x996+484" from 256 on "MRU1 or MRU 7" to "MRU6 or MRU 12". */
static void add_mru(unsigned k, unsigned first)
{
    unsigned index = mru_of_001[k].index;
    unsigned from = mru_of_001[k].size == TONES_996_484 ? 128 : mru_of_001[k].size == TONES_3X996 ? 160
        : mru_of_001[k].size == TONES_3X996_484 ? 192 : 256;
    known *x = add_known(mru_of_001[k].size, index, from + 8 * (from == 256 ? (index - 1) % 6 : index - 1));
    for (unsigned j = 0; j < 3 && mru_of_001[k].rus_996[j] != 0; j++)
        add_part(x, first + 4 * (mru_of_001[k].rus_996[j] - 1), 4, 30);
    if (mru_of_001[k].ru_484 != 0)
        add_part(x, first + 2 * (mru_of_001[k].ru_484 - 1), 2, 29);
}

static void add_all_known(void)
{
    for (unsigned first = 0; first < 16; first += 4)
        add_segment(first);
    for (unsigned first = 0; first < 16; first += 8)
        add_part(add_known(TONES_2X996, 1, 88), first, 8, 30);
    for (unsigned k = 0; k < sizeof mru_of_001 / sizeof mru_of_001[0]; k++) {
        add_mru(k, 0);
        if (mru_of_001[k].size == TONES_996_484)
            add_mru(k, 8);
    }
    expect(known_ones == 62, "the larger resources of 320 MHz");
}

/* A row that this way of dividing signals. Of each resource the lowest place has a field, and the other positions are 242s; or
 * of each that must be named the highest place has eight, and the other positions are 242s without field; or up to eight of
 * its places have one, and the other positions are punctured. */
static void divided_row(const known *const *chosen, unsigned n, unsigned positions, unsigned variant, unsigned *row)
{
    static const unsigned other[3] = {64, 28, 26};
    for (unsigned p = 0; p < positions; p++)
        row[p] = other[variant];
    for (unsigned k = 0; k < n; k++) {
        const known *x = chosen[k];
        unsigned own = 0, highest = 0, lowest = 16;
        for (unsigned p = 0; p < positions; p++) {
            if (!(x->places >> p & 1))
                continue;
            lowest = lowest < p ? lowest : p;
            highest = p;
            row[p] = variant == 2 && own++ < 8 ? x->value : x->empty[p];
        }
        if (variant == 0)
            row[lowest] = x->value;
        if (variant == 1 && x->size != TONES_484 && x->size != TONES_996)
            row[highest] = x->value + 7;
    }
}

static int is_chosen(const record *r, const known *const *chosen, unsigned n)
{
    for (unsigned k = 0; k < n; k++)
        if (r->size == chosen[k]->size && r->index == chosen[k]->index && r->places == chosen[k]->places)
            return 1;
    return 0;
}

/* The larger resources are those that were chosen, "by lowest position". */
static int is_divided_so(const unsigned *row, unsigned positions, const known *const *chosen, unsigned n)
{
    static layout l;
    unsigned larger = 0;
    lay_out(row, positions, &l);
    for (unsigned r = 0; r < l.records; r++) {
        const record *x = &l.record[r];
        if (!(x->places >> x->position & 1) || (x->places & ((1u << x->position) - 1)) != 0 || x->segment != x->position / 4
            || (r > 0 && l.record[r - 1].position >= x->position))
            return 0;
        larger += x->size != TONES_242;
        if (x->size != TONES_242 && !is_chosen(x, chosen, n))
            return 0;
    }
    return l.outcome.number == 0 && larger == n;
}

/* "every resource at other positions keeps its subcarriers and its number of fields". */
static int is_kept(const record *x, const record *y, unsigned positions)
{
    run of_x[MOST_RUNS], of_y[MOST_RUNS];
    unsigned runs = tones_of(x, positions, of_x);
    return x->size == y->size && x->index == y->index && x->segment == y->segment && x->position == y->position
        && x->fields[0] == y->fields[0] && x->fields[1] == y->fields[1] && runs == tones_of(y, positions, of_y)
        && memcmp(of_x, of_y, runs * sizeof of_x[0]) == 0;
}

/* Those of x that are not at p stand in y, in their order: past p as many further on as p has more of them there. */
static int all_are_kept(const layout *x, const layout *y, unsigned p, unsigned positions, unsigned had, unsigned has)
{
    if (x->records - had != y->records - has)
        return 0;
    for (unsigned i = 0; i < x->records; i++)
        if (x->record[i].position != p
            && !is_kept(&x->record[i], &y->record[x->record[i].position < p ? i : i - had + has], positions))
            return 0;
    return 1;
}

/* The User fields of other positions go to the resources that they went to. */
static int owners_are_kept(const layout *x, const layout *y, const unsigned *row, unsigned p, unsigned value, unsigned positions,
                           unsigned had, unsigned has)
{
    for (unsigned channel = 0; channel < 2; channel++) {
        unsigned j = 0, k = 0;
        for (unsigned q = channel; q < positions; q += 2) {
            for (unsigned n = q == p ? 0 : fields_of(row[q]); n > 0; n--, j++, k++) {
                unsigned i = x->owner[channel][j];
                if (y->owner[channel][k] != (x->record[i].position < p ? i : i - had + has))
                    return 0;
            }
            j += q == p ? fields_of(row[p]) : 0;
            k += q == p ? fields_of(value) : 0;
        }
    }
    return 1;
}

static unsigned at_position(const layout *l, unsigned p)
{
    unsigned n = 0;
    for (unsigned i = 0; i < l->records; i++)
        n += l->record[i].position == p;
    return n;
}

static unsigned swept, kept;

/* "replace one value": that of each position whose value is one of these, by each that the position allows. */
static void sweep(const unsigned *row, unsigned positions)
{
    static layout before, after;
    lay_out(row, positions, &before);
    for (unsigned p = 0; p < positions; p++)
        for (unsigned value = 0; value < 512; value++) {
            unsigned there[MOST_POSITIONS], had, has;
            if (!value_is_swept(row[p], p) || !value_is_swept(value, p))
                continue;
            memcpy(there, row, sizeof there);
            there[p] = value;
            lay_out(there, positions, &after);
            had = at_position(&before, p);
            has = at_position(&after, p);
            swept++;
            kept += after.outcome.number == 0 && all_are_kept(&before, &after, p, positions, had, has)
                && owners_are_kept(&before, &after, row, p, value, positions, had, has);
        }
}

static unsigned divisions, found_again;

/* Every way of dividing the positions from p on, those that are taken aside. */
static void divide(unsigned positions, unsigned p, unsigned taken, const known **chosen, unsigned n)
{
    while (p < positions && (taken >> p & 1))
        p++;
    if (p >= positions) {
        int right = 1;
        for (unsigned variant = 0; variant < 3; variant++) {
            unsigned row[MOST_POSITIONS];
            divided_row(chosen, n, positions, variant, row);
            right = right && is_divided_so(row, positions, chosen, n) && lie_apart(row, positions);
            if (positions < 16 || divisions % 61 == 0)
                sweep(row, positions);
        }
        divisions++;
        found_again += (unsigned)right;
        return;
    }
    divide(positions, p + 1, taken, chosen, n);
    for (unsigned k = 0; k < known_ones; k++) {
        unsigned places = all_known[k].places;
        if ((places >> p & 1) && (places & taken) == 0 && (places & ((1u << p) - 1)) == 0 && places >> positions == 0) {
            chosen[n] = &all_known[k];
            divide(positions, p + 1, taken | places, chosen, n + 1);
        }
    }
}

static void every_division(void)
{
    static const unsigned how_many[5] = {1, 2, 9, 90, 8372};
    add_all_known();
    for (unsigned bandwidth = 0; bandwidth <= 4; bandwidth++) {
        const known *chosen[MOST_POSITIONS];
        divisions = found_again = 0;
        divide(positions_of(bandwidth), 0, 0, chosen, 0);
        expect(divisions == how_many[bandwidth], "the ways of dividing a channel into resources");
        expect(found_again == divisions, "each way of dividing a channel is found again, its resources apart");
    }
    expect(swept > 10000 && kept == swept, "another value at one position leaves the resources of the others as they were");
}

/* "Nothing is claimed of 28, which may belong to a 484+242." */
static void not_28(void)
{
    unsigned sevens = 0, row[4] = {64, 28, 96, 29};
    static layout l;
    lay_out(row, 4, &l);
    expect(l.outcome.number == 0 && l.records == 2 && l.record[1].places == 0xE, "a 28 that belongs to a 484+242");
    for (unsigned value = 0; value < 512; value++)
        if (value_is_swept(value, 1)) {
            row[1] = value;
            lay_out(row, 4, &l);
            sevens += l.outcome.number == 7 && l.outcome.place == 0;
        }
    expect(sevens == 38, "without it the row gets 7");
}

/* 02, T-07, by hand. */
static void wide_rows(void)
{
    static const struct {
        unsigned positions, number, place, fields;
        const char *what;
        unsigned row[16];
    } of[] = {
        {8, 0, 1, 1, "160: one 2x996", {88, 30, 30, 30, 30, 30, 30, 30}},
        {8, 0, 1, 8, "160: its own value at the last place", {30, 30, 30, 30, 30, 30, 30, 95}},
        {8, 0, 1, 8, "160: a field at each of its places", {88, 88, 88, 88, 88, 88, 88, 88}},
        {8, 0, 2, 0, "160: a row of 30s alone stays single 996s", {30, 30, 30, 30, 30, 30, 30, 30}},
        {8, 0, 2, 1, "160: two 996s", {30, 30, 30, 30, 30, 30, 80, 30}},
        {8, 7, 0, 0, "160: a 2x996 beside a value of a 996", {88, 30, 30, 30, 30, 80, 30, 30}},
        {8, 7, 0, 0, "160: 29 where 30 is due", {88, 30, 30, 30, 30, 30, 30, 29}},
        {8, 7, 1, 0, "160: the same, its own value in the second segment", {30, 30, 30, 30, 88, 30, 30, 29}},
        {8, 0, 1, 1, "160: a 996+484", {26, 27, 128, 29, 30, 30, 30, 30}},
        {8, 7, 0, 0, "160: 28 on a pair where 29 is due", {26, 27, 128, 28, 30, 30, 30, 30}},
        {8, 7, 0, 0, "160: 30 in a segment half its own", {26, 27, 128, 30, 30, 30, 30, 30}},
        {8, 7, 0, 0, "160: 29 in a segment wholly its own", {26, 27, 128, 29, 30, 30, 29, 29}},
        {8, 0, 2, 0, "160: a 484 and a 996, as no value is a 996+484's", {26, 27, 29, 29, 30, 30, 30, 30}},
        {8, 7, 0, 0, "160: two kinds of 996+484", {26, 27, 128, 29, 136, 30, 30, 30}},
        {8, 0, 5, 5, "160: 48 in a left-out third position, 50 in a fourth", {136, 29, 48, 50, 30, 30, 30, 30}},
        {8, 7, 0, 0, "160: 50 in a left-out third position", {136, 29, 50, 26, 30, 30, 30, 30}},
        {8, 0, 2, 3, "160: a 484 in the left-out pair", {30, 144, 30, 30, 72, 29, 144, 29}},
        {8, 0, 2, 1, "160: a 484 without field there", {30, 144, 30, 30, 29, 29, 29, 29}},
        {8, 7, 0, 0, "160: half of a 484 there", {30, 144, 30, 30, 29, 28, 29, 29}},
        {8, 0, 3, 1, "160: two 28s there", {30, 30, 30, 30, 29, 152, 28, 28}},
        {1, 7, 0, 0, "20: 88", {88}},
        {2, 7, 0, 0, "40: 88", {88, 88}},
        {4, 7, 0, 0, "80: 88", {88, 30, 30, 30}},
        {4, 7, 0, 0, "80: 128", {26, 26, 128, 29}},
        {8, 7, 0, 0, "160: 184", {184, 30, 30, 30, 30, 30, 30, 30}},
        {8, 7, 1, 0, "160: 160", {64, 64, 64, 64, 160, 30, 30, 30}},
        {8, 7, 1, 0, "160: 256 on a 996+484", {26, 26, 29, 29, 30, 30, 30, 256}},
        {16, 0, 2, 2, "320: two 2x996", {30, 30, 30, 30, 88, 30, 30, 30, 30, 30, 30, 88, 30, 30, 30, 30}},
        {16, 0, 3, 1, "320: a 2x996 and two 996s", {30, 30, 30, 30, 88, 30, 30, 30, 30, 30, 30, 30, 30, 30, 30, 30}},
        {16, 7, 1, 0, "320: a 2x996 across the halves", {64, 64, 64, 64, 88, 30, 30, 30, 30, 30, 30, 30, 64, 64, 64, 64}},
        {16, 7, 1, 0, "320: its own value in both", {64, 64, 64, 64, 88, 30, 30, 30, 88, 30, 30, 30, 64, 64, 64, 64}},
        {16, 7, 1, 0, "320: a 996+484 across the halves", {64, 64, 64, 64, 26, 26, 128, 29, 30, 30, 30, 30, 64, 64, 64, 64}},
        {16, 0, 5, 5, "320: a 3x996 around four 242s", {30, 30, 30, 30, 64, 64, 64, 64, 168, 30, 30, 30, 30, 30, 30, 30}},
        {16, 0, 3, 1, "320: a 3x996+484", {30, 30, 30, 30, 30, 30, 30, 30, 30, 30, 30, 30, 28, 28, 29, 240}},
        {16, 7, 0, 0, "320: without field, 30 on its pair", {240, 30, 30, 30, 30, 30, 30, 30, 30, 30, 30, 30, 28, 28, 30, 30}},
        {16, 0, 1, 1, "320: the lower 2x996+484 of 256", {26, 26, 256, 29, 30, 30, 30, 30, 30, 30, 30, 30, 26, 26, 26, 26}},
        {16, 0, 1, 1, "320: the upper one", {26, 26, 26, 26, 26, 26, 256, 29, 30, 30, 30, 30, 30, 30, 30, 30}},
        {16, 0, 2, 1, "320: the lower one by a place that both have", {27, 27, 29, 29, 30, 30, 30, 30, 256, 30, 30, 30, 30, 30, 30, 30}},
        {16, 0, 2, 1, "320: the upper one by the same place", {30, 30, 30, 30, 27, 27, 29, 29, 256, 30, 30, 30, 30, 30, 30, 30}},
        {16, 7, 2, 0, "320: neither", {30, 30, 30, 30, 30, 30, 30, 30, 256, 30, 30, 30, 30, 30, 30, 30}},
        {16, 0, 2, 9, "320: a 996+484 and a 2x996+484 in one half",
         {30, 153, 30, 30, 29, 152, 29, 257, 30, 30, 30, 258, 30, 30, 256, 30}},
        {16, 8, 0, 0, "320: nine fields in four segments", {26, 26, 193, 29, 194, 30, 30, 30, 30, 193, 30, 30, 30, 30, 30, 193}},
        {16, 0, 1, 8, "320: eight", {26, 26, 193, 29, 193, 30, 30, 30, 30, 193, 30, 30, 30, 30, 30, 193}},
        {16, 8, 1, 0, "320: nine from the second segment on", {64, 64, 64, 64, 26, 26, 257, 29, 258, 30, 30, 30, 259, 30, 30, 30}},
        {16, 8, 0, 0, "320: nine in the upper half, of a resource that begins in the lower",
         {30, 30, 30, 30, 79, 72, 64, 64, 172, 30, 30, 30, 171, 30, 30, 30}},
        {16, 8, 1, 0, "320: eight there, and nine of a 484", {30, 30, 30, 30, 79, 72, 64, 64, 171, 30, 30, 30, 171, 30, 30, 30}},
        {16, 7, 2, 0, "320: 7 in the third segment before 8 in the first", {95, 88, 30, 30, 30, 30, 30, 30, 29, 28, 64, 64, 64, 64, 64, 64}},
        {16, 7, 2, 0, "320: a half with a plan, then a segment with none", {88, 30, 30, 30, 30, 30, 30, 30, 29, 28, 64, 64, 64, 64, 64, 64}},
        {16, 7, 1, 0, "320: segments with a plan around one with none", {30, 30, 30, 30, 88, 30, 30, 29, 64, 64, 64, 64, 64, 64, 64, 64}},
        {16, 7, 2, 0, "320: 29 far from a 3x996's own value", {30, 30, 30, 30, 64, 64, 64, 64, 168, 30, 30, 30, 30, 30, 30, 29}},
        {16, 7, 0, 0, "320: the same, in the first segment", {30, 30, 30, 29, 64, 64, 64, 64, 168, 30, 30, 30, 30, 30, 30, 30}},
        {16, 7, 3, 0, "320: a value that is not carried", {30, 30, 30, 30, 30, 30, 30, 30, 30, 30, 30, 30, 304, 30, 30, 30}},
    };
    static const unsigned lower[16] = {26, 26, 29, 29, 30, 30, 30, 30, 301, 30, 30, 30, 26, 26, 26, 26};
    for (unsigned k = 0; k < sizeof of / sizeof of[0]; k++)
        row_is(of[k].row, of[k].positions, of[k].number, of[k].place, of[k].fields, of[k].what);
    only_record_is(of[0].row, 8, TONES_2X996, 1, "160: one 2x996");
    only_record_is(of[8].row, 8, TONES_996_484, 1, "160: a 996+484");
    row_is(lower, 16, 7, 2, 0, "320: a value of another 2x996+484");
}

static void answer_is(answer a, uint32_t number, uint32_t channel, uint64_t place, const char *what)
{
    expect(a.number == number && a.channel == channel && a.place == place, what);
}

/* "004's example: row (26,97,29,29,120,29,28,50)." */
static void example(void)
{
    static const uint32_t words[15] = {
        0x0001E1F6, 0x01BCD778, 0x00434000, 0x21D87661, 0x21C87678, 0x00000232, 0, 0, 0x0000000F, 0,
        0x318DA33F, 0x04ADA147, 0x044DA247, 0x3045A43F, 0x3075A53F};
    uint32_t got[16];
    uint8_t cc1[24], cc2[24], listing[1000];
    static const char expected[] =
        "answer=0\nbw=3\nresources=4\nfields1=1\nfields2=4\nstations=5\n"
        "ru=484+242 index=1 segment=0 users=2 tones=-765:-524,-500:-259,-253:-12\n"
        "ru=484+242 index=4 segment=1 users=1 tones=12:253,259:500,524:765\n"
        "ru=106 index=7 segment=1 users=1 tones=772:877\n"
        "ru=106+26 index=8 segment=1 users=1 tones=879:904,906:1011\n"
        "sta=1443 resource=2\nsta=1441 resource=1\nsta=1442 resource=1\nsta=1444 resource=3\nsta=1445 resource=4\n";
    answer a;
    memset(got, 0xA5, sizeof got);
    answer_is(reference_read(3, channel_1_mended, 23, channel_2, 23, got, 16), 0, 0, 15, "004 mended is accepted");
    expect(memcmp(got, words, sizeof words) == 0, "004's words");
    expect(got[15] == 0xA5A5A5A5, "words past the count keep what they held");
    memset(got, 0xA5, sizeof got);
    answer_is(reference_read(3, channel_1_printed, 23, channel_2, 23, got, 16), 10, 1, 95, "004 as printed is 10");
    expect(got[0] == 0xA5A5A5A5, "a refusal writes nothing");
    answer_is(reference_read(3, channel_1_mended, 23, channel_2, 23, got, 14), 12, 0, 15, "004 with too few words");
    answer_is(reference_read(3, channel_1_mended, 14, channel_2, 23, got, 16), 0, 0, 15, "004 without its padding");
    answer_is(reference_read(3, channel_1_mended, 14, channel_2, 22, got, 16), 9, 2, 175, "004 cut short");
    memset(cc1, 0xA5, sizeof cc1);
    memset(cc2, 0xA5, sizeof cc2);
    answer_is(reference_write(3, words, 15, cc1, 24, cc2, 24), 0, 0, 23, "004's words are written");
    expect(memcmp(cc1, channel_1_mended, 23) == 0 && cc1[23] == 0xA5, "004's channel 1 comes back");
    expect(memcmp(cc2, channel_2, 23) == 0 && cc2[23] == 0xA5, "004's channel 2 comes back");
    answer_is(reference_write(3, words, 15, cc1, 23, cc2, 22), 14, 2, 23, "a writer's buffer too short");
    answer_is(reference_write(3, words, 14, cc1, 24, cc2, 24), 13, 0, 0, "a word too few");
    answer_is(reference_write(2, words, 15, cc1, 24, cc2, 24), 13, 0, 0, "004's words at another bandwidth");
    a = reference_list(3, channel_1_mended, 23, channel_2, 23, listing, sizeof listing);
    answer_is(a, 0, 0, sizeof expected - 1, "004's listing, its length");
    expect(memcmp(listing, expected, sizeof expected - 1) == 0, "004's listing, by 01's tables");
    answer_is(reference_list(3, channel_1_mended, 23, channel_2, 23, listing, sizeof expected - 2), 23, 0,
              sizeof expected - 1, "a listing's buffer too short");
}

/* A frame with the given row and stations, its checks right, built for the checks below. A station's number may have
 * the other eleven bits of its User field above it. */
static size_t frame(unsigned bandwidth, const unsigned *row, const uint32_t *stations, uint8_t cc[2][512])
{
    static layout l;
    unsigned longer = 0, s = 0;
    memset(cc[0], 0, 512);
    memset(cc[1], 0, 512);
    lay_out(row, positions_of(bandwidth), &l);
    for (unsigned c = 0; c < (bandwidth == 0 ? 1u : 2u); c++) {
        unsigned first = bandwidth < 2 ? 26 : 35, end = end_of_channel(bandwidth, l.fields[c]);
        for (unsigned k = 0; k < subfields_of(bandwidth); k++)
            put_field(cc[c], 512, subfield_at(bandwidth, k), 9, row[2 * k + c]);
        put_field(cc[c], 512, first, 4, check_of(cc[c], 512, 0, first));
        if (common_bits(bandwidth) > first + 10) {
            unsigned covered = common_bits(bandwidth) - 10 - (first + 10);
            put_field(cc[c], 512, first + 10 + covered, 4, check_of(cc[c], 512, first + 10, covered));
        }
        for (unsigned j = 0; j < l.fields[c]; j++, s++)
            put_field(cc[c], 512, user_field_at(bandwidth, j), 22, stations == NULL ? 0 : stations[s]);
        for (unsigned j = 0; j < l.fields[c]; j += 2) {
            unsigned at = user_field_at(bandwidth, j), covered = j + 1 < l.fields[c] ? 44 : 22;
            put_field(cc[c], 512, at + covered, 4, check_of(cc[c], 512, at, covered));
        }
        if (end > longer)
            longer = end;
    }
    return (longer + 7) / 8;
}

static size_t hex_line(const char *key, const uint8_t *bytes, size_t length, char *text)
{
    size_t n = (size_t)sprintf(text, "%s", key);
    for (size_t k = 0; k < length; k++)
        n += (size_t)sprintf(text + n, "%02X", bytes[k]);
    return n + (size_t)sprintf(text + n, "\n");
}

/* What the program writes of a frame with this row and these stations. */
static void listing_is(unsigned bandwidth, const unsigned *row, const uint32_t *stations, const char *printed,
                       const char *what)
{
    static char out[MOST_LISTING];
    uint8_t cc[2][512];
    char text[4096];
    size_t bytes = frame(bandwidth, row, stations, cc), n = (size_t)sprintf(text, "bw=%u\n", bandwidth);
    n += hex_line("cc1=", cc[0], bytes, text + n);
    n += hex_line("cc2=", cc[1], bandwidth == 0 ? 0 : bytes, text + n);
    expect(reference_program((const uint8_t *)text, n, out) == strlen(printed)
        && memcmp(out, printed, strlen(printed)) == 0, what);
}

/* The listing that 01 prints, whole, and the program's text. */
static void worked_listing(void)
{
    static const unsigned row[2] = {50, 26};
    static const uint32_t stations[2] = {11, 12};
    listing_is(1, row, stations,
               "answer=0\nbw=1\nresources=2\nfields1=2\nfields2=0\nstations=2\n"
               "ru=106 index=1 segment=0 users=1 tones=-243:-138\n"
               "ru=106+26 index=2 segment=0 users=1 tones=-136:-111,-109:-4\n"
               "sta=11 resource=1\nsta=12 resource=2\n", "01's listing, whole");
}

/* 02, T-07: two frames listed by hand, a 2x996 with fields in both channels, and two joined resources of which each has places
 * between the other's; their words, and back. "index= counts in the resource's own span", segment= "is that of its lowest
 * place". */
static void wide_frames(void)
{
    static const unsigned one[8] = {88, 30, 30, 30, 30, 30, 30, 89},
        two[16] = {30, 153, 30, 30, 29, 152, 29, 257, 30, 30, 30, 258, 30, 30, 256, 30};
    static const uint32_t of_one[3] = {11, 12, 13}, of_two[9] = {101, 201, 202, 203, 204, 205, 206, 207, 208};
    uint8_t cc[2][512], back[2][512];
    uint32_t words[154];
    size_t bytes;
    listing_is(3, one, of_one,
               "answer=0\nbw=3\nresources=1\nfields1=1\nfields2=2\nstations=3\n"
               "ru=2x996 index=1 segment=0 users=3 tones=-1012:-515,-509:-12,12:509,515:1012\n"
               "sta=11 resource=1\nsta=12 resource=1\nsta=13 resource=1\n", "a 2x996, listed");
    listing_is(4, two, of_two,
               "answer=0\nbw=4\nresources=2\nfields1=1\nfields2=8\nstations=9\n"
               "ru=996+484 index=4 segment=0 users=3 tones=-2036:-1539,-1533:-1036,-1012:-771,-765:-524\n"
               "ru=2x996+484 index=7 segment=1 users=6 tones=-500:-259,-253:-12,12:509,515:1012,1036:1533,1539:2036\n"
               "sta=101 resource=2\nsta=201 resource=1\nsta=202 resource=1\nsta=203 resource=1\nsta=204 resource=2\n"
               "sta=205 resource=2\nsta=206 resource=2\nsta=207 resource=2\nsta=208 resource=2\n", "a 996+484 and a 2x996+484, listed");
    bytes = frame(4, two, of_two, cc);
    answer_is(reference_read(4, cc[0], bytes, cc[1], bytes, words, 154), 0, 0, 19, "values above 255 are read");
    expect(words[2] == (30u << 13 | 0x400000) && words[3] == (0x299 | 0x21E << 10 | 0x21E << 20) && words[6] == (0x21E | 0x302 << 10 | 0x21E << 20),
           "values above 255 stand in the words as they are");
    expect((words[10] & 0xFF) == 0x47, "alone in its channel, but not on its resource");
    answer_is(reference_write(4, words, 19, back[0], 512, back[1], 512), 0, 0, bytes, "and back");
    expect(memcmp(back[0], cc[0], bytes) == 0 && memcmp(back[1], cc[1], bytes) == 0, "the same channels of a wide row");
    words[6] ^= 1u << 10 ^ 2u << 10; /* one field less and one too many */
    answer_is(reference_write(4, words, 19, back[0], 512, back[1], 512), 13, 0, 0, "words that tell of another number of fields");
}

/* 02, T-01: "stations= leaves it out and its line has none for the number, resource= staying". "It keeps its
 * User field, its word and its share of the eight"; "The repeat check was never about it." */
static void unassigned(void)
{
    static const unsigned row[2] = {50, 26}, shared[2] = {75, 75}, over[2] = {75, 76}, alone[1] = {64}, upper[2] = {26, 66};
    static const uint32_t second[2] = {11, 2046}, beside[2] = {2045, 2047}, of_channel_2[3] = {2046, 7, 2046};
    static const uint32_t none[9] = {2046, 2046, 2046, 2046, 2046, 2046, 2046, 2046, 2046};
    uint8_t cc[2][512];
    uint32_t words[154];
    size_t bytes;
    listing_is(1, row, second,
               "answer=0\nbw=1\nresources=2\nfields1=2\nfields2=0\nstations=1\n"
               "ru=106 index=1 segment=0 users=1 tones=-243:-138\n"
               "ru=106+26 index=2 segment=0 users=1 tones=-136:-111,-109:-4\n"
               "sta=11 resource=1\nsta=none resource=2\n", "a resource that nobody has");
    listing_is(1, row, beside,
               "answer=0\nbw=1\nresources=2\nfields1=2\nfields2=0\nstations=2\n"
               "ru=106 index=1 segment=0 users=1 tones=-243:-138\n"
               "ru=106+26 index=2 segment=0 users=1 tones=-136:-111,-109:-4\n"
               "sta=2045 resource=1\nsta=2047 resource=2\n", "2045 and 2047 are stations");
    listing_is(0, alone, none,
               "answer=0\nbw=0\nresources=1\nfields1=1\nfields2=0\nstations=0\n"
               "ru=242 index=1 segment=0 users=1 tones=-122:-2,2:122\nsta=none resource=1\n", "20 MHz, nobody at all");
    listing_is(1, upper, of_channel_2,
               "answer=0\nbw=1\nresources=1\nfields1=0\nfields2=3\nstations=1\n"
               "ru=242 index=2 segment=0 users=3 tones=3:244\n"
               "sta=none resource=1\nsta=7 resource=1\nsta=none resource=1\n", "fields of channel 2 that nobody has");
    listing_is(1, shared, none,
               "answer=0\nbw=1\nresources=1\nfields1=4\nfields2=4\nstations=0\n"
               "ru=484 index=1 segment=0 users=8 tones=-244:-3,3:244\n"
               "sta=none resource=1\nsta=none resource=1\nsta=none resource=1\nsta=none resource=1\n"
               "sta=none resource=1\nsta=none resource=1\nsta=none resource=1\nsta=none resource=1\n",
               "eight fields of one resource, nobody's");
    listing_is(1, over, none, "answer=8\nchannel=0\nplace=0\n", "a share of the eight is nobody's too");
    bytes = frame(1, shared, none, cc);
    answer_is(reference_read(1, cc[0], bytes, cc[1], bytes, words, 154), 0, 0, 18, "a word for each, 2046 repeating");
    expect((words[10] >> 8 & 0x7FF) == 2046 && (words[17] >> 8 & 0x7FF) == 2046, "the words say 2046");
}

/* The list of named fields is this one. */
static void fields_are(unsigned bandwidth, unsigned users, const named_field *written, size_t count, const char *what)
{
    named_field field[MOST_NAMED];
    int same = named_fields(bandwidth, users, field) == count;
    for (size_t k = 0; k < count && same; k++)
        same = field[k].at == written[k].at && field[k].width == written[k].width;
    expect(same, what);
}

/* "Layout of a channel", added up by hand. */
static void written_fields(void)
{
    static const named_field
        one_at_20[] = {{0, 4}, {4, 2}, {6, 3}, {9, 1}, {10, 2}, {12, 1}, {13, 4}, {17, 9}, {26, 4}, {30, 6},
                       {36, 22}, {58, 4}, {62, 6}},
        two_at_40[] = {{0, 4}, {4, 2}, {6, 3}, {9, 1}, {10, 2}, {12, 1}, {13, 4}, {17, 9}, {26, 4}, {30, 6},
                       {36, 22}, {58, 22}, {80, 4}, {84, 6}},
        none_at_80[] = {{0, 4}, {4, 2}, {6, 3}, {9, 1}, {10, 2}, {12, 1}, {13, 4}, {17, 9}, {26, 9}, {35, 4}, {39, 6}},
        three_at_160[] = {{0, 4}, {4, 2}, {6, 3}, {9, 1}, {10, 2}, {12, 1}, {13, 4}, {17, 9}, {26, 9}, {35, 4}, {39, 6},
                          {45, 9}, {54, 9}, {63, 4}, {67, 6}, {73, 22}, {95, 22}, {117, 4}, {121, 6}, {127, 22},
                          {149, 4}, {153, 6}},
        one_at_320[] = {{0, 4}, {4, 2}, {6, 3}, {9, 1}, {10, 2}, {12, 1}, {13, 4}, {17, 9}, {26, 9}, {35, 4}, {39, 6},
                        {45, 9}, {54, 9}, {63, 9}, {72, 9}, {81, 9}, {90, 9}, {99, 4}, {103, 6}, {109, 22}, {131, 4},
                        {135, 6}};
    fields_are(0, 1, one_at_20, 13, "20 MHz, one User field: the named fields");
    fields_are(1, 2, two_at_40, 14, "40 MHz, two User fields: the named fields");
    fields_are(2, 0, none_at_80, 11, "80 MHz, no User field: the named fields");
    fields_are(3, 3, three_at_160, 22, "160 MHz, three User fields: the named fields");
    fields_are(4, 1, one_at_320, 22, "320 MHz, one User field: the named fields");
}

static int is_named(const named_field *field, unsigned count, unsigned at, unsigned width)
{
    for (unsigned k = 0; k < count; k++)
        if (field[k].at == at && field[k].width == width)
            return 1;
    return 0;
}

static int check_is_named(const named_field *field, unsigned count, unsigned at)
{
    return is_named(field, count, at, 4) && is_named(field, count, at + 4, 6);
}

/* Each field starts where the one before it ends, the first at 0; the last ends where the padding starts. */
static int fields_tile(unsigned bandwidth, unsigned users)
{
    named_field field[MOST_NAMED];
    unsigned count = named_fields(bandwidth, users, field), end = 0;
    for (unsigned k = 0; k < count; k++) {
        if (field[k].at != end || field[k].width == 0)
            return 0;
        end += field[k].width;
    }
    return end == end_of_channel(bandwidth, users);
}

/* What the reader reads and checks is on the list: subfields, User fields, and each check with its tail. */
static int what_is_read_is_named(unsigned bandwidth, unsigned users)
{
    named_field field[MOST_NAMED];
    unsigned count = named_fields(bandwidth, users, field);
    int named = check_is_named(field, count, first_check_at(bandwidth));
    if (further_subfields(bandwidth) != 0)
        named = named && check_is_named(field, count, second_check_at(bandwidth));
    for (unsigned k = 0; k < subfields_of(bandwidth); k++)
        named = named && is_named(field, count, subfield_at(bandwidth, k), 9);
    for (unsigned j = 0; j < users; j++)
        named = named && is_named(field, count, user_field_at(bandwidth, j), 22);
    for (unsigned j = 0; j < users; j += 2)
        named = named && check_is_named(field, count, user_field_at(bandwidth, j) + (j + 1 < users ? 44 : 22));
    return named;
}

static void every_field(void)
{
    for (unsigned bandwidth = 0; bandwidth <= 4; bandwidth++) {
        int tile = 1, named = 1;
        for (unsigned users = 0; users <= 72; users++) {
            tile = tile && fields_tile(bandwidth, users);
            named = named && what_is_read_is_named(bandwidth, users);
        }
        expect(tile, "the named fields leave no gap and do not overlap, up to the padding");
        expect(named, "what is read and checked is a named field");
    }
}

/* A frame of this row, its channels cut to so many bytes. */
static void cut_is(unsigned bandwidth, const unsigned *row, size_t bytes_1, size_t bytes_2, uint32_t number,
                   uint32_t channel, uint64_t place)
{
    uint8_t cc[2][512];
    uint32_t words[154];
    char what[80];
    frame(bandwidth, row, NULL, cc);
    sprintf(what, "code %u, cut to %u and %u bytes: %u %u %u", bandwidth, (unsigned)bytes_1, (unsigned)bytes_2,
            (unsigned)number, (unsigned)channel, (unsigned)place);
    answer_is(reference_read(bandwidth, cc[0], bytes_1, cc[1], bytes_2, words, 154), number, channel, place, what);
}

/* 02, T-03: "3 and 9 now give as place the first bit of the field that didn't fit, meaning the smallest named in
 * document 01's layout, a User field being one." Places by length in bytes, counted out by hand. */
static void cut(void)
{
    static const unsigned r_25[1] = {25}, r_48_25[2] = {48, 25}, r_80[4] = {64, 26, 26, 25},
        r_160[8] = {26, 97, 29, 29, 120, 29, 28, 50}, zeros[16] = {0};
    static const unsigned
        three_at_20[16] = {0, 6, 13, 17, 30, 36, 36, 36, 58, 58, 80, 84, 90, 90, 112, 116},
        two_at_40[12] = {0, 6, 13, 17, 30, 36, 36, 36, 58, 58, 80, 84},
        three_at_40[16] = {0, 6, 13, 17, 30, 36, 36, 36, 58, 58, 80, 84, 90, 90, 112, 116},
        one_at_80[10] = {0, 6, 13, 17, 26, 39, 45, 45, 45, 71},
        three_at_80[17] = {0, 6, 13, 17, 26, 39, 45, 45, 45, 67, 67, 67, 93, 99, 99, 99, 125},
        one_at_160[14] = {0, 6, 13, 17, 26, 39, 45, 54, 63, 67, 73, 73, 95, 99},
        four_at_160[23] = {0, 6, 13, 17, 26, 39, 45, 54, 63, 67, 73, 73, 95, 95, 95, 117, 127, 127, 127, 149, 149, 149,
                           175},
        many_at_320[18] = {0, 6, 13, 17, 26, 39, 45, 54, 63, 72, 72, 81, 90, 103, 109, 109, 109, 131};
    for (unsigned n = 0; n < 16; n++)
        cut_is(0, r_25, n, 0, n < 5 ? 3 : 9, 1, three_at_20[n]);
    for (unsigned n = 0; n < 12; n++)
        cut_is(1, r_48_25, n, 16, n < 5 ? 3 : 9, 1, two_at_40[n]);
    for (unsigned n = 0; n < 16; n++)
        cut_is(1, r_48_25, 12, n, n < 5 ? 3 : 9, 2, three_at_40[n]);
    for (unsigned n = 0; n < 10; n++)
        cut_is(2, r_80, n, 17, n < 6 ? 3 : 9, 1, one_at_80[n]);
    for (unsigned n = 0; n < 17; n++)
        cut_is(2, r_80, 10, n, n < 6 ? 3 : 9, 2, three_at_80[n]);
    for (unsigned n = 0; n < 14; n++)
        cut_is(3, r_160, n, 23, n < 10 ? 3 : 9, 1, one_at_160[n]);
    for (unsigned n = 0; n < 23; n++)
        cut_is(3, r_160, 14, n, n < 10 ? 3 : 9, 2, four_at_160[n]);
    for (unsigned n = 0; n < 18; n++) {
        cut_is(4, zeros, n, 257, n < 14 ? 3 : 9, 1, many_at_320[n]);
        cut_is(4, zeros, 257, n, n < 14 ? 3 : 9, 2, many_at_320[n]);
    }
    /* the last block at 320 MHz: User fields at 1999 and 2021, check at 2043, tail at 2047, padding at 2053 */
    cut_is(4, zeros, 249, 257, 9, 1, 1989);
    cut_is(4, zeros, 250, 257, 9, 1, 1999);
    cut_is(4, zeros, 253, 257, 9, 1, 2021);
    cut_is(4, zeros, 257, 255, 9, 2, 2021);
    cut_is(4, zeros, 257, 256, 9, 2, 2047);
    /* "inside one, channel 1 first", and 3 before 9 */
    cut_is(1, r_48_25, 4, 0, 3, 1, 30);
    cut_is(1, r_48_25, 11, 5, 9, 1, 84);
    cut_is(1, r_48_25, 11, 4, 3, 2, 30);
    /* whole: the last byte has the last bit of the last tail */
    cut_is(0, r_25, 16, 0, 0, 0, 13);
    cut_is(1, r_48_25, 12, 16, 0, 0, 15);
    cut_is(4, zeros, 257, 257, 0, 0, 154);
}

static void text_is(const char *text, const char *expected)
{
    static char out[MOST_LISTING];
    size_t n = reference_program((const uint8_t *)text, strlen(text), out);
    expect(n == strlen(expected) && memcmp(out, expected, n) == 0, text);
}

static void texts(void)
{
    static char out[MOST_LISTING];
    static uint8_t longest[8193];
    text_is("", "answer=22\nchannel=0\nplace=1\n");
    text_is("bw=1", "answer=22\nchannel=0\nplace=1\n");
    text_is("bw=10\ncc1=\ncc2=\n", "answer=22\nchannel=0\nplace=1\n");
    text_is("bw=1\r\ncc1=\r\ncc2=\r\n", "answer=22\nchannel=0\nplace=1\n");
    text_is("bw=1\n", "answer=22\nchannel=0\nplace=2\n");
    text_is("bw=1\ncc1=ab\ncc2=\n", "answer=22\nchannel=0\nplace=2\n");
    text_is("bw=1\ncc1=ABC\ncc2=\n", "answer=22\nchannel=0\nplace=2\n");
    text_is("bw=1\ncc1=\ncc2=", "answer=22\nchannel=0\nplace=3\n");
    text_is("bw=1\ncc1=\ncc2=\n\n", "answer=22\nchannel=0\nplace=4\n");
    text_is("bw=9\ncc1=\ncc2=\n", "answer=1\nchannel=0\nplace=0\n");
    text_is("bw=9\ncc1=\ncc3=\n", "answer=22\nchannel=0\nplace=3\n");
    text_is("bw=1\ncc1=\ncc2=\n", "answer=3\nchannel=1\nplace=0\n"); /* "channel 1 empty is refused with 3" */
    text_is("bw=0\ncc1=\ncc2=00\n", "answer=2\nchannel=2\nplace=0\n");
    memcpy(longest, "bw=1\ncc1=\ncc2=", 14);
    memset(longest + 14, '0', 8178);
    longest[8191] = '\n';
    expect(reference_program(longest, 8192, out) == 28 && memcmp(out, "answer=22\nchannel=0\nplace=3\n", 28) == 0,
           "8,192 bytes are read: an odd number of digits is line 3");
    expect(reference_program(longest, 8193, out) == 28 && memcmp(out, "answer=22\nchannel=0\nplace=0\n", 28) == 0,
           "8,193 bytes are too many");
}

/* The answers that the checks above do not reach, and the order of two that meet. */
static void answers(void)
{
    static uint8_t cc[2][512];
    static uint8_t large[513];
    uint32_t words[154];
    uint8_t back[2][600];
    static const unsigned zeros[16] = {0}, not_carried[4] = {0, 0, 31, 0}, beyond[4] = {0, 511, 0, 0},
        unplanned[16] = {0, 0, 0, 0, 75, 76, 0, 0, 0, 0, 0, 0, 0, 0, 0, 29}, nine[8] = {72, 29, 79, 72, 79, 72, 29, 29};
    static const uint32_t twice[2] = {2006, 2006}, free_to_repeat[2] = {2007, 2007};
    static const unsigned shared[2] = {72, 72}, alone[1] = {64};
    size_t bytes;
    answer_is(reference_read(5, NULL, 0, NULL, 0, words, 0), 1, 0, 0, "a bandwidth code above 4");
    answer_is(reference_read(4, large, 513, large, 513, words, 0), 2, 1, 0, "channel 1 over 512 bytes");
    answer_is(reference_read(4, NULL, 0, large, 513, words, 0), 2, 2, 0, "2 in channel 2 before 3 in channel 1");
    answer_is(reference_read(0, NULL, 0, large, 1, words, 0), 2, 2, 0, "channel 2 at 20 MHz");
    answer_is(reference_read(1, large, 5, large, 4, words, 0), 3, 2, 30, "3 in channel 2 before 4 in channel 1");
    answer_is(reference_read(1, large, 5, large, 5, words, 0), 4, 1, 26, "the check of zeros is not zero");
    bytes = frame(4, zeros, NULL, cc);
    expect(bytes == 257, "320, all 0: 257 bytes");
    answer_is(reference_read(4, cc[0], bytes, cc[1], bytes, words, 154), 0, 0, 154, "320, all 0: 154 words");
    answer_is(reference_write(4, words, 154, back[0], 600, back[1], 600), 0, 0, 257, "and back");
    expect(memcmp(back[0], cc[0], 257) == 0 && memcmp(back[1], cc[1], 257) == 0, "the same channels");
    cc[1][12] ^= 0x10; /* bit 100: a tail or check of the second block */
    answer_is(reference_read(4, cc[0], bytes, cc[1], bytes, words, 154), 4, 2, 99, "the second check of channel 2");
    bytes = frame(0, alone, NULL, cc);
    put_field(cc[0], 512, 6, 3, 5);
    put_field(cc[0], 512, 26, 4, check_of(cc[0], 512, 0, 26));
    answer_is(reference_read(0, cc[0], bytes, NULL, 0, words, 154), 5, 1, 6, "LTF symbols 5");
    bytes = frame(1, shared, NULL, cc);
    put_field(cc[1], 512, 6, 3, 5);
    put_field(cc[1], 512, 26, 4, check_of(cc[1], 512, 0, 26));
    answer_is(reference_read(1, cc[0], bytes, cc[1], bytes, words, 154), 5, 2, 6, "overflows that differ");
    bytes = frame(2, not_carried, NULL, cc);
    answer_is(reference_read(2, cc[0], bytes, cc[1], bytes, words, 154), 6, 1, 26, "31 is 6");
    bytes = frame(2, beyond, NULL, cc);
    answer_is(reference_read(2, cc[0], bytes, cc[1], bytes, words, 154), 6, 2, 17, "511 is 6");
    bytes = frame(4, unplanned, NULL, cc);
    answer_is(reference_read(4, cc[0], bytes, cc[1], bytes, words, 154), 7, 0, 3, "7 in segment 3 before 8 in segment 1");
    bytes = frame(3, nine, NULL, cc);
    answer_is(reference_read(3, cc[0], bytes, cc[1], bytes, words, 154), 8, 0, 0, "8 in the lowest segment");
    bytes = frame(1, shared, twice, cc);
    answer_is(reference_read(1, cc[0], bytes, cc[1], bytes, words, 154), 11, 2, 36, "a station twice, in channel 2");
    bytes = frame(1, shared, free_to_repeat, cc);
    answer_is(reference_read(1, cc[0], bytes, cc[1], bytes, words, 154), 0, 0, 12, "2007 may repeat");
    expect((words[10] & 0xFF) == 0x47 && (words[11] & 0xFF) == 0x47, "one field in each channel: a shared resource");
    bytes = frame(0, alone, NULL, cc);
    answer_is(reference_read(0, cc[0], bytes, NULL, 0, words, 154), 0, 0, 11, "20 MHz");
    memset(back, 0xA5, sizeof back);
    answer_is(reference_write(0, words, 11, back[0], 600, NULL, 0), 0, 0, 9, "20 MHz back, channel 2 not measured");
    expect(back[0][9] == 0xA5 && back[1][0] == 0xA5, "bytes past the count keep what they held");
    words[9] = 1;
    answer_is(reference_write(0, words, 11, back[0], 600, NULL, 0), 13, 0, 0, "a bit that no reading sets");
    answer_is(reference_write(9, words, 11, back[0], 600, NULL, 0), 1, 0, 0, "the writer's 1");
    answer_is(reference_write_bytes(0, large, 41, back[0], 600, NULL, 0), 13, 0, 0, "a word text not divisible by four");
}

/* 02, T-02: an entry's five bytes, added up as one number of 40 bits: B0 is bit 12, B7-B1 bits 13 to 19, PS160 bit 39. */
static void entry_of(uint64_t aid12, uint64_t b0, uint64_t value, uint64_t rest, uint64_t ps160, uint8_t entry[5])
{
    uint64_t n = aid12 + 0x1000 * b0 + 0x2000 * value + 0x100000 * rest + 0x8000000000 * ps160;
    for (unsigned k = 0; k < 5; k++)
        entry[k] = (uint8_t)(n >> 8 * k);
}

/* A record's eight numbers, little-endian. */
static void record_of(const uint32_t number[8], uint8_t record[32])
{
    for (unsigned k = 0; k < 32; k++)
        record[k] = (uint8_t)(number[k / 4] >> k % 4 * 8);
}

/* 001's Table 9-31i1 as far as 20, 40 and 80 MHz go, row by row, less what 02 (T-02) does not name: reserved values,
 * 52+26, and of "86-89" the MRU6 and MRU7 that 01 does not allow. */
static const struct {
    unsigned first, last, bandwidth; /* the narrowest */
    uint32_t size, index;            /* the index of the first */
} row_of_001[] = {
    {0, 8, 0, 26, 1}, {9, 17, 1, 26, 10}, {19, 36, 2, 26, 20},
    {37, 40, 0, 52, 1}, {41, 44, 1, 52, 5}, {45, 52, 2, 52, 9},
    {53, 54, 0, 106, 1}, {55, 56, 1, 106, 3}, {57, 60, 2, 106, 5},
    {61, 61, 0, 242, 1}, {62, 62, 1, 242, 2}, {63, 64, 2, 242, 3},
    {65, 65, 1, 484, 1}, {66, 66, 2, 484, 2},
    {67, 67, 2, 996, 1},
    {82, 83, 0, 132, 1}, {84, 85, 1, 132, 3}, {86, 86, 2, 132, 5}, {89, 89, 2, 132, 8},
    {90, 93, 2, 726, 1},
};

/* Every value under every bandwidth, read and written back. */
static void trigger_values(void)
{
    static const unsigned how_many[3] = {18, 37, 77};
    for (uint32_t bandwidth = 0; bandwidth <= 2; bandwidth++) {
        unsigned named = 0;
        for (unsigned value = 0; value < 128; value++) {
            uint32_t number[8] = {7, 0, 0, 1, 11, 0, 33, 90};
            uint8_t entry[5], right[32], record[32], back[5];
            char what[80];
            answer a;
            sprintf(what, "code %u, value %u of a User Info", (unsigned)bandwidth, value);
            entry_of(7, 0, value, 1 + 2 * 11 + 64 * 33 + 4096 * 90, 0, entry);
            a = reference_trigger_read(bandwidth, entry, 5, record, 32);
            for (unsigned k = 0; k < sizeof row_of_001 / sizeof row_of_001[0]; k++)
                if (value >= row_of_001[k].first && value <= row_of_001[k].last
                    && bandwidth >= row_of_001[k].bandwidth) {
                    number[1] = row_of_001[k].size;
                    number[2] = row_of_001[k].index + value - row_of_001[k].first;
                }
            if (number[1] == 0) {
                answer_is(a, 17, 0, 0, what);
                continue;
            }
            named++;
            record_of(number, right);
            answer_is(a, 0, 0, 32, what);
            expect(memcmp(record, right, 32) == 0, what);
            answer_is(reference_trigger_write(bandwidth, right, 32, back, 5), 0, 0, 5, what);
            expect(memcmp(back, entry, 5) == 0, what);
        }
        expect(named == how_many[bandwidth], "how many values a bandwidth names");
    }
}

/* Two entries counted out by hand: AID12 5, value 61, coding 1, MCS 7, reserved 1, SS 9, target power 60 are
 * 0x005 + (0x7A << 12) + (1 << 20) + (7 << 21) + (1 << 25) + (9 << 26) + (60 << 32) = 0x3C26F7A005; all bits set but B0,
 * PS160 and those that the value 36 has not; and none. */
static void trigger_bytes(void)
{
    static const struct {
        uint8_t entry[5];
        uint32_t number[8];
    } by_hand[] = {{{0x05, 0xA0, 0xF7, 0x26, 0x3C}, {5, 242, 1, 1, 7, 1, 9, 60}},
                   {{0xFF, 0x8F, 0xF4, 0xFF, 0x7F}, {4095, 26, 37, 1, 15, 1, 63, 127}},
                   {{0, 0, 0, 0, 0}, {0, 26, 1, 0, 0, 0, 0, 0}}};
    for (unsigned k = 0; k < 3; k++) {
        uint8_t right[32], record[40], back[8];
        record_of(by_hand[k].number, right);
        memset(record, 0xA5, sizeof record);
        memset(back, 0xA5, sizeof back);
        answer_is(reference_trigger_read(2, by_hand[k].entry, 5, record, 40), 0, 0, 32, "five bytes by hand are read");
        expect(memcmp(record, right, 32) == 0 && record[32] == 0xA5, "five bytes by hand: the record and no more");
        answer_is(reference_trigger_write(2, right, 32, back, 8), 0, 0, 5, "a record by hand is written");
        expect(memcmp(back, by_hand[k].entry, 5) == 0 && back[5] == 0xA5, "a record by hand: the bytes and no more");
    }
}

/* "in that order after 1": 15, 24, 16, 17, and 23 last. "Channel and place are 0 here". */
static void trigger_refusals(void)
{
    uint8_t entry[10] = {0}, record[32];
    entry_of(2007, 1, 127, 0, 1, entry);
    answer_is(reference_trigger_read(3, entry, 4, record, 0), 1, 0, 0, "a Trigger's code 3 is 1, before 15");
    answer_is(reference_trigger_read(0xFFFFFFFF, entry, 5, record, 0), 1, 0, 0, "a Trigger's largest code is 1");
    answer_is(reference_trigger_read(2, NULL, 0, record, 0), 15, 0, 0, "no bytes are 15");
    answer_is(reference_trigger_read(2, entry, 4, record, 0), 15, 0, 0, "four bytes are 15, before 24");
    answer_is(reference_trigger_read(2, entry, 6, record, 0), 15, 0, 0, "six bytes are 15");
    answer_is(reference_trigger_read(2, entry, 10, record, 0), 15, 0, 0, "two entries are 15 where one is read");
    answer_is(reference_trigger_read(2, entry, 5, record, 0), 24, 0, 0, "AID12 2007 is 24, before 16");
    entry_of(2006, 0, 127, 0, 1, entry);
    answer_is(reference_trigger_read(2, entry, 5, record, 0), 16, 0, 0, "PS160 is 16, before 17");
    entry_of(2008, 1, 18, 0, 0, entry);
    answer_is(reference_trigger_read(2, entry, 5, record, 0), 16, 0, 0, "B0 is 16, before 17");
    entry_of(4095, 0, 18, 0, 0, entry);
    answer_is(reference_trigger_read(2, entry, 5, record, 0), 17, 0, 0, "a reserved value is 17, before 23");
    entry_of(2046, 0, 67, 0, 0, entry);
    answer_is(reference_trigger_read(1, entry, 5, record, 0), 17, 0, 0, "a value too wide is 17, before 23");
    memset(record, 0xA5, sizeof record);
    answer_is(reference_trigger_read(2, entry, 5, record, 31), 23, 0, 32, "a record's room is 32 bytes");
    expect(record[0] == 0xA5, "23 writes nothing");
}

/* The same of the writer: 1, 24, 17, 23. One number of a right record is changed at a time. */
static void trigger_writer(void)
{
    static const uint32_t limit[8] = {4096, 0, 0, 2, 16, 2, 64, 128};
    static const struct { uint32_t size, index; } none[] = {
        {26, 0}, {26, 19}, {26, 38}, {52, 0}, {52, 17}, {106, 0}, {106, 9}, {242, 0}, {242, 5}, {484, 0}, {484, 3},
        {996, 0}, {996, 2}, {132, 0}, {132, 6}, {132, 7}, {132, 9}, {726, 0}, {726, 5}, {78, 1}, {0, 0}, {0, 1},
        {1992, 1}, {26, 0x80000001}, {26 + 256, 1}};
    uint32_t number[8] = {2007, 26, 1, 0, 0, 0, 0, 0};
    uint8_t record[40] = {0}, entry[8];
    record_of(number, record);
    answer_is(reference_trigger_write(3, record, 32, entry, 0), 1, 0, 0, "the writer's 1, before 24");
    answer_is(reference_trigger_write(2, record, 32, entry, 0), 24, 0, 0, "the writer's 24, before 23");
    answer_is(reference_trigger_write(2, record, 4, entry, 0), 24, 0, 0, "24 in a record of four bytes");
    answer_is(reference_trigger_write(2, record, 3, entry, 0), 17, 0, 0, "17 for a record of three");
    record[3] = 1;
    answer_is(reference_trigger_write(2, record, 32, entry, 0), 17, 0, 0, "2007 in the low bits alone is not 2007");
    number[0] = 2006;
    record_of(number, record);
    for (size_t length = 0; length <= 40; length++)
        answer_is(reference_trigger_write(2, record, length, entry, 8), length == 32 ? 0 : 17, 0, length == 32 ? 5 : 0,
                  "a record is 32 bytes");
    memset(entry, 0xA5, sizeof entry);
    for (size_t room = 0; room < 5; room++)
        answer_is(reference_trigger_write(2, record, 32, entry, room), 23, 0, 5, "an entry's room is five bytes");
    expect(entry[0] == 0xA5, "the writer's 23 writes nothing");
    for (unsigned k = 0; k < 8; k++) {
        uint32_t kept = number[k];
        if (limit[k] == 0)
            continue;
        number[k] = limit[k] - 1;
        record_of(number, record);
        answer_is(reference_trigger_write(0, record, 32, entry, 5), 0, 0, 5, "the largest number that its field holds");
        number[k] = limit[k];
        record_of(number, record);
        answer_is(reference_trigger_write(0, record, 32, entry, 5), 17, 0, 0, "a number that does not fit its field");
        number[k] = kept;
    }
    for (unsigned k = 0; k < sizeof none / sizeof none[0]; k++) {
        number[1] = none[k].size;
        number[2] = none[k].index;
        record_of(number, record);
        answer_is(reference_trigger_write(2, record, 32, entry, 5), 17, 0, 0, "no such resource");
    }
    number[1] = 242;
    number[2] = 3;
    record_of(number, record);
    answer_is(reference_trigger_write(2, record, 32, entry, 5), 0, 0, 5, "242 index 3 at 80 MHz");
    answer_is(reference_trigger_write(1, record, 32, entry, 5), 17, 0, 0, "242 index 3 is too wide for 40 MHz");
}

/* The overlaps of entries with these values, up to the first 255; what the pairs are, up to the first 0. */
static void overlaps_are(uint32_t bandwidth, const unsigned *values, const uint8_t *right, const char *what)
{
    uint8_t entries[5 * 32], pairs[992];
    size_t n = 0, m = 0;
    for (; values[n] != 255; n++)
        entry_of(1 + n % 2, 0, values[n], 0, 0, entries + 5 * n);
    while (right[2 * m] != 0)
        m++;
    memset(pairs, 0xA5, sizeof pairs);
    answer_is(reference_trigger_overlaps(bandwidth, entries, 5 * n, pairs, sizeof pairs), 0, 0, m, what);
    expect(memcmp(pairs, right, 2 * m) == 0 && pairs[2 * m] == 0xA5, what);
}

/* The same of two values in either order: whether they share a subcarrier. */
static void pair_is(uint32_t bandwidth, unsigned x, unsigned y, int share, const char *what)
{
    static const uint8_t one[4] = {1, 2, 0, 0}, none[2] = {0, 0};
    unsigned values[3] = {x, y, 255}, turned[3] = {y, x, 255};
    overlaps_are(bandwidth, values, share ? one : none, what);
    overlaps_are(bandwidth, turned, share ? one : none, what);
}

static void trigger_overlaps(void)
{
    static const unsigned nothing[] = {255}, alone[] = {67, 255}, group[] = {61, 61, 61, 255},
        mixed[] = {61, 0, 61, 4, 0, 255}, far[] = {67, 67, 36, 0, 36, 255}, apart[] = {53, 4, 54, 62, 66, 255},
        nested[] = {0, 37, 53, 82, 61, 65, 67, 91, 92, 93, 255};
    static const uint8_t none[] = {0, 0}, of_mixed[] = {1, 2, 1, 4, 1, 5, 2, 3, 3, 4, 3, 5, 0, 0},
        of_far[] = {1, 3, 1, 4, 1, 5, 2, 3, 2, 4, 2, 5, 0, 0};
    uint8_t all[2 * 45 + 2] = {0};
    size_t n = 0;
    overlaps_are(0, nothing, none, "no entries, no pairs");
    overlaps_are(2, alone, none, "one entry, no pairs");
    overlaps_are(1, group, none, "a group is no overlap");
    overlaps_are(0, mixed, of_mixed, "two groups, one in the other, and a third resource");
    overlaps_are(2, far, of_far, "two groups of 26s in a group of 996s");
    overlaps_are(2, apart, none, "a plan of a segment");
    for (uint8_t i = 1; i <= 10; i++)
        for (uint8_t j = (uint8_t)(i + 1); j <= 10; j++) {
            all[n++] = i;
            all[n++] = j;
        }
    overlaps_are(2, nested, all, "ten resources that all have the first 26");
    for (uint32_t bandwidth = 0; bandwidth <= 2; bandwidth++) {
        pair_is(bandwidth, 82, 4, 1, "a 106+26 has the middle 26");
        pair_is(bandwidth, 83, 4, 1, "the upper 106+26 has it too");
        pair_is(bandwidth, 82, 83, 1, "both 106+26 share it");
        pair_is(bandwidth, 53, 4, 0, "a 106 has it not");
        pair_is(bandwidth, 82, 54, 0, "48: 106+26 (lower), 106");
        pair_is(bandwidth, 83, 53, 0, "50: 106, 106+26 (upper)");
        pair_is(bandwidth, 82, 53, 1, "a 106+26 has its 106");
        pair_is(bandwidth, 82, 3, 1, "a 106+26 has the fourth 26");
        pair_is(bandwidth, 82, 5, 0, "a 106+26 has not the sixth 26");
        pair_is(bandwidth, 37, 1, 1, "a 52 has its second 26");
        pair_is(bandwidth, 37, 2, 0, "a 52 has not the third 26");
        pair_is(bandwidth, 38, 53, 1, "a 106 has its second 52");
        pair_is(bandwidth, 39, 53, 0, "a 106 has not the third 52");
        pair_is(bandwidth, 61, 4, 1, "a 242 has the middle 26");
    }
    pair_is(1, 65, 62, 1, "a 484 has its second 242");
    pair_is(1, 65, 61, 1, "a 484 has its first 242");
    pair_is(1, 8, 9, 0, "26s of two positions");
    pair_is(2, 65, 66, 0, "the two 484s");
    pair_is(2, 65, 63, 0, "a 484 and a 242 of the other");
    pair_is(2, 17, 19, 0, "the 26s beside the centre");
    pair_is(2, 86, 22, 1, "a 106+26 of the third position: its fourth 26, index 23");
    pair_is(2, 86, 23, 1, "a 106+26 of the third position: its middle 26, index 24");
    pair_is(2, 86, 24, 0, "a 106+26 of the third position: the 26 after it");
    pair_is(2, 89, 32, 1, "a 106+26 of the fourth position: its middle 26, index 33");
    pair_is(2, 89, 31, 0, "a 106+26 of the fourth position: the 26 before it");
    for (unsigned p = 0; p < 4; p++) {
        for (unsigned q = 0; q < 4; q++) {
            pair_is(2, 90 + p, 61 + q, p != q, "a 484+242 beside a 242: the one left out");
            if (p != q)
                pair_is(2, 90 + p, 90 + q, 1, "two 484+242");
        }
        pair_is(2, 90 + p, 65 + p / 2, 1, "a 484+242 and the 484 of which it has one 242");
        pair_is(2, 90 + p, 67, 1, "a 484+242 and the 996");
    }
}

/* "For a list: 15 not whole entries, 25 over 32 of them, then the first refused entry's number with its place from 1,
 * then 26 room for fewer pairs than there are." */
static void trigger_lists(void)
{
    uint8_t entries[5 * 33], pairs[992];
    for (unsigned k = 0; k < 33; k++)
        entry_of(k, 0, k % 2 == 0 ? 0 : 61, 0, 0, entries + 5 * k);
    memset(pairs, 0xA5, sizeof pairs);
    answer_is(reference_trigger_overlaps(3, entries, 164, pairs, 0), 1, 0, 0, "a list's 1, before 15");
    answer_is(reference_trigger_overlaps(2, entries, 164, pairs, 0), 15, 0, 0, "not whole entries are 15, before 25");
    answer_is(reference_trigger_overlaps(2, entries, 1, pairs, 0), 15, 0, 0, "one byte is no entry");
    entry_of(2007, 0, 0, 0, 0, entries + 5 * 32);
    answer_is(reference_trigger_overlaps(2, entries, 165, pairs, 0), 25, 0, 0, "33 entries are 25, a refused one or not");
    answer_is(reference_trigger_overlaps(2, entries, 160, pairs, 511), 26, 0, 0, "room for 255 of 256 pairs");
    answer_is(reference_trigger_overlaps(2, NULL, 0, NULL, 0), 0, 0, 0, "no entries need no room");
    answer_is(reference_trigger_overlaps(2, entries, 10, pairs, 1), 26, 0, 0, "a pair is two bytes");
    entry_of(1, 0, 18, 0, 0, entries + 5 * 31);
    answer_is(reference_trigger_overlaps(2, entries, 160, pairs, 0), 17, 0, 32, "the last entry is refused, before 26");
    entry_of(1, 1, 18, 0, 0, entries + 5 * 4);
    answer_is(reference_trigger_overlaps(2, entries, 160, pairs, 0), 16, 0, 5, "the first refused entry is the fifth");
    entry_of(2007, 1, 18, 0, 0, entries + 5 * 7);
    answer_is(reference_trigger_overlaps(2, entries, 160, pairs, 0), 16, 0, 5, "not the eighth, though 24 comes first");
    entry_of(2007, 1, 18, 0, 1, entries);
    answer_is(reference_trigger_overlaps(0, entries, 160, pairs, 992), 24, 0, 1, "24 in the first entry");
    entry_of(1, 0, 62, 0, 0, entries);
    answer_is(reference_trigger_overlaps(0, entries, 160, pairs, 992), 17, 0, 1, "too wide in the first entry");
    expect(pairs[0] == 0xA5, "a refused list writes nothing");
}

/* 02, T-06: one frame of a comparison, its User fields given as numbers of 22 bits. */
typedef struct {
    unsigned bandwidth, overflow, row[16];
    uint32_t fields[9];
    uint8_t cc[2][512];
    size_t length[2];
} one_frame;

static void build(one_frame *x)
{
    unsigned first = x->bandwidth < 2 ? 26 : 35;
    x->length[0] = x->length[1] = frame(x->bandwidth, x->row, x->fields, x->cc);
    if (x->bandwidth == 0)
        x->length[1] = 0;
    for (unsigned c = 0; c < 2; c++) {
        put_field(x->cc[c], 512, 0, 17, x->overflow);
        put_field(x->cc[c], 512, first, 4, check_of(x->cc[c], 512, 0, first));
    }
}

static answer compared(const one_frame *x, const one_frame *y, uint8_t *text, size_t room)
{
    return reference_compare(x->bandwidth, x->cc[0], x->length[0], x->cc[1], x->length[1], y->bandwidth, y->cc[0],
                             y->length[0], y->cc[1], y->length[1], text, room);
}

/* The comparison is this text, in just enough room; and 23 in less, nothing written. */
static void difference_is(const one_frame *x, const one_frame *y, const char *printed, const char *what)
{
    uint8_t text[4000];
    size_t n = strlen(printed);
    memset(text, 0xA5, sizeof text);
    if (n != 0)
        answer_is(compared(x, y, text, n - 1), 23, 0, n, what);
    expect(text[0] == 0xA5, what);
    answer_is(compared(x, y, text, n), 0, 0, n, what);
    expect(memcmp(text, printed, n) == 0 && text[n] == 0xA5, what);
}

static void frames_differ(one_frame x, one_frame y, const char *printed, const char *what)
{
    build(&x);
    build(&y);
    difference_is(&x, &y, printed, what);
    difference_is(&x, &x, "", what);
    difference_is(&y, &y, "", what);
}

/* "Equal readings give no line"; "padding doesn't count". "If one or both are refused, say which and its answer, first
 * frame first, and compare nothing." "a differing bandwidth, and then nothing more". */
static void compared_whole(void)
{
    one_frame good = {3, 0, {0}, {0}, {{0}}, {23, 23}}, padded, bad, other = {0, 0, {64}, {11}, {{0}}, {0}};
    memcpy(good.cc[0], channel_1_mended, 23);
    memcpy(good.cc[1], channel_2, 23);
    bad = good;
    memcpy(bad.cc[0], channel_1_printed, 23);
    build(&other);
    difference_is(&good, &good, "", "004 beside itself");
    difference_is(&good, &bad, "frame=2 answer=10 channel=1 place=95\n", "004 beside its printed form");
    difference_is(&bad, &good, "frame=1 answer=10 channel=1 place=95\n", "and the other way round");
    difference_is(&bad, &bad, "frame=1 answer=10 channel=1 place=95\nframe=2 answer=10 channel=1 place=95\n", "both refused");
    padded = good;
    padded.length[0] = 14; /* 004's channel 1 ends at bit 105, its channel 2 at bit 181 */
    padded.length[1] = 512;
    put_field(padded.cc[0], 512, 105, 7, 0x55);
    memset(padded.cc[1] + 23, 0xFF, 489);
    put_field(padded.cc[1], 512, 181, 3, 7);
    difference_is(&good, &padded, "", "another padding");
    difference_is(&padded, &good, "", "another padding, the other way round");
    difference_is(&good, &other, "frame=1 bw=3\nframe=2 bw=0\n", "another bandwidth, and then nothing more");
    difference_is(&other, &good, "frame=1 bw=0\nframe=2 bw=3\n", "another bandwidth, the other way round");
    difference_is(&bad, &other, "frame=1 answer=10 channel=1 place=95\n", "a refusal comes before the bandwidth");
    other.bandwidth = 7;
    difference_is(&good, &other, "frame=2 answer=1 channel=0 place=0\n", "a bandwidth that is none is a refusal");
    other.bandwidth = 1;
    difference_is(&other, &bad, "frame=1 answer=3 channel=2 place=0\nframe=2 answer=10 channel=1 place=95\n", "two refusals");
}

/* "overflow fields by name", raw bits, in sending order: each by itself, and all. */
static void compared_overflow(void)
{
    static const struct {
        unsigned overflow;
        const char *printed;
    } one[] = {{1, "frame=1 spatial-reuse=0\nframe=2 spatial-reuse=1\n"}, {1 << 4, "frame=1 gi-ltf=0\nframe=2 gi-ltf=1\n"},
               {4 << 6, "frame=1 ltf-symbols=0\nframe=2 ltf-symbols=4\n"}, {1 << 9, "frame=1 ldpc-extra=0\nframe=2 ldpc-extra=1\n"},
               {2 << 10, "frame=1 pre-fec=0\nframe=2 pre-fec=2\n"},
               {1 << 12, "frame=1 pe-disambiguity=0\nframe=2 pe-disambiguity=1\n"},
               {12 << 13, "frame=1 disregard=0\nframe=2 disregard=12\n"}};
    one_frame x = {0, 0, {64}, {11}, {{0}}, {0}}, y = x;
    for (unsigned bandwidth = 0; bandwidth <= 4; bandwidth += 2) {
        x.bandwidth = y.bandwidth = bandwidth;
        for (unsigned p = 1; p < 16; p++)
            x.row[p] = y.row[p] = 26;
        for (unsigned k = 0; k < sizeof one / sizeof one[0]; k++) {
            y.overflow = one[k].overflow;
            frames_differ(x, y, one[k].printed, "one overflow field");
        }
        y.overflow = 0x1FFFF - (3 << 6);
        frames_differ(x, y,
                      "frame=1 spatial-reuse=0\nframe=2 spatial-reuse=15\nframe=1 gi-ltf=0\nframe=2 gi-ltf=3\n"
                      "frame=1 ltf-symbols=0\nframe=2 ltf-symbols=4\nframe=1 ldpc-extra=0\nframe=2 ldpc-extra=1\n"
                      "frame=1 pre-fec=0\nframe=2 pre-fec=3\nframe=1 pe-disambiguity=0\nframe=2 pe-disambiguity=1\n"
                      "frame=1 disregard=0\nframe=2 disregard=15\n", "every overflow field");
    }
}

/* "RU Allocation values by position, resources only in one": "The same resource is one of the same size, index and segment
 * .., however many fields it has". */
static void compared_values(void)
{
    one_frame x = {1, 0, {50, 26}, {11, 12}, {{0}}, {0}}, y = x;
    y.row[1] = 27;
    frames_differ(x, y, "frame=1 position=1 value=26\nframe=2 position=1 value=27\n", "a value that has no resource");
    y.row[1] = 28;
    frames_differ(x, y,
                  "frame=1 position=1 value=26\nframe=2 position=1 value=28\n"
                  "frame=2 ru=242 index=2 segment=0 users=0 tones=3:244\n", "a resource without fields, only in frame 2");
    frames_differ(y, x,
                  "frame=1 position=1 value=28\nframe=2 position=1 value=26\n"
                  "frame=1 ru=242 index=2 segment=0 users=0 tones=3:244\n", "a resource only in frame 1");
    x.row[0] = 64;
    y.row[0] = 65;
    y.row[1] = 26;
    frames_differ(x, y,
                  "frame=1 position=0 value=64\nframe=2 position=0 value=65\n"
                  "frame=2 user=2 sta=12 bits=00000C ru=242 index=1 segment=0\n", "one more field on the same resource");
    frames_differ(y, x,
                  "frame=1 position=0 value=65\nframe=2 position=0 value=64\n"
                  "frame=1 user=2 sta=12 bits=00000C ru=242 index=1 segment=0\n", "one less");
    x.row[0] = y.row[1] = 72;
    x.row[1] = y.row[0] = 29;
    frames_differ(x, y,
                  "frame=1 position=0 value=72\nframe=2 position=0 value=29\n"
                  "frame=1 position=1 value=29\nframe=2 position=1 value=72\n", "a 484's field told in the other channel");
    x.row[0] = x.row[1] = 26;
    y.row[0] = y.row[1] = 27;
    frames_differ(x, y,
                  "frame=1 position=0 value=26\nframe=2 position=0 value=27\n"
                  "frame=1 position=1 value=26\nframe=2 position=1 value=27\n", "no fields at all");
}

/* "User fields whose bits or resource differ or that only one has, matched by their place among the User words". */
static void compared_users(void)
{
    one_frame x = {1, 0, {50, 26}, {11, 12}, {{0}}, {0}}, y = x;
    y.fields[1] |= 0x200000;
    frames_differ(x, y,
                  "frame=1 user=2 sta=12 bits=00000C ru=106+26 index=2 segment=0\n"
                  "frame=2 user=2 sta=12 bits=20000C ru=106+26 index=2 segment=0\n", "bits alone");
    y.fields[0] = 0x3FFFFE;
    frames_differ(x, y,
                  "frame=1 user=1 sta=11 bits=00000B ru=106 index=1 segment=0\n"
                  "frame=2 user=1 sta=none bits=3FFFFE ru=106 index=1 segment=0\n"
                  "frame=1 user=2 sta=12 bits=00000C ru=106+26 index=2 segment=0\n"
                  "frame=2 user=2 sta=12 bits=20000C ru=106+26 index=2 segment=0\n", "a field that is nobody's");
    y = x;
    y.row[0] = 48;
    frames_differ(y, x,
                  "frame=1 position=0 value=48\nframe=2 position=0 value=50\n"
                  "frame=1 ru=106+26 index=1 segment=0 users=1 tones=-243:-138,-136:-111\n"
                  "frame=1 ru=106 index=2 segment=0 users=1 tones=-109:-4\n"
                  "frame=2 ru=106 index=1 segment=0 users=1 tones=-243:-138\n"
                  "frame=2 ru=106+26 index=2 segment=0 users=1 tones=-136:-111,-109:-4\n"
                  "frame=1 user=1 sta=11 bits=00000B ru=106+26 index=1 segment=0\n"
                  "frame=2 user=1 sta=11 bits=00000B ru=106 index=1 segment=0\n"
                  "frame=1 user=2 sta=12 bits=00000C ru=106 index=2 segment=0\n"
                  "frame=2 user=2 sta=12 bits=00000C ru=106+26 index=2 segment=0\n", "the resource alone: 48 beside 50");
    x.row[0] = y.row[1] = 65;
    x.row[1] = y.row[0] = 64;
    x.fields[2] = y.fields[2] = 13;
    frames_differ(x, y,
                  "frame=1 position=0 value=65\nframe=2 position=0 value=64\n"
                  "frame=1 position=1 value=64\nframe=2 position=1 value=65\n"
                  "frame=1 user=2 sta=12 bits=00000C ru=242 index=1 segment=0\n"
                  "frame=2 user=2 sta=12 bits=00000C ru=242 index=2 segment=0\n", "channel 1's fields are counted first");
    x.row[1] = 26;
    frames_differ(x, y,
                  "frame=1 position=0 value=65\nframe=2 position=0 value=64\n"
                  "frame=1 position=1 value=26\nframe=2 position=1 value=65\n"
                  "frame=2 ru=242 index=2 segment=0 users=2 tones=3:244\n"
                  "frame=1 user=2 sta=12 bits=00000C ru=242 index=1 segment=0\n"
                  "frame=2 user=2 sta=12 bits=00000C ru=242 index=2 segment=0\n"
                  "frame=2 user=3 sta=13 bits=00000D ru=242 index=2 segment=0\n", "fields past the shorter frame");
}

/* 004's frame, and the same with a 484+242 made a 484 that the same two have, its third 242 left empty. */
static void compared_example(void)
{
    one_frame x = {3, 0x1E6BF, {26, 97, 29, 29, 120, 29, 28, 50}, {0x31C5A3, 0x04D5A1, 0x04A5A2, 0x10A5A4, 0x10BDA5}, {{0}}, {0}},
              y = {3, 0x1E6BF, {26, 28, 72, 72, 120, 29, 28, 50}, {0x04D5A1, 0x31C5A3, 0x04A5A2, 0x10A5A4, 0x10BDA5}, {{0}}, {0}};
    frames_differ(x, y,
                  "frame=1 position=1 value=97\nframe=2 position=1 value=28\n"
                  "frame=1 position=2 value=29\nframe=2 position=2 value=72\n"
                  "frame=1 position=3 value=29\nframe=2 position=3 value=72\n"
                  "frame=1 ru=484+242 index=1 segment=0 users=2 tones=-765:-524,-500:-259,-253:-12\n"
                  "frame=2 ru=242 index=2 segment=0 users=0 tones=-765:-524\n"
                  "frame=2 ru=484 index=2 segment=0 users=2 tones=-500:-259,-253:-12\n"
                  "frame=1 user=1 sta=1443 bits=31C5A3 ru=484+242 index=4 segment=1\n"
                  "frame=2 user=1 sta=1441 bits=04D5A1 ru=484 index=2 segment=0\n"
                  "frame=1 user=2 sta=1441 bits=04D5A1 ru=484+242 index=1 segment=0\n"
                  "frame=2 user=2 sta=1443 bits=31C5A3 ru=484+242 index=4 segment=1\n"
                  "frame=1 user=3 sta=1442 bits=04A5A2 ru=484+242 index=1 segment=0\n"
                  "frame=2 user=3 sta=1442 bits=04A5A2 ru=484 index=2 segment=0\n", "a 484+242 beside a 242 and a 484");
    build(&x);
    expect(memcmp(x.cc[0], channel_1_mended, 23) == 0 && memcmp(x.cc[1], channel_2, 23) == 0, "004's channels, from its fields");
}

/* 02, T-07: a wider resource by the same fields at other places; beside others; and beside the other one of its values. */
static void compared_wide(void)
{
    one_frame x = {3, 0, {88, 30, 30, 30, 30, 30, 30, 30}, {11}, {{0}}, {0}}, y = {3, 0, {30, 30, 30, 30, 30, 30, 30, 88}, {11}, {{0}}, {0}};
    one_frame lower = {4, 0, {26, 26, 29, 29, 30, 30, 30, 30, 257, 30, 30, 30, 26, 26, 26, 26}, {11, 12}, {{0}}, {0}}, upper = lower;
    frames_differ(x, y,
                  "frame=1 position=0 value=88\nframe=2 position=0 value=30\n"
                  "frame=1 position=7 value=30\nframe=2 position=7 value=88\n", "a 2x996's field told in the other channel");
    y.row[7] = 30;
    y.row[0] = 80;
    frames_differ(x, y,
                  "frame=1 position=0 value=88\nframe=2 position=0 value=80\n"
                  "frame=1 ru=2x996 index=1 segment=0 users=1 tones=-1012:-515,-509:-12,12:509,515:1012\n"
                  "frame=2 ru=996 index=1 segment=0 users=1 tones=-1012:-515,-509:-12\n"
                  "frame=2 ru=996 index=1 segment=1 users=0 tones=12:509,515:1012\n"
                  "frame=1 user=1 sta=11 bits=00000B ru=2x996 index=1 segment=0\n"
                  "frame=2 user=1 sta=11 bits=00000B ru=996 index=1 segment=0\n", "a 2x996 beside two 996s");
    for (unsigned p = 0; p < 16; p++)
        upper.row[p] = lower.row[(p + 12) % 16];
    upper.row[8] = 257;
    upper.row[12] = 30;
    frames_differ(lower, upper,
                  "frame=1 position=2 value=29\nframe=2 position=2 value=26\nframe=1 position=3 value=29\nframe=2 position=3 value=26\n"
                  "frame=1 position=4 value=30\nframe=2 position=4 value=26\nframe=1 position=5 value=30\nframe=2 position=5 value=26\n"
                  "frame=1 position=6 value=30\nframe=2 position=6 value=29\nframe=1 position=7 value=30\nframe=2 position=7 value=29\n"
                  "frame=1 position=12 value=26\nframe=2 position=12 value=30\nframe=1 position=13 value=26\nframe=2 position=13 value=30\n"
                  "frame=1 position=14 value=26\nframe=2 position=14 value=30\nframe=1 position=15 value=26\nframe=2 position=15 value=30\n"
                  "frame=1 ru=2x996+484 index=1 segment=0 users=2 tones=-1524:-1283,-1277:-1036,-1012:-515,-509:-12,12:509,515:1012\n"
                  "frame=2 ru=2x996+484 index=7 segment=1 users=2 tones=-500:-259,-253:-12,12:509,515:1012,1036:1533,1539:2036\n"
                  "frame=1 user=1 sta=11 bits=00000B ru=2x996+484 index=1 segment=0\n"
                  "frame=2 user=1 sta=11 bits=00000B ru=2x996+484 index=7 segment=1\n"
                  "frame=1 user=2 sta=12 bits=00000C ru=2x996+484 index=1 segment=0\n"
                  "frame=2 user=2 sta=12 bits=00000C ru=2x996+484 index=7 segment=1\n", "one family's lower resource beside its upper one");
}

static void pair_of_texts_is(const char *text, const char *expected)
{
    static char out[MOST_COMPARISON];
    size_t n = reference_compare_program((const uint8_t *)text, strlen(text), out);
    expect(n == strlen(expected) && memcmp(out, expected, n) == 0, text);
}

/* 22 of two captures: six lines, in each the first wrong one; and 16,384 bytes in all. */
static void compared_texts(void)
{
    static char out[MOST_COMPARISON];
    static uint8_t longest[16385];
    pair_of_texts_is("", "answer=22\nchannel=0\nplace=1\n");
    pair_of_texts_is("bw=1\ncc1=ab\ncc2=\n", "answer=22\nchannel=0\nplace=2\n");
    pair_of_texts_is("bw=1\ncc1=\ncc2=", "answer=22\nchannel=0\nplace=3\n");
    pair_of_texts_is("bw=1\ncc1=\ncc2=bw=1\ncc1=\ncc2=\n", "answer=22\nchannel=0\nplace=3\n");
    pair_of_texts_is("bw=1\ncc1=\ncc2=\n", "answer=22\nchannel=0\nplace=4\n");
    pair_of_texts_is("bw=1\ncc1=\ncc2=\n\n", "answer=22\nchannel=0\nplace=4\n");
    pair_of_texts_is("bw=1\ncc1=\ncc2=\ncc1=\nbw=1\ncc2=\n", "answer=22\nchannel=0\nplace=4\n");
    pair_of_texts_is("bw=1\ncc1=\ncc2=\nbw=1\ncc1=A\ncc2=\n", "answer=22\nchannel=0\nplace=5\n");
    pair_of_texts_is("bw=1\ncc1=\ncc2=\nbw=1\ncc1=\ncc2=", "answer=22\nchannel=0\nplace=6\n");
    pair_of_texts_is("bw=1\ncc1=\ncc2=\nbw=1\ncc1=\ncc2=\nbw=1\n", "answer=22\nchannel=0\nplace=7\n");
    pair_of_texts_is("bw=1\ncc1=\ncc2=\nbw=1\ncc1=\ncc2=\nx", "answer=22\nchannel=0\nplace=7\n");
    pair_of_texts_is("bw=1\ncc1=\ncc2=\nbw=9\ncc1=\ncc2=\n",
                     "frame=1 answer=3 channel=1 place=0\nframe=2 answer=1 channel=0 place=0\n");
    memcpy(longest, "bw=1\ncc1=", 9);
    memset(longest + 9, '0', 16376);
    memcpy(longest + 16384 - 21, "\ncc2=\nbw=5\ncc1=\ncc2=\n", 21);
    expect(reference_compare_program(longest, 16384, out) == 70
        && memcmp(out, "frame=1 answer=2 channel=1 place=0\nframe=2 answer=1 channel=0 place=0\n", 70) == 0,
           "16,384 bytes are read, nearly all of them the first capture's");
    expect(reference_compare_program(longest, 16385, out) == 28 && memcmp(out, "answer=22\nchannel=0\nplace=0\n", 28) == 0,
           "16,385 bytes are too many");
}

/* 02, T-11: every row of 000's table, both ways, in just enough room and in too little; "Five users have 49 rows, six 54, seven
 * 50". The numbers follow one another from 0, the totals are the rows' sums but for two slips of 000 at eight users. */
static void streams_table(void)
{
    static const unsigned how_many[9] = {0, 0, 10, 20, 35, 49, 54, 50, 41};
    static printed_row printed[PRINTED_ROWS];
    unsigned count[9] = {0}, slips = 0, rows_so_far = 0;
    expect(printed_rows(printed) == PRINTED_ROWS, "how many rows 000 prints");
    for (unsigned k = 0; k < PRINTED_ROWS; k++) {
        const printed_row *p = &printed[k];
        uint8_t row[9];
        char what[60];
        sprintf(what, "000's row %u of %u users", p->number, p->users);
        memset(row, 0xA5, sizeof row);
        expect(p->number == count[p->users]++, what);
        answer_is(reference_streams_row(p->users, p->number, row, p->users - 1), 23, 0, p->users, what);
        expect(row[0] == 0xA5, what);
        answer_is(reference_streams_row(p->users, p->number, row, 9), 0, 0, p->users, what);
        expect(memcmp(row, p->row, p->users) == 0 && row[p->users] == 0xA5, what);
        answer_is(reference_streams_number(p->row, p->users), 0, 0, p->number, what);
    }
    for (unsigned users = 2; users <= 8; users++) {
        expect(count[users] == how_many[users] && count_of_rows(users) == how_many[users], "how many rows so many users have");
        answer_is(reference_streams_row(users, how_many[users], NULL, 0), 21, 0, 0, "a number past the last row, before 23");
    }
    for (unsigned k = 0; k < PRINTED_LINES; k++) {
        unsigned first, last, of_first = 0, of_last = 0, from = rows_so_far;
        while (rows_so_far < PRINTED_ROWS && printed[rows_so_far].users == printed_lines[k].users
               && (rows_so_far == from || memcmp(printed[rows_so_far].row + 1, printed[from].row + 1, 7) == 0))
            rows_so_far++;
        for (unsigned u = 0; u < printed_lines[k].users; u++) {
            of_first += printed[from].row[u];
            of_last += printed[rows_so_far - 1].row[u];
        }
        printed_total(&printed_lines[k], &first, &last);
        slips += first != of_first || last != of_last;
    }
    expect(slips == 2 && rows_so_far == PRINTED_ROWS, "000's totals, of which two are slips");
}

/* "Refusals: 21, users not 2 to 8, a number past the last row, or a row not listed." */
static void streams_refusals(void)
{
    static const uint32_t no_users[] = {0, 1, 9, 10, 0x102, 0x10002, 0x80000008, 0xFFFFFFFF};
    static const struct {
        size_t length;
        uint8_t row[9];
    } not_listed[] = {
        {0, {0}}, {1, {1}}, {1, {4}}, {9, {1, 1, 1, 1, 1, 1, 1, 1, 1}}, {2, {1, 2}}, {2, {0, 0}}, {2, {1, 0}}, {2, {5, 1}}, {2, {5, 5}},
        {2, {255, 1}}, {3, {2, 1, 2}}, {4, {4, 3, 4, 4}}, {5, {4, 4, 4, 4, 1}}, {5, {4, 4, 3, 3, 3}}, {6, {4, 4, 4, 2, 2, 1}},
        {7, {4, 3, 3, 2, 2, 2, 1}}, {8, {3, 2, 2, 2, 2, 2, 2, 2}}, {8, {4, 4, 4, 4, 4, 4, 4, 4}}};
    uint8_t row[8];
    for (size_t k = 0; k < sizeof no_users / sizeof no_users[0]; k++)
        answer_is(reference_streams_row(no_users[k], 0, row, 8), 21, 0, 0, "users not 2 to 8");
    answer_is(reference_streams_row(2, 0xFFFFFFFF, row, 8), 21, 0, 0, "the largest number");
    answer_is(reference_streams_row(8, 63, row, 8), 21, 0, 0, "the largest configuration, of eight users");
    answer_is(reference_streams_row(8, 40, row, 7), 23, 0, 8, "eight users need eight bytes");
    for (size_t k = 0; k < sizeof not_listed / sizeof not_listed[0]; k++)
        answer_is(reference_streams_number(not_listed[k].row, not_listed[k].length), 21, 0, 0, "a row not listed");
}

/* A User field's number: its station, and from bit 16 on its NSS or its spatial configuration. */
#define FIELD(station, from_16) ((station) | (uint32_t)(from_16) << 16)

static void streams_are(unsigned bandwidth, const unsigned *row, const uint32_t *fields, const uint8_t *right, size_t count,
                        const char *what)
{
    uint8_t cc[2][512], streams[MOST_FIELDS + 1];
    size_t bytes = frame(bandwidth, row, fields, cc), second = bandwidth == 0 ? 0 : bytes;
    memset(streams, 0xA5, sizeof streams);
    if (count != 0)
        answer_is(reference_streams(bandwidth, cc[0], bytes, cc[1], second, streams, count - 1), 23, 0, count, what);
    expect(streams[0] == 0xA5, what);
    answer_is(reference_streams(bandwidth, cc[0], bytes, cc[1], second, streams, count), 0, 0, count, what);
    expect(memcmp(streams, right, count) == 0 && streams[count] == 0xA5, what);
}

static void streams_refused(unsigned bandwidth, const unsigned *row, const uint32_t *fields, size_t room, const char *what)
{
    uint8_t cc[2][512], streams[MOST_FIELDS];
    size_t bytes = frame(bandwidth, row, fields, cc);
    memset(streams, 0xA5, sizeof streams);
    answer_is(reference_streams(bandwidth, cc[0], bytes, cc[1], bandwidth == 0 ? 0 : bytes, streams, room), 21, 0, 0, what);
    expect(streams[0] == 0xA5, what);
}

/* Frames by hand. (73, 74) is a 484 of five users, two in channel 1: number 42 of five is 4 4 3 2 2. (65, 25) is a 242 of two users
 * and 106 26 106. 80 MHz (26, 97, 96, 29): a 484+242 of three, one in channel 1; number 17 is 4 3 3. Two resources whose fields
 * take turns in the channels: (73, 73, 72, 72), a lower 484 of four and an upper one of two. */
static void streams_frames(void)
{
    static const unsigned five[2] = {73, 74}, mixed[2] = {65, 25}, joined[4] = {26, 97, 96, 29}, two[4] = {73, 73, 72, 72},
        nobody[2] = {26, 27}, wide[8] = {88, 30, 30, 30, 30, 30, 30, 89}, one[1] = {71};
    static const uint32_t
        of_five[5] = {FIELD(1, 42), FIELD(2, 42), FIELD(3, 42), FIELD(4, 42), FIELD(5, 42)},
        own[5] = {FIELD(1, 0), FIELD(2, 48), FIELD(3, 33), FIELD(4, 43), FIELD(5, 34)}, /* 1 .., 3 3 .., 4 4 4 .., .. 2 2, 2 .. */
        unassigned_ones[5] = {FIELD(2046, 63), FIELD(2, 42), FIELD(2046, 49), FIELD(4, 42), FIELD(2046, 0)},
        past[5] = {FIELD(1, 42), FIELD(2, 42), FIELD(3, 42), FIELD(4, 42), FIELD(5, 49)},
        of_mixed[5] = {FIELD(1, 3), FIELD(2, 7), FIELD(3, 7), FIELD(4, 8), FIELD(2046, 3)},
        all_nss[5] = {FIELD(1, 9), FIELD(2, 9), FIELD(3, 15), FIELD(4, 0), FIELD(5, 6)},
        past_of_two[5] = {FIELD(1, 10), FIELD(2, 7), FIELD(3, 7), FIELD(4, 8), FIELD(5, 3)},
        of_joined[3] = {FIELD(1, 17), FIELD(2, 17), FIELD(3, 17)},
        of_two[6] = {FIELD(1, 28), FIELD(2, 28), FIELD(3, 2), FIELD(4, 28), FIELD(5, 28), FIELD(6, 2)},
        of_wide[3] = {FIELD(11, 12), FIELD(12, 12), FIELD(13, 12)},
        of_one[8] = {FIELD(1, 40), FIELD(2, 26), FIELD(3, 26), FIELD(4, 26), FIELD(5, 26), FIELD(6, 39), FIELD(7, 39), FIELD(8, 40)},
        past_of_eight[8] = {FIELD(1, 40), FIELD(2, 40), FIELD(3, 40), FIELD(4, 41), FIELD(5, 40), FIELD(6, 40), FIELD(7, 40), FIELD(8, 40)};
    uint8_t cc[2][512], streams[1];
    streams_are(1, five, of_five, (const uint8_t[]){4, 4, 3, 2, 2}, 5, "five users of a 484, channel 1's first");
    streams_are(1, five, own, (const uint8_t[]){1, 3, 4, 2, 2}, 5, "each field names its own row");
    streams_are(1, five, unassigned_ones, (const uint8_t[]){0, 4, 0, 2, 0}, 5, "nobody's fields have their places");
    streams_refused(1, five, past, 5, "a configuration past the last row");
    streams_refused(1, five, past, 0, "a configuration past the last row, before 23");
    streams_are(1, mixed, of_mixed, (const uint8_t[]){4, 3, 8, 0, 0}, 5, "fields alone with NSS 7 and 8, and nobody's");
    streams_are(1, mixed, all_nss, (const uint8_t[]){4, 4, 0, 1, 7}, 5, "fields alone with NSS 15, 0 and 6");
    streams_refused(1, mixed, past_of_two, 5, "two users have ten rows");
    streams_are(2, joined, of_joined, (const uint8_t[]){4, 3, 3}, 3, "three users of a 484+242");
    streams_are(2, two, of_two, (const uint8_t[]){4, 4, 3, 3, 2, 1}, 6, "two resources, each with fields in both channels");
    streams_are(1, nobody, NULL, NULL, 0, "no User field, no byte");
    streams_are(3, wide, of_wide, (const uint8_t[]){4, 2, 2}, 3, "three users of a 2x996");
    streams_are(0, one, of_one, (const uint8_t[]){2, 3, 3, 2, 1, 2, 2, 2}, 8, "eight users of a 242");
    streams_refused(0, one, past_of_eight, 8, "eight users have 41 rows");
    frame(1, five, past, cc);
    answer_is(reference_streams(5, cc[0], 12, cc[1], 16, streams, 0), 1, 0, 0, "the reader's 1");
    answer_is(reference_streams(1, cc[0], 9, cc[1], 16, streams, 0), 9, 1, 58, "the reader's 9, before 21");
    cc[0][10] ^= 1;
    answer_is(reference_streams(1, cc[0], 12, cc[1], 16, streams, 0), 10, 1, 80, "the reader's 10, before 21");
    answer_is(reference_streams(3, channel_1_mended, 23, channel_2, 23, streams, 0), 23, 0, 5, "004's example, no room");
}

/* 004's example: stations 1441 and 1442 share a 484+242 with configuration 4, 2 2; NSS 1, 0 and 0. */
static void streams_example(void)
{
    uint8_t streams[6];
    memset(streams, 0xA5, sizeof streams);
    answer_is(reference_streams(3, channel_1_mended, 23, channel_2, 23, streams, 6), 0, 0, 5, "004's streams");
    expect(memcmp(streams, (const uint8_t[]){2, 2, 2, 1, 1, 0xA5}, 6) == 0, "004's streams, one by one");
    answer_is(reference_streams(3, channel_1_printed, 23, channel_2, 23, streams, 6), 10, 1, 95, "004 as printed has none");
}

int self_test(void)
{
    bits_and_fields();
    checks();
    rows();
    one_plan();
    subcarriers();
    indices();
    carried_values();
    every_division();
    not_28();
    wide_rows();
    example();
    worked_listing();
    wide_frames();
    unassigned();
    written_fields();
    every_field();
    cut();
    texts();
    answers();
    trigger_values();
    trigger_bytes();
    trigger_refusals();
    trigger_writer();
    trigger_overlaps();
    trigger_lists();
    compared_whole();
    compared_overflow();
    compared_values();
    compared_users();
    compared_example();
    compared_wide();
    compared_texts();
    streams_table();
    streams_refusals();
    streams_frames();
    streams_example();
    printf("reference: held to the papers\n%d passed, %d failed\n", passed, failed);
    return failed != 0;
}
