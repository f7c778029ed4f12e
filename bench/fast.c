/* A fast reader, writer, lister, comparer and teller of streams in C, the baseline that the proved ones are timed against.
 *
 * - Each bandwidth has its own copy of the reader and of the writer, in which every width, place and count of positions is known.
 * - A block is one window of 64 bits. Its check is looked up in slices of eleven bits, side by side: a User field is two of
 *   them, the first of which is its STA-ID.
 * - On the way of a good frame no place is worked out: where something is wrong it is sought then, mostly in a function apart. The
 *   User blocks of a large frame are taken four at a time, at shifts that are known, and asked about together.
 * - A value's role at its place in a segment is one number, and a segment's plan is looked up by what its four roles share. Only
 *   where a value names a resource wider than a segment, that is looked for first.
 * - A STA-ID that stands again is found by marks, one byte each, that need no clearing in a small frame.
 * - User words are made four at a time by vectors, also where the two formats are mixed.
 * - The writer judges the words as they stand, with no reading back, and stores blocks of 64 bits that overlap.
 * - The lister writes keys and numbers by whole stores, numbers from a table.
 * - A row of streams is one word of eight bytes, looked up by its number; its number is looked up by bits of a product, and compared.
 * - Two frames' resources are compared position by position: a larger one by the owners, the others by sets of pieces. A
 *   Trigger's resource is looked up by its value, with the 26s that it covers as a mask: two that overlap share one.
 *
 * Words, windows and stores are little-endian, as x86-64 and Arm are. Compiled with AS_LIBRARY, the functions have the
 * library's names.
 */
#include "fast.h"

#include <string.h>

#ifdef AS_LIBRARY
#define NAME(x) brachymel_##x
#else
#define NAME(x) fast_##x
#endif

#define INLINED static inline __attribute__((always_inline)) /* what is constant in a call is so inside */
#define RARE static __attribute__((noinline))
#define RARELY(x) __builtin_expect((x) != 0, 0)

static inline uint64_t low(uint64_t w, unsigned bits)
{
    return w & ((UINT64_C(1) << bits) - 1);
}

static inline brachymel_answer say(uint32_t number, uint32_t channel, uint64_t place)
{
    brachymel_answer a = {number, channel, place};
    return a;
}

/* ---- values of the RU Allocation subfield (01) */

/* Who may own a position. */
enum {
    SELF = 1,       /* the position itself */
    PAIR = 2,       /* a 484 */
    WHOLE = 4,      /* a 996 */
    BUT_FIRST = 16, /* a 484+242 that leaves out the first position; the next bits: the second, third, fourth */
    WIDER = 192     /* and more: a resource wider than a segment, by its line of the table */
};

/* A value's role at one of the four places of its segment. Roles have what does not concern their place set, so that the plan can
 * be told by the bits that the four share. Where all four fit a 484+242 that none names, the pairs have plans of their own. */
enum {
    LOWER_SELF = 1 << 0, LOWER_484 = 1 << 1, /* of a place in the lower pair */
    UPPER_SELF = 1 << 2, UPPER_484 = 1 << 3, /* in the upper */
    A_996 = 1 << 4,
    A_484_242 = 1 << 5, /* which leaves out the first; the next bits: the second, third, fourth. The place left out is SELF */
    PLANS = 1 << 9,     /* the bits up to here tell the plan; those with no role in a segment are: */
    NOT_CARRIED = 1 << 9,
    OF_A_HALF = 1 << 10,  /* of a resource wider than a segment that lies in half of 320 MHz, */
    OF_A_WHOLE = 1 << 11, /* of one that does not. Then shifts: */
    SEVERAL = 12,         /* several fields on its own 242, a bit for each place */
    FIELDS = 16           /* the User fields, four bits for each place */
};

#define VALUES 512

static uint32_t role[4][VALUES]; /* by place and value */
static uint8_t fields_of[VALUES];

static int is_narrow(unsigned v)
{
    return v <= 30 || v == 48 || v == 50 || (v >= 64 && v < 88) || (v >= 96 && v < 128);
}

static int is_wider(unsigned v)
{
    return (v >= 88 && v < 96) || (v >= 128 && v < 304);
}

static unsigned count_fields(unsigned v)
{
    if (v <= 15)
        return 9 - (v >> 3 & 1) - (v >> 2 & 1) - (v >> 1 & 1) - (v & 1);
    if (v <= 23)
        return 6 - (v >> 1 & 1) - (v & 1);
    if (v <= 25)
        return v == 24 ? 4 : 3;
    if (v == 48 || v == 50)
        return 2;
    return v >= 64 && (is_narrow(v) || is_wider(v)) ? v % 8 + 1 : 0;
}

static uint32_t role_of(unsigned q, unsigned v)
{
    uint32_t r = q < 2 ? UPPER_SELF | UPPER_484 : LOWER_SELF | LOWER_484;
    r |= count_fields(v) << (FIELDS + 4 * q);
    if (!is_narrow(v))
        return r | (!is_wider(v) ? NOT_CARRIED : v < 160 ? OF_A_HALF : OF_A_WHOLE);
    if (v <= 28 || (v == 48 && q != 3) || (v == 50 && q != 2) || (v >= 64 && v < 72))
        r |= (q < 2 ? LOWER_SELF : UPPER_SELF) | (uint32_t)A_484_242 << q;
    if (v == 29 || (v >= 72 && v < 80))
        r |= q < 2 ? LOWER_484 : UPPER_484;
    if (v == 30 || (v >= 80 && v < 88))
        r |= A_996;
    if (v > 64 && v < 72)
        r |= UINT32_C(1) << (SEVERAL + q);
    for (unsigned k = 0; k < 4; k++)
        if (q != k && (v == (q / 2 == k / 2 ? 28u : 29u) || (v >= 96 && (v - 96) / 8 == k)))
            r |= (uint32_t)A_484_242 << k;
    return r;
}

static void prepare_values(void)
{
    for (unsigned v = 0; v < VALUES; v++) {
        fields_of[v] = (uint8_t)count_fields(v);
        for (unsigned q = 0; q < 4; q++)
            role[q][v] = role_of(q, v);
    }
}

/* ---- plans of a segment */

enum { ALONE, LOWER_PAIR, UPPER_PAIR, BOTH_PAIRS, ONE_996, ONE_484_242, NO_PLAN = ONE_484_242 + 4, ALL_PLANS };

/* The larger resources of a plan: which counts of fields (four bits each) are theirs, whose places, and whether they are one. */
typedef struct {
    uint16_t counts;
    uint8_t places, one;
} larger;

static const larger larger_of[ALL_PLANS] = {{0, 0, 0}, {0x00FF, 3, 0}, {0xFF00, 12, 0}, {0xFFFF, 15, 0}, {0xFFFF, 15, 255},
                                            {0xFFF0, 14, 255}, {0xFF0F, 13, 255}, {0xF0FF, 11, 255}, {0x0FFF, 7, 255}, {0, 0, 0}};

/* By the bits that a segment's roles share. */
static uint8_t plan_by[PLANS];
static larger larger_by[PLANS];

/* By how many fields a pair's resource has, or both's: two bits where they share it, and TOO_MANY where they are over eight. */
static uint8_t by_count[64];
enum { TOO_MANY = 16 };

static unsigned plan_of(unsigned shared)
{
    unsigned lower = shared & 3, upper = shared >> 2 & 3;
    if (lower != 0 && upper != 0)
        return (lower == LOWER_484 ? LOWER_PAIR : ALONE) + (upper == UPPER_484 >> 2 ? UPPER_PAIR : ALONE);
    if (shared & A_996)
        return ONE_996;
    return shared >= A_484_242 ? ONE_484_242 + (unsigned)__builtin_ctz(shared / A_484_242) : NO_PLAN;
}

static void prepare_plans(void)
{
    for (unsigned shared = 0; shared < PLANS; shared++) {
        plan_by[shared] = (uint8_t)plan_of(shared);
        larger_by[shared] = larger_of[plan_by[shared]];
    }
    for (unsigned n = 2; n < 64; n++)
        by_count[n] = n > 8 ? 3 | TOO_MANY : 3;
}

/* ---- resources wider than a segment: those of a half, and of the whole 320 MHz */

enum {
    OF_26, OF_52, OF_106, OF_106_26, OF_242, OF_484, OF_996, OF_484_242, OF_2X996, OF_996_484, OF_3X996, OF_2X996_484, OF_3X996_484
};

enum { FIRST_2X996 = 0, FIRST_996_484 = 2, FIRST_3X996 = 10, FIRST_3X996_484 = 14, FIRST_2X996_484 = 22, WIDE_ONES = 34 };

static struct {
    uint16_t places;    /* of the row */
    uint8_t family;     /* its values by eight */
    uint8_t size, index, lowest;
    uint64_t place[4];  /* of each segment, sixteen bits to a position: ones at its places; */
    uint64_t empty[4];  /* what a place holds with no field */
} wide[WIDE_ONES];

#define EACH UINT64_C(0x0001000100010001) /* one in each of four positions */

static void prepare_wide_one(unsigned k, unsigned family, unsigned size, unsigned index, unsigned places)
{
    wide[k].places = (uint16_t)places;
    wide[k].family = (uint8_t)family;
    wide[k].size = (uint8_t)size;
    wide[k].index = (uint8_t)index;
    wide[k].lowest = (uint8_t)__builtin_ctz(places);
    for (unsigned p = 0; p < 16; p++)
        wide[k].place[p / 4] |= (uint64_t)(places >> p & 1 ? 0xFFFF : 0) << p % 4 * 16;
    for (unsigned s = 0; s < 4; s++)
        wide[k].empty[s] = ((places >> 4 * s & 15) == 15 ? 30 : 29) * EACH;
}

static void prepare_wide(void)
{
    for (unsigned half = 0; half < 2; half++) {
        prepare_wide_one(FIRST_2X996 + half, 11, OF_2X996, 1, 0xFFu << 8 * half);
        for (unsigned k = 0; k < 4; k++)
            prepare_wide_one(FIRST_996_484 + 4 * half + k, 16 + k, OF_996_484, k + 1, (0xFF & ~(3u << 2 * k)) << 8 * half);
    }
    for (unsigned k = 0; k < 4; k++)
        prepare_wide_one(FIRST_3X996 + k, 20 + k, OF_3X996, k + 1, 0xFFFF & ~(15u << 4 * k));
    for (unsigned k = 0; k < 8; k++)
        prepare_wide_one(FIRST_3X996_484 + k, 24 + k, OF_3X996_484, k + 1, 0xFFFF & ~(3u << 2 * k));
    for (unsigned k = 0; k < 6; k++) {
        prepare_wide_one(FIRST_2X996_484 + k, 32 + k, OF_2X996_484, k + 1, 0x0FFF & ~(3u << 2 * k));
        prepare_wide_one(FIRST_2X996_484 + 6 + k, 32 + k, OF_2X996_484, k + 7, (0x0FFF & ~(3u << 2 * k)) << 4);
    }
}

/* ---- the check (01, "Check"), of 0 to 64 bits, the first sent lowest */

#define SLICE 11
#define SLICES 6

/* Of a slice, by how many slices follow it: from bit 1 its share of the check, of which the whole is the sum without carry. Bit 0
 * tells of a STA-ID that it is one of 1 to 2006, which may not stand twice. */
static uint8_t share[SLICES][1 << SLICE];
static uint8_t is_real[1 << SLICE]; /* all ones of such a STA-ID */
static uint8_t ones_of[65];         /* what the register's ones at the start add, by the bits covered, with the inversion */

enum { REAL = 1, WRONG = 0x7FE /* where check and tail stand, one bit up */ };

/* x^8+x^2+x+1, its first sent bit lowest. */
static unsigned pass_bits(unsigned r, unsigned bits, unsigned n)
{
    for (r ^= bits; n > 0; n--)
        r = r & 1 ? r >> 1 ^ 0xE0 : r >> 1;
    return r;
}

static void prepare_check(void)
{
    for (unsigned k = 0; k < SLICES; k++)
        for (unsigned x = 0; x < 1 << SLICE; x++)
            share[k][x] = (uint8_t)((pass_bits(0, x, SLICE * (k + 1)) & 15) << 1 | (x - 1 < 2006 ? REAL : 0));
    for (unsigned x = 0; x < 1 << SLICE; x++)
        is_real[x] = x - 1 < 2006 ? 0xFF : 0;
    for (unsigned bits = 0; bits <= 64; bits++)
        ones_of[bits] = (uint8_t)((~pass_bits(0xFF, 0, bits) & 15) << 1);
}

/* One bit up, with bit 0 to be left out. Zeros before the first bit fill up its slice without a trace. */
INLINED unsigned sum_of_shares(uint64_t covered, unsigned bits)
{
    unsigned slices = (bits + SLICE - 1) / SLICE, sum = ones_of[bits];
    for (unsigned k = 0; k < slices; k++) {
        unsigned end = bits - SLICE * k;
        sum ^= share[k][(end >= SLICE ? covered >> (end - SLICE) : covered << (SLICE - end)) & 0x7FF];
    }
    return sum;
}

INLINED unsigned check(uint64_t covered, unsigned bits)
{
    return sum_of_shares(covered, bits) >> 1;
}

/* Check and tail together, the tail being zero: not 0 in WRONG where one is wrong. */
INLINED uint64_t wrong(uint64_t w, unsigned bits)
{
    return w >> (bits - 1) ^ sum_of_shares(w, bits);
}

/* ---- what a Trigger's RU Allocation names */

typedef struct {
    uint64_t covers;  /* its 26s, of the 36 of 80 MHz */
    uint16_t size;
    uint8_t index;
    uint8_t needs;    /* the narrowest bandwidth's code; 255: not named */
} resource;

static resource named[128];

static void name(unsigned v, unsigned size, unsigned index, uint64_t covers)
{
    resource r = {covers, (uint16_t)size, (uint8_t)index, covers >> 18 != 0 ? 2 : covers >> 9 != 0 ? 1 : 0};
    named[v] = r;
}

static void prepare_named(void)
{
    static const uint16_t slot[4] = {0x003, 0x00C, 0x060, 0x180}, half[2] = {0x00F, 0x1E0};
    uint64_t all = (UINT64_C(1) << 36) - 1;
    for (unsigned v = 0; v < 128; v++)
        named[v].needs = 255;
    for (unsigned k = 0; k < 36; k++)
        name(k + (k >= 18), 26, k + 1 + (k >= 18), UINT64_C(1) << k);
    for (unsigned k = 0; k < 16; k++)
        name(37 + k, 52, k + 1, (uint64_t)slot[k % 4] << k / 4 * 9);
    for (unsigned k = 0; k < 8; k++) {
        name(53 + k, 106, k + 1, (uint64_t)half[k % 2] << k / 2 * 9);
        if (k != 5 && k != 6)
            name(82 + k, 132, k + 1, (uint64_t)(half[k % 2] | 0x010) << k / 2 * 9);
    }
    for (unsigned k = 0; k < 4; k++) {
        name(61 + k, 242, k + 1, UINT64_C(0x1FF) << 9 * k);
        name(90 + k, 726, k + 1, all & ~(UINT64_C(0x1FF) << 9 * k));
    }
    name(65, 484, 1, 0x3FFFF);
    name(66, 484, 2, UINT64_C(0x3FFFF) << 18);
    name(67, 996, 1, all);
}

/* ---- rows of streams (02, T-11) */

#define MOST_USERS 8
#define NUMBERS 64

static uint64_t row_of[MOST_USERS + 1][NUMBERS]; /* by users and number: the entries, a byte each; 0 past the last row */

/* A row's number by the highest bits of a product, which no two rows of so many users have alike. */
static uint64_t factor_of[MOST_USERS + 1];
static uint8_t number_by[MOST_USERS + 1][256];

/* Entry u, counted down from the last, is at least the one after it and leaves a stream for each entry before it. */
static unsigned add_rows(unsigned users, unsigned u, unsigned least, unsigned left, uint64_t row, unsigned n)
{
    if (u == 0) {
        row_of[users][n] = row;
        return n + 1;
    }
    for (unsigned entry = least; entry <= 4 && entry * u <= left; entry++)
        n = add_rows(users, u - 1, entry, left - entry, row | (uint64_t)entry << 8 * (u - 1), n);
    return n;
}

static int tells_apart(unsigned users, unsigned count, uint64_t factor)
{
    uint8_t taken[256] = {0};
    for (unsigned n = 0; n < count; n++)
        if (taken[row_of[users][n] * factor >> 56]++ != 0)
            return 0;
    return 1;
}

static void prepare_rows(void)
{
    uint64_t factor = UINT64_C(0x9E3779B97F4A7C15);
    for (unsigned users = 2; users <= MOST_USERS; users++) {
        unsigned count = add_rows(users, users, 1, 16, 0, 0);
        while (!tells_apart(users, count, factor))
            factor = factor * UINT64_C(6364136223846793005) + 2;
        factor_of[users] = factor;
        for (unsigned n = 0; n < count; n++)
            number_by[users][row_of[users][n] * factor >> 56] = (uint8_t)n;
    }
}

__attribute__((constructor)) static void prepare(void)
{
    prepare_values();
    prepare_plans();
    prepare_wide();
    prepare_check();
    prepare_named();
    prepare_rows();
}

/* ---- windows */

static inline uint64_t load_64(const uint8_t *s)
{
    uint64_t w;
    memcpy(&w, s, 8);
    return w;
}

static inline uint32_t load_32(const uint8_t *s)
{
    uint32_t w;
    memcpy(&w, s, 4);
    return w;
}

static inline uint16_t load_16(const uint8_t *s)
{
    uint16_t w;
    memcpy(&w, s, 2);
    return w;
}

/* At least 57 bits from bit `at` on; 0 past the end. */
static inline uint64_t window(const uint8_t *s, size_t length, size_t at)
{
    size_t byte = at / 8;
    uint64_t w = 0;
    if (byte + 8 <= length)
        w = load_64(s + byte);
    else if (byte < length)
        memcpy(&w, s + byte, length - byte);
    return w >> at % 8;
}

/* ---- the check alone: blocks one after the other, of 0 to 64 bits each */

static inline uint64_t covered_at(const uint8_t *s, size_t length, size_t at, unsigned bits)
{
    if (bits <= 57)
        return low(window(s, length, at), bits);
    return low(window(s, length, at), 32) | low(window(s, length, at + 32), bits - 32) << 32;
}

static inline int right_at(const uint8_t *s, size_t length, size_t at, unsigned bits)
{
    if (bits >= 1 && bits <= 47)
        return (wrong(window(s, length, at), bits) & WRONG) == 0;
    return low(window(s, length, at + bits), 10) == check(covered_at(s, length, at, bits), bits);
}

static inline uint64_t sum_of_checks(const uint8_t *s, size_t length, unsigned bits, uint32_t count)
{
    uint64_t sum = 0;
    for (size_t k = 0; k < count; k++)
        sum += check(covered_at(s, length, k * (bits + 10), bits), bits);
    return sum;
}

static inline uint64_t right_blocks(const uint8_t *s, size_t length, unsigned bits, uint32_t count)
{
    uint64_t sum = 0;
    for (size_t k = 0; k < count; k++)
        sum += (unsigned)right_at(s, length, k * (bits + 10), bits);
    return sum;
}

/* The widths that frames have get a loop of their own, in which the width is known. */
#define BY_WIDTH(loop)                                                                                                 \
    switch (n) {                                                                                                       \
    case 18: return loop(s, s_len, 18, count);                                                                         \
    case 22: return loop(s, s_len, 22, count);                                                                         \
    case 26: return loop(s, s_len, 26, count);                                                                         \
    case 35: return loop(s, s_len, 35, count);                                                                         \
    case 44: return loop(s, s_len, 44, count);                                                                         \
    case 54: return loop(s, s_len, 54, count);                                                                         \
    default: return loop(s, s_len, n, count);                                                                          \
    }

uint64_t fast_checks(const uint8_t *s, size_t s_len, uint8_t n, uint32_t count)
{
    BY_WIDTH(sum_of_checks)
}

uint64_t fast_blocks(const uint8_t *s, size_t s_len, uint8_t n, uint32_t count)
{
    BY_WIDTH(right_blocks)
}

/* ---- the plan (01, "What a plan is"; 02, T-07) */

typedef struct {
    unsigned positions, n[2];  /* positions; User fields of each channel */
    unsigned shared;           /* which positions are places of a shared resource */
    unsigned wides;            /* how many resources are wider than a segment: */
    uint8_t wide_one[3];       /* their lines of the table; the whole width has one at most, each half one */
    uint8_t plan[4];           /* of each segment, or of what those leave of it */
    uint16_t v[16];            /* the row */
    uint8_t owner[16];         /* of each position, once they are asked for */
} plan;

typedef struct {
    unsigned plan, shared, over; /* over: a resource has over eight fields */
} verdict;

/* A segment by its roles. A larger resource's fields are counted by pairs, and over both where it is one. */
INLINED verdict judge(const uint32_t r[4])
{
    unsigned told = r[0] & r[1] & r[2] & r[3] & (PLANS - 1), any = r[0] | r[1] | r[2] | r[3];
    larger x = larger_by[told];
    unsigned counts = any >> FIELDS & x.counts, sums = (counts & 0x0F0F) + (counts >> 4 & 0x0F0F);
    unsigned lower = sums & 255, upper = sums >> 8;
    unsigned of_both = by_count[lower + (upper & x.one)] | (unsigned)by_count[upper + (lower & x.one)] << 2;
    verdict y = {plan_by[told], (any >> SEVERAL & 15) | (of_both & x.places), of_both & (TOO_MANY | TOO_MANY << 2)};
    return y;
}

/* The resource that is named at p, where no lower position of n names one of that span. Of the two 2x996+484 with one family, one
 * leaves out a pair of a segment that the other has whole: the value there tells which it is. */
static unsigned named_wide(const plan *l, unsigned p, unsigned n)
{
    static const uint8_t tells[6] = {4, 6, 4, 6, 8, 10};
    unsigned family = l->v[p] >> 3, k = family - 32, there;
    if (n == 8)
        return family == 11 ? FIRST_2X996 + p / 8 : FIRST_996_484 + p / 8 * 4 + family - 16;
    if (family < 32)
        return FIRST_3X996 + family - 20;
    there = l->v[tells[k]];
    return FIRST_2X996_484 + k + ((k < 2) == (there == 30 || there >> 3 == family) ? 0 : 6);
}

/* The highest bit of each position that is not 0; they have fewer bits. */
static inline uint64_t not_zero(uint64_t four_of_them)
{
    return (four_of_them + 0x7FFF * EACH) & 0x8000 * EACH;
}

/* How many fields the k-th has, or -1 where a place holds what it may not. A segment's four values are looked at together. */
static int fields_of_wide(const plan *l, unsigned k)
{
    uint64_t bad = 0, fields = 0;
    for (unsigned s = 0; s < l->positions / 4; s++) {
        uint64_t v, other, place = wide[k].place[s];
        memcpy(&v, l->v + 4 * s, sizeof v);
        other = not_zero((v >> 3 & 63 * EACH) ^ wide[k].family * EACH);
        bad |= place & other & not_zero(v ^ wide[k].empty[s]);
        fields += ((v & 7 * EACH) + EACH) & ((place & ~other & 0x8000 * EACH) >> 15) * 15;
    }
    return bad ? -1 : (int)(fields * EACH >> 48);
}

/* What wider resources leave of a segment, pair by pair, is judged with the rest as punctured. */
static verdict judge_rest(const plan *l, unsigned first, unsigned taken)
{
    uint32_t r[4];
    for (unsigned q = 0; q < 4; q++)
        r[q] = role[q][taken >> q & 1 ? 26 : l->v[first + q]];
    return judge(r);
}

/* Whether n positions have a plan of their own, with in `over` the lowest segments of its resources with over eight fields. The
 * positions whose values name a resource of a half, and of the whole width, are told by bits. */
static int part(plan *l, unsigned first, unsigned n, unsigned of_half, unsigned of_whole, unsigned *over)
{
    unsigned taken = 0;
    l->wides = l->shared = 0;
    for (unsigned span = n; span >= 8; span /= 2)
        for (unsigned at = first; at < first + n; at += span) {
            unsigned here = (span == 8 ? of_half : of_whole) >> at & ((1u << span) - 1), k;
            int fields;
            if (here == 0)
                continue;
            k = named_wide(l, at + (unsigned)__builtin_ctz(here), span);
            fields = fields_of_wide(l, k);
            if ((taken & wide[k].places) != 0 || fields < 0)
                return 0;
            taken |= wide[k].places;
            l->wide_one[l->wides++] = (uint8_t)k;
            l->shared |= fields >= 2 ? wide[k].places : 0;
            *over |= (unsigned)(fields > 8) << wide[k].lowest / 4;
        }
    for (unsigned p = first; p < first + n; p += 4) {
        verdict x;
        if ((taken >> p & 15) == 15)
            continue;
        x = judge_rest(l, p, taken >> p & 15);
        if (x.plan == NO_PLAN)
            return 0;
        l->plan[p / 4] = (uint8_t)x.plan;
        l->shared |= x.shared << p;
        *over |= (unsigned)(x.over != 0) << p / 4;
    }
    return 1;
}

/* 0, 7 or 8 of a row of 160 or 320 MHz with a value that names a resource wider than a segment. */
RARE brachymel_answer lay_out_wide(plan *l, unsigned of_half, unsigned of_whole)
{
    unsigned over = 0, half_over = 0;
    if (part(l, 0, l->positions, of_half, of_whole, &over))
        return over ? say(8, 0, (unsigned)__builtin_ctz(over)) : say(0, 0, 0);
    for (unsigned p = 0; p < l->positions; p += 8) {
        if (l->positions == 16 && part(l, p, 8, of_half, 0, &half_over))
            continue;
        for (unsigned s = p; s < p + 8; s += 4)
            if (judge_rest(l, s, 0).plan == NO_PLAN)
                return say(7, 0, s / 4);
    }
    return say(7, 0, 0); /* parts with a plan make one plan: not reached */
}

/* Channel 1's values first, by rising position. */
RARE brachymel_answer first_not_carried(const plan *l)
{
    unsigned c = 0, p = 0;
    while (!(role[0][l->v[p]] & NOT_CARRIED)) {
        p += 2;
        if (p >= l->positions)
            p = c = 1;
    }
    return say(6, c + 1, 17 + 9 * (p / 2) + (p < 4 ? 0 : 10));
}

/* 20 and 40 MHz where not each position is its own. */
static inline brachymel_answer lay_out_short(plan *l, uint32_t all)
{
    unsigned fields = l->n[0] + l->n[1];
    if (l->positions == 1 || !(all & LOWER_484))
        return say(7, 0, 0);
    l->plan[0] = LOWER_PAIR;
    l->shared = fields >= 2 ? 3 : 0;
    return fields > 8 ? say(8, 0, 0) : say(0, 0, 0);
}

/* The plan of the row: 0, or 6 to 8. The counts are summed four bits to a place, then in bytes. */
INLINED brachymel_answer lay_out(plan *l, const unsigned positions)
{
    uint32_t r[16], any = 0, all = LOWER_SELF | UPPER_SELF | LOWER_484, even = 0, odd = 0;
    unsigned shared = 0, over = 0;
    for (unsigned p = 0; p < positions; p++)
        r[p] = role[p % 4][l->v[p]];
    for (unsigned s = 0; s < positions; s += 4) {
        uint32_t joint = 0;
        for (unsigned p = s; p < s + 4 && p < positions; p++) {
            joint |= r[p];
            all &= r[p];
        }
        any |= joint;
        even += joint >> FIELDS & 0x0F0F;
        odd += joint >> (FIELDS + 4) & 0x0F0F;
        shared |= (joint >> SEVERAL & 15) << s;
    }
    l->positions = positions;
    l->n[0] = (even + (even >> 8)) & 255;
    l->n[1] = positions == 1 ? 0 : (odd + (odd >> 8)) & 255;
    l->shared = shared;
    l->wides = 0;
    memset(l->plan, ALONE, sizeof l->plan);
    if (RARELY(any & (NOT_CARRIED | OF_A_HALF | OF_A_WHOLE))) {
        unsigned of_half = 0, of_whole = 0;
        if (any & NOT_CARRIED)
            return positions == 1 ? say(6, 1, 17) : first_not_carried(l);
        for (unsigned p = 0; p < positions; p++) {
            of_half |= (unsigned)((r[p] & OF_A_HALF) != 0) << p;
            of_whole |= (unsigned)((r[p] & OF_A_WHOLE) != 0) << p;
        }
        return positions < 8 ? say(7, 0, 0) : lay_out_wide(l, of_half, of_whole);
    }
    if ((~all & (LOWER_SELF | UPPER_SELF)) == 0)
        return say(0, 0, 0);
    if (positions < 4)
        return lay_out_short(l, all);
    for (unsigned s = 0; s < positions / 4; s++) {
        verdict x = judge(r + 4 * s);
        l->plan[s] = (uint8_t)x.plan;
        if (RARELY(x.plan == NO_PLAN))
            return say(7, 0, s);
        shared |= x.shared << 4 * s;
        if (RARELY(x.over))
            over |= 1u << s;
    }
    if (RARELY(over))
        return say(8, 0, (unsigned)__builtin_ctz(over));
    l->shared = shared;
    return say(0, 0, 0);
}

/* Owners are asked for by the lister and the comparer only. */
static void find_owners(plan *l)
{
    static const uint8_t owners[ALL_PLANS] = {SELF, PAIR, PAIR, PAIR, WHOLE, BUT_FIRST, BUT_FIRST << 1, BUT_FIRST << 2,
                                              BUT_FIRST << 3, SELF};
    for (unsigned p = 0; p < 16; p++)
        l->owner[p] = larger_of[l->plan[p / 4]].places >> p % 4 & 1 ? owners[l->plan[p / 4]] : SELF;
    for (unsigned k = 0; k < l->wides; k++)
        for (unsigned set = wide[l->wide_one[k]].places; set != 0; set &= set - 1)
            l->owner[__builtin_ctz(set)] = (uint8_t)(WIDER + l->wide_one[k]);
}

/* ---- the channels */

static const uint8_t first_bits[5] = {26, 26, 35, 35, 35}, further_bits[5] = {0, 0, 0, 18, 54},
    common_of[5] = {36, 36, 45, 73, 109};

#define MOST_FIELDS 144

typedef struct {
    plan plan;
    uint64_t head;         /* the first bits of channel 1 */
    unsigned second_check; /* of channel 1 */
    unsigned total;
    uint32_t field[MOST_FIELDS]; /* User fields, channel 1's first */
} parsed;

static inline unsigned end_of(unsigned bandwidth, unsigned n)
{
    return common_of[bandwidth] + 27 * n + 5 * (n & 1); /* 54 bits for two, 32 for the last alone */
}

/* Where bit n is missing: the first bit of the named field that has it (02, T-03). */
RARE unsigned cut_common(unsigned bandwidth, unsigned n)
{
    static const uint8_t overflow[17] = {0, 0, 0, 0, 4, 4, 6, 6, 6, 9, 10, 10, 12, 13, 13, 13, 13};
    unsigned first = first_bits[bandwidth], further = first + 10, second = further + further_bits[bandwidth];
    if (n < 17)
        return overflow[n];
    if (n < first)
        return 17 + (n - 17) / 9 * 9;
    if (n < further)
        return n < first + 4 ? first : first + 4;
    if (n < second)
        return further + (n - further) / 9 * 9;
    return n < second + 4 ? second : second + 4;
}

/* The same of a channel's User blocks; the last of an odd number of fields has one. */
RARE unsigned cut_users(unsigned bandwidth, unsigned fields, unsigned n)
{
    unsigned block = (n - common_of[bandwidth]) / 54, at = common_of[bandwidth] + block * 54;
    unsigned sent = at + (block < fields / 2 ? 44 : 22);
    if (n < sent)
        return at + (n - at) / 22 * 22;
    return n < sent + 4 ? sent : sent + 4;
}

/* ---- repeated stations (11) */

/* The C library's memset, by a pointer that the compiler has to follow: what it would put in its place starts slowly. */
static void *(*const volatile clear)(void *, int, size_t) = memset;

/* From this number of fields on it pays to clear all marks first, and to ask and mark in one pass. */
enum { MANY = 32 };

/* The first field whose STA-ID, from 1 to 2006, was there before. There is one, and not before `from`. Backwards, the first that
 * has a STA-ID leaves its number last. */
RARE unsigned first_again(const uint32_t *field, unsigned from, unsigned total)
{
    uint8_t at[2048];
    unsigned k = total;
    while (k-- > 0)
        at[field[k] & 0x7FF] = (uint8_t)k;
    for (k = from; !((at[field[k] & 0x7FF] ^ k) & is_real[field[k] & 0x7FF]);)
        k++;
    return k;
}

/* Marks, a byte for each STA-ID. Of few fields each leaves its number there, and one that then finds another's is repeated later:
 * only what was written is read, and nothing has to be cleared. Many fields ask and leave their share in one pass. */
typedef struct {
    unsigned of_many, again; /* in bit REAL of again, or of few in any: a field asked where another had been */
    unsigned from;           /* the first field that can have been repeated */
    uint8_t at[2048];
} marks;

INLINED void begin_marks(marks *m, const unsigned of_many)
{
    m->of_many = of_many;
    m->again = 0;
    m->from = of_many ? MOST_FIELDS : 0;
    if (of_many)
        clear(m->at, 0, sizeof m->at);
}

INLINED void leave_mark(marks *m, unsigned id, unsigned number, unsigned its_share)
{
    if (m->of_many)
        m->again |= m->at[id];
    m->at[id] = (uint8_t)(m->of_many ? its_share : number);
}

/* Notes that fields from this number on found another's mark, if they are the first. */
INLINED void note_again(marks *m, unsigned number)
{
    if (m->of_many && RARELY(m->again & REAL) && number < m->from)
        m->from = number;
}

/* The first field that is repeated, or total. */
INLINED unsigned find_again(marks *m, const uint32_t *field, unsigned total)
{
    if (m->of_many)
        m->again &= REAL;
    else if (total > 1)
        for (unsigned k = 0; k < total; k++)
            m->again |= (m->at[field[k] & 0x7FF] ^ k) & is_real[field[k] & 0x7FF];
    return RARELY(m->again) ? first_again(field, m->from, total) : total;
}

/* ---- User blocks (10) */

#define FIELD UINT64_C(0x3FFFFF)

/* Takes a block's two fields, from that number on: not 0 in WRONG where check or tail is wrong. */
INLINED unsigned take_two(uint64_t w, uint32_t *field, unsigned number, marks *m)
{
    unsigned id = w & 0x7FF, other = w >> 22 & 0x7FF, mine = share[3][id], others = share[1][other];
    uint64_t both = (w & FIELD) | (w << 10 & FIELD << 32);
    memcpy(field + number, &both, 8);
    leave_mark(m, id, number, mine);
    leave_mark(m, other, number + 1, others);
    return (unsigned)(w >> 43) ^ mine ^ share[2][w >> 11 & 0x7FF] ^ others ^ share[0][w >> 33 & 0x7FF] ^ ones_of[44];
}

INLINED unsigned take_one(uint64_t w, uint32_t *field, unsigned number, marks *m)
{
    unsigned id = w & 0x7FF, mine = share[1][id];
    field[number] = (uint32_t)(w & FIELD);
    leave_mark(m, id, number, mine);
    return (unsigned)(w >> 21) ^ mine ^ share[0][w >> 11 & 0x7FF] ^ ones_of[22];
}

/* On the way through the User blocks of a channel that has them all. */
typedef struct {
    const uint8_t *s;
    size_t length;
    unsigned at, n, number; /* the next block's first bit, the fields left, and the next one's number */
    uint32_t *field;
    marks *m;
} walk;

INLINED void step(walk *x, unsigned blocks)
{
    x->at += 54 * blocks;
    x->n -= 2 * blocks;
    x->number += 2 * blocks;
}

/* Each of these takes blocks of two fields, but not the last block: 0, or the first check bit of the first wrong one. Behind a
 * block that is not the last there are 32 bits or more, so that its window is in the channel. Four blocks are 27 bytes, and from
 * one four to the next the windows lie alike, so that their shifts are known. */
INLINED unsigned take_fours(walk *x, const unsigned common)
{
    for (; x->n > 8; step(x, 4)) {
        const uint8_t *s = x->s + x->at / 8;
        unsigned bad[4]; /* a block each */
        for (unsigned k = 0; k < 4; k++) {
            const unsigned from = common % 8 + 54 * k;
            bad[k] = take_two(load_64(s + from / 8) >> from % 8, x->field, x->number + 2 * k, x->m) & WRONG;
        }
        if (RARELY(bad[0] | bad[1] | bad[2] | bad[3]))
            return x->at + 44 + (bad[0] ? 0 : bad[1] ? 54 : bad[2] ? 108 : 162);
        note_again(x->m, x->number);
    }
    return 0;
}

/* Four at most, as 20 and 40 MHz have: known from the start on. */
INLINED unsigned take_up_to_four(walk *x, const unsigned common)
{
#pragma GCC unroll 4
    for (unsigned k = 0; k < 4; k++, step(x, 1)) {
        const unsigned from = common + 54 * k;
        if (x->n <= 2)
            break;
        if (RARELY(take_two(load_64(x->s + from / 8) >> from % 8, x->field, x->number, x->m) & WRONG))
            return x->at + 44;
    }
    return 0;
}

INLINED unsigned take_others(walk *x)
{
    for (; x->n > 2; step(x, 1))
        if (RARELY(take_two(load_64(x->s + x->at / 8) >> x->at % 8, x->field, x->number, x->m) & WRONG))
            return x->at + 44;
    return 0;
}

/* The last block, of two fields or one. Its window is moved down where it would end past the channel. */
INLINED unsigned take_last(walk *x)
{
    unsigned byte = x->at / 8 + 8 <= x->length ? x->at / 8 : (unsigned)x->length - 8, bad;
    uint64_t w = load_64(x->s + byte) >> (x->at - 8 * byte);
    bad = x->n == 2 ? take_two(w, x->field, x->number, x->m) : take_one(w, x->field, x->number, x->m);
    return RARELY(bad & WRONG) ? x->at + 22 * x->n : 0;
}

INLINED unsigned take_blocks(walk *x, const unsigned common)
{
    unsigned place = 0, rest;
    if (x->n == 0)
        return 0;
    if (x->m->of_many)
        place = take_fours(x, common);
    if (RARELY(place))
        return place;
    rest = x->number;
    place = common == 36 ? take_up_to_four(x, common) : take_others(x);
    if (RARELY(place))
        return place;
    place = take_last(x);
    note_again(x->m, rest);
    return place;
}

/* 10 and 11 over both channels. */
INLINED brachymel_answer take_users(const unsigned bandwidth, const unsigned of_many, const uint8_t *cc1, size_t cc1_len,
                                    const uint8_t *cc2, size_t cc2_len, parsed *f)
{
    const unsigned common = common_of[bandwidth];
    unsigned n = f->plan.n[0], place, k;
    marks m;
    walk one = {cc1, cc1_len, common, n, 0, f->field, &m}, two = {cc2, cc2_len, common, f->plan.n[1], n, f->field, &m};
    begin_marks(&m, of_many);
    place = take_blocks(&one, common);
    if (RARELY(place))
        return say(10, 1, place);
    place = bandwidth == 0 ? 0 : take_blocks(&two, common);
    if (RARELY(place))
        return say(10, 2, place);
    k = find_again(&m, f->field, f->total);
    if (RARELY(k < f->total))
        return say(11, k < n ? 1 : 2, common + (k < n ? k : k - n) / 2 * 54 + (k < n ? k : k - n) % 2 * 22);
    return say(0, 0, 0);
}

/* ---- the common fields */

/* The first block, and no byte past the common field. */
INLINED uint64_t first_block(const unsigned bandwidth, const uint8_t *s)
{
    if (bandwidth < 2)
        return load_32(s) | (uint64_t)s[4] << 32;
    return bandwidth == 2 ? load_32(s) | (uint64_t)load_16(s + 4) << 32 : load_64(s);
}

/* The further block, from bit 45: 28 bits of 160 MHz, 64 of 320. */
INLINED uint64_t further_block(const unsigned bandwidth, const uint8_t *s, uint64_t first)
{
    return bandwidth == 3 ? load_64(s + 2) >> 29 : (first >> 45 & 7) | load_64(s + 6) << 3;
}

/* Answers 0 and 2 to 11; 1 is asked before. */
INLINED brachymel_answer parse_at(const unsigned bandwidth, const uint8_t *cc1, size_t cc1_len, const uint8_t *cc2,
                                  size_t cc2_len, parsed *f)
{
    const unsigned channels = bandwidth == 0 ? 1 : 2, positions = 1u << bandwidth, first = first_bits[bandwidth],
                   further = further_bits[bandwidth], common = common_of[bandwidth];
    const uint8_t *cc[2] = {cc1, cc2};
    const size_t len[2] = {cc1_len, cc2_len};
    uint64_t w[2] = {0, 0}, more[2] = {0, 0};
    brachymel_answer a;

    if (RARELY(cc1_len > 512))
        return say(2, 1, 0);
    if (RARELY(cc2_len > (bandwidth == 0 ? 0 : 512)))
        return say(2, 2, 0);
    for (unsigned c = 0; c < channels; c++)
        if (RARELY(8 * len[c] < common))
            return say(3, c + 1, cut_common(bandwidth, (unsigned)(8 * len[c])));
    for (unsigned c = 0; c < channels; c++) {
        w[c] = first_block(bandwidth, cc[c]);
        if (RARELY(wrong(w[c], first) & WRONG))
            return say(4, c + 1, first);
        if (further != 0) {
            more[c] = further_block(bandwidth, cc[c], w[c]);
            if (RARELY(wrong(more[c], further) & WRONG))
                return say(4, c + 1, common - 10);
        }
    }
    if (RARELY(low(w[0] >> 6, 3) >= 5))
        return say(5, 1, 6);
    if (channels == 2 && RARELY(low(w[0] ^ w[1], 17)))
        return say(5, 2, (uint64_t)__builtin_ctzll(w[0] ^ w[1]));
    f->head = w[0];
    f->second_check = further != 0 ? (unsigned)(more[0] >> further & 15) : 0;
    for (unsigned p = 0; p < positions; p++)
        f->plan.v[p] = (uint16_t)((p < 4 ? w[p % 2] >> (17 + p / 2 * 9) : more[p % 2] >> (p - 4) / 2 * 9) & 0x1FF);
    a = lay_out(&f->plan, positions);
    if (RARELY(a.number))
        return a;
    for (unsigned c = 0; c < channels; c++)
        if (RARELY(8 * len[c] < end_of(bandwidth, f->plan.n[c])))
            return say(9, c + 1, cut_users(bandwidth, f->plan.n[c], (unsigned)(8 * len[c])));
    f->total = f->plan.n[0] + f->plan.n[1];
    if (bandwidth >= 2 && f->total >= MANY)
        return take_users(bandwidth, 1, cc1, cc1_len, cc2, cc2_len, f);
    return take_users(bandwidth, 0, cc1, cc1_len, cc2, cc2_len, f);
}

/* Of a function that there is for each bandwidth, one copy for each: none has the others' registers and stack, and the arguments
 * stay where they are. The code is an argument of the copies, and not looked at. */
#define COPY(at, mhz, code, types, names)                                                                              \
    static brachymel_answer at##_##mhz types                                                                           \
    {                                                                                                                  \
        (void)bandwidth;                                                                                               \
        return at names(code);                                                                                         \
    }
#define COPIES(at, types, names)                                                                                       \
    COPY(at, 20, 0, types, names)                                                                                      \
    COPY(at, 40, 1, types, names)                                                                                      \
    COPY(at, 80, 2, types, names)                                                                                      \
    COPY(at, 160, 3, types, names)                                                                                     \
    COPY(at, 320, 4, types, names)                                                                                     \
    static brachymel_answer(*const at##_copy[5]) types = {at##_20, at##_40, at##_80, at##_160, at##_320};

#define PARSED(code) (code, cc1, cc1_len, cc2, cc2_len, f)
COPIES(parse_at, (uint32_t bandwidth, const uint8_t *cc1, size_t cc1_len, const uint8_t *cc2, size_t cc2_len, parsed *f), PARSED)

static brachymel_answer parse(uint32_t bandwidth, const uint8_t *cc1, size_t cc1_len, const uint8_t *cc2, size_t cc2_len,
                              parsed *f)
{
    return bandwidth > 4 ? say(1, 0, 0) : parse_at_copy[bandwidth] PARSED(bandwidth);
}

/* ---- User words, four at a time: of fields alone on their resource, of ones that share it */

typedef uint32_t four __attribute__((vector_size(16)));

static inline four load_four(const void *s)
{
    four x;
    memcpy(&x, s, sizeof x);
    return x;
}

static inline four alone_words(four f)
{
    return (f & 0x0F07FF) << 8 | (f & 0x107800) << 9 | (f & 0x8000) << 13 | (f & 0x200000) >> 2 | 0x3F;
}

static inline four shared_words(four f)
{
    return (f & 0x3F07FF) << 8 | (f & 0x7800) << 9 | (f & 0x8000) << 4 | 0x47;
}

static inline four alone_fields(four w)
{
    return (w >> 8 & 0x0F07FF) | (w >> 9 & 0x107800) | (w >> 13 & 0x8000) | (w << 2 & 0x200000);
}

static inline four shared_fields(four w)
{
    return (w >> 8 & 0x3F07FF) | (w >> 9 & 0x7800) | (w >> 4 & 0x8000);
}

static inline four choose(four mark, four if_set, four if_not)
{
    return (if_set & mark) | (if_not & ~mark);
}

/* Bits of a User word that its format fixes. */
enum { ALONE_KNOWN = 0x3F, SHARED_KNOWN = 0x47 };
#define KNOWN UINT32_C(0xC00000FF)

static inline void put_word(uint8_t *words, size_t k, uint32_t word)
{
    memcpy(words + 4 * k, &word, 4);
}

static inline uint32_t get_word(const uint8_t *words, size_t k)
{
    return load_32(words + 4 * k);
}

/* Of each User field, in the order of the words, all ones where it shares its resource. A position's fields are at most nine, so
 * twelve are marked, and what is too much belongs to positions still to come. */
static void mark_shared(const plan *l, uint32_t is_shared[MOST_FIELDS + 12])
{
    uint32_t *at = is_shared;
    for (unsigned c = 0; c < 2; c++)
        for (unsigned p = c; p < l->positions; p += 2) {
            uint32_t mark = 0 - (l->shared >> p & 1);
            for (unsigned k = 0; k < 12; k++)
                at[k] = mark;
            at += fields_of[l->v[p]];
        }
}

enum { ALL_ALONE, ALL_SHARED, MIXED };

static inline unsigned format_of(unsigned shared, unsigned positions)
{
    return shared == 0 ? ALL_ALONE : positions == 1 || shared == (1u << positions) - 1 ? ALL_SHARED : MIXED;
}

INLINED four words_of(const unsigned format, four f, four mark)
{
    if (format == MIXED)
        return choose(mark, shared_words(f), alone_words(f));
    return format == ALL_SHARED ? shared_words(f) : alone_words(f);
}

/* The last four overlap those before. Fewer than four are made one by one: they were just stored, one by one or two by two, and
 * to load them at once would have to wait for that. */
INLINED void put_words(const unsigned format, const uint32_t *field, const uint32_t *is_shared,
                       unsigned n, uint8_t *restrict words)
{
    four x;
    if (n < 4) {
        for (unsigned k = 0; k < n; k++) {
            four f = {field[k]}, mark = {is_shared[k]};
            put_word(words, k, words_of(format, f, mark)[0]);
        }
        return;
    }
    for (unsigned k = 0; k < n - 4; k += 4) {
        x = words_of(format, load_four(field + k), load_four(is_shared + k));
        memcpy(words + 4 * k, &x, sizeof x);
    }
    x = words_of(format, load_four(field + n - 4), load_four(is_shared + n - 4));
    memcpy(words + 4 * (n - 4), &x, sizeof x);
}

/* Position by position, most of which have none. */
static void put_few_words(const plan *l, const uint32_t *field, uint8_t *words)
{
    for (unsigned c = 0; c < 2; c++)
        for (unsigned p = c; p < l->positions; p += 2)
            for (unsigned n = fields_of[l->v[p]]; n > 0; n--, field++, words += 4) {
                four f = {*field};
                put_word(words, 0, (l->shared >> p & 1 ? shared_words(f) : alone_words(f))[0]);
            }
}

static __attribute__((noinline)) void put_mixed_words(const plan *l, const uint32_t *field, unsigned n, uint8_t *words)
{
    uint32_t is_shared[MOST_FIELDS + 12];
    if (n < 8) {
        put_few_words(l, field, words);
        return;
    }
    mark_shared(l, is_shared);
    put_words(MIXED, field, is_shared, n, words);
}

INLINED void put_user_words(const unsigned bandwidth, const parsed *f, uint8_t *words)
{
    switch (format_of(f->plan.shared, 1u << bandwidth)) {
    case ALL_ALONE: put_words(ALL_ALONE, f->field, f->field, f->total, words); break;
    case ALL_SHARED: put_words(ALL_SHARED, f->field, f->field, f->total, words); break;
    default: put_mixed_words(&f->plan, f->field, f->total, words);
    }
}

/* ---- the ten words before them */

static inline uint32_t known_word(unsigned bandwidth)
{
    return bandwidth >= 3 ? 0x1E1F6 : 0x61F6;
}

/* The values of the k-th of the five words after that of position 0, from position 3k-2 on, three at most: each one's lowest bit.
 * A value has nine bits, and its known bit follows. */
static inline uint32_t values_in(unsigned positions, unsigned k)
{
    uint32_t bits = 0;
    for (unsigned i = 0; i < 3; i++)
        if (3 * k + i - 2 < positions)
            bits |= UINT32_C(1) << 10 * i;
    return bits;
}

INLINED void put_head_words(const unsigned bandwidth, const parsed *f, uint8_t *words)
{
    static const uint16_t size_gi[4] = {2 << 9, 2 << 9 | 1 << 7, 3 << 9, 3 << 9 | 2 << 7};
    const unsigned positions = 1u << bandwidth;
    const uint16_t *v = f->plan.v;
    put_word(words, 0, known_word(bandwidth));
    put_word(words, 1, (uint32_t)(low(f->head, 4) << 3 | size_gi[f->head >> 4 & 3] | low(f->head >> 6, 11) << 11
                                  | low(f->head >> first_bits[bandwidth], 4) << 22));
    put_word(words, 2, (uint32_t)v[0] << 13 | 0x400000);
    for (unsigned k = 1; k <= 5; k++) {
        uint32_t word = values_in(positions, k) << 9;
        for (unsigned i = 0; i < 3; i++)
            if (3 * k + i - 2 < positions)
                word |= (uint32_t)v[3 * k + i - 2] << 10 * i;
        put_word(words, 2 + k, word);
    }
    put_word(words, 8, f->second_check);
    put_word(words, 9, 0);
}

INLINED brachymel_answer read_at(const unsigned bandwidth, const uint8_t *cc1, size_t cc1_len, const uint8_t *cc2,
                                 size_t cc2_len, uint8_t *words, size_t words_len)
{
    parsed f;
    brachymel_answer a = parse_at(bandwidth, cc1, cc1_len, cc2, cc2_len, &f);
    if (RARELY(a.number))
        return a;
    if (RARELY(words_len / 4 < 10 + f.total))
        return say(12, 0, 10 + f.total);
    put_head_words(bandwidth, &f, words);
    put_user_words(bandwidth, &f, words + 40);
    return say(0, 0, 10 + f.total);
}

#define READ(code) (code, cc1, cc1_len, cc2, cc2_len, words, words_len)
COPIES(read_at, (uint32_t bandwidth, const uint8_t *cc1, size_t cc1_len, const uint8_t *cc2, size_t cc2_len, uint8_t *words,
                 size_t words_len), READ)

brachymel_answer NAME(read)(uint32_t bandwidth, const uint8_t *cc1, size_t cc1_len, const uint8_t *cc2, size_t cc2_len,
                            uint8_t *words, size_t words_len)
{
    return bandwidth > 4 ? say(1, 0, 0) : read_at_copy[bandwidth] READ(bandwidth);
}

/* ---- the writer */

/* The overflow that data[0] tells of, or -1 where none does. The four bits of the check are asked for later. */
static inline int overflow_of(uint32_t data_0)
{
    static const int8_t gi_ltf[16] = {-1, -1, -1, -1, -1, -1, -1, -1, 0, 1, -1, -1, 2, -1, 3, -1};
    int g = gi_ltf[data_0 >> 7 & 15];
    if (g < 0 || (data_0 & 0xFC000007) != 0 || (data_0 >> 11 & 7) >= 5)
        return -1;
    return (int)((data_0 >> 3 & 15) | (uint32_t)g << 4 | (data_0 >> 11 & 0x7FF) << 6);
}

/* The row that the words tell of: 0 where they hold nothing else there. */
INLINED uint32_t take_row(const unsigned bandwidth, const uint8_t *words, uint16_t v[16])
{
    const unsigned positions = 1u << bandwidth;
    uint32_t word = get_word(words, 2), bad = get_word(words, 0) ^ known_word(bandwidth);
    bad |= (word & ~(UINT32_C(0x1FF) << 13)) ^ 0x400000;
    v[0] = word >> 13 & 0x1FF;
    for (unsigned k = 1; k <= 5; k++) {
        uint32_t bits = values_in(positions, k);
        word = get_word(words, 2 + k);
        bad |= (word & ~(bits * 0x1FF)) ^ bits << 9;
        for (unsigned i = 0; i < 3; i++)
            if (3 * k + i - 2 < positions)
                v[3 * k + i - 2] = word >> 10 * i & 0x1FF;
    }
    return bad | get_word(words, 9);
}

/* Takes four words' fields: not 0 where a word is not of its format. */
INLINED four take_four(const unsigned format, four w, four mark, void *field)
{
    const four none = {0}, alone = none + ALONE_KNOWN, shared = none + SHARED_KNOWN;
    four known = format == ALL_SHARED ? shared : alone, f = format == ALL_SHARED ? shared_fields(w) : alone_fields(w);
    if (format == MIXED) {
        known = choose(mark, shared, alone);
        f = choose(mark, shared_fields(w), f);
    }
    memcpy(field, &f, sizeof f);
    return (w & KNOWN) ^ known;
}

/* As put_words. */
INLINED uint32_t take_words(const unsigned format, const uint8_t *words,
                            const uint32_t *is_shared, unsigned n, uint32_t *field)
{
    four bad = {0};
    if (n < 4) {
        for (unsigned k = 0; k < n; k++) {
            four w = {get_word(words, k)}, mark = {is_shared[k]}, f;
            bad |= take_four(format, w, mark, &f);
            field[k] = f[0];
        }
        return bad[0];
    }
    for (unsigned k = 0; k < n - 4; k += 4)
        bad |= take_four(format, load_four(words + 4 * k), load_four(is_shared + k), field + k);
    bad |= take_four(format, load_four(words + 4 * (n - 4)), load_four(is_shared + n - 4), field + n - 4);
    return bad[0] | bad[1] | bad[2] | bad[3];
}

static __attribute__((noinline)) uint32_t take_mixed_words(const plan *l, const uint8_t *words, unsigned n, uint32_t *field)
{
    uint32_t is_shared[MOST_FIELDS + 12];
    mark_shared(l, is_shared);
    return take_words(MIXED, words, is_shared, n, field);
}

INLINED uint32_t take_user_words(const unsigned bandwidth, const plan *l, const uint8_t *words, unsigned n, uint32_t *field)
{
    switch (format_of(l->shared, 1u << bandwidth)) {
    case ALL_ALONE: return take_words(ALL_ALONE, words, field, n, field);
    case ALL_SHARED: return take_words(ALL_SHARED, words, field, n, field);
    default: return take_mixed_words(l, words, n, field);
    }
}

/* 11 of fields that are there already. */
INLINED int is_any_again(const unsigned of_many, const uint32_t *field, unsigned total)
{
    marks m;
    begin_marks(&m, of_many);
    for (unsigned k = 0; k < total; k++)
        leave_mark(&m, field[k] & 0x7FF, k, share[0][field[k] & 0x7FF]);
    note_again(&m, 0);
    return find_again(&m, field, total) < total;
}

static inline void store_64(uint8_t *s, uint64_t w)
{
    memcpy(s, &w, 8);
}

/* The lowest n bytes, at most eight. */
static inline void store_bytes(uint8_t *s, uint64_t w, unsigned n)
{
    if (n & 8) {
        store_64(s, w);
        return;
    }
    if (n & 4) {
        memcpy(s, &w, 4);
        s += 4;
        w >>= 32;
    }
    if (n & 2) {
        memcpy(s, &w, 2);
        s += 2;
        w >>= 16;
    }
    if (n & 1)
        *s = (uint8_t)w;
}

/* The common field, and no byte past it; returned are the bits that its last byte has of it. */
INLINED uint64_t put_common(const unsigned bandwidth, uint8_t *s, uint64_t first, uint64_t further)
{
    const unsigned first_n = first_bits[bandwidth], further_n = further_bits[bandwidth];
    uint64_t w = first | (uint64_t)check(first, first_n) << first_n, more;
    if (further_n == 0) {
        store_bytes(s, w, bandwidth < 2 ? 5 : 6);
        return w >> (bandwidth < 2 ? 32 : 40);
    }
    more = further | (uint64_t)check(further, further_n) << further_n;
    store_64(s, w | more << 45);
    store_bytes(s + (bandwidth == 3 ? 8 : 6), more >> (bandwidth == 3 ? 19 : 3), bandwidth == 3 ? 2 : 8);
    return bandwidth == 3 ? more >> 27 : more >> 59;
}

static inline uint64_t block_of_two(const uint32_t *field)
{
    uint64_t w = field[0] | (uint64_t)field[1] << 22;
    return w | (uint64_t)check(w, 44) << 44;
}

static inline uint64_t block_of_one(const uint32_t *field)
{
    return field[0] | (uint64_t)check(field[0], 22) << 22;
}

/* The User blocks, after the bits that the last byte has: the bytes then taken. A block that is not the last has 32 bits or more
 * behind it, so that its eight bytes are the channel's. */
INLINED unsigned put_blocks(const unsigned bandwidth, uint8_t *s, uint64_t held, const uint32_t *field, unsigned n)
{
    const unsigned common = common_of[bandwidth], in = common % 8;
    unsigned at = common, end = end_of(bandwidth, n), bytes = (end + 7) / 8;
    if (n == 0)
        return bytes;
    if (bandwidth >= 2)
        for (; n > 8; n -= 8, at += 4 * 54, field += 8)
            for (unsigned k = 0; k < 4; k++) {
                const unsigned from = in + 54 * k;
                held |= block_of_two(field + 2 * k) << from % 8;
                store_64(s + at / 8 + from / 8, held);
                held >>= (from % 8 + 54) / 8 * 8;
            }
    for (; n > 2; n -= 2, at += 54, field += 2) {
        held |= block_of_two(field) << at % 8;
        store_64(s + at / 8, held);
        held >>= (at % 8 + 54) / 8 * 8;
    }
    held |= (n == 2 ? block_of_two(field) : block_of_one(field)) << at % 8;
    store_bytes(s + at / 8, held, bytes - at / 8);
    return bytes;
}

INLINED brachymel_answer write_at(const unsigned bandwidth, const uint8_t *words, size_t words_len, uint8_t *cc1,
                                  size_t cc1_len, uint8_t *cc2, size_t cc2_len)
{
    const unsigned channels = bandwidth == 0 ? 1 : 2, positions = 1u << bandwidth, first = first_bits[bandwidth],
                   further = further_bits[bandwidth];
    uint8_t *const cc[2] = {cc1, cc2};
    const size_t len[2] = {cc1_len, cc2_len};
    uint64_t covered[2], more[2] = {0, 0};
    uint32_t data_0, field[MOST_FIELDS];
    unsigned total, longer, bytes;
    int overflow;
    plan l;

    if (RARELY(words_len % 4 != 0 || words_len < 40 || words_len > BRACHYMEL_WORDS_SIZE))
        return say(13, 0, 0);
    data_0 = get_word(words, 1);
    overflow = overflow_of(data_0);
    if (RARELY(overflow < 0 || take_row(bandwidth, words, l.v) != 0))
        return say(13, 0, 0);
    covered[0] = covered[1] = (uint64_t)overflow;
    for (unsigned p = 0; p < positions; p++)
        if (p < 4)
            covered[p % 2] |= (uint64_t)l.v[p] << (17 + p / 2 * 9);
        else
            more[p % 2] |= (uint64_t)l.v[p] << (p - 4) / 2 * 9;
    if (RARELY((data_0 >> 22) != check(covered[0], first) || get_word(words, 8) != (further != 0 ? check(more[0], further) : 0)))
        return say(13, 0, 0);
    if (RARELY(lay_out(&l, positions).number))
        return say(13, 0, 0);
    total = l.n[0] + l.n[1];
    if (RARELY(words_len != 40 + 4 * total || take_user_words(bandwidth, &l, words + 40, total, field) != 0))
        return say(13, 0, 0);
    if (RARELY(total < MANY ? is_any_again(0, field, total) : is_any_again(1, field, total)))
        return say(13, 0, 0);
    longer = channels == 2 && l.n[1] > l.n[0] ? l.n[1] : l.n[0];
    bytes = (end_of(bandwidth, longer) + 7) / 8;
    for (unsigned c = 0; c < channels; c++)
        if (RARELY(len[c] < bytes))
            return say(14, c + 1, bytes);
    for (unsigned c = 0; c < channels; c++) {
        uint64_t held = put_common(bandwidth, cc[c], covered[c], more[c]);
        unsigned taken = put_blocks(bandwidth, cc[c], held, c == 0 ? field : field + l.n[0], l.n[c]);
        if (taken < bytes)
            memset(cc[c] + taken, 0, bytes - taken);
    }
    return say(0, 0, bytes);
}

#define WRITTEN(code) (code, words, words_len, cc1, cc1_len, cc2, cc2_len)
COPIES(write_at, (uint32_t bandwidth, const uint8_t *words, size_t words_len, uint8_t *cc1, size_t cc1_len, uint8_t *cc2,
                  size_t cc2_len), WRITTEN)

brachymel_answer NAME(write)(uint32_t bandwidth, const uint8_t *words, size_t words_len, uint8_t *cc1, size_t cc1_len,
                             uint8_t *cc2, size_t cc2_len)
{
    return bandwidth > 4 ? say(1, 0, 0) : write_at_copy[bandwidth] WRITTEN(bandwidth);
}

/* ---- the listing */

static inline char *put_text(char *t, const char *s, size_t n)
{
    memcpy(t, s, n);
    return t + n;
}

#define PUT(t, s) put_text(t, s, sizeof(s) - 1)

/* A number's digits, the first lowest, and from bit 32 how many there are. No number in a text is over the bits of a channel. */
static uint64_t text_of[8 * BRACHYMEL_CHANNEL_LIMIT + 1];

static void prepare_numbers(void)
{
    for (unsigned n = 0; n <= 8 * BRACHYMEL_CHANNEL_LIMIT; n++) {
        uint64_t text = 0, length = 0;
        for (unsigned rest = n; rest != 0 || length == 0; rest /= 10, length++)
            text = text << 8 | ('0' + rest % 10);
        text_of[n] = text | length << 32;
    }
}

/* Four bytes are stored, and what is too much is written over by what follows: see where the last of a text is put. */
static inline char *put_entry(char *t, uint64_t entry)
{
    uint32_t digits = (uint32_t)entry;
    memcpy(t, &digits, 4);
    return t + (entry >> 32);
}

static inline char *put_number(char *t, unsigned n)
{
    return put_entry(t, text_of[n]);
}

static inline char *put_signed(char *t, int n)
{
    *t = '-';
    return put_number(t + (n < 0), (unsigned)(n < 0 ? -n : n));
}

static inline char *put_run(char *t, int first, int last)
{
    t = put_signed(t, first);
    *t++ = ':';
    return put_signed(t, last);
}

/* By OF_26 and so on. */
static const struct {
    char text[24];
    uint8_t length, name;
} key_of[13] = {{"ru=26 index=", 12, 2}, {"ru=52 index=", 12, 2}, {"ru=106 index=", 13, 3}, {"ru=106+26 index=", 16, 6},
                {"ru=242 index=", 13, 3}, {"ru=484 index=", 13, 3}, {"ru=996 index=", 13, 3}, {"ru=484+242 index=", 17, 7},
                {"ru=2x996 index=", 15, 5}, {"ru=996+484 index=", 17, 7}, {"ru=3x996 index=", 15, 5},
                {"ru=2x996+484 index=", 19, 9}, {"ru=3x996+484 index=", 19, 9}};

/* A resource's line up to its subcarriers. Keys are stored whole, and the digits of segment and users, one each, put into one. */
static inline char *put_resource(char *t, unsigned size, unsigned index, unsigned seg, unsigned users)
{
    memcpy(t, key_of[size].text, sizeof key_of[size].text);
    t = put_number(t + key_of[size].length, index);
    memcpy(t, " segment=0 users=0 tones=", 25);
    t[9] = (char)('0' + seg);
    t[17] = (char)('0' + users);
    return t + 25;
}

/* The lowest subcarrier of a position's 242, from 40 MHz on: each position is 256 wide. */
static inline int lowest(unsigned p, unsigned positions)
{
    return 256 * (int)p + (p % 2 == 0 ? 12 : 3) - 128 * (int)positions;
}

static inline char *put_242(char *t, unsigned p, unsigned positions)
{
    if (positions == 1)
        return PUT(t, "-122:-2,2:122");
    return put_run(t, lowest(p, positions), lowest(p, positions) + 241);
}

/* The pieces of a value, in rising frequency: size (OF_26 to OF_106_26) and place from 1. */
typedef struct {
    uint8_t n, size[9], place[9];
} list_of_pieces;

static list_of_pieces pieces_of[51];
static uint8_t resources_of[VALUES]; /* of a value by itself */

static void add_piece(list_of_pieces *x, unsigned size, unsigned place)
{
    x->size[x->n] = (uint8_t)size;
    x->place[x->n++] = (uint8_t)place;
}

/* The k-th of the four quarter slots, as one 52 or two 26s. */
static void add_slot(list_of_pieces *x, unsigned k, unsigned as_one)
{
    unsigned first = 2 * k - (k < 3);
    if (as_one) {
        add_piece(x, OF_52, k);
    } else {
        add_piece(x, OF_26, first);
        add_piece(x, OF_26, first + 1);
    }
}

static void prepare_pieces_of(list_of_pieces *x, unsigned v)
{
    if (v <= 19) {
        add_slot(x, 1, v <= 15 ? v & 8 : v & 2);
        add_slot(x, 2, v <= 15 ? v & 4 : v & 1);
    } else if (v == 24) {
        add_slot(x, 1, 1);
        add_slot(x, 2, 1);
    } else {
        add_piece(x, v == 48 ? OF_106_26 : OF_106, 1);
    }
    if (v <= 23 || v == 25)
        add_piece(x, OF_26, 5);
    if (v <= 15 || (v >= 20 && v <= 24)) {
        add_slot(x, 3, v == 24 || (v & 2));
        add_slot(x, 4, v == 24 || (v & 1));
    } else {
        add_piece(x, v == 50 ? OF_106_26 : OF_106, 2);
    }
}

static void prepare_pieces(void)
{
    for (unsigned v = 0; v < VALUES; v++) {
        if (v <= 25 || v == 48 || v == 50)
            prepare_pieces_of(&pieces_of[v], v);
        resources_of[v] = v <= 50 ? pieces_of[v].n : 0;
        if (v == 28 || (v >= 64 && v < 72))
            resources_of[v] = 1;
    }
}

/* A piece's subcarriers by its size and place, the ends of one run or two: from a 242's lowest one, and at 20 MHz. */
static const int16_t tones_of[2][4][10][4] = {
    {{{0}, {1, 26}, {27, 52}, {55, 80}, {81, 106}, {108, 133}, {135, 160}, {161, 186}, {189, 214}, {215, 240}},
     {{0}, {1, 52}, {55, 106}, {135, 186}, {189, 240}},
     {{0}, {1, 106}, {135, 240}},
     {{0}, {1, 106, 108, 133}, {108, 133, 135, 240}}},
    {{{0}, {-121, -96}, {-95, -70}, {-68, -43}, {-42, -17}, {-16, -4, 4, 16}, {17, 42}, {43, 68}, {70, 95}, {96, 121}},
     {{0}, {-121, -70}, {-68, -17}, {17, 68}, {70, 121}},
     {{0}, {-122, -17}, {17, 122}},
     {{0}, {-122, -4, 4, 16}, {-16, -4, 4, 122}}}};

/* Counted through the segment; the 26 of index 19 does not exist. */
static inline unsigned index_of_piece(unsigned size, unsigned place, unsigned q)
{
    static const uint8_t each[4] = {9, 4, 2, 2};
    return each[size] * q + place + (size == OF_26 && q >= 2);
}

static inline char *put_piece(char *t, unsigned size, unsigned place, unsigned p, unsigned positions)
{
    const int16_t *tone = tones_of[positions == 1][size][place];
    int from = positions == 1 ? 0 : lowest(p, positions);
    t = put_resource(t, size, index_of_piece(size, place, p % 4), p / 4, 1);
    t = put_run(t, from + tone[0], from + tone[1]);
    if (tone[3] != 0) {
        *t++ = ',';
        t = put_run(t, from + tone[2], from + tone[3]);
    }
    return t;
}

static char *put_996(char *t, unsigned first, unsigned positions)
{
    int centre = 256 * (int)first + 512 - 128 * (int)positions;
    t = put_run(t, centre - 500, centre - 3);
    *t++ = ',';
    return put_run(t, centre + 3, centre + 500);
}

static char *put_484(char *t, unsigned p, unsigned positions)
{
    t = put_242(t, p, positions);
    *t++ = ',';
    return put_242(t, p + 1, positions);
}

static __attribute__((noinline)) char *put_wide(char *t, const plan *l, unsigned k)
{
    unsigned users = 0, sep = 0;
    for (unsigned set = wide[k].places; set != 0; set &= set - 1)
        users += fields_of[l->v[__builtin_ctz(set)]];
    t = put_resource(t, wide[k].size, wide[k].index, wide[k].lowest / 4, users);
    for (unsigned p = 0; p < 16; p += 4) {
        unsigned own = wide[k].places >> p & 15;
        if (own == 0)
            continue;
        if (sep++)
            *t++ = ',';
        t = own == 15 ? put_996(t, p, l->positions) : put_484(t, own == 3 ? p : p + 2, l->positions);
    }
    return t;
}

/* A larger resource, at its lowest place p. */
static char *put_larger(char *t, const plan *l, unsigned p)
{
    unsigned first = p / 4 * 4, owner = l->owner[p], users = 0, k, sep = 0;
    if (owner >= WIDER)
        return put_wide(t, l, owner - WIDER);
    for (unsigned q = p; q < first + 4 && q < l->positions && (owner != PAIR || q < p + 2); q++)
        users += l->owner[q] == owner ? fields_of[l->v[q]] : 0;
    if (owner == WHOLE)
        return put_996(put_resource(t, OF_996, 1, p / 4, users), first, l->positions);
    if (owner == PAIR)
        return put_484(put_resource(t, OF_484, p % 4 / 2 + 1, p / 4, users), p, l->positions);
    k = (unsigned)__builtin_ctz(owner / BUT_FIRST);
    t = put_resource(t, OF_484_242, k + 1, p / 4, users);
    for (unsigned q = first; q < first + 4; q++) {
        if (q == first + k)
            continue;
        if (sep++)
            *t++ = ',';
        t = put_242(t, q, l->positions);
    }
    return t;
}

/* Whether p is the lowest place of a larger resource. */
static inline int begins(unsigned owner, unsigned p)
{
    if (owner >= WIDER)
        return p == wide[owner - WIDER].lowest;
    return owner == PAIR ? p % 2 == 0 : p % 4 == (owner == BUT_FIRST);
}

/* Of the fields of a channel, in their order, the resource that owns each; a position stores sixteen. */
typedef uint8_t owning[MOST_FIELDS / 2 + 16];

/* Sixteen fields of one resource, or of resources that rise. */
static inline void put_owners(uint8_t *to, unsigned resource, int rising)
{
    const uint64_t each = UINT64_C(0x0101010101010101), steps = rising ? UINT64_C(0x0706050403020100) : 0;
    uint64_t first = resource * each + steps, second = first + (rising ? 8 * each : 0);
    memcpy(to, &first, 8);
    memcpy(to + 8, &second, 8);
}

/* The ru= lines. */
static char *put_resources(char *t, const plan *l, owning of[2])
{
    unsigned r = 0, larger[4 + WIDE_ONES]; /* pairs, whole, but-one in this segment; the wider ones */
    uint8_t *at[2] = {of[0], of[1]};
    for (unsigned p = 0; p < l->positions; p++) {
        unsigned v = l->v[p], owner = l->owner[p], fields = fields_of[v];
        uint8_t *mine = at[p % 2];
        at[p % 2] += fields;
        if (owner != SELF) {
            unsigned *slot = &larger[owner == PAIR ? p % 4 / 2 : owner == WHOLE ? 2 : owner >= WIDER ? 4 + owner - WIDER : 3];
            if (begins(owner, p)) {
                t = put_larger(t, l, p);
                *t++ = '\n';
                *slot = ++r;
            }
            put_owners(mine, *slot, 0);
        } else if (v <= 50) {
            const list_of_pieces *x = &pieces_of[v];
            put_owners(mine, r + 1, 1);
            for (unsigned k = 0; k < x->n; k++) {
                t = put_piece(t, x->size[k], x->place[k], p, l->positions);
                *t++ = '\n';
            }
            r += x->n;
            if (v == 28) {
                t = put_242(put_resource(t, OF_242, p % 4 + 1, p / 4, 0), p, l->positions);
                *t++ = '\n';
                r++;
            }
        } else {
            t = put_242(put_resource(t, OF_242, p % 4 + 1, p / 4, fields), p, l->positions);
            *t++ = '\n';
            put_owners(mine, ++r, 0);
        }
    }
    return t;
}

static unsigned count_resources(const plan *l)
{
    unsigned r = 0;
    for (unsigned p = 0; p < l->positions; p++)
        r += l->owner[p] == SELF ? resources_of[l->v[p]] : (unsigned)begins(l->owner[p], p);
    return r;
}

static unsigned count_stations(const parsed *f)
{
    unsigned n = 0;
    for (unsigned k = 0; k < f->total; k++)
        n += (f->field[k] & 0x7FF) != BRACHYMEL_UNASSIGNED;
    return n;
}

#define NONE (UINT64_C(4) << 32 | 'n' | 'o' << 8 | 'n' << 16 | 'e' << 24)

static inline char *put_station(char *t, unsigned id)
{
    return put_entry(PUT(t, "sta="), id == BRACHYMEL_UNASSIGNED ? NONE : text_of[id]);
}

static inline char *put_station_line(char *t, unsigned id, unsigned resource)
{
    t = put_number(PUT(put_station(t, id), " resource="), resource);
    *t++ = '\n';
    return t;
}

static inline unsigned owner_of(const parsed *f, const owning of[2], unsigned k)
{
    return k < f->plan.n[0] ? of[0][k] : of[1][k - f->plan.n[0]];
}

/* The sta= lines. The last one is put beside first, so that nothing is stored past its end. */
static char *put_stations(char *t, const parsed *f, const owning of[2])
{
    unsigned k = 0;
    char last[32];
    if (f->total == 0)
        return t;
    for (; k + 1 < f->total; k++)
        t = put_station_line(t, f->field[k] & 0x7FF, owner_of(f, of, k));
    return put_text(t, last, (size_t)(put_station_line(last, f->field[k] & 0x7FF, owner_of(f, of, k)) - last));
}

brachymel_answer NAME(list)(uint32_t bandwidth, const uint8_t *cc1, size_t cc1_len, const uint8_t *cc2, size_t cc2_len,
                            uint8_t *text, size_t text_len)
{
    char own[BRACHYMEL_LISTING_SIZE + 32], *start, *t;
    owning of[2];
    parsed f;
    size_t length;
    brachymel_answer a = parse(bandwidth, cc1, cc1_len, cc2, cc2_len, &f);
    if (a.number != 0)
        return a;
    find_owners(&f.plan);
    start = text_len >= BRACHYMEL_LISTING_SIZE && f.total != 0 ? (char *)text : own;
    t = PUT(start, "answer=0\nbw=0\nresources=");
    start[12] = (char)('0' + bandwidth);
    t = put_number(t, count_resources(&f.plan));
    t = put_number(PUT(t, "\nfields1="), f.plan.n[0]);
    t = put_number(PUT(t, "\nfields2="), f.plan.n[1]);
    t = put_number(PUT(t, "\nstations="), count_stations(&f));
    *t++ = '\n';
    t = put_resources(t, &f.plan, of);
    t = put_stations(t, &f, (const owning *)of);
    length = (size_t)(t - start);
    if (text_len < length)
        return say(23, 0, length);
    if (start == own)
        memcpy(text, own, length);
    return say(0, 0, length);
}

/* ---- two frames compared */

/* The pieces of a value, one bit for each size and place; a 242 is bit 40. */
static uint64_t piece_set[72];

static inline int is_242(unsigned v)
{
    return v == 28 || v >= 64;
}

__attribute__((constructor)) static void prepare_texts(void)
{
    prepare_numbers();
    prepare_pieces();
    for (unsigned v = 0; v < 72; v++) {
        piece_set[v] = is_242(v) ? UINT64_C(1) << 40 : 0;
        for (unsigned k = 0; v <= 50 && k < pieces_of[v].n; k++)
            piece_set[v] |= UINT64_C(1) << (10 * pieces_of[v].size[k] + pieces_of[v].place[k]);
    }
}

static char *put_frame(char *t, int side)
{
    memcpy(t, "frame=1 ", 8);
    t[6] = (char)('1' + side);
    return t + 8;
}

static char *put_refused(char *t, int side, brachymel_answer a)
{
    if (a.number == 0)
        return t;
    t = put_number(PUT(put_frame(t, side), "answer="), a.number);
    t = put_number(PUT(t, " channel="), a.channel);
    t = put_number(PUT(t, " place="), (unsigned)a.place);
    *t++ = '\n';
    return t;
}

/* Lines of both sides, each a name and a number. */
static char *put_both(char *t, const char *name, size_t length, unsigned first, unsigned second)
{
    for (int side = 0; side < 2; side++) {
        t = put_number(put_text(put_frame(t, side), name, length), side == 0 ? first : second);
        *t++ = '\n';
    }
    return t;
}

static char *put_overflows(char *t, uint64_t x, uint64_t y)
{
    static const struct {
        char name[17];
        uint8_t length, at, bits;
    } field[7] = {{"spatial-reuse=", 14, 0, 4}, {"gi-ltf=", 7, 4, 2}, {"ltf-symbols=", 12, 6, 3}, {"ldpc-extra=", 11, 9, 1},
                  {"pre-fec=", 8, 10, 2}, {"pe-disambiguity=", 16, 12, 1}, {"disregard=", 10, 13, 4}};
    for (unsigned k = 0; k < 7; k++)
        if (low((x ^ y) >> field[k].at, field[k].bits) != 0)
            t = put_both(t, field[k].name, field[k].length, (unsigned)low(x >> field[k].at, field[k].bits),
                         (unsigned)low(y >> field[k].at, field[k].bits));
    return t;
}

static char *put_values(char *t, const plan *x, const plan *y)
{
    for (unsigned p = 0; p < x->positions; p++)
        if (x->v[p] != y->v[p])
            for (int side = 0; side < 2; side++) {
                t = put_number(PUT(put_frame(t, side), "position="), p);
                t = put_number(PUT(t, " value="), side == 0 ? x->v[p] : y->v[p]);
                *t++ = '\n';
            }
    return t;
}

/* The resources that x has and y has not. */
static char *put_only(char *t, int side, const plan *x, const plan *y)
{
    for (unsigned p = 0; p < x->positions; p++) {
        unsigned v = x->v[p], owner = x->owner[p];
        if (owner != SELF) {
            if (owner != y->owner[p] && begins(owner, p)) {
                t = put_larger(put_frame(t, side), x, p);
                *t++ = '\n';
            }
        } else {
            uint64_t others = y->owner[p] == SELF ? piece_set[y->v[p]] : 0;
            if ((piece_set[v] & ~others) == 0)
                continue;
            if (is_242(v)) {
                t = put_242(put_resource(put_frame(t, side), OF_242, p % 4 + 1, p / 4, fields_of[v]), p, x->positions);
                *t++ = '\n';
                continue;
            }
            for (unsigned k = 0; k < pieces_of[v].n; k++)
                if (!(others >> (10 * pieces_of[v].size[k] + pieces_of[v].place[k]) & 1)) {
                    t = put_piece(put_frame(t, side), pieces_of[v].size[k], pieces_of[v].place[k], p, x->positions);
                    *t++ = '\n';
                }
        }
    }
    return t;
}

/* A resource as a number: size, index, segment. */
static inline uint16_t naming(unsigned size, unsigned index, unsigned seg)
{
    return (uint16_t)(size << 8 | index << 2 | seg);
}

/* Of each User field, in the order of the words, its resource. */
static void name_owners(const plan *l, uint16_t *of)
{
    unsigned at[2] = {0, l->n[0]};
    for (unsigned p = 0; p < l->positions; p++) {
        unsigned v = l->v[p], owner = l->owner[p], n = fields_of[v], q = p % 4;
        uint16_t *mine = of + at[p % 2];
        at[p % 2] += n;
        if (n == 0)
            continue;
        if (owner == SELF && !is_242(v)) {
            const list_of_pieces *y = &pieces_of[v];
            for (unsigned k = 0; k < n; k++)
                mine[k] = naming(y->size[k], index_of_piece(y->size[k], y->place[k], q), p / 4);
        } else {
            uint16_t one = naming(OF_242, q + 1, p / 4);
            if (owner == PAIR)
                one = naming(OF_484, q / 2 + 1, p / 4);
            else if (owner == WHOLE)
                one = naming(OF_996, 1, p / 4);
            else if (owner >= WIDER)
                one = naming(wide[owner - WIDER].size, wide[owner - WIDER].index, wide[owner - WIDER].lowest / 4u);
            else if (owner != SELF)
                one = naming(OF_484_242, (unsigned)__builtin_ctz(owner / BUT_FIRST) + 1, p / 4);
            for (unsigned k = 0; k < n; k++)
                mine[k] = one;
        }
    }
}

static char *put_user(char *t, int side, unsigned k, uint32_t bits, uint16_t of)
{
    static const char digit[] = "0123456789ABCDEF";
    t = put_number(PUT(put_frame(t, side), "user="), k + 1);
    *t++ = ' ';
    t = PUT(put_station(t, bits & 0x7FF), " bits=");
    for (int shift = 20; shift >= 0; shift -= 4)
        *t++ = digit[bits >> shift & 15];
    t = put_text(PUT(t, " ru="), key_of[of >> 8].text + 3, key_of[of >> 8].name);
    t = put_number(PUT(t, " index="), of >> 2 & 63);
    t = put_number(PUT(t, " segment="), of & 3);
    *t++ = '\n';
    return t;
}

static char *put_users(char *t, const parsed *x, const parsed *y)
{
    uint16_t of_x[144], of_y[144];
    unsigned both = x->total < y->total ? x->total : y->total;
    name_owners(&x->plan, of_x);
    name_owners(&y->plan, of_y);
    for (unsigned k = 0; k < both; k++)
        if (x->field[k] != y->field[k] || of_x[k] != of_y[k]) {
            t = put_user(t, 0, k, x->field[k], of_x[k]);
            t = put_user(t, 1, k, y->field[k], of_y[k]);
        }
    for (unsigned k = both; k < x->total; k++)
        t = put_user(t, 0, k, x->field[k], of_x[k]);
    for (unsigned k = both; k < y->total; k++)
        t = put_user(t, 1, k, y->field[k], of_y[k]);
    return t;
}

static char *put_differences(char *t, const parsed *x, const parsed *y)
{
    int same_row = memcmp(x->plan.v, y->plan.v, x->plan.positions * sizeof x->plan.v[0]) == 0;
    t = put_overflows(t, x->head, y->head);
    if (!same_row) {
        t = put_values(t, &x->plan, &y->plan);
        t = put_only(t, 0, &x->plan, &y->plan);
        t = put_only(t, 1, &y->plan, &x->plan);
    }
    if (!same_row || memcmp(x->field, y->field, x->total * sizeof x->field[0]) != 0)
        t = put_users(t, x, y);
    return t;
}

brachymel_answer NAME(compare)(uint32_t bandwidth1, const uint8_t *cc1, size_t cc1_len, const uint8_t *cc2, size_t cc2_len,
                               uint32_t bandwidth2, const uint8_t *other1, size_t other1_len, const uint8_t *other2,
                               size_t other2_len, uint8_t *text, size_t text_len)
{
    char own[BRACHYMEL_COMPARE_SIZE + 32], *t = own; /* and no byte of the text but what is said: a number stores four */
    parsed x, y;
    size_t length;
    brachymel_answer a = parse(bandwidth1, cc1, cc1_len, cc2, cc2_len, &x);
    brachymel_answer b = parse(bandwidth2, other1, other1_len, other2, other2_len, &y);
    if (a.number != 0 || b.number != 0)
        t = put_refused(put_refused(t, 0, a), 1, b);
    else if (bandwidth1 != bandwidth2)
        t = put_both(t, "bw=", 3, bandwidth1, bandwidth2);
    else {
        find_owners(&x.plan);
        find_owners(&y.plan);
        t = put_differences(t, &x, &y);
    }
    length = (size_t)(t - own);
    if (text_len < length)
        return say(23, 0, length);
    if (length != 0)
        memcpy(text, own, length);
    return say(0, 0, length);
}

/* ---- spatial streams */

brachymel_answer NAME(streams_row)(uint32_t users, uint32_t number, uint8_t *row, size_t row_len)
{
    if (users - 2 > MOST_USERS - 2 || number >= NUMBERS || row_of[users][number] == 0)
        return say(21, 0, 0);
    if (row_len < users)
        return say(23, 0, users);
    store_bytes(row, row_of[users][number], users);
    return say(0, 0, users);
}

/* Two to eight bytes, by two loads that may overlap. */
static inline uint64_t load_row(const uint8_t *s, size_t n)
{
    if (n >= 4)
        return load_32(s) | (uint64_t)load_32(s + n - 4) << 8 * (n - 4);
    return load_16(s) | (uint64_t)load_16(s + n - 2) << 8 * (n - 2);
}

brachymel_answer NAME(streams_number)(const uint8_t *row, size_t row_len)
{
    uint64_t w;
    unsigned number;
    if (row_len - 2 > MOST_USERS - 2)
        return say(21, 0, 0);
    w = load_row(row, row_len);
    number = number_by[row_len][w * factor_of[row_len] >> 56];
    return w == row_of[row_len][number] ? say(0, 0, number) : say(21, 0, 0);
}

/* Of each position the lowest place of its resource, by which that is known here; four to a segment, from its first on. */
static void find_lowest(const plan *l, uint8_t of[16])
{
    static const uint32_t by_plan[ALL_PLANS] = {0x03020100, 0x03020000, 0x02020100, 0x02020000, 0, 0x01010100, 0x00000100,
                                                0x00020000, 0x03000000, 0x03020100};
    for (unsigned s = 0; 4 * s < l->positions; s++) {
        uint32_t lowest_ones = by_plan[l->plan[s]] + 0x04040404 * s;
        memcpy(of + 4 * s, &lowest_ones, 4);
    }
    for (unsigned k = 0; k < l->wides; k++)
        for (unsigned set = wide[l->wide_one[k]].places; set != 0; set &= set - 1)
            of[__builtin_ctz(set)] = wide[l->wide_one[k]].lowest;
}

/* All fields as ones that are alone on their resource. */
static inline void streams_alone(const uint32_t *restrict field, unsigned n, uint8_t *restrict streams)
{
    for (unsigned k = 0; k < n; k++) {
        uint32_t nss = field[k] >> 16 & 15;
        streams[k] = (uint8_t)(nss > 7 || (field[k] & 0x7FF) == BRACHYMEL_UNASSIGNED ? 0 : nss + 1);
    }
}

/* Those that share one, position by position in the order of the words; whether each has its row. */
static int streams_shared(const parsed *f, uint8_t *restrict streams)
{
    const plan *l = &f->plan;
    uint8_t of[16], at[16], users[16] = {0}, place[16] = {0};
    unsigned past = 0, before[2] = {0, l->n[0]};
    find_lowest(l, of);
    for (unsigned p = 0; p < l->positions; p++) {
        at[p] = (uint8_t)before[p % 2];
        before[p % 2] += fields_of[l->v[p]];
    }
    for (unsigned set = l->shared; set != 0; set &= set - 1) {
        unsigned p = (unsigned)__builtin_ctz(set);
        users[of[p]] = (uint8_t)(users[of[p]] + fields_of[l->v[p]]);
    }
    for (unsigned c = 0; c < 2; c++)
        for (unsigned set = l->shared & 0x5555u << c; set != 0; set &= set - 1) {
            unsigned p = (unsigned)__builtin_ctz(set), n = fields_of[l->v[p]], first = 8u * place[of[p]];
            const uint64_t *rows = row_of[users[of[p]]];
            const uint32_t *field = f->field + at[p];
            uint8_t *to = streams + at[p];
            for (unsigned k = 0; k < n; k++) {
                unsigned is_nobodys = (field[k] & 0x7FF) == BRACHYMEL_UNASSIGNED;
                uint64_t row = rows[field[k] >> 16];
                past |= (row == 0) & !is_nobodys;
                to[k] = (uint8_t)(is_nobodys ? 0 : row >> (first + 8 * k));
            }
            place[of[p]] = (uint8_t)(place[of[p]] + n);
        }
    return past == 0;
}

brachymel_answer NAME(streams)(uint32_t bandwidth, const uint8_t *cc1, size_t cc1_len, const uint8_t *cc2, size_t cc2_len,
                               uint8_t *streams, size_t streams_len)
{
    uint8_t own[MOST_FIELDS], *to;
    parsed f;
    brachymel_answer a = parse(bandwidth, cc1, cc1_len, cc2, cc2_len, &f);
    if (RARELY(a.number))
        return a;
    if (f.plan.shared == 0 && RARELY(streams_len < f.total))
        return say(23, 0, f.total);
    to = f.plan.shared == 0 ? streams : own;
    if (format_of(f.plan.shared, f.plan.positions) != ALL_SHARED)
        streams_alone(f.field, f.total, to);
    if (f.plan.shared == 0)
        return say(0, 0, f.total);
    if (RARELY(!streams_shared(&f, own)))
        return say(21, 0, 0);
    if (RARELY(streams_len < f.total))
        return say(23, 0, f.total);
    memcpy(streams, own, f.total);
    return say(0, 0, f.total);
}

/* ---- Trigger frames: entries of five bytes */

static inline uint64_t load_entry(const uint8_t *s)
{
    uint32_t w;
    memcpy(&w, s, 4);
    return w | (uint64_t)s[4] << 32;
}

/* 0, or the number that the entry is refused with. */
static inline unsigned refused_entry(uint32_t bandwidth, uint64_t w)
{
    if ((w & 0xFFF) == 2007)
        return 24;
    if (w & (UINT64_C(1) << 39 | 1 << 12))
        return 16;
    return named[w >> 13 & 127].needs > bandwidth ? 17 : 0;
}

brachymel_answer NAME(trigger_read)(uint32_t bandwidth, const uint8_t *entry, size_t entry_len, uint8_t *record,
                                    size_t record_len)
{
    uint64_t w;
    unsigned refused;
    if (bandwidth > 2)
        return say(1, 0, 0);
    if (entry_len != 5)
        return say(15, 0, 0);
    w = load_entry(entry);
    refused = refused_entry(bandwidth, w);
    if (refused != 0)
        return say(refused, 0, 0);
    if (record_len < 32)
        return say(23, 0, 32);
    put_word(record, 0, (uint32_t)low(w, 12));
    put_word(record, 1, named[w >> 13 & 127].size);
    put_word(record, 2, named[w >> 13 & 127].index);
    put_word(record, 3, (uint32_t)low(w >> 20, 1));
    put_word(record, 4, (uint32_t)low(w >> 21, 4));
    put_word(record, 5, (uint32_t)low(w >> 25, 1));
    put_word(record, 6, (uint32_t)low(w >> 26, 6));
    put_word(record, 7, (uint32_t)low(w >> 32, 7));
    return say(0, 0, 32);
}

/* By a size's bits from the sixth up, in which the eight sizes differ: the value of its first index, and how many
 * indices there are; named[] knows which are left out. */
static const struct {
    uint16_t size;
    uint8_t first, indices;
} by_size[32] = {
    [26 >> 5] = {26, 0, 37}, [52 >> 5] = {52, 37, 16}, [106 >> 5] = {106, 53, 8}, [132 >> 5] = {132, 82, 8},
    [242 >> 5] = {242, 61, 4}, [484 >> 5] = {484, 65, 2}, [726 >> 5] = {726, 90, 4}, [996 >> 5] = {996, 67, 1},
};

brachymel_answer NAME(trigger_write)(uint32_t bandwidth, const uint8_t *record, size_t record_len, uint8_t *entry,
                                     size_t entry_len)
{
    uint32_t aid12, size, index, coding, mcs, reserved, ss, power, bits;
    unsigned value;
    if (bandwidth > 2)
        return say(1, 0, 0);
    if (record_len >= 4 && get_word(record, 0) == 2007)
        return say(24, 0, 0);
    if (record_len != 32)
        return say(17, 0, 0);
    aid12 = get_word(record, 0);
    size = get_word(record, 1);
    index = get_word(record, 2) - 1; /* from 0 */
    coding = get_word(record, 3);
    mcs = get_word(record, 4);
    reserved = get_word(record, 5);
    ss = get_word(record, 6);
    power = get_word(record, 7);
    if ((aid12 >> 12 | coding >> 1 | mcs >> 4 | reserved >> 1 | ss >> 6 | power >> 7) != 0
        || size != by_size[size >> 5 & 31].size || index >= by_size[size >> 5 & 31].indices)
        return say(17, 0, 0);
    value = by_size[size >> 5 & 31].first + index;
    if (named[value].needs > bandwidth)
        return say(17, 0, 0);
    if (entry_len < 5)
        return say(23, 0, 5);
    bits = aid12 | value << 13 | coding << 20 | mcs << 21 | reserved << 25 | ss << 26;
    memcpy(entry, &bits, 4);
    entry[4] = (uint8_t)power;
    return say(0, 0, 5);
}

/* An entry is compared with the earlier ones only if it has a 26 that one of them has, which in a good list none has.
 * The pairs are kept as a bit set of later entries for each, so that they can be counted before any is written. */
brachymel_answer NAME(trigger_overlaps)(uint32_t bandwidth, const uint8_t *entries, size_t entries_len, uint8_t *pairs,
                                        size_t pairs_len)
{
    uint64_t covers[32], covered = 0;
    uint32_t later[32];
    size_t count = entries_len / 5, n = 0;
    if (bandwidth > 2)
        return say(1, 0, 0);
    if (entries_len % 5 != 0)
        return say(15, 0, 0);
    if (count > 32)
        return say(25, 0, 0);
    for (size_t k = 0; k < count; k++) {
        uint64_t w = load_entry(entries + 5 * k), mine;
        unsigned refused = refused_entry(bandwidth, w);
        if (refused != 0)
            return say(refused, 0, k + 1);
        mine = covers[k] = named[w >> 13 & 127].covers;
        later[k] = 0;
        if (mine & covered)
            for (size_t i = 0; i < k; i++) {
                uint32_t pair = (mine & covers[i]) != 0 && mine != covers[i]; /* equal: one resource */
                later[i] |= pair << k;
                n += pair;
            }
        covered |= mine;
    }
    if (pairs_len / 2 < n)
        return say(26, 0, 0);
    if (n != 0)
        for (size_t i = 0; i < count; i++)
            for (uint32_t set = later[i]; set != 0; set &= set - 1) {
                *pairs++ = (uint8_t)(i + 1);
                *pairs++ = (uint8_t)(__builtin_ctz(set) + 1);
            }
    return say(0, 0, n);
}
