/* The driver's calls of brachymel_compare (02, T-06): two frames lent, their differences as text.
 *
 * Beside the reference, two things are held of the library alone: compared the other way round, two frames have the same
 * lines with 1 and 2 exchanged, item by item; and there is no line just where both are accepted, of one bandwidth and read
 * to the same words. */
#include "driver.h"

#include <stdio.h>
#include <string.h>

#define MOST_PLENTY 51000

/* Bytes of text, more than the two frames' comparison has: a User field has a line on either side and perhaps a resource. */
static size_t plenty(const frame *x, const frame *y)
{
    size_t room = 4000;
    for (unsigned ch = 0; ch < 2; ch++)
        room += 160 * (size_t)((x->bandwidth <= 4 ? fields_told(x, ch) : 0) + (y->bandwidth <= 4 ? fields_told(y, ch) : 0));
    return room;
}

static void lend_frame(arena *first, arena *second, chance *c, const frame *f)
{
    lend(first, c, f->cc[0], f->length[0]);
    lend(second, c, f->cc[1], f->length[1]);
}

/* Returns what the library answers; what it has written is in other.lent. A frame beside itself is now and then lent once. */
static brachymel_answer call(chance *c, const frame *x, const frame *y, size_t room)
{
    answer should;
    brachymel_answer is;
    int once = x == y && one_in(c, 2);
    lend_frame(&cc1, &cc2, c, x);
    lend_frame(&other1, &other2, c, y);
    lend(&other, c, NULL, room);
    should = reference_compare(x->bandwidth, x->cc[0], x->length[0], x->cc[1], x->length[1], y->bandwidth, y->cc[0],
                               y->length[0], y->cc[1], y->length[1], expected(&other), room);
    in_call = entry_name[COMPARE];
    is = brachymel_compare(x->bandwidth, pointer(&cc1, c), x->length[0], pointer(&cc2, c), x->length[1], y->bandwidth,
                           pointer(once ? &cc1 : &other1, c), y->length[0], pointer(once ? &cc2 : &other2, c), y->length[1],
                           pointer(&other, c), room);
    in_call = "no call";
    if (!compare(COMPARE, should, is) && is_told())
        print_pair(x, y, room);
    return is;
}

/* ---- what holds without the reference */

/* How long the part of a line is that says which item it is of: "position=3", "user=2", or a name alone. Resources are
 * one item together. */
static size_t item_length(const char *said, const char *end)
{
    char until = memcmp(said, "position=", 9) == 0 || memcmp(said, "user=", 5) == 0 ? ' ' : '=';
    const char *at = memchr(said, until, (size_t)(end - said));
    return at == NULL ? (size_t)(end - said) : (size_t)(at - said);
}

#define BEFORE 8 /* "frame=1 " */

static const char *next_line(const char *line, const char *end)
{
    const char *feed = memchr(line, '\n', (size_t)(end - line));
    return feed == NULL ? end : feed + 1;
}

/* The first line after this one that is of another item. */
static const char *next_item(const char *line, const char *end)
{
    const char *at = line;
    size_t length = item_length(line + BEFORE, end);
    while (at < end && (size_t)(end - at) > BEFORE + length && item_length(at + BEFORE, end) == length
           && memcmp(at + BEFORE, line + BEFORE, length) == 0)
        at = next_line(at, end);
    return at > line ? at : end;
}

/* The lines of one item that are of this frame, as those of the other. */
static size_t exchange_item(const char *line, const char *end, char frame, char *text)
{
    size_t n = 0;
    for (const char *next; line < end; line = next) {
        next = next_line(line, end);
        if (line[6] != frame)
            continue;
        memcpy(text + n, line, (size_t)(next - line));
        text[n + 6] = (char)('1' + '2' - frame);
        n += (size_t)(next - line);
    }
    return n;
}

/* The text of the two frames the other way round. */
static size_t exchange(const char *text, size_t length, char *exchanged)
{
    size_t n = 0;
    const char *end = text + length;
    for (const char *next; text < end && end - text > BEFORE; text = next) {
        next = next_item(text, end);
        n += exchange_item(text, next, '2', exchanged + n);
        n += exchange_item(text, next, '1', exchanged + n);
    }
    return n;
}

/* Whether the library reads both frames, to the same words. */
static int read_alike(const frame *x, const frame *y)
{
    uint8_t words[2][BRACHYMEL_WORDS_SIZE] = {{0}};
    brachymel_answer a = brachymel_read(x->bandwidth, x->cc[0], x->length[0], x->cc[1], x->length[1], words[0], sizeof words[0]);
    brachymel_answer b = brachymel_read(y->bandwidth, y->cc[0], y->length[0], y->cc[1], y->length[1], words[1], sizeof words[1]);
    return a.number == 0 && b.number == 0 && x->bandwidth == y->bandwidth && memcmp(words[0], words[1], sizeof words[0]) == 0;
}

/* Two frames compared either way: what is needed, just that lent. */
static void pair(chance *c, const frame *x, const frame *y)
{
    static char exchanged[MOST_PLENTY];
    size_t room = plenty(x, y) - (size_t)below(c, 8), n;
    brachymel_answer a = call(c, x, y, room);
    hold(a.number == 0 && (a.place == 0) == read_alike(x, y), "no line, but not just where the readings are the same");
    n = exchange((const char *)other.lent, a.place <= room ? (size_t)a.place : 0, exchanged);
    a = call(c, y, x, n);
    hold(a.number == 0 && a.place == n && memcmp(other.lent, exchanged, n) == 0, "two frames the other way round");
}

/* ---- which frames */

static uint32_t number_of(const frame *f)
{
    static reading r;
    return read_frame(f->bandwidth, f->cc[0], f->length[0], f->cc[1], f->length[1], &r).number;
}

static void good_frame(chance *c, unsigned bandwidth, frame *f)
{
    do
        draw_good_frame(c, f);
    while (f->bandwidth != bandwidth || number_of(f) != 0);
}

static void refused_frame(chance *c, uint32_t number, frame *f)
{
    do
        draw_frame(c, f);
    while (number_of(f) != number);
}

static void put_overflow(frame *f, uint32_t overflow)
{
    for (unsigned ch = 0; ch < channels_of(f->bandwidth); ch++)
        put_field(f->cc[ch], MOST_LENT, 0, 17, overflow);
    mend_checks(f);
}

/* The longest text that is known, 27,148 bytes: each of the first frame's 144 fields has a 26 of its own, the second's 128
 * share sixteen 242s, every STA-ID has four digits, and all overflow fields differ. And all fields different on the same
 * resources. */
static void longest(chance *c)
{
    static const unsigned zeros[16] = {0}, shared[16] = {71, 71, 71, 71, 71, 71, 71, 71, 71, 71, 71, 71, 71, 71, 71, 71};
    static frame x, y, z;
    build_frame(c, 4, zeros, &x);
    build_frame(c, 4, zeros, &y);
    build_frame(c, 4, shared, &z);
    put_stations(&x, 3, 2047);
    put_stations(&y, 3, 2045);
    put_stations(&z, 3, 2045);
    put_overflow(&x, 0x1E00F);
    put_overflow(&z, 0x1DE7E);
    pair(c, &x, &x);
    pair(c, &x, &y);
    pair(c, &x, &z);
    hold(call(c, &x, &z, 27147).place == 27148, "the longest text that is known is another");
    hold(call(c, &x, &z, BRACHYMEL_COMPARE_SIZE).number == 0, "BRACHYMEL_COMPARE_SIZE does not suffice");
}

/* Every room near none, near what the text needs, and some between. */
static void every_room(chance *c, const frame *x, const frame *y)
{
    size_t needed = (size_t)call(c, x, y, plenty(x, y)).place;
    for (size_t room = 0; room <= needed + 5; room += room < 9 || room + 70 >= needed ? 1 : 1 + (size_t)below(c, 500))
        call(c, x, y, room);
}

static void rooms(chance *c)
{
    static frame x, y;
    for (unsigned bandwidth = 0; bandwidth <= 4; bandwidth++) {
        good_frame(c, bandwidth, &x);
        every_room(c, &x, &x);
        draw_change(c, &x, &y);
        every_room(c, &x, &y);
        good_frame(c, bandwidth, &y);
        every_room(c, &x, &y);
    }
    refused_frame(c, 10, &y);
    every_room(c, &x, &y);
    every_room(c, &y, &y);
    good_frame(c, 0, &y);
    every_room(c, &x, &y);
}

/* A frame beside itself, and the same with other padding: longer and shorter, in bits and in bytes. */
static void paddings(chance *c)
{
    static frame x, y;
    for (unsigned n = 0; n < 60; n++) {
        good_frame(c, n % 5, &x);
        pair(c, &x, &x);
        y = x;
        pair(c, &x, &y);
        draw_padding(c, &y);
        pair(c, &x, &y);
        for (unsigned ch = 0; ch < channels_of(x.bandwidth); ch++)
            y.length[ch] = bytes_told(&y, ch);
        pair(c, &x, &y);
        if (bits_told(&x, 0) % 8 != 0) {
            y = x;
            y.cc[0][bits_told(&x, 0) / 8] ^= 0x80;
            pair(c, &x, &y);
        }
    }
}

/* Every two bandwidths; and the same bytes under another. */
static void bandwidths(chance *c)
{
    static frame x, y;
    for (unsigned first = 0; first <= 4; first++)
        for (unsigned second = 0; second <= 4; second++) {
            good_frame(c, first, &x);
            good_frame(c, second, &y);
            pair(c, &x, &y);
            y = x;
            y.bandwidth = second;
            pair(c, &x, &y);
        }
    y.bandwidth = 5;
    pair(c, &x, &y);
    y.bandwidth = 0xFFFFFFFF;
    pair(c, &x, &y);
}

/* Every refusal beside a good frame, and every two. */
static void refusals(chance *c)
{
    static frame x[12], good;
    for (uint32_t n = 1; n <= 11; n++) {
        refused_frame(c, n, &x[n]);
        good_frame(c, (unsigned)below(c, 5), &good);
        pair(c, &x[n], &good);
        if (x[n].bandwidth <= 4) {
            good_frame(c, x[n].bandwidth, &good);
            pair(c, &good, &x[n]);
        }
        for (uint32_t m = 1; m <= n; m++)
            pair(c, &x[n], &x[m]);
    }
}

/* A segment's rows whose resources lie where those of others lie: 242s, pairs, a 996, a 484+242 that leaves out each,
 * with fields in one channel or both, 106s beside a 106+26 on either side, and nothing. */
static const unsigned shifting[][4] = {
    {64, 64, 64, 64}, {26, 26, 26, 26}, {27, 27, 27, 27}, {28, 28, 28, 28}, {72, 29, 64, 64}, {29, 72, 29, 72}, {72, 72, 73, 73},
    {64, 64, 72, 29}, {80, 30, 30, 30}, {30, 30, 30, 81}, {30, 30, 30, 30}, {64, 96, 29, 29}, {26, 28, 97, 96}, {105, 64, 29, 29},
    {29, 29, 66, 112}, {113, 29, 26, 28}, {29, 121, 28, 64}, {29, 29, 120, 26}, {48, 48, 48, 50}, {50, 50, 48, 50}, {25, 25, 25, 25},
    {15, 24, 0, 23}, {0, 0, 0, 0}, {71, 71, 71, 71}};

#define SHIFTING (sizeof shifting / sizeof shifting[0])

/* A frame of 20, 40 or 80 MHz, or with such a row in one segment of more. */
static void shifting_frame(chance *c, unsigned bandwidth, unsigned segment, size_t k, frame *f)
{
    unsigned row[16];
    for (unsigned p = 0; p < 16; p++)
        row[p] = p / 4 == segment || bandwidth < 3 ? shifting[k][p % 4] : 64;
    build_frame(c, bandwidth, row, f);
}

/* Every two of these rows with the same User fields as far as both have them, and with others. */
static void shifts(chance *c)
{
    static frame x, y;
    for (size_t i = 0; i < SHIFTING; i++)
        for (size_t j = 0; j < SHIFTING; j++) {
            unsigned bandwidth = one_in(c, 3) ? (unsigned)below(c, 3) : 2, segment = 0;
            if (one_in(c, 4)) {
                bandwidth = 3 + (unsigned)below(c, 2);
                segment = (unsigned)below(c, bandwidth == 3 ? 2 : 4);
            }
            shifting_frame(c, bandwidth, segment, i, &x);
            shifting_frame(c, bandwidth, one_in(c, 8) ? 0 : segment, j, &y);
            if (!one_in(c, 5))
                make_alike(&x, &y);
            pair(c, &x, &y);
        }
}

/* A frame of this resource, wider than a segment (02, T-07), with a few fields, and anything beside it. */
static void wide_frame(chance *c, unsigned bandwidth, wide_resource w, frame *f)
{
    unsigned row[16];
    draw_rest(c, positions_of(bandwidth), w.places, row);
    put_empty(w, row);
    for (unsigned n = 1 + (unsigned)below(c, 2); n > 0; n--)
        row[draw_place(c, w.places)] = w.value + (unsigned)below(c, 3);
    build_frame(c, bandwidth, row, f);
}

/* Every two of these resources, of which one is mostly where the other is, and each beside itself told at other places. */
static void wide_shifts(chance *c)
{
    static frame x, y;
    for (unsigned bandwidth = 3; bandwidth <= 4; bandwidth++)
        for (unsigned i = 0; i < WIDE; i++)
            for (unsigned j = 0; j < WIDE; j++) {
                if (!wide_lies_in(wide_of(i), positions_of(bandwidth)) || !wide_lies_in(wide_of(j), positions_of(bandwidth)))
                    continue;
                wide_frame(c, bandwidth, wide_of(i), &x);
                wide_frame(c, bandwidth, wide_of(j), &y);
                if (!one_in(c, 5))
                    make_alike(&x, &y);
                pair(c, &x, &y);
            }
}

/* Nobody has the fields of channel 1, of channel 2, of both (02, T-01). */
static void unassigned(chance *c)
{
    static frame x, y;
    for (unsigned bandwidth = 0; bandwidth <= 4; bandwidth++)
        for (unsigned channels = 1; channels <= 3; channels++) {
            good_frame(c, bandwidth, &x);
            y = x;
            put_stations(&y, channels, BRACHYMEL_UNASSIGNED);
            pair(c, &x, &y);
        }
}

static void flip(frame *f, unsigned ch, size_t i)
{
    f->cc[ch][i / 8] ^= (uint8_t)(1u << i % 8);
}

static const unsigned rows_of_bits[5][16] = {
    {25}, {48, 65}, {64, 96, 29, 29}, {26, 97, 29, 29, 120, 29, 28, 50},
    {80, 30, 30, 30, 72, 29, 64, 24, 26, 97, 29, 29, 48, 25, 28, 65}};
static const unsigned wide_rows_of_bits[2][16] = {
    {30, 144, 30, 30, 25, 64, 144, 29}, {30, 152, 30, 30, 29, 29, 29, 257, 30, 30, 30, 30, 30, 30, 256, 30}};

/* Each bit of a frame turned over, on one side and on the other; then with the checks made right again, an overflow's bit
 * in both channels, so that the frame is read and has just this bit's difference. */
static void every_bit(chance *c, const unsigned *row, unsigned bandwidth)
{
    static frame x, y;
    build_frame(c, bandwidth, row, &x);
    for (unsigned ch = 0; ch < channels_of(bandwidth); ch++) {
        x.length[ch] = bytes_told(&x, ch) + 1;
        for (size_t i = 0; i < 8 * x.length[ch]; i++) {
            y = x;
            flip(&y, ch, i);
            call(c, &x, &y, plenty(&x, &y));
            call(c, &y, &x, plenty(&y, &x));
            if (i < 17 && channels_of(bandwidth) == 2)
                flip(&y, 1 - ch, i);
            mend_checks(&y);
            pair(c, &x, &y);
        }
    }
}

static void any_pair(chance *c)
{
    static frame x, y;
    draw_pair(c, &x, &y);
    if (one_in(c, 2))
        pair(c, &x, &y);
    else
        call(c, &x, &y, one_in(c, 2) ? plenty(&x, &y) : (size_t)below(c, 2000));
}

void every_comparison(chance *c, unsigned long drawn)
{
    longest(c);
    rooms(c);
    paddings(c);
    bandwidths(c);
    refusals(c);
    shifts(c);
    wide_shifts(c);
    unassigned(c);
    for (unsigned bandwidth = 0; bandwidth <= 4; bandwidth++)
        every_bit(c, rows_of_bits[bandwidth], bandwidth);
    for (unsigned bandwidth = 3; bandwidth <= 4; bandwidth++)
        every_bit(c, wide_rows_of_bits[bandwidth - 3], bandwidth);
    for (unsigned long n = 0; n < drawn; n++)
        any_pair(c);
}
