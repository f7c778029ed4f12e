/* bench [MILLISECONDS]: times the library's entries and the C baseline on the same frames.
 * bench --calls ENTRY BANDWIDTH KIND SIDE TIMES: only makes so many calls on one such frame, for counting what they
 * execute.
 * bench --trigger-calls KIND SIDE TIMES: the same of a Trigger's entries (triggers.c).
 * bench --compare-calls KIND SIDE TIMES: the same of two frames (compares.c).
 * bench --streams-calls KIND SIDE TIMES: the same of spatial streams (streams.c).
 *
 * For each kind of frame the library and the baseline are timed in turn, round by round, in one process: nanoseconds per frame in
 * the best round of each, and the library's ratio to the baseline, the median over the rounds. Before that both are held to the
 * reference on every frame, and the baseline on drawn ones (drawn.c). One table has reading, writing and listing: frames of each
 * bandwidth with few User fields, drawn at random, and all 0, none of these with a resource wider than a segment; then of 160 and
 * 320 MHz with such resources; with the geometric mean of the ratios and the worst of them. Then each refusal, reading by the
 * number of fields, two frames compared (compares.c), spatial streams (streams.c), a Trigger's entries (triggers.c), and the check
 * alone (check.c).
 */
#include "cases/cases.h"
#include "check.h"
#include "compares.h"
#include "drawn.h"
#include "fast.h"
#include "reference/reference.h"
#include "rounds.h"
#include "streams.h"
#include "triggers.h"

#include <stdio.h>
#include <stdlib.h>
#include <string.h>

#define FRAMES 64

typedef brachymel_answer reads(uint32_t, const uint8_t *, size_t, const uint8_t *, size_t, uint8_t *, size_t);
typedef brachymel_answer writes(uint32_t, const uint8_t *, size_t, uint8_t *, size_t, uint8_t *, size_t);

static reads *const read_of[SIDES] = {brachymel_read, fast_read};
static writes *const write_of[SIDES] = {brachymel_write, fast_write};
static reads *const list_of[SIDES] = {brachymel_list, fast_list};

enum { READ, WRITE, LIST, ENTRIES };
static const char *const entry_name[ENTRIES] = {"reading", "writing", "listing"};
static int entry;
static frame frames[FRAMES];                    /* to read and list */
static words_case words[FRAMES];                /* to write */
static size_t room[FRAMES];                     /* of words (bytes) or text */
static uint8_t buffer[2][BRACHYMEL_LISTING_SIZE];
static unsigned used = FRAMES;                  /* how many of the frames are in use */

static brachymel_answer call(int side, unsigned k)
{
    const frame *f = &frames[k];
    const words_case *w = &words[k];
    if (entry == WRITE)
        return write_of[side](w->bandwidth, w->bytes, w->length, buffer[0], w->room[0], buffer[1], w->room[1]);
    return (entry == READ ? read_of : list_of)[side](f->bandwidth, f->cc[0], f->length[0], f->cc[1], f->length[1],
                                                     buffer[0], room[k]);
}

static answer should_be(unsigned k)
{
    const frame *f = &frames[k];
    const words_case *w = &words[k];
    if (entry == WRITE)
        return reference_write_bytes(w->bandwidth, w->bytes, w->length, buffer[0], w->room[0], buffer[1], w->room[1]);
    return (entry == READ ? reference_read_bytes : reference_list)(f->bandwidth, f->cc[0], f->length[0], f->cc[1],
                                                                   f->length[1], buffer[0], room[k]);
}

static void call_all(int side, unsigned times)
{
    for (unsigned n = 0; n < times; n++)
        for (unsigned k = 0; k < used; k++)
            kept += call(side, k).place;
}

static void hold_to_reference(int side)
{
    static uint8_t right[2][BRACHYMEL_LISTING_SIZE];
    for (unsigned k = 0; k < used; k++) {
        answer should;
        brachymel_answer is;
        memset(buffer, 0x5A, sizeof buffer);
        should = should_be(k);
        memcpy(right, buffer, sizeof buffer);
        memset(buffer, 0x5A, sizeof buffer);
        is = call(side, k);
        if (is.number != should.number || is.channel != should.channel || is.place != should.place
            || memcmp(buffer, right, sizeof buffer) != 0) {
            printf("bench: %s is not what the reference says\n", side_name[side]);
            exit(1);
        }
    }
}

static void hold_sides(void)
{
    for (int side = 0; side < SIDES; side++)
        hold_to_reference(side);
}

static void print_kind(const char *name)
{
    hold_sides();
    print_line(name, call_all, used);
}

/* ---- the frames */

static uint32_t number_of(const frame *f, size_t bytes)
{
    uint8_t got[BRACHYMEL_WORDS_SIZE];
    return reference_read_bytes(f->bandwidth, f->cc[0], f->length[0], f->cc[1], f->length[1], got, bytes).number;
}

/* Words and rooms to go with the frames, where these are good. */
static void complete(void)
{
    for (unsigned k = 0; k < used; k++) {
        frame *f = &frames[k];
        words_case *w = &words[k];
        answer a = reference_read_bytes(f->bandwidth, f->cc[0], f->length[0], f->cc[1], f->length[1], w->bytes,
                                        sizeof w->bytes);
        w->bandwidth = f->bandwidth;
        w->length = 4 * (size_t)a.place;
        w->room[0] = w->room[1] = BRACHYMEL_CHANNEL_SIZE;
        room[k] = entry == LIST ? BRACHYMEL_LISTING_SIZE : BRACHYMEL_WORDS_SIZE;
    }
}

static void of_row(chance *c, unsigned bandwidth, const unsigned *row)
{
    for (unsigned k = 0; k < used; k++)
        build_frame(c, bandwidth, row, &frames[k]);
    complete();
}

static void of_random_rows(chance *c, unsigned bandwidth, int wide)
{
    for (unsigned k = 0; k < used; k++)
        do {
            unsigned row[16];
            if (wide)
                draw_wide_row(c, positions_of(bandwidth), 0, row);
            else
                draw_good_row(c, positions_of(bandwidth), row);
            build_frame(c, bandwidth, row, &frames[k]);
        } while (number_of(&frames[k], BRACHYMEL_WORDS_SIZE) != 0);
    complete();
}

/* Frames that reading or listing refuses with this number. */
static void of_refusal(chance *c, uint32_t number)
{
    for (unsigned k = 0; k < used; k++)
        do {
            draw_frame(c, &frames[k]);
            room[k] = number == 12 ? 36 : number == 23 ? 100 : entry == LIST ? BRACHYMEL_LISTING_SIZE : BRACHYMEL_WORDS_SIZE;
        } while (should_be(k).number != number);
}

static void of_written_refusal(chance *c, uint32_t number)
{
    for (unsigned k = 0; k < used; k++)
        do {
            draw_words(c, &words[k]);
            words[k].room[0] = words[k].room[1] = number == 14 ? 4 : BRACHYMEL_CHANNEL_SIZE;
        } while (should_be(k).number != number);
}

/* Every STA-ID 2047, which may repeat, so that there is nothing for the repeat check to find. */
static void of_one_station(void)
{
    for (unsigned k = 0; k < used; k++)
        put_stations(&frames[k], 3, 2047);
    complete();
}

/* ---- the tables */

enum { FEW, RANDOM, ALL_0, ONE_WIDE, WIDE_MANY, WIDE_RANDOM };
static const char *const kind_name[] = {"few fields", "random", "all 0",
                                        "one wide, one field", "wide, many fields", "wide, random"};

/* Frames of a bandwidth with few User fields, drawn at random, or with all values 0. Of 160 and 320 MHz also with a resource
 * wider than a segment: one field; sixteen or more, of a 996+484 beside 26s and of two that lie in one another's gaps; drawn. */
static void of_kind(chance *c, unsigned bandwidth, unsigned kind)
{
    static const unsigned few[5][16] = {{64}, {72, 29}, {80, 30, 30, 30}, {80, 30, 30, 30, 80, 30, 30, 30},
                                        {80, 30, 30, 30, 80, 30, 30, 30, 80, 30, 30, 30, 80, 30, 30, 30}},
                          zeros[16] = {0},
                          one_wide[2][16] = {{88, 30, 30, 30, 30, 30, 30, 30},
                                             {29, 29, 192, 29, 30, 30, 30, 30, 30, 30, 30, 30, 30, 30, 30, 30}},
                          wide_many[2][16] = {{0, 0, 131, 29, 30, 30, 30, 131},
                                              {153, 30, 154, 30, 152, 153, 257, 29, 257, 30, 256, 30, 30, 258, 30, 30}};
    switch (kind) {
    case FEW: of_row(c, bandwidth, few[bandwidth]); break;
    case ALL_0: of_row(c, bandwidth, zeros); break;
    case ONE_WIDE: of_row(c, bandwidth, one_wide[bandwidth - 3]); break;
    case WIDE_MANY: of_row(c, bandwidth, wide_many[bandwidth - 3]); break;
    default: of_random_rows(c, bandwidth, kind == WIDE_RANDOM);
    }
}

/* The rows that are drawn have no resource wider than a segment. */
static chance narrow_chance(void)
{
    chance c = chance_from(1, 'B');
    c.narrow = 1;
    return c;
}

/* A line of the table of reading, writing and listing. */
static void print_row(const char *name, ratios all[ENTRIES])
{
    printf("| %-29s |", name);
    for (entry = 0; entry < ENTRIES; entry++) {
        timing t;
        complete();
        hold_sides();
        t = time_sides(call_all, used);
        add_ratio(&all[entry], t.ratio);
        printf(" %7.1f | %6.1f | %5.2f |", t.ns[PROVED], t.ns[FAST], t.ratio);
        fflush(stdout);
    }
    printf("\n");
}

static void print_rows(chance *c, unsigned first_bandwidth, unsigned first_kind, ratios all[ENTRIES])
{
    char name[60];
    for (unsigned bandwidth = first_bandwidth; bandwidth < 5; bandwidth++)
        for (unsigned kind = first_kind; kind < first_kind + 3; kind++) {
            of_kind(c, bandwidth, kind);
            sprintf(name, "%u MHz, %s", 20u << bandwidth, kind_name[kind]);
            print_row(name, all);
        }
}

static void print_ratios(const char *name, double of(const ratios *), const ratios all[ENTRIES])
{
    printf("| %-29s |", name);
    for (unsigned k = 0; k < ENTRIES; k++)
        printf(" %7s | %6s | %5.2f |", "", "", of(&all[k]));
    printf("\n");
}

static double worst_ratio(const ratios *r)
{
    return r->worst;
}

/* As README has it. */
static void print_accepted(void)
{
    ratios all[ENTRIES] = {{0, 0, 0}, {0, 0, 0}, {0, 0, 0}}, narrow[ENTRIES];
    chance c = narrow_chance();
    printf("\n| %-29s |", "frames, ns");
    for (unsigned k = 0; k < ENTRIES; k++)
        printf(" %s | in C   | ratio |", entry_name[k]);
    printf("\n|---|---|---|---|---|---|---|---|---|---|\n");
    print_rows(&c, 0, FEW, all);
    memcpy(narrow, all, sizeof narrow);
    print_rows(&c, 3, ONE_WIDE, all);
    print_ratios("geometric mean, not wide", mean_ratio, narrow);
    print_ratios("geometric mean, all", mean_ratio, all);
    print_ratios("worst", worst_ratio, all);
}

static void print_refusals(int of_entry, uint32_t first, uint32_t last)
{
    char name[60];
    chance c = narrow_chance();
    entry = of_entry;
    for (uint32_t number = first; number <= last; number++) {
        if (entry == WRITE)
            of_written_refusal(&c, number);
        else
            of_refusal(&c, number);
        sprintf(name, "%s, refusal %lu", entry_name[entry], (unsigned long)number);
        print_kind(name);
    }
}

/* How reading grows with the number of User fields: 320 MHz, some positions 0 and the others punctured. */
static void print_growth(void)
{
    char name[60];
    chance c = narrow_chance();
    entry = READ;
    print_head("reading at 320 MHz, by fields");
    for (unsigned full = 0; full <= 16; full += 4) {
        unsigned row[16];
        for (unsigned p = 0; p < 16; p++)
            row[p] = p < full ? 0 : 26;
        of_row(&c, 4, row);
        sprintf(name, "%u fields, stations drawn", 9 * full);
        print_kind(name);
        of_one_station();
        sprintf(name, "%u fields, one that may repeat", 9 * full);
        print_kind(name);
    }
}

/* Calls on one frame, nothing printed. */
static int make_calls(char **words_after)
{
    chance c = narrow_chance();
    unsigned bandwidth = (unsigned)atoi(words_after[1]), kind = (unsigned)atoi(words_after[2]);
    int side = atoi(words_after[3]), times = atoi(words_after[4]);
    entry = atoi(words_after[0]);
    used = 1;
    of_kind(&c, bandwidth, kind);
    while (times-- > 0)
        call(side, 0);
    return 0;
}

int main(int argc, char **argv)
{
    if (argc == 7 && strcmp(argv[1], "--calls") == 0)
        return make_calls(argv + 2);
    if (argc == 5 && strcmp(argv[1], "--trigger-calls") == 0) {
        call_triggers((unsigned)atoi(argv[2]), atoi(argv[3]), atoi(argv[4]));
        return 0;
    }
    if (argc == 5 && strcmp(argv[1], "--compare-calls") == 0) {
        call_comparisons((unsigned)atoi(argv[2]), atoi(argv[3]), atoi(argv[4]));
        return 0;
    }
    if (argc == 5 && strcmp(argv[1], "--streams-calls") == 0) {
        call_streams((unsigned)atoi(argv[2]), atoi(argv[3]), atoi(argv[4]));
        return 0;
    }
    if (argc == 2)
        round_ns = 1e6 * atof(argv[1]);
    hold_drawn();
    print_accepted();
    print_head("refusals");
    print_refusals(READ, 1, 12);
    print_refusals(WRITE, 13, 14);
    print_refusals(LIST, 23, 23);
    print_growth();
    print_comparisons();
    print_streams();
    print_triggers();
    print_check_alone();
    return 0;
}
