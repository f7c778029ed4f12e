/* driver [--until-wrong PART] SEED COUNT: holds the C entries of libbrachymel.a to the reference.
 *
 * Makes calls over every length from 0 and every bit, and then COUNT calls drawn from the seed, and compares
 * with the reference the answer and every byte that was lent, and those around it. Each buffer lies against a
 * page that cannot be touched, before it or after it, or at an odd address between bytes that must stay as they
 * are; an empty one is NULL now and then. What the buffers held before is a pattern that changes from call to
 * call. Every answer number has to be met. The last line is 'N passed, M failed'. With --until-wrong it makes only the
 * calls of one part ("frames", "triggers", "comparisons", "rows" or "streams"; they are the same ones) and ends at the first that
 * is wrong.
 */
#define _DEFAULT_SOURCE
#include "driver.h"

#include <signal.h>
#include <stdio.h>
#include <stdlib.h>
#include <string.h>
#include <sys/mman.h>
#include <unistd.h>

static unsigned long long seed;
static unsigned long calls, wrong;
static const char *part; /* the only one, until something is wrong; NULL: all, whatever is wrong */
const char *in_call = "no call";

/* ---- memory to lend */

arena cc1, cc2, other1, other2, other;

static void prepare(arena *a)
{
    size_t page = (size_t)sysconf(_SC_PAGESIZE);
    uint8_t *whole = mmap(NULL, ARENA + 2 * page, PROT_READ | PROT_WRITE, MAP_PRIVATE | MAP_ANONYMOUS, -1, 0);
    if (whole == MAP_FAILED || ARENA % page != 0 || mprotect(whole, page, PROT_NONE) != 0
        || mprotect(whole + page + ARENA, page, PROT_NONE) != 0) {
        printf("driver: no memory with guard pages\n0 passed, 1 failed\n");
        exit(2);
    }
    a->memory = a->low = a->high = whole + page;
}

void lend(arena *a, chance *c, const uint8_t *held, size_t length)
{
    uint8_t salt = (uint8_t)draw(c);
    switch (below(c, 3)) {
    case 0: a->lent = a->memory; break;
    case 1: a->lent = a->memory + ARENA - length; break;
    default: a->lent = a->memory + GUARD + below(c, 64); a->lent += (uintptr_t)a->lent % 2 == 0;
    }
    a->length = length;
    a->low = (size_t)(a->lent - a->memory) < GUARD ? a->memory : a->lent - GUARD;
    a->high = (size_t)(a->memory + ARENA - (a->lent + length)) < GUARD ? a->memory + ARENA : a->lent + length + GUARD;
    for (uint8_t *p = a->low; p < a->high; p++)
        *p = (uint8_t)((p - a->low) * 29 + salt);
    if (held != NULL && length != 0)
        memcpy(a->lent, held, length);
    memcpy(a->should_be, a->low, (size_t)(a->high - a->low));
}

uint8_t *expected(arena *a)
{
    return a->should_be + (a->lent - a->low);
}

uint8_t *pointer(arena *a, chance *c)
{
    return a->length == 0 && one_in(c, 2) ? NULL : a->lent;
}

static int is_as_it_should_be(const arena *a)
{
    return memcmp(a->low, a->should_be, (size_t)(a->high - a->low)) == 0;
}

/* ---- the entries */

const char *const entry_name[ENTRIES] = {"brachymel_read", "brachymel_write", "brachymel_list",
                                         "brachymel_trigger_read", "brachymel_trigger_write",
                                         "brachymel_trigger_overlaps", "brachymel_compare", "brachymel_streams_row",
                                         "brachymel_streams_number", "brachymel_streams"};
static unsigned long met[ENTRIES][32];

static int sum_up(void)
{
    printf("%lu passed, %lu failed\n", calls - wrong, wrong);
    return wrong == 0 ? 0 : 1;
}

/* A call more, or something else that is held. */
static void one_more(void)
{
    if (part != NULL && wrong != 0)
        exit(sum_up());
    calls++;
}

int is_told(void)
{
    return wrong <= 5;
}

int compare(int entry, answer should, brachymel_answer is)
{
    int right = should.number == is.number && should.channel == is.channel && should.place == is.place;
    int kept = is_as_it_should_be(&cc1) && is_as_it_should_be(&cc2) && is_as_it_should_be(&other1)
        && is_as_it_should_be(&other2) && is_as_it_should_be(&other);
    one_more();
    met[entry][should.number]++;
    if (right && kept)
        return 1;
    wrong++;
    if (is_told())
        printf("driver: WRONG, call %lu: %s answers %lu %lu %llu, the reference %lu %lu %llu; what was lent is %s\n", calls,
               entry_name[entry], (unsigned long)is.number, (unsigned long)is.channel, (unsigned long long)is.place,
               (unsigned long)should.number, (unsigned long)should.channel, (unsigned long long)should.place,
               kept ? "as it should be" : "not as it should be");
    return 0;
}

void hold(int holds, const char *what)
{
    one_more();
    if (holds)
        return;
    wrong++;
    if (is_told())
        printf("driver: WRONG, %s\n", what);
}

void call_read(chance *c, const frame *f, size_t bytes)
{
    answer should;
    brachymel_answer is;
    lend(&cc1, c, f->cc[0], f->length[0]);
    lend(&cc2, c, f->cc[1], f->length[1]);
    lend(&other, c, NULL, bytes);
    should = reference_read_bytes(f->bandwidth, f->cc[0], f->length[0], f->cc[1], f->length[1], expected(&other), bytes);
    in_call = entry_name[READ];
    is = brachymel_read(f->bandwidth, pointer(&cc1, c), f->length[0], pointer(&cc2, c), f->length[1], pointer(&other, c), bytes);
    in_call = "no call";
    if (!compare(READ, should, is) && is_told()) {
        printf("words_len=%lu, as a case: ", (unsigned long)bytes);
        print_frame('R', f, bytes / 4);
    }
}

void call_list(chance *c, const frame *f, size_t room)
{
    answer should;
    brachymel_answer is;
    lend(&cc1, c, f->cc[0], f->length[0]);
    lend(&cc2, c, f->cc[1], f->length[1]);
    lend(&other, c, NULL, room);
    should = reference_list(f->bandwidth, f->cc[0], f->length[0], f->cc[1], f->length[1], expected(&other), room);
    in_call = entry_name[LIST];
    is = brachymel_list(f->bandwidth, pointer(&cc1, c), f->length[0], pointer(&cc2, c), f->length[1], pointer(&other, c), room);
    in_call = "no call";
    if (!compare(LIST, should, is) && is_told())
        print_frame('L', f, room);
}

void call_write(chance *c, const words_case *w)
{
    answer should;
    brachymel_answer is;
    lend(&other, c, w->bytes, w->length);
    lend(&cc1, c, NULL, w->room[0]);
    lend(&cc2, c, NULL, w->room[1]);
    should = reference_write_bytes(w->bandwidth, w->bytes, w->length, expected(&cc1), w->room[0], expected(&cc2), w->room[1]);
    in_call = entry_name[WRITE];
    is = brachymel_write(w->bandwidth, pointer(&other, c), w->length, pointer(&cc1, c), w->room[0], pointer(&cc2, c), w->room[1]);
    in_call = "no call";
    if (!compare(WRITE, should, is) && is_told())
        print_words(w);
}

/* ---- which calls */

static void any_call(chance *c)
{
    static frame f;
    static words_case w;
    switch (below(c, 8)) {
    case 0:
        draw_frame(c, &f);
        call_list(c, &f, draw_listing_room(c, &f));
        break;
    case 1:
    case 2:
        draw_words(c, &w);
        call_write(c, &w);
        break;
    default:
        draw_frame(c, &f);
        call_read(c, &f, 4 * draw_words_room(c, &f) + (one_in(c, 4) ? (size_t)below(c, 4) : 0));
    }
}

static size_t any_room(chance *c, size_t enough)
{
    return one_in(c, 2) ? enough : (size_t)below(c, enough);
}

/* Two bytes past the last block of these channels (bit 0: channel 1, bit 1: channel 2). */
static size_t past_the_last(const frame *f, unsigned channels)
{
    size_t last = 0;
    for (unsigned ch = 0; ch < channels_of(f->bandwidth); ch++)
        if ((channels >> ch & 1) != 0 && bytes_told(f, ch) > last)
            last = bytes_told(f, ch);
    return last + 2;
}

/* These channels at every length from 0 on, the other as it is: read up to so many bytes, and listed to just past the last
 * block. A channel that is cut short gets its answer whatever the room. */
static void cut(chance *c, frame f, unsigned channels, size_t longest)
{
    size_t listed = past_the_last(&f, channels);
    for (size_t n = 0; n <= longest; n++) {
        for (unsigned ch = 0; ch < 2; ch++)
            if ((channels >> ch & 1) != 0)
                f.length[ch] = n;
        call_read(c, &f, any_room(c, BRACHYMEL_WORDS_SIZE));
        if (n <= listed)
            call_list(c, &f, any_room(c, BRACHYMEL_LISTING_SIZE));
    }
}

/* Channel 1, channel 2 and both cut short (02, T-03), with no User field, few and many, in odd numbers and even. */
static void every_cut(chance *c)
{
    static frame f;
    for (unsigned k = 0; k < CUT_ROWS; k++) {
        build_frame(c, cut_rows[k].bandwidth, cut_rows[k].row, &f);
        for (unsigned channels = 1; channels < 1u << channels_of(f.bandwidth); channels++)
            cut(c, f, channels, past_the_last(&f, channels));
    }
}

/* A good frame of each bandwidth, every length of either channel and every room. */
static void every_length(chance *c, unsigned bandwidth)
{
    static frame f;
    static words_case w;
    uint8_t words[BRACHYMEL_WORDS_SIZE];
    unsigned row[16];
    size_t bytes;
    answer a;
    do {
        draw_good_row(c, positions_of(bandwidth), row);
        build_frame(c, bandwidth, row, &f);
        a = reference_read_bytes(bandwidth, f.cc[0], f.length[0], f.cc[1], f.length[1], words, sizeof words);
    } while (a.number != 0);
    bytes = 4 * (size_t)a.place;
    for (size_t n = 0; n <= bytes + 8; n++)
        call_read(c, &f, n);
    cut(c, f, 1, 520);
    cut(c, f, 2, 520);
    a = reference_list(bandwidth, f.cc[0], f.length[0], f.cc[1], f.length[1], expected(&other), 12000);
    for (size_t n = 0; n <= a.place + 2; n += n + 200 < a.place ? 1 + (size_t)below(c, 60) : 1)
        call_list(c, &f, n);
    w.bandwidth = bandwidth;
    memcpy(w.bytes, words, bytes);
    w.length = bytes;
    for (unsigned ch = 0; ch < 2; ch++)
        for (size_t n = 0; n <= 300; n++) {
            w.room[ch] = n;
            w.room[1 - ch] = 257 + (size_t)below(c, 300);
            call_write(c, &w);
        }
    w.room[0] = w.room[1] = 257;
    for (w.length = 0; w.length < MOST_WORD_BYTES; w.length++)
        call_write(c, &w);
}

/* A size of the header is just what the largest frame needs. */
static void hold_size(const char *name, unsigned long size, unsigned long long needed)
{
    one_more();
    if (needed == size)
        return;
    wrong++;
    printf("driver: WRONG, %s is %lu, and %llu bytes are needed\n", name, size, needed);
}

/* The largest of everything: 320 MHz, all 0. */
static void largest(chance *c)
{
    static frame f;
    static words_case w;
    static const unsigned zeros[16] = {0};
    answer a;
    build_frame(c, 4, zeros, &f);
    for (unsigned ch = 0; ch < 2; ch++)
        for (unsigned j = 0; j < 72; j++)
            put_field(f.cc[ch], MOST_LENT, user_field_at(4, j), 11, 2007 + j % 41);
    mend_checks(&f);
    f.length[0] = f.length[1] = BRACHYMEL_CHANNEL_SIZE;
    for (size_t n = BRACHYMEL_WORDS_SIZE - 5; n <= BRACHYMEL_WORDS_SIZE + 5; n++)
        call_read(c, &f, n);
    for (size_t n = BRACHYMEL_LISTING_SIZE - 5; n <= BRACHYMEL_LISTING_SIZE + 5; n++)
        call_list(c, &f, n);
    a = reference_list(4, f.cc[0], f.length[0], f.cc[1], f.length[1], expected(&other), 0);
    hold_size("BRACHYMEL_LISTING_SIZE", BRACHYMEL_LISTING_SIZE, a.place);
    a = reference_read_bytes(4, f.cc[0], f.length[0], f.cc[1], f.length[1], w.bytes, sizeof w.bytes);
    w.bandwidth = 4;
    w.length = 4 * (size_t)a.place;
    hold_size("BRACHYMEL_WORDS_SIZE", BRACHYMEL_WORDS_SIZE, w.length);
    a = reference_write_bytes(4, w.bytes, w.length, expected(&cc1), 0, expected(&cc2), 0);
    hold_size("BRACHYMEL_CHANNEL_SIZE", BRACHYMEL_CHANNEL_SIZE, a.place);
    for (size_t n = BRACHYMEL_CHANNEL_SIZE - 5; n <= BRACHYMEL_CHANNEL_SIZE + 5; n++) {
        w.room[0] = w.room[1] = n;
        call_write(c, &w);
    }
}

/* Nobody has the fields of channel 1, of channel 2, of both (02, T-01): on resources with eight fields and with nine, and
 * where each resource has its own. */
static void unassigned(chance *c)
{
    static const struct {
        unsigned bandwidth, row[16];
    } of[] = {{0, {71}}, {0, {24}}, {1, {75, 75}}, {1, {75, 76}}, {2, {83, 83, 30, 30}}, {2, {83, 84, 30, 30}},
              {3, {26, 97, 29, 29, 120, 29, 28, 50}}, {4, {0}}, {3, {30, 91, 30, 30, 91, 30, 30, 30}},
              {3, {30, 91, 30, 30, 92, 30, 30, 30}}, {4, {30, 153, 30, 30, 29, 152, 29, 257, 30, 30, 30, 258, 30, 30, 256, 30}}};
    static frame f;
    for (size_t k = 0; k < sizeof of / sizeof of[0]; k++)
        for (unsigned channels = 1; channels <= 3; channels++) {
            build_frame(c, of[k].bandwidth, of[k].row, &f);
            put_stations(&f, channels, BRACHYMEL_UNASSIGNED);
            call_read(c, &f, BRACHYMEL_WORDS_SIZE);
            call_list(c, &f, BRACHYMEL_LISTING_SIZE);
            call_list(c, &f, draw_listing_room(c, &f));
        }
}

void turn_every_bit(chance *c, frame *f)
{
    static words_case w;
    answer a = reference_read_bytes(f->bandwidth, f->cc[0], f->length[0], f->cc[1], f->length[1], w.bytes, sizeof w.bytes);
    w.bandwidth = f->bandwidth;
    w.length = a.number == 0 ? 4 * (size_t)a.place : 0;
    w.room[0] = w.room[1] = BRACHYMEL_CHANNEL_SIZE;
    for (unsigned ch = 0; ch < 2; ch++)
        for (size_t i = 0; i < 8 * f->length[ch]; i++) {
            f->cc[ch][i / 8] ^= (uint8_t)(1u << i % 8);
            call_read(c, f, BRACHYMEL_WORDS_SIZE);
            f->cc[ch][i / 8] ^= (uint8_t)(1u << i % 8);
        }
    for (size_t i = 0; i < 8 * w.length; i++) {
        w.bytes[i / 8] ^= (uint8_t)(1u << i % 8);
        call_write(c, &w);
        w.bytes[i / 8] ^= (uint8_t)(1u << i % 8);
    }
}

/* Of a good frame of each bandwidth. */
static void every_bit(chance *c, unsigned bandwidth)
{
    static frame f;
    uint8_t words[BRACHYMEL_WORDS_SIZE];
    unsigned row[16];
    do {
        draw_good_row(c, positions_of(bandwidth), row);
        build_frame(c, bandwidth, row, &f);
    } while (reference_read_bytes(bandwidth, f.cc[0], f.length[0], f.cc[1], f.length[1], words, sizeof words).number != 0);
    turn_every_bit(c, &f);
}

/* ---- the run */

static void fell(int signal)
{
    char text[200];
    int n = snprintf(text, sizeof text, "driver: WRONG, signal %d in %s, call %lu of seed %llu\n0 passed, 1 failed\n", signal,
                     in_call, calls + 1, seed);
    if (write(1, text, (size_t)n) < 0)
        _exit(3);
    _exit(1);
}

/* Each entry's answers, with how often each was met; one that was not met is a failure of this driver. */
static void hold_met(void)
{
    static const struct {
        unsigned how_many;
        uint8_t number[14];
    } of[ENTRIES] = {
        {13, {0, 1, 2, 3, 4, 5, 6, 7, 8, 9, 10, 11, 12}}, {4, {0, 1, 13, 14}},
        {13, {0, 1, 2, 3, 4, 5, 6, 7, 8, 9, 10, 11, 23}}, {7, {0, 1, 15, 24, 16, 17, 23}}, {5, {0, 1, 24, 17, 23}},
        {8, {0, 1, 15, 25, 24, 16, 17, 26}}, {2, {0, 23}}, {3, {0, 21, 23}}, {2, {0, 21}},
        {14, {0, 1, 2, 3, 4, 5, 6, 7, 8, 9, 10, 11, 21, 23}}};
    unsigned missing = 0;
    for (unsigned e = 0; e < ENTRIES; e++) {
        printf("driver: %s:", entry_name[e]);
        for (unsigned k = 0; k < of[e].how_many; k++) {
            unsigned number = of[e].number[k];
            printf(" %u:%lu", number, met[e][number]);
            if (met[e][number] == 0)
                missing++;
        }
        printf("\n");
    }
    if (missing != 0)
        printf("driver: %u answers were not met\n", missing);
    calls += missing;
    wrong += missing;
}

static int is_in(const char *one)
{
    return part == NULL || strcmp(part, one) == 0;
}

static void every_frame(unsigned long drawn)
{
    chance c = chance_from(seed, 'C');
    largest(&c);
    unassigned(&c);
    every_cut(&c);
    for (unsigned bandwidth = 0; bandwidth <= 4; bandwidth++) {
        every_length(&c, bandwidth);
        every_bit(&c, bandwidth);
    }
    every_wide(&c);
    for (unsigned long n = 0; n < drawn; n++)
        any_call(&c);
}

int main(int argc, char **argv)
{
    chance c;
    unsigned long count;
    if (argc == 5 && strcmp(argv[1], "--until-wrong") == 0)
        part = argv[2];
    if (argc != (part == NULL ? 3 : 5)) {
        fprintf(stderr, "usage: driver [--until-wrong PART] SEED COUNT\n");
        return 2;
    }
    seed = strtoull(argv[argc - 2], NULL, 10);
    count = strtoul(argv[argc - 1], NULL, 10);
    printf("driver: seed %llu\n", seed);
    fflush(stdout);
    signal(SIGSEGV, fell);
    signal(SIGBUS, fell);
    signal(SIGILL, fell);
    signal(SIGFPE, fell);
    signal(SIGABRT, fell);
    prepare(&cc1);
    prepare(&cc2);
    prepare(&other1);
    prepare(&other2);
    prepare(&other);
    if (is_in("frames"))
        every_frame(count);
    c = chance_from(seed, 'G');
    if (is_in("triggers"))
        every_trigger(&c, count / 15);
    c = chance_from(seed, 'T');
    if (is_in("comparisons"))
        every_comparison(&c, count / 30);
    c = chance_from(seed, 'Q');
    if (is_in("rows"))
        every_row_of_streams(&c);
    c = chance_from(seed, 'S');
    if (is_in("streams"))
        every_stream(&c, count / 15);
    if (part == NULL)
        hold_met();
    return sum_up();
}
