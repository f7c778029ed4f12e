/* A Trigger frame's entries read, written, and lists of them searched for overlaps (02, T-02).
 *
 * Each kind of call has its own inputs. Before it is timed, both sides are held to the reference on each of them.
 */
#include "triggers.h"

#include "cases/cases.h"
#include "fast.h"
#include "reference/reference.h"
#include "rounds.h"

#include <stdio.h>
#include <stdlib.h>
#include <string.h>

#define INPUTS 64

typedef brachymel_answer calls(uint32_t, const uint8_t *, size_t, uint8_t *, size_t);
typedef answer says(uint32_t, const uint8_t *, size_t, uint8_t *, size_t);
typedef void draws(chance *, uint32_t, uint8_t *, size_t);

enum { READ, WRITE, OVERLAPS };

static const struct {
    calls *by[SIDES];
    says *reference;
} entry_of[] = {
    {{brachymel_trigger_read, fast_trigger_read}, reference_trigger_read},
    {{brachymel_trigger_write, fast_trigger_write}, reference_trigger_write},
    {{brachymel_trigger_overlaps, fast_trigger_overlaps}, reference_trigger_overlaps},
};

/* bench/count has these in the same order */
static const struct {
    const char *name;
    int entry;
    uint32_t bandwidth;
    unsigned entries;
    draws *draw;
} kinds[] = {
    {"reading, 20 MHz", READ, 0, 1, draw_entries},
    {"reading, 40 MHz", READ, 1, 1, draw_entries},
    {"reading, 80 MHz", READ, 2, 1, draw_entries},
    {"writing, 20 MHz", WRITE, 0, 1, draw_entries},
    {"writing, 40 MHz", WRITE, 1, 1, draw_entries},
    {"writing, 80 MHz", WRITE, 2, 1, draw_entries},
    {"overlaps of 2, drawn", OVERLAPS, 2, 2, draw_entries},
    {"overlaps of 8, drawn", OVERLAPS, 2, 8, draw_entries},
    {"overlaps of 32, drawn", OVERLAPS, 2, 32, draw_entries},
    {"overlaps of 8, no pair", OVERLAPS, 2, 8, draw_apart},
    {"overlaps of 32, no pair", OVERLAPS, 2, 32, draw_apart},
    {"overlaps of 32, 460 pairs", OVERLAPS, 2, 32, draw_nested},
};

static unsigned kind, used = INPUTS; /* how many of the inputs are in use */
static size_t length;
static uint8_t input[INPUTS][BRACHYMEL_ENTRIES_LIMIT * BRACHYMEL_ENTRY_SIZE];
static uint8_t buffer[BRACHYMEL_PAIRS_SIZE];

static void of_kind(unsigned k)
{
    chance c = chance_from(1, 'G');
    kind = k;
    length = kinds[k].entry == WRITE ? BRACHYMEL_RECORD_SIZE : kinds[k].entries * BRACHYMEL_ENTRY_SIZE;
    for (unsigned n = 0; n < used; n++) {
        kinds[k].draw(&c, kinds[k].bandwidth, input[n], kinds[k].entries);
        if (kinds[k].entry == WRITE) {
            uint8_t record[BRACHYMEL_RECORD_SIZE];
            reference_trigger_read(kinds[k].bandwidth, input[n], BRACHYMEL_ENTRY_SIZE, record, sizeof record);
            memcpy(input[n], record, sizeof record);
        }
    }
}

static brachymel_answer call(int side, unsigned n)
{
    return entry_of[kinds[kind].entry].by[side](kinds[kind].bandwidth, input[n], length, buffer, sizeof buffer);
}

static void hold_to_reference(int side)
{
    for (unsigned n = 0; n < used; n++) {
        uint8_t right[sizeof buffer];
        answer should;
        brachymel_answer is;
        memset(right, 0x5A, sizeof right);
        memset(buffer, 0x5A, sizeof buffer);
        should = entry_of[kinds[kind].entry].reference(kinds[kind].bandwidth, input[n], length, right, sizeof right);
        is = call(side, n);
        if (is.number != should.number || is.channel != should.channel || is.place != should.place
            || memcmp(buffer, right, sizeof buffer) != 0) {
            printf("bench: %s is not what the reference says of %s\n", side_name[side], kinds[kind].name);
            exit(1);
        }
    }
}

static void pass(int side, unsigned times)
{
    while (times-- > 0)
        for (unsigned n = 0; n < used; n++)
            kept += call(side, n).place;
}

void print_triggers(void)
{
    print_head("a Trigger's entries");
    for (unsigned k = 0; k < sizeof kinds / sizeof kinds[0]; k++) {
        of_kind(k);
        for (int side = 0; side < SIDES; side++)
            hold_to_reference(side);
        print_line(kinds[k].name, pass, used);
    }
}

void call_triggers(unsigned k, int side, int times)
{
    used = 1;
    of_kind(k);
    while (times-- > 0)
        call(side, 0);
}
