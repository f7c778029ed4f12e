/* Entries of a Trigger frame, each a User Info of five bytes (02, T-02): AID12 in bits 0 to 11, B0 12, B7-B1 13 to 19,
 * PS160 39. */
#include "cases.h"

#include "../reference/reference.h"

#include <string.h>

static void put_value(uint8_t *entry, unsigned value)
{
    put_field(entry, 5, 13, 7, value);
}

unsigned values_taken(uint32_t bandwidth, uint8_t values[MOST_VALUES])
{
    static unsigned count[3]; /* worked out once */
    static uint8_t taken[3][MOST_VALUES];
    if (count[bandwidth] == 0)
        for (unsigned value = 0; value < 128; value++) {
            uint8_t entry[5] = {0}, record[32];
            put_value(entry, value);
            if (reference_trigger_read(bandwidth, entry, 5, record, 32).number == 0)
                taken[bandwidth][count[bandwidth]++] = (uint8_t)value;
        }
    memcpy(values, taken[bandwidth], MOST_VALUES);
    return count[bandwidth];
}

static int is_taken(uint32_t bandwidth, unsigned value)
{
    uint8_t taken[MOST_VALUES];
    return memchr(taken, (int)value, values_taken(bandwidth, taken)) != NULL;
}

static unsigned draw_value(chance *c, uint32_t bandwidth)
{
    uint8_t taken[MOST_VALUES];
    return taken[below(c, values_taken(bandwidth, taken))];
}

static uint32_t draw_aid12(chance *c)
{
    static const uint32_t chosen[] = {0, 1, 2006, 2008, 2045, 2046, 2047, 2048, 4055, 4095};
    uint32_t drawn = (uint32_t)below(c, 4096);
    return one_in(c, 2) || drawn == 2007 ? chosen[below(c, sizeof chosen / sizeof chosen[0])] : drawn;
}

void put_entry(chance *c, uint8_t *entry, unsigned value)
{
    for (unsigned k = 0; k < 5; k++)
        entry[k] = draw_byte(c);
    put_field(entry, 5, 0, 12, draw_aid12(c));
    put_field(entry, 5, 12, 1, 0);
    put_value(entry, value);
    put_field(entry, 5, 39, 1, 0);
}

void draw_entry(chance *c, uint32_t bandwidth, uint8_t *entry)
{
    put_entry(c, entry, draw_value(c, bandwidth));
}

void draw_entries(chance *c, uint32_t bandwidth, uint8_t *entries, size_t count)
{
    for (size_t k = 0; k < count; k++)
        draw_entry(c, bandwidth, entries + 5 * k);
}

void spoil_entry(chance *c, uint32_t bandwidth, uint8_t *entry, uint32_t number)
{
    if (number == 17 || one_in(c, 4)) {
        unsigned value;
        do
            value = (unsigned)below(c, 128);
        while (is_taken(bandwidth, value));
        put_value(entry, value);
    }
    if (number == 16 || (number == 24 && one_in(c, 4)))
        put_field(entry, 5, one_in(c, 2) ? 12 : 39, 1, 1);
    if (number == 24)
        put_field(entry, 5, 0, 12, 2007);
}

/* A list whose resources are drawn from so many: few make groups. */
static void draw_groups(chance *c, uint32_t bandwidth, uint8_t *entries, size_t count, unsigned resources)
{
    uint8_t value[128];
    for (unsigned k = 0; k < resources; k++)
        value[k] = (uint8_t)draw_value(c, bandwidth);
    for (size_t k = 0; k < count; k++)
        put_entry(c, entries + 5 * k, value[below(c, resources)]);
}

void draw_apart(chance *c, uint32_t bandwidth, uint8_t *entries, size_t count)
{
    uint8_t value[36];
    unsigned left = 9u << bandwidth;
    for (unsigned k = 0; k < left; k++)
        value[k] = (uint8_t)(k + (k >= 18));
    for (size_t k = 0; k < count; k++) {
        unsigned at = (unsigned)below(c, left);
        put_entry(c, entries + 5 * k, value[at]);
        if (left > 1)
            value[at] = value[--left];
    }
}

void draw_nested(chance *c, uint32_t bandwidth, uint8_t *entries, size_t count)
{
    static const uint8_t nested[10] = {0, 37, 53, 82, 61, 65, 67, 91, 92, 93};
    unsigned n = bandwidth == 0 ? 5 : bandwidth == 1 ? 6 : 10, turn = (unsigned)below(c, n);
    for (size_t k = 0; k < count; k++)
        put_entry(c, entries + 5 * k, nested[(k + turn) % n]);
}

void draw_list(chance *c, uint32_t bandwidth, uint8_t *entries, size_t count)
{
    switch (below(c, 5)) {
    case 0: draw_entries(c, bandwidth, entries, count); break;
    case 1: draw_groups(c, bandwidth, entries, count, 1 + (unsigned)below(c, 6)); break;
    case 2: draw_nested(c, bandwidth, entries, count); break;
    default:
        draw_apart(c, bandwidth, entries, count);
        if (count != 0 && one_in(c, 2)) /* with one that may be among the others */
            draw_entry(c, bandwidth, entries + 5 * below(c, count));
    }
}
