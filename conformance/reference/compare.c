/* Two frames compared (02, T-06): their listings laid side by side, line against line, as text. What a listing does not
 * say is taken from the channels: the overflow, the values, the bits of the User fields. */
#include "reference.h"

#include <stdio.h>
#include <stdlib.h>
#include <string.h>

/* One frame's side, its listing cut into lines. */
typedef struct {
    unsigned which; /* 1 or 2: "first frame's side first" */
    uint32_t bandwidth;
    const uint8_t *cc[2];
    size_t length[2];
    answer outcome;
    char listing[MOST_LISTING];
    unsigned resources, fields, fields_1; /* ru= lines; sta= lines; how many of these are of channel 1 */
    const char *ru[MOST_RECORDS], *sta[MOST_FIELDS];
} side;

static void cut_into_lines(side *x, size_t length)
{
    x->listing[length] = 0;
    for (char *line = strtok(x->listing, "\n"); line != NULL; line = strtok(NULL, "\n")) {
        if (strncmp(line, "ru=", 3) == 0)
            x->ru[x->resources++] = line;
        if (strncmp(line, "sta=", 4) == 0)
            x->sta[x->fields++] = line;
        if (strncmp(line, "fields1=", 8) == 0)
            x->fields_1 = (unsigned)atoi(line + 8);
    }
}

static void take_side(side *x, unsigned which, uint32_t bandwidth, const uint8_t *cc1, size_t cc1_length,
                      const uint8_t *cc2, size_t cc2_length)
{
    static reading r;
    x->which = which;
    x->bandwidth = bandwidth;
    x->cc[0] = cc1;
    x->cc[1] = cc2;
    x->length[0] = cc1_length;
    x->length[1] = cc2_length;
    x->outcome = read_frame(bandwidth, cc1, cc1_length, cc2, cc2_length, &r);
}

/* Of an accepted frame. */
static void list_side(side *x)
{
    answer a = reference_list(x->bandwidth, x->cc[0], x->length[0], x->cc[1], x->length[1], (uint8_t *)x->listing,
                              MOST_LISTING - 1);
    x->resources = x->fields = x->fields_1 = 0;
    cut_into_lines(x, (size_t)a.place);
}

/* "Every line says which frame has it": frame=1 or frame=2. */
static size_t begin_line(const side *x, char *text)
{
    return (size_t)sprintf(text, "frame=%u ", x->which);
}

/* "If one or both are refused, say which and its answer, first frame first, and compare nothing." */
static size_t refusals(const side x[2], char *text)
{
    size_t n = 0;
    for (unsigned f = 0; f < 2; f++)
        if (x[f].outcome.number != 0) {
            n += begin_line(&x[f], text + n);
            n += (size_t)sprintf(text + n, "answer=%lu channel=%lu place=%llu\n", (unsigned long)x[f].outcome.number,
                                 (unsigned long)x[f].outcome.channel, (unsigned long long)x[f].outcome.place);
        }
    return n;
}

/* "a differing bandwidth, and then nothing more" */
static size_t bandwidths(const side x[2], char *text)
{
    size_t n = 0;
    for (unsigned f = 0; f < 2 && x[0].bandwidth != x[1].bandwidth; f++) {
        n += begin_line(&x[f], text + n);
        n += (size_t)sprintf(text + n, "bw=%lu\n", (unsigned long)x[f].bandwidth);
    }
    return n;
}

/* "else overflow fields by name": "Overflow, 17 bits: Spatial Reuse 4, GI+LTF 2, LTF symbols 3, LDPC extra 1, Pre-FEC 2,
 * PE Disambiguity 1, Disregard 4" (01). The channels of an accepted frame agree on them. */
static size_t overflows(const side x[2], char *text)
{
    static const struct {
        const char *name;
        unsigned width;
    } field[7] = {{"spatial-reuse", 4}, {"gi-ltf", 2}, {"ltf-symbols", 3}, {"ldpc-extra", 1}, {"pre-fec", 2},
                  {"pe-disambiguity", 1}, {"disregard", 4}};
    size_t n = 0;
    unsigned at = 0;
    for (unsigned k = 0; k < 7; k++) {
        unsigned long value[2];
        for (unsigned f = 0; f < 2; f++)
            value[f] = field_of(x[f].cc[0], x[f].length[0], at, field[k].width);
        for (unsigned f = 0; f < 2 && value[0] != value[1]; f++) {
            n += begin_line(&x[f], text + n);
            n += (size_t)sprintf(text + n, "%s=%lu\n", field[k].name, value[f]);
        }
        at += field[k].width;
    }
    return n;
}

/* "RU Allocation values by position": "Content channel 1 holds the even positions, channel 2 the odd ones" (01). */
static size_t values(const side x[2], char *text)
{
    size_t n = 0;
    for (unsigned p = 0; p < positions_of(x[0].bandwidth); p++) {
        unsigned long value[2];
        for (unsigned f = 0; f < 2; f++)
            value[f] = field_of(x[f].cc[p % 2], x[f].length[p % 2], subfield_at(x[f].bandwidth, p / 2), 9);
        for (unsigned f = 0; f < 2 && value[0] != value[1]; f++) {
            n += begin_line(&x[f], text + n);
            n += (size_t)sprintf(text + n, "position=%u value=%lu\n", p, value[f]);
        }
    }
    return n;
}

/* A resource is known by its size, index and segment, "however many fields it has": the listing's line up to users=. */
static size_t name_length(const char *ru)
{
    return (size_t)(strstr(ru, " users=") - ru);
}

static int same_resource(const char *ru, const char *other)
{
    return name_length(ru) == name_length(other) && memcmp(ru, other, name_length(ru)) == 0;
}

static int has_resource(const side *x, const char *ru)
{
    for (unsigned k = 0; k < x->resources; k++)
        if (same_resource(x->ru[k], ru))
            return 1;
    return 0;
}

/* "resources only in one": each is looked for among all of the other. The listing's own line; "first all that only frame
 * 1 has, in its listing's order, then all that only frame 2 has" (decision). */
static size_t resources(const side x[2], char *text)
{
    size_t n = 0;
    for (unsigned f = 0; f < 2; f++)
        for (unsigned k = 0; k < x[f].resources; k++)
            if (!has_resource(&x[1 - f], x[f].ru[k])) {
                n += begin_line(&x[f], text + n);
                n += (size_t)sprintf(text + n, "%s\n", x[f].ru[k]);
            }
    return n;
}

/* The bits of User field k, from 0, "matched by their place among the User words": "channel 1 first" (01). */
static unsigned long bits_of(const side *x, unsigned k)
{
    unsigned c = k < x->fields_1 ? 0 : 1, j = c == 0 ? k : k - x->fields_1;
    return field_of(x->cc[c], x->length[c], user_field_at(x->bandwidth, j), 22);
}

/* The ru= line of the resource that User field k is for. */
static const char *resource_of(const side *x, unsigned k)
{
    return x->ru[atoi(strstr(x->sta[k], "resource=") + strlen("resource=")) - 1];
}

static size_t user_line(const side *x, unsigned k, char *text)
{
    size_t n = begin_line(x, text);
    const char *sta = x->sta[k], *ru = resource_of(x, k);
    n += (size_t)sprintf(text + n, "user=%u ", k + 1);
    n += (size_t)sprintf(text + n, "%.*s ", (int)(strstr(sta, " resource=") - sta), sta);
    return n + (size_t)sprintf(text + n, "bits=%06lX %.*s\n", bits_of(x, k), (int)name_length(ru), ru);
}

/* "User fields whose bits or resource differ or that only one has" */
static size_t users(const side x[2], char *text)
{
    size_t n = 0;
    for (unsigned k = 0; k < x[0].fields || k < x[1].fields; k++) {
        if (k < x[0].fields && k < x[1].fields && bits_of(&x[0], k) == bits_of(&x[1], k)
            && same_resource(resource_of(&x[0], k), resource_of(&x[1], k)))
            continue;
        for (unsigned f = 0; f < 2; f++)
            if (k < x[f].fields)
                n += user_line(&x[f], k, text + n);
    }
    return n;
}

/* "in that order" */
static size_t comparison(side x[2], char *text)
{
    size_t n = refusals(x, text);
    if (n == 0)
        n = bandwidths(x, text);
    if (n != 0)
        return n;
    for (unsigned f = 0; f < 2; f++)
        list_side(&x[f]);
    n += overflows(x, text + n);
    n += values(x, text + n);
    n += resources(x, text + n);
    return n + users(x, text + n);
}

/* "A buffer too short for a result of this or a later request gets 23 too, last, with the bytes .. needed as place" (02,
 * T-02). A frame that is refused has its line, and does not refuse the call. */
answer reference_compare(uint32_t bandwidth1, const uint8_t *cc1, size_t cc1_length, const uint8_t *cc2, size_t cc2_length,
                         uint32_t bandwidth2, const uint8_t *other1, size_t other1_length, const uint8_t *other2,
                         size_t other2_length, uint8_t *text, size_t room)
{
    static side x[2];
    static char whole[MOST_COMPARISON];
    size_t needed;
    take_side(&x[0], 1, bandwidth1, cc1, cc1_length, cc2, cc2_length);
    take_side(&x[1], 2, bandwidth2, other1, other1_length, other2, other2_length);
    needed = comparison(x, whole);
    if (room < needed)
        return answer_of(23, 0, needed);
    if (needed != 0)
        memcpy(text, whole, needed);
    return answer_of(0, 0, needed);
}

/* Two captures, one after the other, and their comparison; or 22, first of all, as the listing's program has it. */
size_t reference_compare_program(const uint8_t *text, size_t length, char out[MOST_COMPARISON])
{
    static capture x[2];
    answer a = read_captures(text, length, 2, x);
    if (a.number != 0)
        return refusal_text(a, out);
    a = reference_compare(x[0].bandwidth, x[0].cc[0], x[0].length[0], x[0].cc[1], x[0].length[1], x[1].bandwidth,
                          x[1].cc[0], x[1].length[0], x[1].cc[1], x[1].length[1], (uint8_t *)out, MOST_COMPARISON);
    return (size_t)a.place;
}
