/* The listing, and the program's text. */
#include "reference.h"

#include <stdio.h>
#include <string.h>

/* "STA-ID 2046 marks a resource that nobody has." (02, T-01) */
static int is_station(uint32_t id)
{
    return id != 2046;
}

/* "stations= leaves it out": the User fields of a station, of both channels. */
static unsigned stations_of(const reading *r)
{
    unsigned n = 0;
    for (unsigned c = 0; c < 2; c++)
        for (unsigned j = 0; j < r->layout.fields[c]; j++)
            if (is_station(r->station[c][j]))
                n++;
    return n;
}

/* "its line has none for the number, resource= staying". */
static size_t station_line(uint32_t id, unsigned resource, char *text)
{
    if (!is_station(id))
        return (size_t)sprintf(text, "sta=none resource=%u\n", resource);
    return (size_t)sprintf(text, "sta=%lu resource=%u\n", (unsigned long)id, resource);
}

/* The listing's lines, in the order of 01's example; "sta= lines follow the User words", and resource=
 * counts the ru= lines from 1 (decision). */
static size_t listing_text(unsigned bandwidth, const reading *r, char *text)
{
    const layout *l = &r->layout;
    size_t n = 0;
    n += (size_t)sprintf(text + n, "answer=0\n");
    n += (size_t)sprintf(text + n, "bw=%u\n", bandwidth);
    n += (size_t)sprintf(text + n, "resources=%u\n", l->records);
    n += (size_t)sprintf(text + n, "fields1=%u\n", l->fields[0]);
    n += (size_t)sprintf(text + n, "fields2=%u\n", l->fields[1]);
    n += (size_t)sprintf(text + n, "stations=%u\n", stations_of(r));
    for (unsigned k = 0; k < l->records; k++) {
        const record *x = &l->record[k];
        n += (size_t)sprintf(text + n, "ru=%s index=%u segment=%u users=%u tones=", name_of_size[x->size],
                             x->index, x->segment, x->fields[0] + x->fields[1]);
        n += tones_text(x, positions_of(bandwidth), text + n);
        n += (size_t)sprintf(text + n, "\n");
    }
    for (unsigned c = 0; c < 2; c++)
        for (unsigned j = 0; j < l->fields[c]; j++)
            n += station_line(r->station[c][j], l->owner[c][j] + 1, text + n);
    return n;
}

/* "23 last": answers 1 to 11, then 23: "listing's buffer is too short | 0, bytes needed". */
answer reference_list(uint32_t bandwidth, const uint8_t *cc1, size_t cc1_length, const uint8_t *cc2,
                      size_t cc2_length, uint8_t *text, size_t room)
{
    static reading r;
    static char whole[MOST_LISTING];
    size_t needed;
    answer a = read_frame(bandwidth, cc1, cc1_length, cc2, cc2_length, &r);
    if (a.number != 0)
        return a;
    needed = listing_text(bandwidth, &r, whole);
    if (room < needed)
        return answer_of(23, 0, needed);
    memcpy(text, whole, needed);
    return answer_of(0, 0, needed);
}

/* "A refusal is answer=, channel=, place=, three lines, by the program". */
size_t refusal_text(answer a, char *text)
{
    return (size_t)sprintf(text, "answer=%lu\nchannel=%lu\nplace=%llu\n", (unsigned long)a.number,
                           (unsigned long)a.channel, (unsigned long long)a.place);
}

static int is_hex_digit(uint8_t c)
{
    return (c >= '0' && c <= '9') || (c >= 'A' && c <= 'F');
}

static unsigned digit_of(uint8_t c)
{
    return c <= '9' ? (unsigned)(c - '0') : (unsigned)(c - 'A') + 10;
}

/* "Each line starts with its fixed key, compared .. byte for byte". */
static int starts_with(const uint8_t *line, size_t length, const char *key)
{
    return length >= strlen(key) && memcmp(line, key, strlen(key)) == 0;
}

/* "the lines bw= (one decimal digit), cc1=, cc2= (pairs of hex digits, capital letters, perhaps none)". The
 * line, of these three the one from 0, is given without its line feed. */
static int line_is_right(unsigned which, const uint8_t *line, size_t length)
{
    static const char *const key[3] = {"bw=", "cc1=", "cc2="};
    size_t after = strlen(key[which]);
    if (!starts_with(line, length, key[which]))
        return 0;
    if (which == 0)
        return length == after + 1 && line[after] >= '0' && line[after] <= '9';
    if ((length - after) % 2 != 0)
        return 0;
    for (size_t k = after; k < length; k++)
        if (!is_hex_digit(line[k]))
            return 0;
    return 1;
}

/* Keeps what a right line says. */
static void keep_line(unsigned which, const uint8_t *line, size_t length, capture *x)
{
    if (which == 0) {
        x->bandwidth = digit_of(line[3]);
        return;
    }
    x->length[which - 1] = (length - 4) / 2;
    for (size_t k = 0; k < x->length[which - 1]; k++)
        x->cc[which - 1][k] = (uint8_t)(digit_of(line[4 + 2 * k]) << 4 | digit_of(line[5 + 2 * k]));
}

/* "each ended by a line feed and nothing after". 22: "program text over 8,192 bytes, else not the three
 * lines named under Listing | 0, 0; else first wrong line, from 1 (text after the third is line 4)". Of two captures
 * one after the other (02, T-06) the same with 16,384 bytes in all, six lines, and line 7 (decision). */
answer read_captures(const uint8_t *text, size_t length, unsigned captures, capture *x)
{
    size_t at = 0;
    if (length > (size_t)MOST_CAPTURE * captures)
        return answer_of(22, 0, 0);
    for (unsigned n = 0; n < 3 * captures; n++) {
        const uint8_t *feed = at < length ? memchr(text + at, '\n', length - at) : NULL;
        size_t line_length = feed == NULL ? 0 : (size_t)(feed - (text + at));
        if (feed == NULL || !line_is_right(n % 3, text + at, line_length))
            return answer_of(22, 0, n + 1);
        keep_line(n % 3, text + at, line_length, &x[n / 3]);
        at += line_length + 1;
    }
    if (at != length)
        return answer_of(22, 0, 3 * captures + 1);
    return answer_of(0, 0, 0);
}

/* "22 is first of all"; "and writes the listing". */
size_t reference_program(const uint8_t *text, size_t length, char out[MOST_LISTING])
{
    static capture x;
    answer a = read_captures(text, length, 1, &x);
    if (a.number != 0)
        return refusal_text(a, out);
    a = reference_list(x.bandwidth, x.cc[0], x.length[0], x.cc[1], x.length[1], (uint8_t *)out, MOST_LISTING);
    if (a.number != 0)
        return refusal_text(a, out);
    return (size_t)a.place;
}
