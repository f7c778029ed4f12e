/* Texts for the program: the three lines of a frame, and the same damaged. */
#include "cases.h"

#include "../reference/reference.h"

#include <stdio.h>
#include <string.h>

static size_t put_hex(char *text, const uint8_t *bytes, size_t length)
{
    for (size_t k = 0; k < length; k++)
        sprintf(text + 2 * k, "%02X", bytes[k]);
    return 2 * length;
}

static size_t put_frame(char *text, const frame *f)
{
    size_t n = (size_t)sprintf(text, "bw=%u\ncc1=", (unsigned)(f->bandwidth % 10));
    n += put_hex(text + n, f->cc[0], f->length[0]);
    n += (size_t)sprintf(text + n, "\ncc2=");
    n += put_hex(text + n, f->cc[1], f->length[1]);
    n += (size_t)sprintf(text + n, "\n");
    return n;
}

static size_t insert(char *text, size_t n, size_t at, char what)
{
    memmove(text + at + 1, text + at, n - at);
    text[at] = what;
    return n + 1;
}

static size_t drop(char *text, size_t n, size_t at)
{
    memmove(text + at, text + at + 1, n - at - 1);
    return n - 1;
}

/* A byte put in, taken out or changed, near an edge of a line or anywhere; the text cut or made longer. */
static size_t damage_text(chance *c, char *text, size_t n, unsigned captures)
{
    static const char some[] = "\n\n\r =:abAGg09\tBbCc-";
    size_t at = (size_t)below(c, n), edge = 0, line = (size_t)below(c, 3 * captures);
    char what = one_in(c, 6) ? (char)below(c, 256) : some[below(c, sizeof some - 1)];
    for (size_t k = 0; k < line; k++)
        edge += (size_t)((char *)memchr(text + edge, '\n', n - edge) - (text + edge)) + 1;
    if (one_in(c, 2))
        at = edge + (size_t)below(c, 6 < n - edge ? 6 : n - edge);
    switch (below(c, 8)) {
    case 0: return insert(text, n, at, what);
    case 1: return drop(text, n, at);
    case 2: text[at] = what; return n;
    case 3: return at;
    case 4: return insert(text, n, n, what);
    case 5: return drop(text, n, n - 1);
    case 6: /* to the limit of 8,192 bytes, or of two captures 16,384, or just past it, in digits of channel 2 */
        n--;
        for (size_t to = (size_t)MOST_CAPTURE * captures - 2 + (size_t)below(c, 4); n < to; n++)
            text[n] = 'A';
        return insert(text, n, n, '\n');
    default: text[3] = (char)('0' + below(c, 10)); return n;
    }
}

size_t draw_text(chance *c, uint8_t text[MOST_TEXT])
{
    frame f;
    size_t n;
    if (one_in(c, 2))
        draw_good_frame(c, &f);
    else
        draw_frame(c, &f);
    n = put_frame((char *)text, &f);
    return one_in(c, 3) ? damage_text(c, (char *)text, n, 1) : n;
}

size_t draw_text_of_two(chance *c, uint8_t text[MOST_TEXT])
{
    static frame x, y;
    size_t n;
    draw_pair(c, &x, &y);
    n = put_frame((char *)text, &x);
    n += put_frame((char *)text + n, &y);
    return one_in(c, 3) ? damage_text(c, (char *)text, n, 2) : n;
}


/* Room for a listing: plenty, just enough, one too few, or any. */
size_t draw_listing_room(chance *c, const frame *f)
{
    static uint8_t text[MOST_LISTING];
    answer a = reference_list(f->bandwidth, f->cc[0], f->length[0], f->cc[1], f->length[1], text, sizeof text);
    if (a.number != 0)
        return (size_t)below(c, 40);
    switch (below(c, 6)) {
    case 0: return (size_t)a.place - 1;
    case 1: return (size_t)below(c, a.place);
    case 2: return (size_t)a.place + 1 + (size_t)below(c, 30);
    case 3: return 12000;
    default: return (size_t)a.place;
    }
}
