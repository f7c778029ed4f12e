/* Cases of rows, frames, words and texts: the letters v m x r w R s W L T. */
#include "print.h"

#include "../reference/reference.h"

/* A row of one value: 0, 1, .. in turn. */
void print_value(chance *c, unsigned long k)
{
    (void)c;
    print_letter('r');
    print_number(k % 512);
    print_end();
}

static void print_values(const unsigned *row, unsigned positions)
{
    print_letter('r');
    for (unsigned p = 0; p < positions; p++)
        print_number(row[p]);
    print_end();
}

/* A row with a resource wider than a segment, each place of each in turn. */
void print_wide(chance *c, unsigned long k)
{
    unsigned row[16], positions = draw_wide_in_turn(c, k, row);
    print_values(row, positions);
}

/* A row with one position swept, each value in turn. */
void print_swept(chance *c, unsigned long k)
{
    unsigned row[16], positions = swept_in_turn(k, row);
    (void)c;
    print_values(row, positions);
}

void print_row(chance *c, unsigned long k)
{
    unsigned row[16], positions = 1u << below(c, 5);
    (void)k;
    draw_row(c, positions, row);
    print_values(row, positions);
}

static void print_capture(const frame *f)
{
    print_number(f->bandwidth);
    print_string(f->cc[0], f->length[0]);
    print_string(f->cc[1], f->length[1]);
}

void print_frame(char letter, const frame *f, size_t room)
{
    print_letter(letter);
    print_capture(f);
    print_number(room);
    print_end();
}

/* As a case of the letter C, for a report: there are no generated cases of it. */
void print_pair(const frame *x, const frame *y, size_t room)
{
    print_letter('C');
    print_capture(x);
    print_capture(y);
    print_number(room);
    print_end();
}

/* One channel of a frame, good or damaged. */
void print_walk(chance *c, unsigned long k)
{
    frame f;
    unsigned channel = (unsigned)below(c, 2);
    (void)k;
    draw_frame(c, &f);
    print_letter('w');
    print_number(f.bandwidth % 5);
    print_string(f.cc[channel], f.length[channel]);
    print_end();
}

void print_read(chance *c, unsigned long k)
{
    frame f;
    (void)k;
    draw_frame(c, &f);
    print_frame('R', &f, draw_words_room(c, &f));
}

/* A frame of each row to cut, in turn: channel 1 at every length from 0 up to the whole one, then channel 2, the
 * other channel whole. After the last row the first again, its frame drawn anew. */
void print_cut(chance *c, unsigned long k)
{
    chance own = *c; /* so that every k counts through the same frames */
    frame f;
    for (unsigned n = 0;; n = (n + 1) % CUT_ROWS) {
        build_frame(&own, cut_rows[n].bandwidth, cut_rows[n].row, &f);
        for (unsigned ch = 0; ch < channels_of(f.bandwidth); ch++)
            f.length[ch] = bytes_told(&f, ch);
        for (unsigned ch = 0; ch < channels_of(f.bandwidth); ch++) {
            if (k <= f.length[ch]) {
                f.length[ch] = k;
                print_frame('R', &f, 10 + f.fields);
                return;
            }
            k -= f.length[ch] + 1;
        }
    }
}

void print_list(chance *c, unsigned long k)
{
    frame f;
    (void)k;
    draw_frame(c, &f);
    print_frame('L', &f, draw_listing_room(c, &f));
}

void print_words(const words_case *w)
{
    print_letter('W');
    print_number(w->bandwidth);
    print_string(w->bytes, w->length);
    print_number(w->room[0]);
    print_number(w->room[1]);
    print_end();
}

void print_write(chance *c, unsigned long k)
{
    words_case w;
    (void)k;
    draw_words(c, &w);
    print_words(&w);
}

void print_text(chance *c, unsigned long k)
{
    static uint8_t text[MOST_TEXT];
    size_t n = draw_text(c, text);
    (void)k;
    print_letter('T');
    print_string(text, n);
    print_end();
}
