/* The generator of cases: seeded, so that a run can be repeated from its seed. */
#ifndef CASES_H
#define CASES_H

#include <stddef.h>
#include <stdint.h>

/* chance.c: numbers that follow from a seed alone, the same on every machine. */
typedef struct {
    uint64_t state;
    int narrow; /* rows that are drawn have no resource wider than a segment */
} chance;

chance chance_from(uint64_t seed, uint64_t stream);
uint64_t draw(chance *c);
uint64_t below(chance *c, uint64_t bound); /* 0 to bound - 1; bound is not 0 */
int one_in(chance *c, unsigned n);
uint8_t draw_byte(chance *c); /* now and then 00 or FF, which any slip of a bit shows */

/* rows.c: a row that some plan signals, and the same damaged. */
void draw_good_row(chance *c, unsigned positions, unsigned *row);
void damage_row(chance *c, unsigned positions, unsigned *row);
void draw_row(chance *c, unsigned positions, unsigned *row); /* mostly good */
void draw_rest(chance *c, unsigned positions, unsigned taken, unsigned *row); /* all but the places taken, in whole pairs */

typedef struct {
    unsigned bandwidth, row[16];
} cut_row;

#define CUT_ROWS 29
extern const cut_row cut_rows[CUT_ROWS]; /* good ones, whose channels are cut to every length */

/* wide.c: resources wider than a segment (02, T-07), of those of 320 MHz the k-th. */
#define WIDE 34

typedef struct {
    unsigned value;  /* the first of its eight */
    unsigned places; /* bit p for each position p of the row */
} wide_resource;

wide_resource wide_of(unsigned k);
int wide_lies_in(wide_resource w, unsigned positions);
unsigned draw_place(chance *c, unsigned places);
unsigned value_without_field(wide_resource w, unsigned p);
void put_empty(wide_resource w, unsigned *row); /* no field at any of its places */
void draw_wide_row(chance *c, unsigned positions, int spoilt, unsigned *row); /* of 160 or 320 MHz */
void draw_part_of_wide_row(chance *c, unsigned positions, unsigned *row);

/* A good row for every place of every wide resource, of 160 MHz and then of 320: how many positions it has. */
#define WIDE_ROWS 376
unsigned draw_wide_in_turn(chance *c, unsigned long k, unsigned *row);

/* sweeps.c: each value that a position allows in turn (02, T-14), in rows of every bandwidth: how many positions it has. */
#define SWEEPS 863
unsigned swept_in_turn(unsigned long k, unsigned *row);

/* frames.c: a pair of channels. */
#define MOST_LENT 640

typedef struct {
    uint32_t bandwidth;
    size_t length[2];
    uint8_t cc[2][MOST_LENT];
    unsigned fields; /* User fields that its row tells of */
} frame;

void draw_good_frame(chance *c, frame *f);
void build_frame(chance *c, unsigned bandwidth, const unsigned *row, frame *f);
void mend_checks(frame *f);
unsigned fields_told(const frame *f, unsigned ch);
unsigned bits_told(const frame *f, unsigned ch); /* up to the padding */
size_t bytes_told(const frame *f, unsigned ch);
void put_stations(frame *f, unsigned channels, uint32_t id); /* and mends the checks */
void draw_frame(chance *c, frame *f); /* good, damaged in one way or two, or of random bytes */
size_t draw_words_room(chance *c, const frame *f);

/* words.c: words for the writer, as little-endian bytes. */
#define MOST_WORD_BYTES 1024

typedef struct {
    uint32_t bandwidth;
    size_t length;
    uint8_t bytes[MOST_WORD_BYTES];
    size_t room[2];
} words_case;

void draw_words(chance *c, words_case *w);

/* entries.c: entries of a Trigger frame, five bytes each (02, T-02); the bandwidth code is at most 2. */
#define MOST_VALUES 77

unsigned values_taken(uint32_t bandwidth, uint8_t values[MOST_VALUES]); /* those that name a resource here: how many */
void put_entry(chance *c, uint8_t *entry, unsigned value); /* all else drawn; AID12 is not 2007, B0 and PS160 are 0 */
void draw_entry(chance *c, uint32_t bandwidth, uint8_t *entry);
void draw_entries(chance *c, uint32_t bandwidth, uint8_t *entries, size_t count);
void draw_apart(chance *c, uint32_t bandwidth, uint8_t *entries, size_t count); /* 26s, once each if they suffice */
void draw_nested(chance *c, uint32_t bandwidth, uint8_t *entries, size_t count); /* those that have the first 26 */
void draw_list(chance *c, uint32_t bandwidth, uint8_t *entries, size_t count); /* of these, or of few resources */

/* Makes an entry one that is refused with this number (24, 16 or 17), now and then with a later one besides. */
void spoil_entry(chance *c, uint32_t bandwidth, uint8_t *entry, uint32_t number);

/* pairs.c: two frames to compare (02, T-06). */
void row_of_frame(const frame *f, unsigned row[16]);
void make_alike(const frame *x, frame *y); /* y's overflow, and its User fields as far as x has them, are x's */
void draw_padding(chance *c, frame *f);    /* its length and all bits past the last block drawn anew */
void draw_change(chance *c, const frame *x, frame *y); /* y is x, a good frame, with something changed */
void draw_pair(chance *c, frame *x, frame *y);         /* of one bandwidth and good, mostly, and alike, mostly */

/* streams.c: good frames whose shared User fields name rows of streams (02, T-11); each mends the checks. */
#define ALL_FIELDS 8

void put_rows_of_streams(chance *c, frame *f); /* in each shared field the number of a row that there is */
/* In all fields of the resource that has these positions, or in only one of them, counted from 0. */
void put_configuration(frame *f, unsigned places, unsigned only, uint32_t configuration);
void put_past_the_last(chance *c, frame *f);   /* in a field, if it is a shared one, a number past the last row */
void put_nobodys(chance *c, frame *f);         /* some fields are nobody's, mostly with such a number */
void draw_streams_frame(chance *c, frame *f);  /* of these, mostly the first alone */

/* texts.c: a text for the programs, of one capture or two, and a listing's room. */
#define MOST_TEXT 20000

size_t draw_text(chance *c, uint8_t text[MOST_TEXT]);
size_t draw_text_of_two(chance *c, uint8_t text[MOST_TEXT]);
size_t draw_listing_room(chance *c, const frame *f);

#endif
