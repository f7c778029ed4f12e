/* What the parts of the driver share: memory to lend, and calls held to the reference. */
#ifndef DRIVER_H
#define DRIVER_H

#include "brachymel.h"
#include "cases/print.h"
#include "reference/reference.h"

/* ---- memory to lend */

#define ARENA 65536
#define GUARD 64

typedef struct {
    uint8_t *memory; /* ARENA bytes, between two pages that cannot be touched */
    uint8_t *lent;   /* what is lent of it */
    size_t length;
    uint8_t *low, *high;          /* what is watched: the lent bytes and up to GUARD on either side */
    uint8_t should_be[ARENA];     /* what the watched bytes should hold after the call */
} arena;

extern arena cc1, cc2, other1, other2, other; /* two channels, those of another frame, and what else is lent */

/* Lends `length` bytes, which hold `held`, or a pattern where that is NULL. */
void lend(arena *a, chance *c, const uint8_t *held, size_t length);

/* Where the reference writes what this buffer should hold. */
uint8_t *expected(arena *a);

/* What is given for it: NULL now and then where it is empty. */
uint8_t *pointer(arena *a, chance *c);

/* ---- a call */

enum { READ, WRITE, LIST, TRIGGER_READ, TRIGGER_WRITE, TRIGGER_OVERLAPS, COMPARE, STREAMS_ROW, STREAMS_NUMBER, STREAMS, ENTRIES };
extern const char *const entry_name[ENTRIES];
extern const char *in_call; /* for the report, should the call fall */

/* Whether the answer is the reference's, and every byte that was lent as it should be. */
int compare(int entry, answer should, brachymel_answer is);

/* Whether a failure that was just met is among the first ones, which are told. */
int is_told(void);

/* A check that is no call. */
void hold(int holds, const char *what);

/* Calls of a frame's entries, held to the reference; rooms in bytes. */
void call_read(chance *c, const frame *f, size_t bytes);
void call_list(chance *c, const frame *f, size_t room);
void call_write(chance *c, const words_case *w);

/* Each bit of a frame turned over, one by one; and of its words, if it is a good one. */
void turn_every_bit(chance *c, frame *f);

/* wides.c: resources wider than a segment (T-07). */
void every_wide(chance *c);

/* triggers.c: the calls of T-02, and then so many that are drawn. */
void every_trigger(chance *c, unsigned long drawn);

/* compares.c: the calls of T-06, and then so many pairs that are drawn. */
void every_comparison(chance *c, unsigned long drawn);

/* streams.c: the calls of T-11 that know no frame; and those on frames, with so many more that are drawn. */
void every_row_of_streams(chance *c);
void every_stream(chance *c, unsigned long drawn);

#endif
