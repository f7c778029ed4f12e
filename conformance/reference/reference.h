/* The reference: the scope paper ("01") in plain C, slow and literal.
 *
 * It is written from 01, from the change requests ("02") that have landed and from the radiotap EHT page
 * ("002") alone, and shares nothing with the crates. Each function is headed by the sentence of 01 or 02
 * that it carries out. Where 01 leaves room, the comment says "decision": docs/DECISIONS.md has it.
 */
#ifndef REFERENCE_H
#define REFERENCE_H

#include <stddef.h>
#include <stdint.h>

/* bits.c: a channel's "first bit is the lowest bit of byte 0; all fields go lowest bit first". */
unsigned bit_of(const uint8_t *bytes, size_t length, uint64_t i);
uint32_t field_of(const uint8_t *bytes, size_t length, uint64_t at, unsigned width);
uint64_t bits_lacking(const uint8_t *bytes, size_t length, uint64_t at, uint64_t width);
uint64_t first_difference(const uint8_t *s, size_t s_length, const uint8_t *t, size_t t_length,
                          uint64_t at, uint64_t width);
void put_field(uint8_t *bytes, size_t length, uint64_t at, unsigned width, uint32_t value);

/* check.c: the check of four bits and the tail of six. */
unsigned check_of(const uint8_t *bytes, size_t length, uint64_t at, uint64_t width);
int block_is_right(const uint8_t *bytes, size_t length, uint64_t at, uint64_t width);

/* "Every refusal writes nothing and returns number, channel, place." */
typedef struct {
    uint32_t number, channel;
    uint64_t place;
} answer;

answer answer_of(uint32_t number, uint32_t channel, uint64_t place);

/* value.c: the values of the RU Allocation subfield. */

/* "Resources: 26, 52, 106, 242, 484 and 996 subcarriers, and the joined ones 106+26 and 484+242." 02 (T-07): "2x996,
 * 4x996, 996+484 and the rest", as far as 000's table has values for them. */
typedef enum { TONES_26, TONES_52, TONES_106, TONES_242, TONES_484, TONES_996, TONES_106_26, TONES_484_242,
               TONES_2X996, TONES_996_484, TONES_3X996, TONES_2X996_484, TONES_3X996_484 } size_name;

/* One of the pieces into which a value divides its position: its size, and its place among the nine,
 * four or two of its kind, from 1. */
typedef struct {
    size_name size;
    unsigned place;
} piece;

int value_is_carried(unsigned value);
int value_is_swept(unsigned value, unsigned p); /* at position p */
unsigned pieces_of(unsigned value, piece pieces[9]);
unsigned fields_of(unsigned value);

/* plan.c: what a plan is. */
#define MOST_POSITIONS 16
#define MOST_RECORDS 144
#define MOST_FIELDS 144

/* A plan's record: a resource, the User fields it has in either channel, and where it lies. */
typedef struct {
    size_name size;
    unsigned index;
    unsigned segment;   /* of its lowest position */
    unsigned position;  /* its lowest position, in the whole row */
    unsigned fields[2]; /* of channel 1, of channel 2 */
    piece piece;        /* where it is a piece of one position: which */
    unsigned places;    /* where it is a 242 or larger: bit p for each position p of the row that is its place */
} record;

typedef struct {
    answer outcome; /* 0, 7 or 8 */
    unsigned records;
    record record[MOST_RECORDS];
    unsigned fields[2];
    unsigned owner[2][MOST_FIELDS]; /* of each field of each channel, the record, from 0 */
} layout;

unsigned positions_of(unsigned bandwidth);
unsigned index_of_piece(piece x, unsigned p); /* at position p of its segment */
unsigned plans_of_part(const unsigned *row, unsigned first, unsigned n); /* of the n positions from `first` on */
void lay_out(const unsigned *row, unsigned positions, layout *l);

/* tones.c: a resource's subcarriers, as maximal runs, rising. */
typedef struct {
    int first, last;
} run;

#define MOST_RUNS 8
unsigned tones_of(const record *r, unsigned positions, run runs[MOST_RUNS]);
unsigned punctured_tones(unsigned position, unsigned positions, run runs[MOST_RUNS]);
size_t tones_text(const record *r, unsigned positions, char *text);
extern const char *const name_of_size[];

/* fields.c: the layout of a channel, field by field. */

/* A field that 01's layout names: an overflow field, an RU Allocation subfield, a check, a tail or a User
 * field. Its first bit, and how many bits it has. */
typedef struct {
    unsigned at, width;
} named_field;

#define MOST_NAMED 163 /* 7 of the overflow, 8 subfields, 72 User fields; check and tail of 2 and 36 blocks */
unsigned named_fields(unsigned bandwidth, unsigned users, named_field field[MOST_NAMED]);
uint64_t first_that_lacks(unsigned bandwidth, unsigned users, const uint8_t *bytes, size_t length);

/* reader.c */
#define MOST_WORDS 154 /* "At most 16 positions of 9 fields: 154 words" */

/* What a pair of channels says, once accepted but for the room. */
typedef struct {
    layout layout;
    uint32_t station[2][MOST_FIELDS];
    unsigned words;
    uint32_t word[MOST_WORDS];
} reading;

unsigned channels_of(unsigned bandwidth);
unsigned common_bits(unsigned bandwidth);
unsigned first_subfields(unsigned bandwidth);
unsigned further_subfields(unsigned bandwidth);
unsigned subfields_of(unsigned bandwidth);
unsigned first_check_at(unsigned bandwidth);
unsigned second_check_at(unsigned bandwidth);
unsigned subfield_at(unsigned bandwidth, unsigned k);
unsigned user_field_at(unsigned bandwidth, unsigned j);
unsigned end_of_channel(unsigned bandwidth, unsigned fields);
uint32_t size_and_gi_of(unsigned gi_ltf);
answer read_frame(uint32_t bandwidth, const uint8_t *cc1, size_t cc1_length, const uint8_t *cc2,
                  size_t cc2_length, reading *r);
answer reference_read(uint32_t bandwidth, const uint8_t *cc1, size_t cc1_length, const uint8_t *cc2,
                      size_t cc2_length, uint32_t *words, size_t room);
answer reference_read_bytes(uint32_t bandwidth, const uint8_t *cc1, size_t cc1_length, const uint8_t *cc2,
                            size_t cc2_length, uint8_t *words, size_t length);

/* writer.c */
answer reference_write(uint32_t bandwidth, const uint32_t *words, size_t count, uint8_t *cc1, size_t cc1_room,
                       uint8_t *cc2, size_t cc2_room);
answer reference_write_bytes(uint32_t bandwidth, const uint8_t *words, size_t length, uint8_t *cc1,
                             size_t cc1_room, uint8_t *cc2, size_t cc2_room);

/* listing.c */
#define MOST_LISTING 65536
answer reference_list(uint32_t bandwidth, const uint8_t *cc1, size_t cc1_length, const uint8_t *cc2,
                      size_t cc2_length, uint8_t *text, size_t room);
size_t reference_program(const uint8_t *text, size_t length, char out[MOST_LISTING]);

/* A program's text is so many captures, one after the other, each of the three lines named under Listing. */
#define MOST_CAPTURE 8192

typedef struct {
    uint32_t bandwidth;
    size_t length[2];
    uint8_t cc[2][MOST_CAPTURE]; /* of two captures, one may have all digits that both may have */
} capture;

answer read_captures(const uint8_t *text, size_t length, unsigned captures, capture *x); /* 0 or 22 */
size_t refusal_text(answer a, char *text);

/* compare.c: the differences of two frames (02, T-06). */
#define MOST_COMPARISON 65536
answer reference_compare(uint32_t bandwidth1, const uint8_t *cc1, size_t cc1_length, const uint8_t *cc2, size_t cc2_length,
                         uint32_t bandwidth2, const uint8_t *other1, size_t other1_length, const uint8_t *other2,
                         size_t other2_length, uint8_t *text, size_t room);
size_t reference_compare_program(const uint8_t *text, size_t length, char out[MOST_COMPARISON]);

/* trigger.c: the EHT variant User Info of a Trigger frame (02, T-02). */
answer reference_trigger_read(uint32_t bandwidth, const uint8_t *entry, size_t length, uint8_t *bytes, size_t room);
answer reference_trigger_write(uint32_t bandwidth, const uint8_t *bytes, size_t length, uint8_t *entry, size_t room);
answer reference_trigger_overlaps(uint32_t bandwidth, const uint8_t *entries, size_t length, uint8_t *pairs,
                                  size_t room);

/* streams.c: spatial streams (02, T-11). */
unsigned count_of_rows(unsigned users); /* 0 where the users are not 2 to 8 */
answer reference_streams_row(uint32_t users, uint32_t number, uint8_t *row, size_t room);
answer reference_streams_number(const uint8_t *row, size_t length);
answer reference_streams(uint32_t bandwidth, const uint8_t *cc1, size_t cc1_length, const uint8_t *cc2, size_t cc2_length,
                         uint8_t *streams, size_t room);

/* table.c: 000's table of rows of streams, line by line, and row by row. */
#define PRINTED_LINES 139
#define PRINTED_ROWS 259

typedef struct {
    unsigned users;
    const char *numbers, *streams, *total;
} printed_line;

typedef struct {
    unsigned users, number;
    uint8_t row[8];
} printed_row;

extern const printed_line printed_lines[PRINTED_LINES];
unsigned printed_rows(printed_row rows[PRINTED_ROWS]); /* how many there are */
void printed_total(const printed_line *line, unsigned *first, unsigned *last);

/* selftest.c: prints a line for each check that fails, and `N passed, M failed`; the status is 0 if M is 0. */
int self_test(void);

#endif
