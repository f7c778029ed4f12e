/* The C entries, carried out by the reference: what the driver is tried on where there is no library. With FAULT set to a
 * number in the environment it is wrong in one way, which the driver has to see. Each FAULT stands under the heading of
 * the entries that it is in: conformance/faults tries it on the driver's calls of these. */
#include "brachymel.h"
#include "reference/reference.h"

#include <stdio.h>
#include <stdlib.h>
#include <string.h>

static int fault(void)
{
    static int is = -1;
    if (is < 0)
        is = getenv("FAULT") == NULL ? 0 : atoi(getenv("FAULT"));
    return is;
}
#define FAULT fault()

static brachymel_answer as_answer(answer a)
{
    brachymel_answer b = {a.number, a.channel, a.place};
    return b;
}

/* ---- frames read, written and listed */

static unsigned users_told(unsigned bandwidth, const uint8_t *s, size_t length)
{
    unsigned n = 0;
    for (unsigned k = 0; k < subfields_of(bandwidth); k++)
        n += fields_of(field_of(s, length, subfield_at(bandwidth, k), 9));
    return n;
}

/* Of a channel that is cut short, a place that is not 02's (T-03). */
static uint64_t other_place(answer a, unsigned bandwidth, const uint8_t *s, size_t length)
{
    named_field field[MOST_NAMED];
    unsigned k = 0;
    named_fields(bandwidth, a.number == 9 ? users_told(bandwidth, s, length) : 0, field);
    while (field[k].at != a.place)
        k++;
    if (FAULT == 10)
        return 8 * (uint64_t)length; /* 01's: the bits lent */
    if (FAULT == 11 && field[k].width == 22 && field[k - 1].width == 22)
        return field[k - 1].at; /* the block's first bit, not the User field's */
    if (FAULT == 12 && field[k].width == 6)
        return field[k - 1].at; /* check and tail as one field */
    if (FAULT == 13)
        return field[k].at + field[k].width; /* one field late */
    if (FAULT == 14 && field[k].at < 17)
        return 0; /* the overflow as one field */
    return a.place;
}

/* ---- resources wider than a segment (02, T-07) */

static void row_in(unsigned bandwidth, const uint8_t *cc1, size_t cc1_len, const uint8_t *cc2, size_t cc2_len, unsigned row[16])
{
    for (unsigned p = 0; p < positions_of(bandwidth); p++)
        row[p] = p % 2 == 0 ? field_of(cc1, cc1_len, subfield_at(bandwidth, p / 2), 9)
                            : field_of(cc2, cc2_len, subfield_at(bandwidth, p / 2), 9);
}

static int is_wide(const record *r)
{
    return r->size >= TONES_2X996;
}

static unsigned wide_ones(const layout *l)
{
    unsigned n = 0;
    for (unsigned r = 0; r < l->records; r++)
        n += (unsigned)is_wide(&l->record[r]);
    return n;
}

/* The fields of a resource that stand in one segment. */
static unsigned fields_in_segment(const record *r, const unsigned *row, unsigned segment)
{
    unsigned n = 0;
    for (unsigned p = 4 * segment; p < 4 * segment + 4; p++)
        n += r->places >> p & 1 ? fields_of(row[p]) : 0;
    return n;
}

/* Whether the row is accepted, with a wide resource. */
static int is_good_and_wide(const unsigned *row, unsigned positions)
{
    static layout l;
    lay_out(row, positions, &l);
    return l.outcome.number == 0 && wide_ones(&l) != 0;
}

/* What a wrong search finds of the row. */
static answer sought_wrongly(answer a, unsigned *row, unsigned positions)
{
    static layout l;
    lay_out(row, positions, &l);
    for (unsigned r = 0; r < l.records; r++) {
        const record *x = &l.record[r];
        unsigned nearest = fields_in_segment(x, row, x->segment);
        if (!is_wide(x))
            continue;
        if (FAULT == 80 && a.number == 0 && x->size == TONES_2X996_484 && x->index > 6 && fields_in_segment(x, row, 3) == 0)
            return answer_of(7, 0, 1); /* the lower one of its family, unless a value stands where that has no place */
        if (FAULT == 81 && a.number == 0 && (x->places & 0xFF) != 0 && x->places >> 8 != 0 && wide_ones(&l) > 1)
            return answer_of(7, 0, 0); /* beside one of the whole width nothing wide is sought in the halves */
        if (FAULT == 82 && a.number == 8 && x->fields[0] + x->fields[1] > 8 && nearest <= 8)
            return answer_of(0, 0, 10); /* the fields of a far segment are not counted for eight */
        if (FAULT == 83 && a.number == 8 && x->fields[0] + x->fields[1] > 8 && nearest == 0)
            return answer_of(8, 0, x->segment + 1); /* not the lowest segment of the resource, but that of its fields */
    }
    for (unsigned p = 0; FAULT == 84 && a.number == 7 && p < positions; p += 2)
        if (row[p] == 30 && row[p + 1] == 30) {
            row[p] = row[p + 1] = 29;
            if (is_good_and_wide(row, positions))
                return answer_of(0, 0, 10); /* 30 in a segment half its own */
            row[p] = row[p + 1] = 30;
        }
    for (unsigned p = 0; FAULT == 85 && a.number == 7 && p < positions; p++)
        if (row[p] == 28) {
            row[p] = 29;
            if (is_good_and_wide(row, positions))
                return answer_of(0, 0, 10); /* 28 on a pair */
            row[p] = 28;
        }
    if (FAULT == 86 && a.number == 7 && positions == 16 && a.place > 0)
        a.place = 0; /* the first segment of the width */
    for (unsigned s = 0; FAULT == 87 && a.number == 7 && s < a.place; s++)
        if (plans_of_part(row, 4 * s, 4) == 0)
            a.place = s; /* the lowest segment without a plan of its own, though it lies in a part that has one */
    return a;
}

/* The words of a wide resource, written wrongly. */
static void write_wrongly(unsigned bandwidth, const unsigned *row, uint8_t *words)
{
    static layout l;
    unsigned at = 10;
    lay_out(row, positions_of(bandwidth), &l);
    for (unsigned p = 1; FAULT == 88 && p < positions_of(bandwidth); p++)
        if (row[p] >= 256)
            put_field(words, BRACHYMEL_WORDS_SIZE, 32 * (3 + (p - 1) / 3) + (p - 1) % 3 * 10 + 8, 1, 0); /* a value of eight bits */
    for (unsigned c = 0; FAULT == 89 && c < 2; c++)
        for (unsigned j = 0; j < l.fields[c]; j++, at++) {
            const record *x = &l.record[l.owner[c][j]];
            if (is_wide(x) && x->fields[c] == 1 && x->fields[1 - c] == 1)
                words[4 * at] = 0x3F; /* a shared resource taken for one that a field has alone, its places being far apart */
        }
}

brachymel_answer brachymel_read(uint32_t bandwidth, const uint8_t *cc1, size_t cc1_len, const uint8_t *cc2, size_t cc2_len,
                                uint8_t *words, size_t words_len)
{
    answer a = reference_read_bytes(bandwidth, cc1, cc1_len, cc2, cc2_len, words, words_len);
    if (FAULT == 1 && a.number == 12 && words_len > 0)
        words[0] = (uint8_t)(words[0] + 1); /* a refusal that writes */
    if (FAULT == 2 && a.number == 0 && words_len > 4 * a.place)
        words[4 * a.place] = 0; /* one word past the count */
    if (FAULT == 3 && a.number == 11)
        a.place += 22;
    if (FAULT == 4 && a.number == 9)
        a.place = *(const volatile uint8_t *)(cc1 + cc1_len) ? 0 : 8; /* reads past the end */
    if (FAULT == 5 && a.number == 2)
        a.number = 3;
    if (FAULT >= 10 && FAULT <= 14 && (a.number == 3 || a.number == 9))
        a.place = a.channel == 1 ? other_place(a, bandwidth, cc1, cc1_len) : other_place(a, bandwidth, cc2, cc2_len);
    if (FAULT >= 80 && bandwidth >= 3 && (a.number == 0 || a.number == 7 || a.number == 8)) {
        unsigned row[16];
        row_in(bandwidth, cc1, cc1_len, cc2, cc2_len, row);
        if (a.number == 0)
            write_wrongly(bandwidth, row, words);
        a = sought_wrongly(a, row, positions_of(bandwidth));
    }
    return as_answer(a);
}

brachymel_answer brachymel_write(uint32_t bandwidth, const uint8_t *words, size_t words_len,
                                 uint8_t *cc1, size_t cc1_len, uint8_t *cc2, size_t cc2_len)
{
    answer a = reference_write_bytes(bandwidth, words, words_len, cc1, cc1_len, cc2, cc2_len);
    if (FAULT == 6 && a.number == 0 && bandwidth == 0 && cc2_len > 0)
        cc2[cc2_len - 1] = 0; /* channel 2 at 20 MHz */
    if (FAULT == 7 && a.number == 14 && a.channel == 2)
        cc1[0] ^= 1;
    return as_answer(a);
}

/* Where the text has this, or NULL. */
static char *find(char *text, size_t length, const char *what)
{
    for (size_t k = 0; k + strlen(what) <= length; k++)
        if (memcmp(text + k, what, strlen(what)) == 0)
            return text + k;
    return NULL;
}

/* A wide resource listed wrongly, in as many bytes. */
static void list_wrongly(char *text, size_t length)
{
    char *at;
    if (FAULT == 90 && (at = find(text, length, "ru=2x996+484 index=7 segment=1")) != NULL)
        memcpy(at, "ru=2x996+484 index=1 segment=0", 30); /* the other one of its family */
    if (FAULT == 91 && (at = find(text, length, "ru=996+484 index=1 segment=2")) != NULL)
        at[17] = '5'; /* counted over the whole width */
    if (FAULT == 92 && (at = find(text, length, "ru=3x996 index=1 segment=1")) != NULL)
        at[25] = '0'; /* the first segment of the width, which it leaves out */
    if (FAULT == 93 && (at = find(text, length, "ru=996 index=1 segment=0 users=0 tones=-1012:-515,-509:-12\nru=996 index=1 segment=1 users=0")) != NULL)
        memcpy(at, "ru=2x996", 8); /* two 996s without a field taken for one resource */
    if (FAULT == 94 && (at = find(text, length, ",12:509,515:1012,1036:1533,1539:2036")) != NULL)
        at[4] = '8'; /* a subcarrier less in the third segment */
}

brachymel_answer brachymel_list(uint32_t bandwidth, const uint8_t *cc1, size_t cc1_len, const uint8_t *cc2, size_t cc2_len,
                                uint8_t *text, size_t text_len)
{
    answer a = reference_list(bandwidth, cc1, cc1_len, cc2, cc2_len, text, text_len);
    if (FAULT == 8 && a.number == 0)
        text[a.place] = 0; /* a zero after the text */
    for (uint64_t k = 0; FAULT == 9 && a.number == 0 && k + 8 <= a.place; k++)
        if (memcmp(text + k, "sta=none", 8) == 0)
            memcpy(text + k + 4, "2046", 4); /* a station that is nobody's */
    if (FAULT == 15 && a.number == 9)
        a.place = 8 * (uint64_t)(a.channel == 1 ? cc1_len : cc2_len); /* the reader's place alone is 02's */
    if (FAULT >= 90 && a.number == 0)
        list_wrongly((char *)text, (size_t)a.place);
    return as_answer(a);
}

/* ---- Trigger frames (02, T-02) */

static unsigned value_of(const uint8_t *entry)
{
    return field_of(entry, 5, 13, 7);
}

/* The entry read with another value, its index then another. */
static answer read_as(uint32_t bandwidth, const uint8_t *entry, unsigned value, uint32_t index, uint8_t *record,
                      size_t room)
{
    uint8_t own[5];
    answer a;
    memcpy(own, entry, 5);
    put_field(own, 5, 13, 7, value);
    a = reference_trigger_read(bandwidth, own, 5, record, room);
    if (a.number == 0)
        put_field(record, 32, 64, 32, index);
    return a;
}

brachymel_answer brachymel_trigger_read(uint32_t bandwidth, const uint8_t *entry, size_t entry_len, uint8_t *record,
                                        size_t record_len)
{
    answer a = reference_trigger_read(bandwidth, entry, entry_len, record, record_len);
    if (FAULT == 16 && a.number == 17 && value_of(entry) == 18)
        a = read_as(bandwidth, entry, 17, 19, record, record_len); /* the 26 that does not exist */
    if (FAULT == 17 && a.number == 17 && value_of(entry) == 87)
        a = read_as(bandwidth, entry, 86, 6, record, record_len); /* a 106+26 that 01 does not allow */
    if (FAULT == 18 && a.number == 17 && bandwidth == 1 && value_of(entry) == 67)
        a = reference_trigger_read(2, entry, entry_len, record, record_len); /* a 996 at 40 MHz */
    if (FAULT == 19 && a.number == 24 && (field_of(entry, 5, 12, 1) == 1 || field_of(entry, 5, 39, 1) == 1))
        a.number = 16; /* 16 before 24 */
    if (FAULT == 20 && a.number == 23 && record_len > 0)
        record[0] = (uint8_t)(record[0] + 1); /* a refusal that writes */
    if (FAULT == 21 && a.number == 0 && record_len > 32)
        record[32] = 0; /* one byte past the record */
    if (FAULT == 22 && a.number == 0)
        put_field(record, 32, 11, 1, 0); /* an AID12 of eleven bits */
    if (FAULT == 23 && a.number == 15 && entry_len > 5)
        a = reference_trigger_read(bandwidth, entry, 5, record, record_len); /* what follows five bytes is padding */
    if (FAULT == 24 && a.number == 1 && bandwidth == 3 && entry_len == 5)
        a = reference_trigger_read(2, entry, 5, record, record_len); /* 160 MHz read too */
    return as_answer(a);
}

brachymel_answer brachymel_trigger_write(uint32_t bandwidth, const uint8_t *record, size_t record_len, uint8_t *entry,
                                         size_t entry_len)
{
    answer a = reference_trigger_write(bandwidth, record, record_len, entry, entry_len);
    if (FAULT == 25 && a.number == 17 && record_len == 32) { /* a number cut to its field */
        uint8_t own[32];
        memcpy(own, record, 32);
        put_field(own, 32, 4 * 32 + 4, 28, 0);
        a = reference_trigger_write(bandwidth, own, 32, entry, entry_len);
    }
    if (FAULT == 26 && a.number == 24 && record_len != 32)
        a.number = 17; /* 24 of whole records alone */
    if (FAULT == 27 && a.number == 17 && record_len > 32)
        a = reference_trigger_write(bandwidth, record, 32, entry, entry_len); /* a longer record */
    if (FAULT == 28 && a.number == 0)
        entry[3] |= 2; /* the reserved bit as 001 would have it sent */
    if (FAULT == 29 && a.number == 23 && entry_len > 0)
        entry[entry_len - 1] ^= 1; /* a refusal that writes */
    if (FAULT == 30 && a.number == 17 && bandwidth < 2)
        a = reference_trigger_write(2, record, record_len, entry, entry_len); /* a resource too wide */
    return as_answer(a);
}

/* Whether two entries overlap, or are taken to. */
static int share(uint32_t bandwidth, const uint8_t *x, const uint8_t *y)
{
    uint8_t both[10], pair[2];
    unsigned v = value_of(x), w = value_of(y);
    memcpy(both, x, 5);
    memcpy(both + 5, y, 5);
    if (FAULT == 31 && v == w)
        return memcmp(x, y, 2) != 0; /* a group whose stations differ */
    if (FAULT == 32 && ((v == 86 && w == 23) || (v == 23 && w == 86)))
        return 0; /* a 106+26 without its 26 */
    if (FAULT == 33 && ((v >= 90 && w == v - 29) || (w >= 90 && v == w - 29)))
        return 1; /* the 242 that a 484+242 leaves out */
    if (FAULT == 34 && v >= 90 && w >= 90)
        return 0; /* joined resources alike */
    return reference_trigger_overlaps(bandwidth, both, 10, pair, 2).place == 1;
}

static unsigned add_pair(uint8_t *pairs, unsigned n, unsigned x, unsigned y)
{
    pairs[2 * n] = (uint8_t)(x + 1);
    pairs[2 * n + 1] = (uint8_t)(y + 1);
    return n + 1;
}

/* The pairs of a list with no refused entry. */
static unsigned pairs_with_fault(uint32_t bandwidth, const uint8_t *entries, unsigned count, uint8_t *pairs)
{
    unsigned n = 0;
    for (unsigned x = 0; x < count; x++)
        for (unsigned y = 0; y < count; y++) {
            if (FAULT == 35 && y < x && share(bandwidth, entries + 5 * y, entries + 5 * x))
                n = add_pair(pairs, n, y, x); /* in rising order of the later entry */
            if (FAULT == 36 && x != y && share(bandwidth, entries + 5 * x, entries + 5 * y))
                n = add_pair(pairs, n, x, y); /* each pair twice, either entry first */
            if (FAULT != 35 && FAULT != 36 && x < y && share(bandwidth, entries + 5 * x, entries + 5 * y))
                n = add_pair(pairs, n, x, y);
            if (FAULT == 37 && n == 256)
                return n; /* pairs counted in a byte */
        }
    return n;
}

/* The last refused entry's answer. */
static answer last_refused(uint32_t bandwidth, const uint8_t *entries, size_t count)
{
    answer a = answer_of(0, 0, 0);
    uint8_t record[32];
    for (size_t k = 0; k < count; k++) {
        answer one = reference_trigger_read(bandwidth, entries + 5 * k, 5, record, 32);
        if (one.number != 0)
            a = answer_of(one.number, 0, k + 1);
    }
    return a;
}

brachymel_answer brachymel_trigger_overlaps(uint32_t bandwidth, const uint8_t *entries, size_t entries_len,
                                            uint8_t *pairs, size_t pairs_len)
{
    static uint8_t own[2 * 32 * 32];
    answer a = reference_trigger_overlaps(bandwidth, entries, entries_len, own, sizeof own);
    if (a.number == 0) {
        if (FAULT >= 31 && FAULT <= 37)
            a.place = pairs_with_fault(bandwidth, entries, (unsigned)(entries_len / 5), own);
        if (FAULT == 38 && pairs_len / 2 < a.place && pairs_len >= 2)
            memcpy(pairs, own, pairs_len / 2 * 2); /* what fits */
        if ((FAULT == 39 ? (pairs_len + 1) / 2 : pairs_len / 2) < a.place) /* half a pair's room taken for a pair's */
            a = answer_of(26, 0, FAULT == 40 ? a.place : 0); /* the pairs needed as place, as 23 has it */
        else if (a.place != 0)
            memcpy(pairs, own, FAULT == 39 && pairs_len < 2 * a.place ? pairs_len : 2 * (size_t)a.place);
    }
    if (FAULT == 41 && a.place != 0 && a.number != 0)
        a.place -= 1; /* a refused entry's place from 0 */
    if (FAULT == 42 && a.place != 0 && a.number != 0)
        a = last_refused(bandwidth, entries, entries_len / 5);
    if (FAULT == 43 && a.number == 15 && entries_len > 160)
        a.number = 25; /* 25 before 15 */
    if (FAULT == 44 && a.number == 25 && entries_len == 165)
        a = reference_trigger_overlaps(bandwidth, entries, 160, pairs, pairs_len); /* 33 entries */
    if (FAULT == 45 && a.number == 17 && value_of(entries + 5 * a.place - 5) == 18)
        a = answer_of(0, 0, 0); /* the list takes 18 */
    if (FAULT == 46 && a.number == 15)
        a.place = *(const volatile uint8_t *)(entries + entries_len) == 7; /* reads past the end */
    if (FAULT == 47 && a.number == 0 && entries_len == 0 && pairs_len == 0)
        a.number = 26; /* no entries need room */
    return as_answer(a);
}

/* ---- two frames compared (02, T-06) */

typedef struct {
    uint32_t bandwidth;
    const uint8_t *cc[2];
    size_t length[2];
} one_frame;

static answer compared(const one_frame *x, const one_frame *y, uint8_t *text, size_t room)
{
    return reference_compare(x->bandwidth, x->cc[0], x->length[0], x->cc[1], x->length[1], y->bandwidth, y->cc[0],
                             y->length[0], y->cc[1], y->length[1], text, room);
}

static answer outcome_of(const one_frame *x)
{
    static reading r;
    return read_frame(x->bandwidth, x->cc[0], x->length[0], x->cc[1], x->length[1], &r);
}

static unsigned fields_in(const one_frame *x)
{
    return users_told(x->bandwidth, x->cc[0], x->length[0]) + users_told(x->bandwidth, x->cc[1], x->length[1]);
}

static int same_bytes(const one_frame *x, const one_frame *y)
{
    return x->length[0] == y->length[0] && x->length[1] == y->length[1] && memcmp(x->cc[0], y->cc[0], x->length[0]) == 0
        && (x->length[1] == 0 || memcmp(x->cc[1], y->cc[1], x->length[1]) == 0);
}

/* The lines of a text, each with a zero in its line feed's place. */
typedef struct {
    unsigned count;
    char *line[700], text[MOST_COMPARISON];
} lines;

static void cut(lines *l)
{
    l->count = 0;
    for (char *line = strtok(l->text, "\n"); line != NULL; line = strtok(NULL, "\n"))
        l->line[l->count++] = line;
}

static void list(const one_frame *x, lines *l)
{
    answer a = reference_list(x->bandwidth, x->cc[0], x->length[0], x->cc[1], x->length[1], (uint8_t *)l->text, sizeof l->text);
    l->text[a.number == 0 ? a.place : 0] = 0;
    cut(l);
}

static int is_of(const char *line, const char *key)
{
    return strncmp(line + 8, key, strlen(key)) == 0; /* after "frame=1 " */
}

static unsigned number_after(const char *line, const char *key)
{
    return (unsigned)strtoul(strstr(line, key) + strlen(key), NULL, 10);
}

/* Whether the other frame's line of the same User field, if there is one, says the same of this key. */
static int same_user_part(const lines *l, unsigned k, const char *key)
{
    for (unsigned m = k == 0 ? 0 : k - 1; m <= k + 1 && m < l->count; m++) {
        const char *mine = strstr(l->line[k], key), *its = strstr(l->line[m], key);
        if (m != k && is_of(l->line[m], "user=") && number_after(l->line[m], "user=") == number_after(l->line[k], "user="))
            return strcspn(mine, " ") == strcspn(its, " ") && memcmp(mine, its, strcspn(mine, " ")) == 0;
    }
    return 0;
}

/* Whether the listing has a resource of the same size and index, whatever its segment. */
static int in_some_segment(const lines *listing, const char *line)
{
    size_t length = (size_t)(strstr(line, " segment=") - (line + 8));
    for (unsigned k = 0; k < listing->count; k++)
        if (strncmp(listing->line[k], line + 8, length) == 0 && listing->line[k][length] == ' ')
            return 1;
    return 0;
}

/* Whether a line is left out. */
static int left_out(const one_frame x[2], const lines *l, unsigned k)
{
    static lines listing;
    const char *line = l->line[k];
    unsigned fields[2] = {0, 0};
    if (FAULT == 63)
        return k == 1 && is_of(line, "answer="); /* of two refusals only the first */
    if (FAULT == 64 && is_of(line, "ru=")) {
        list(&x[line[6] == '1' ? 1 : 0], &listing);
        return in_some_segment(&listing, line); /* a resource known by size and index alone */
    }
    if (FAULT == 69 && is_of(line, "position="))
        return number_after(line, "position=") >= 8; /* the first half of 320 MHz */
    if (FAULT == 70)
        return is_of(line, "disregard="); /* what is disregarded is not compared */
    if (!is_of(line, "user="))
        return 0;
    for (unsigned f = 0; f < 2; f++)
        fields[f] = fields_in(&x[f]);
    if (FAULT == 52)
        return number_after(line, "user=") == (fields[0] > fields[1] ? fields[0] : fields[1]); /* the last field */
    if (FAULT == 53)
        return number_after(line, "user=") > (fields[0] < fields[1] ? fields[0] : fields[1]); /* those that only one has */
    if (FAULT == 67)
        return same_user_part(l, k, "bits="); /* a field's resource is not compared */
    if (FAULT == 68)
        return same_user_part(l, k, "sta="); /* a field's station is all that is compared */
    if (FAULT == 59) { /* the highest of the 22 bits is not compared */
        static lines own;
        own = *l;
        for (unsigned m = 0; m < l->count; m++) {
            own.line[m] = own.text + (l->line[m] - l->text);
            if (is_of(own.line[m], "user=") && strstr(own.line[m], "bits=")[5] >= '2')
                strstr(own.line[m], "bits=")[5] -= 2;
        }
        return same_user_part(&own, k, "bits=") && same_user_part(&own, k, "ru=") && same_user_part(&own, k, "index=");
    }
    return 0;
}

/* A line as it is written, with some fault. */
static size_t written_line(const char *line, char *text)
{
    size_t n = (size_t)sprintf(text, "%s\n", line);
    char *bits = strstr(text, "bits="), *name = text + 8;
    for (unsigned k = 0; FAULT == 57 && bits != NULL && k < 6; k++)
        if (bits[5 + k] >= 'A')
            bits[5 + k] = (char)(bits[5 + k] - 'A' + 'a'); /* small letters */
    if (FAULT == 58 && is_of(line, "user="))
        return (size_t)sprintf(name, "user=%u%s\n", number_after(line, "user=") - 1, strchr(line + 8, ' ')) + 8; /* from 0 */
    if (FAULT == 60 && strstr(text, "sta=none") != NULL)
        memcpy(strstr(text, "sta=none") + 4, "2046", 4); /* a station that is nobody's */
    if (FAULT == 65 && is_of(line, "position="))
        return (size_t)sprintf(name, "position=%u%s\n", number_after(line, "position=") + 1, strchr(line + 8, ' ')) + 8; /* from 1 */
    if (FAULT == 66 && is_of(line, "pre-fec="))
        return (size_t)sprintf(name, "pre-fec=%u\n", number_after(line, "pre-fec=") + 1) + 8; /* the factor, not the raw bits */
    if (FAULT == 71 && is_of(line, "bw="))
        return (size_t)sprintf(name, "bw=%u\n", 20u << number_after(line, "bw=")) + 8; /* megahertz */
    if (FAULT == 72 && is_of(line, "user="))
        return (size_t)sprintf(strstr(text, " segment="), "\n") + (size_t)(strstr(line, " segment=") - line); /* no segment */
    if (FAULT == 73 && bits != NULL && bits[5] == '0') {
        memmove(bits + 5, bits + 6, strlen(bits + 6) + 1); /* five digits where they suffice */
        return n - 1;
    }
    return n;
}

/* The resources that only one has, where one with another number of users is another one. */
static size_t by_users_too(const one_frame x[2], char *text)
{
    static lines l[2];
    size_t n = 0;
    if (x[0].bandwidth != x[1].bandwidth)
        return 0;
    list(&x[0], &l[0]);
    list(&x[1], &l[1]);
    for (unsigned f = 0; f < 2; f++)
        for (unsigned k = 0; k < l[f].count; k++) {
            int found = strncmp(l[f].line[k], "ru=", 3) != 0;
            for (unsigned m = 0; m < l[1 - f].count && !found; m++)
                found = strcmp(l[f].line[k], l[1 - f].line[m]) == 0;
            if (!found)
                n += (size_t)sprintf(text + n, "frame=%u %s\n", f + 1, l[f].line[k]);
        }
    return n;
}

static size_t rewritten(const one_frame x[2], lines *l, char *text)
{
    size_t n = 0;
    int resources = 0;
    for (unsigned k = 0; k < l->count; k++) {
        if (FAULT == 49 && is_of(l->line[k], "ru="))
            continue;
        if (FAULT == 49 && is_of(l->line[k], "user=") && !resources++)
            n += by_users_too(x, text + n);
        if (FAULT == 51 && k + 1 < l->count && l->line[k][6] == '1' && l->line[k + 1][6] == '2' && is_of(l->line[k], "ru=")
            && is_of(l->line[k + 1], "ru=")) {
            char *first = l->line[k]; /* frame 2's first resource before frame 1's last */
            l->line[k] = l->line[k + 1];
            l->line[k + 1] = first;
        }
        if (!left_out(x, l, k))
            n += written_line(l->line[k], text + n);
    }
    if (FAULT == 49 && !resources)
        n += by_users_too(x, text + n); /* a resource with another number of users taken for another */
    return n;
}

brachymel_answer brachymel_compare(uint32_t bandwidth1, const uint8_t *cc1, size_t cc1_len, const uint8_t *cc2, size_t cc2_len,
                                   uint32_t bandwidth2, const uint8_t *other1, size_t other1_len, const uint8_t *other2,
                                   size_t other2_len, uint8_t *text, size_t text_len)
{
    static lines l;
    static char own[MOST_COMPARISON];
    const one_frame x[2] = {{bandwidth1, {cc1, cc2}, {cc1_len, cc2_len}}, {bandwidth2, {other1, other2}, {other1_len, other2_len}}};
    answer a = FAULT == 50 ? compared(&x[1], &x[0], (uint8_t *)l.text, sizeof l.text) /* the sides exchanged */
                           : compared(&x[0], &x[1], (uint8_t *)l.text, sizeof l.text);
    size_t n;
    l.text[a.place] = 0;
    cut(&l);
    n = rewritten(x, &l, own);
    if (FAULT == 48 && n == 0 && !same_bytes(&x[0], &x[1]))
        n = (size_t)sprintf(own, "frame=1 padding\n"); /* the padding compared */
    if (FAULT == 61 && bandwidth1 != bandwidth2 && bandwidth1 <= 4 && bandwidth2 <= 4)
        n = (size_t)sprintf(own, "frame=1 bw=%u\nframe=2 bw=%u\n", (unsigned)bandwidth1, (unsigned)bandwidth2); /* before refusals */
    if (FAULT == 62 && bandwidth1 != bandwidth2 && n != 0 && is_of(own, "bw="))
        n += (size_t)sprintf(own + n, "frame=1 gi-ltf=0\nframe=2 gi-ltf=1\n"); /* and then something more */
    if (FAULT == 74 && outcome_of(&x[0]).number != 0)
        return as_answer(outcome_of(&x[0])); /* a refused frame refuses the call */
    if (FAULT == 75 && n != 0)
        n--; /* the last line without its line feed */
    if (FAULT == 76 && n != 0 && text_len == n)
        return as_answer(answer_of(23, 0, n)); /* just enough is too little */
    if (text_len < n) {
        if (FAULT == 55 && text_len > 0)
            memcpy(text, own, text_len); /* what fits */
        return as_answer(answer_of(23, FAULT == 77, FAULT == 56 ? n - text_len : n)); /* the bytes that lack; a channel named */
    }
    if (n != 0)
        memcpy(text, own, n);
    if (FAULT == 54 && text_len > n)
        text[n] = 0; /* a zero after the text */
    if (FAULT == 78)
        n = l.count; /* the lines as place */
    if (FAULT == 79 && other2_len != 0 && *(const volatile uint8_t *)(other2 + other2_len) == 7)
        n++; /* reads past the end */
    return as_answer(answer_of(0, 0, n));
}

/* ---- rows of streams (02, T-11) */

/* Whether a wrong list has this row. */
static int is_listed_wrongly(const uint8_t *row, unsigned users)
{
    unsigned sum = 0;
    int rises = 0;
    for (unsigned u = 0; u < users; u++) {
        sum += row[u];
        rises |= u > 0 && row[u] > row[u - 1];
    }
    return sum <= (FAULT == 95 ? 17u : 16u) && (FAULT == 96 || !rises); /* a sum of 17; rows that rise */
}

/* The row of this number on a wrong list; whether there is one. */
static int row_wrongly(unsigned users, uint32_t number, uint8_t *row)
{
    uint32_t values = FAULT == 98 ? 5 : 4, all = 1; /* five streams */
    for (unsigned u = 0; u < users; u++)
        all *= values;
    for (uint32_t k = 0; k < all; k++) {
        for (uint32_t u = 0, rest = k; u < users; u++, rest /= values)
            row[FAULT == 97 ? users - 1 - u : u] = (uint8_t)(1 + rest % values); /* ordered by the first entry */
        if (is_listed_wrongly(row, users) && number-- == 0)
            return 1;
    }
    return 0;
}

brachymel_answer brachymel_streams_row(uint32_t users, uint32_t number, uint8_t *row, size_t row_len)
{
    answer a;
    uint8_t own[8];
    if (FAULT == 105)
        number %= 64; /* the six bits of a configuration */
    if (FAULT == 106)
        users %= 256;
    a = reference_streams_row(users, number, row, row_len);
    if (FAULT >= 95 && FAULT <= 98 && users >= 2 && users <= 8 && number < 64) {
        a = row_wrongly(users, number, own) ? answer_of(row_len < users ? 23 : 0, 0, users) : answer_of(21, 0, 0);
        if (a.number == 0)
            memcpy(row, own, users);
    }
    if (FAULT == 99 && users == 1 && number < 4 && row_len > 0) {
        row[0] = (uint8_t)(number + 1); /* a row of one user */
        a = answer_of(0, 0, 1);
    }
    if (FAULT == 100 && users == 9 && number == 0 && row_len >= 9) {
        memset(row, 1, 9); /* a row of nine */
        a = answer_of(0, 0, 9);
    }
    if (FAULT == 101 && a.number == 21 && users >= 2 && users <= 8 && row_len < users)
        a = answer_of(23, 0, users); /* 21 after 23 */
    if (FAULT == 102 && a.number == 21 && row_len > 0)
        row[0] = 0; /* a refusal that writes */
    if (FAULT == 103 && a.number == 23 && reference_streams_row(users, number, own, 8).number == 0 && row_len > 0)
        memcpy(row, own, row_len); /* what fits */
    if (FAULT == 104 && a.number == 0 && row_len > users)
        row[users] = 0; /* an entry past the last user */
    if (FAULT == 107 && a.number == 23)
        a.place -= row_len; /* the bytes that lack */
    if (FAULT == 108 && a.number == 0 && number + 1 == count_of_rows(users) && users == 8)
        a = answer_of(21, 0, 0); /* the last row of eight, 2 2 2 2 2 2 2 2, is none */
    if (FAULT == 109 && a.number == 0)
        a.place = row_len; /* the room as place */
    return as_answer(a);
}

brachymel_answer brachymel_streams_number(const uint8_t *row, size_t row_len)
{
    answer a = reference_streams_number(row, row_len);
    uint8_t own[8] = {0};
    if (a.number == 21 && row_len >= 2 && row_len <= 8)
        memcpy(own, row, row_len);
    for (size_t u = 0; FAULT == 110 && a.number == 21 && u < row_len && row_len <= 8 && own[u] > 0; u++) {
        own[u]--; /* a sum of 17, counted as the row with a stream less */
        a = reference_streams_number(own, row_len);
        own[u]++;
    }
    for (size_t u = 1; FAULT == 111 && a.number == 21 && u < row_len && row_len <= 8; u++) {
        uint8_t first = own[u - 1]; /* a row that rises once, taken the other way round */
        own[u - 1] = own[u];
        own[u] = first;
        a = reference_streams_number(own, row_len);
        own[u] = own[u - 1];
        own[u - 1] = first;
    }
    if (FAULT == 112 && a.number == 21 && row_len >= 2 && row_len <= 8) {
        for (size_t u = 0; u < row_len; u++)
            own[u] = (uint8_t)((own[u] - 1) % 4 + 1); /* two bits of an entry */
        a = reference_streams_number(own, row_len);
    }
    if (FAULT == 113 && row_len == 9)
        a = reference_streams_number(row, 8); /* the first eight of nine */
    if (FAULT == 114 && row_len == 1 && row[0] >= 1 && row[0] <= 4)
        a = answer_of(0, 0, row[0] - 1u); /* one user */
    if (FAULT == 115 && a.number == 0)
        a.place++; /* counted from 1 */
    if (FAULT == 116 && row_len != 0)
        a.channel = *(const volatile uint8_t *)(row + row_len) == 7; /* reads past the end */
    if (FAULT == 117 && row_len > 255)
        a = reference_streams_number(row, row_len % 256); /* a length of a byte */
    if (FAULT == 118 && a.number == 21 && row_len == 0)
        a = answer_of(0, 0, 0); /* no user has one row */
    if (FAULT == 119 && a.number == 21)
        a.place = row_len; /* the users as place */
    return as_answer(a);
}

/* ---- streams of a frame (02, T-11) */

/* A User field: its channel, its position, its resource, its station and what stands from its bit 16 on. */
typedef struct {
    unsigned ch, position, owning;
    uint32_t station, bits;
} one_field;

static unsigned fields_by_word(const one_frame *x, const reading *r, const unsigned *row, one_field field[MOST_FIELDS])
{
    unsigned n = 0;
    for (unsigned ch = 0; ch < channels_of(x->bandwidth); ch++)
        for (unsigned p = ch, j = 0; p < positions_of(x->bandwidth); p += 2)
            for (unsigned k = 0; k < fields_of(row[p]); k++, j++) {
                uint32_t bits = field_of(x->cc[ch], x->length[ch], user_field_at(x->bandwidth, j) + 16, 6);
                field[n++] = (one_field){ch, p, r->layout.owner[ch][j], r->station[ch][j], bits};
            }
    return n;
}

/* How many users the resource of field k has, or is taken to have. */
static unsigned users_of_field(const one_field *f, unsigned n, unsigned k)
{
    unsigned users = 0;
    for (unsigned m = 0; m < n; m++) {
        if (f[m].owning != f[k].owning || (FAULT == 120 && f[m].ch != f[k].ch)) /* the users of one channel */
            continue;
        if (FAULT == 121 && f[m].station == 2046 && m != k) /* nobody's is not a user */
            continue;
        if (FAULT == 122 && f[m].position / 4 != f[k].position / 4) /* the users of one segment */
            continue;
        users++;
    }
    return users;
}

/* How many of them stand before field k. */
static unsigned place_of_field(const one_field *f, unsigned n, unsigned k)
{
    unsigned place = 0;
    for (unsigned m = 0; m < n; m++) {
        int before = m < k;
        if (f[m].owning != f[k].owning)
            continue;
        if (FAULT == 123)
            before = before && f[m].ch == f[k].ch; /* the place in its channel */
        if (FAULT == 124 && f[m].ch != f[k].ch)
            before = !before; /* channel 2's first */
        if (FAULT == 125)
            before = before && f[m].station != 2046; /* nobody's has no place */
        if (FAULT == 126 && f[m].position != f[k].position)
            before = f[m].position < f[k].position; /* by frequency */
        place += (unsigned)before;
    }
    return place;
}

static uint8_t alone_wrongly(uint32_t bits)
{
    uint32_t nss = bits % 16;
    if (FAULT == 127)
        return (uint8_t)(nss + 1); /* 9 to 16 streams */
    if (FAULT == 128)
        return (uint8_t)nss; /* one less than there are */
    if (FAULT == 129)
        return (uint8_t)(nss % 8 + 1); /* an NSS of three bits */
    if (FAULT == 130)
        return nss > 7 ? 8 : (uint8_t)(nss + 1); /* 8 at most */
    return nss > 7 ? 0 : (uint8_t)(nss + 1);
}

/* The streams of field k; whether it has any. */
static int streams_of_field(const one_field *f, unsigned n, unsigned k, uint8_t *streams)
{
    unsigned users = users_of_field(f, n, k), place = place_of_field(f, n, k), first = 0;
    uint32_t bits = f[k].bits, station = f[k].station;
    uint8_t row[8] = {0};
    while (f[first].owning != f[k].owning)
        first++;
    if (FAULT == 131)
        bits = f[first].bits; /* the row that the resource's first field names */
    *streams = 0;
    if (station == 2046 && FAULT == 132)
        return users < 2 || bits < count_of_rows(users); /* nobody's configuration is looked at */
    if (FAULT == 133 ? station >= 2046 : FAULT == 134 ? station == 0 || station == 2046 : station == 2046 && FAULT != 135)
        return 1; /* 2047, or 0, taken for nobody; nobody's streams given */
    if (users < 2) {
        *streams = alone_wrongly(bits);
        return 1;
    }
    if (bits >= count_of_rows(users))
        return (FAULT == 135 && station == 2046) || (FAULT == 136 && bits == count_of_rows(users)) /* one past the last */
            || (FAULT == 137 && f[k].ch == 1) || (FAULT == 138 && k != first); /* of channel 1 alone, of a first field alone */
    reference_streams_row(users, bits, row, 8);
    *streams = place < 8 ? row[place] : 0;
    return 1;
}

brachymel_answer brachymel_streams(uint32_t bandwidth, const uint8_t *cc1, size_t cc1_len, const uint8_t *cc2, size_t cc2_len,
                                   uint8_t *streams, size_t streams_len)
{
    static reading r;
    const one_frame x = {bandwidth, {cc1, cc2}, {cc1_len, cc2_len}};
    one_field field[MOST_FIELDS];
    uint8_t own[MOST_FIELDS];
    unsigned row[16], n, past = 0;
    answer a = read_frame(bandwidth, cc1, cc1_len, cc2, cc2_len, &r);
    if (a.number != 0 && !(FAULT == 139 && a.number == 11)) /* 21 before 11 */
        return as_answer(a);
    row_in(bandwidth, cc1, cc1_len, cc2, cc2_len, row);
    n = fields_by_word(&x, &r, row, field);
    for (unsigned k = 0; k < n; k++)
        if (!streams_of_field(field, n, k, &own[k]) && past == 0)
            past = k + 1;
    if (FAULT == 140 && past != 0 && streams_len < n)
        past = 0; /* 21 after 23 */
    if (past != 0) {
        if (FAULT == 141 && past > 1 && streams_len >= past)
            memcpy(streams, own, past - 1); /* what comes before it is written */
        return as_answer(answer_of(21, FAULT == 142 ? field[past - 1].ch + 1 : 0, FAULT == 143 ? past : 0)); /* its channel; its place */
    }
    if (a.number != 0)
        return as_answer(a);
    if (FAULT == 144 && n == 0 && streams_len == 0)
        return as_answer(answer_of(23, 0, 1)); /* no field needs room */
    if (FAULT == 145 ? streams_len < 4 * n : streams_len < n) { /* four bytes each */
        if (FAULT == 146 && streams_len > 0)
            memcpy(streams, own, streams_len); /* what fits */
        return as_answer(answer_of(23, 0, FAULT == 147 ? 10 + n : n)); /* the words needed */
    }
    if (n != 0)
        memcpy(streams, own, n);
    if (FAULT == 148 && streams_len > n)
        streams[n] = 0; /* one byte too many */
    if (FAULT == 149)
        return as_answer(answer_of(0, 0, 10 + n)); /* words as place */
    if (FAULT == 150 && cc2_len != 0 && *(const volatile uint8_t *)(cc2 + cc2_len) == 7)
        n++; /* reads past the end */
    return as_answer(answer_of(0, 0, n));
}
