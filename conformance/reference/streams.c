/* Spatial streams (02, T-11): the rows of streams and their numbers, and the streams of a frame's User fields. */
#include "reference.h"

#include <string.h>

#define FEWEST_USERS 2 /* "For 2 to 8 users the spatial configuration is a number" */
#define MOST_USERS 8
#define MOST_ROWS 64 /* of one number of users: a configuration has six bits */

typedef struct {
    unsigned count;
    uint8_t row[MOST_ROWS][MOST_USERS];
} list;

/* "rows .. that never rise and sum to at most 16". */
static int is_listed(const uint8_t *row, unsigned users)
{
    unsigned sum = 0;
    for (unsigned u = 0; u < users; u++) {
        sum += row[u];
        if (u > 0 && row[u] > row[u - 1])
            return 0;
    }
    return sum <= 16;
}

/* "the rows of streams 1 to 4 .., ordered by last entry first, then the one before it": all rows of entries 1 to 4 are tried in
 * this order, the first entry changing soonest. Each number of users is listed once. */
static const list *rows_of(unsigned users)
{
    static list listed[MOST_USERS + 1];
    list *l = &listed[users];
    unsigned all = 1;
    if (l->count != 0)
        return l;
    for (unsigned u = 0; u < users; u++)
        all *= 4;
    for (unsigned k = 0; k < all; k++) {
        uint8_t row[MOST_USERS];
        for (unsigned u = 0, rest = k; u < users; u++, rest /= 4)
            row[u] = (uint8_t)(1 + rest % 4);
        if (is_listed(row, users))
            memcpy(l->row[l->count++], row, users);
    }
    return l;
}

static int has_rows(uint64_t users)
{
    return users >= FEWEST_USERS && users <= MOST_USERS;
}

unsigned count_of_rows(unsigned users)
{
    return has_rows(users) ? rows_of(users)->count : 0;
}

/* "Refusals: 21, users not 2 to 8, a number past the last row". "A buffer too short for a result of this or a later request gets
 * 23 too, last, with the bytes or records needed as place" (T-02). */
answer reference_streams_row(uint32_t users, uint32_t number, uint8_t *row, size_t room)
{
    if (!has_rows(users) || number >= rows_of(users)->count)
        return answer_of(21, 0, 0);
    if (room < users)
        return answer_of(23, 0, users);
    memcpy(row, rows_of(users)->row[number], users);
    return answer_of(0, 0, users);
}

/* "encoding undoes it. Refusals: 21, users not 2 to 8, .. or a row not listed": the number is where the row stands on the list. */
answer reference_streams_number(const uint8_t *row, size_t length)
{
    for (unsigned k = 0; has_rows(length) && k < rows_of((unsigned)length)->count; k++)
        if (memcmp(rows_of((unsigned)length)->row[k], row, length) == 0)
            return answer_of(0, 0, k);
    return answer_of(21, 0, 0);
}

/* How many of the first n User fields, in the order of the User words, are the resource's: "A resource's fields are those of all
 * its places, channel 1's first" (01). */
static unsigned fields_among(const layout *l, unsigned owning, unsigned n)
{
    unsigned count = 0;
    for (unsigned ch = 0, k = 0; ch < 2; ch++)
        for (unsigned j = 0; j < l->fields[ch]; j++, k++)
            count += k < n && l->owner[ch][j] == owning;
    return count;
}

/* "NSS 4" (01), of a field alone on its resource: one stream more than it says, for 0 to 7. 000's draft goes on to sixteen streams,
 * the standard has no more than eight: of 8 to 15 nothing is known (decision). */
static uint8_t streams_alone(uint32_t nss)
{
    return nss <= 7 ? (uint8_t)(nss + 1) : 0;
}

/* The streams of the (k + 1)-th User field, which is the resource's `owning` and says these; whether its configuration has a row. A
 * field of STA-ID 2046 is nobody's, its other bits "an arbitrary value" (000). The place: "logically continuous: the last User field
 * corresponding to an RU in EHT-SIG content channel 1 is immediately followed by the first .. in EHT-SIG content channel 2" (000). */
static int streams_of(const reading *r, unsigned k, unsigned owning, uint32_t station, uint32_t nss, uint32_t configuration,
                      uint8_t *streams)
{
    unsigned users = fields_among(&r->layout, owning, MOST_FIELDS), place = fields_among(&r->layout, owning, k);
    const list *l = has_rows(users) ? rows_of(users) : NULL;
    *streams = 0;
    if (station == 2046)
        return 1;
    if (l == NULL) {
        *streams = streams_alone(nss);
        return 1;
    }
    if (configuration >= l->count)
        return 0;
    *streams = l->row[configuration][place];
    return 1;
}

/* "streams per station, on top of the reader": its refusals; 21, "a number past the last row"; then 23. "A User field alone on its
 * resource: STA-ID 11, MCS 4, reserved 1, NSS 4, ..", "STA-ID 11, MCS 4, coding 1, spatial configuration 6" (01). */
answer reference_streams(uint32_t bandwidth, const uint8_t *cc1, size_t cc1_length, const uint8_t *cc2, size_t cc2_length,
                         uint8_t *streams, size_t room)
{
    static reading r;
    uint8_t found[MOST_FIELDS];
    unsigned n = 0;
    answer a = read_frame(bandwidth, cc1, cc1_length, cc2, cc2_length, &r);
    if (a.number != 0)
        return a;
    for (unsigned ch = 0; ch < 2; ch++)
        for (unsigned j = 0; j < r.layout.fields[ch]; j++, n++) {
            const uint8_t *s = ch == 0 ? cc1 : cc2;
            size_t length = ch == 0 ? cc1_length : cc2_length;
            unsigned at = user_field_at(bandwidth, j) + 16;
            if (!streams_of(&r, n, r.layout.owner[ch][j], r.station[ch][j], field_of(s, length, at, 4), field_of(s, length, at, 6),
                            &found[n]))
                return answer_of(21, 0, 0);
        }
    if (room < n)
        return answer_of(23, 0, n);
    if (n != 0)
        memcpy(streams, found, n);
    return answer_of(0, 0, n);
}
