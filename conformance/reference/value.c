/* Values of the RU Allocation subfield. */
#include "reference.h"

answer answer_of(uint32_t number, uint32_t channel, uint64_t place)
{
    answer a = {number, channel, place};
    return a;
}

/* "0 to 15 .. 16 to 19 .. 20 to 23 .. 24 .. 25 .. 26 .. 27 .. 28, 29, 30 .. 48 .. 50 .. 64 to 71 ..
 * 72 to 79 .. 80 to 87 .. 96 to 103, 104 to 111, 112 to 119, 120 to 127 .. All else isn't carried." 02 (T-07): "Add the
 * published values from 88 up .. 6 shrinks to the values still not carried": 88 to 95 and 128 to 303 of 000's table. */
int value_is_carried(unsigned value)
{
    return value <= 30 || value == 48 || value == 50 || (value >= 64 && value <= 87) || (value >= 88 && value <= 95)
        || (value >= 96 && value <= 127) || (value >= 128 && value <= 303);
}

/* 02 (T-14): "one value among 0 to 27, 48, 50 and 64 to 71 .. that its position allows"; 01: "48 isn't allowed in a fourth
 * position nor 50 in a third". */
int value_is_swept(unsigned value, unsigned p)
{
    return value <= 27 || (value == 48 && p % 4 != 3) || (value == 50 && p % 4 != 2) || (value >= 64 && value <= 71);
}

static unsigned add(piece *pieces, unsigned n, size_name size, unsigned place)
{
    pieces[n].size = size;
    pieces[n].place = place;
    return n + 1;
}

/* "the four quarter slots (1 and 2, 3 and 4, 6 and 7, 8 and 9 of nine 26s) each are two 26s or one 52". */
static unsigned add_slot(piece *pieces, unsigned n, unsigned slot, int is_52)
{
    static const unsigned first_26[5] = {0, 1, 3, 6, 8};
    if (is_52)
        return add(pieces, n, TONES_52, slot);
    n = add(pieces, n, TONES_26, first_26[slot]);
    return add(pieces, n, TONES_26, first_26[slot] + 1);
}

/* "Values 0 to 25, 48 and 50 give one field to each of their pieces, in rising frequency." The pieces
 * are returned in that order; there are none for any other value. */
unsigned pieces_of(unsigned value, piece pieces[9])
{
    unsigned n = 0;
    if (value <= 15) {
        /* "bit 3 set makes the first slot 52, bit 2 the second, bit 1 the third, bit 0 the fourth; the
         * middle 26 is always there" */
        n = add_slot(pieces, n, 1, value >> 3 & 1);
        n = add_slot(pieces, n, 2, value >> 2 & 1);
        n = add(pieces, n, TONES_26, 5);
        n = add_slot(pieces, n, 3, value >> 1 & 1);
        n = add_slot(pieces, n, 4, value & 1);
    } else if (value <= 19) {
        /* "the lower half as two slots (bit 1 first, bit 0 second), the middle 26, then 106" */
        n = add_slot(pieces, n, 1, value >> 1 & 1);
        n = add_slot(pieces, n, 2, value & 1);
        n = add(pieces, n, TONES_26, 5);
        n = add(pieces, n, TONES_106, 2);
    } else if (value <= 23) {
        /* "106, middle 26, then two slots (bit 1 first, bit 0 second)" */
        n = add(pieces, n, TONES_106, 1);
        n = add(pieces, n, TONES_26, 5);
        n = add_slot(pieces, n, 3, value >> 1 & 1);
        n = add_slot(pieces, n, 4, value & 1);
    } else if (value == 24) {
        /* "52 52 52 52, middle unused" */
        for (unsigned slot = 1; slot <= 4; slot++)
            n = add_slot(pieces, n, slot, 1);
    } else if (value == 25) {
        /* "106 26 106" */
        n = add(pieces, n, TONES_106, 1);
        n = add(pieces, n, TONES_26, 5);
        n = add(pieces, n, TONES_106, 2);
    } else if (value == 48) {
        /* "106+26 (lower), 106" */
        n = add(pieces, n, TONES_106_26, 1);
        n = add(pieces, n, TONES_106, 2);
    } else if (value == 50) {
        /* "106, 106+26 (upper)" */
        n = add(pieces, n, TONES_106, 1);
        n = add(pieces, n, TONES_106_26, 2);
    }
    return n;
}

/* "64 to 71: 242 with 1 to 8 fields. 72 to 79: 484. 80 to 87: 996. 96 to 103, .., 120 to 127: 484+242
 * .., each with 1 to 8 fields", as the values of 02 (T-07) from 88 to 303, "with y2y1y0 indicating the number of User fields"
 * (000); 26, 27 and 28, 29, 30 have none. */
unsigned fields_of(unsigned value)
{
    piece pieces[9];
    if (value >= 64 && value_is_carried(value))
        return value % 8 + 1;
    return pieces_of(value, pieces);
}
