/* The subcarriers of a resource. */
#include "reference.h"

#include <stdio.h>
#include <string.h>

const char *const name_of_size[] = {"26", "52", "106", "242", "484", "996", "106+26", "484+242",
                                    "2x996", "996+484", "3x996", "2x996+484", "3x996+484"};

/* "Subcarriers are signed numbers, 0 at the channel's centre." Those that a resource takes are marked
 * one by one; a run is read off afterwards. */
#define LOWEST (-2048)
#define HIGHEST 2047

typedef struct {
    char taken[HIGHEST - LOWEST + 1];
} tones;

static void take(tones *t, int first, int last)
{
    for (int k = first; k <= last; k++)
        t->taken[k - LOWEST] = 1;
}

/* "At 20 MHz: 26s at -121:-96, -95:-70, -68:-43, -42:-17, -16:-4 with 4:16, then 17:42, 43:68, 70:95,
 * 96:121; 52s -121:-70, -68:-17, 17:68, 70:121; 106s -122:-17, 17:122; 242 -122:-2 with 2:122." */
static const run narrow_26[9] = {{-121, -96}, {-95, -70}, {-68, -43}, {-42, -17}, {-16, -4},
                                 {17, 42}, {43, 68}, {70, 95}, {96, 121}};
static const run narrow_52[4] = {{-121, -70}, {-68, -17}, {17, 68}, {70, 121}};
static const run narrow_106[2] = {{-122, -17}, {17, 122}};

/* "From 40 MHz, offsets from a 242's lowest subcarrier: 26s at 1-26, 27-52, 55-80, 81-106, 108-133,
 * 135-160, 161-186, 189-214, 215-240; 52s at 1-52, 55-106, 135-186, 189-240; 106s at 1-106, 135-240." */
static const run wide_26[9] = {{1, 26}, {27, 52}, {55, 80}, {81, 106}, {108, 133},
                               {135, 160}, {161, 186}, {189, 214}, {215, 240}};
static const run wide_52[4] = {{1, 52}, {55, 106}, {135, 186}, {189, 240}};
static const run wide_106[2] = {{1, 106}, {135, 240}};

/* "Lowest subcarriers of the 242s: 40 MHz -244, 3; a segment -500, -253, 12, 259 from its centre." */
static const int lowest_of_40[2] = {-244, 3};
static const int lowest_in_segment[4] = {-500, -253, 12, 259};

/* "Segment centres: 0; -512, 512; -1536, -512, 512, 1536." */
static int centre_of(unsigned segment, unsigned positions)
{
    static const int of_160[2] = {-512, 512}, of_320[4] = {-1536, -512, 512, 1536};
    if (positions == 16)
        return of_320[segment];
    return positions == 8 ? of_160[segment] : 0;
}

static int lowest_of_242(unsigned position, unsigned positions)
{
    if (positions == 2)
        return lowest_of_40[position];
    return centre_of(position / 4, positions) + lowest_in_segment[position % 4];
}

/* One piece: of the place i, from 1, among those of its kind at this position. */
static void take_piece(tones *t, size_name size, unsigned i, unsigned position, unsigned positions)
{
    int from = positions == 1 ? 0 : lowest_of_242(position, positions);
    const run *of_26 = positions == 1 ? narrow_26 : wide_26;
    const run *of_52 = positions == 1 ? narrow_52 : wide_52;
    const run *of_106 = positions == 1 ? narrow_106 : wide_106;
    const run *r = size == TONES_26 ? &of_26[i - 1] : size == TONES_52 ? &of_52[i - 1] : &of_106[i - 1];
    take(t, from + r->first, from + r->last);
    if (positions == 1 && size == TONES_26 && i == 5)
        take(t, 4, 16);
}

static void take_242(tones *t, unsigned position, unsigned positions)
{
    if (positions == 1) {
        take(t, -122, -2);
        take(t, 2, 122);
    } else {
        int from = lowest_of_242(position, positions);
        take(t, from, from + 241);
    }
}

/* "996 is -500 to -3 and 3 to 500", of its segment's centre. */
static void take_996(tones *t, unsigned segment, unsigned positions)
{
    int centre = centre_of(segment, positions);
    take(t, centre - 500, centre - 3);
    take(t, centre + 3, centre + 500);
}

/* "484 is its two 242s, 484+242 its three"; a wider resource has those of its 996s and 484s (02, T-07), a 996 being a
 * segment wholly its own. */
static void take_places(tones *t, unsigned places, unsigned positions)
{
    for (unsigned segment = 0; segment < 4; segment++) {
        if ((places >> 4 * segment & 15) == 15) {
            take_996(t, segment, positions);
            continue;
        }
        for (unsigned p = 4 * segment; p < 4 * segment + 4; p++)
            if (places >> p & 1)
                take_242(t, p, positions);
    }
}

static void take_resource(tones *t, const record *r, unsigned positions)
{
    switch (r->size) {
    case TONES_26:
    case TONES_52:
    case TONES_106:
        take_piece(t, r->size, r->piece.place, r->position, positions);
        break;
    case TONES_106_26: /* "A 106+26 takes the middle 26." */
        take_piece(t, TONES_106, r->piece.place, r->position, positions);
        take_piece(t, TONES_26, 5, r->position, positions);
        break;
    default:
        take_places(t, r->places, positions);
    }
}

/* "Tones are maximal runs, rising." */
static unsigned runs_of(const tones *t, run runs[MOST_RUNS])
{
    unsigned n = 0;
    for (int k = LOWEST; k <= HIGHEST; k++) {
        if (!t->taken[k - LOWEST])
            continue;
        if (k == LOWEST || !t->taken[k - 1 - LOWEST])
            runs[n++].first = k;
        runs[n - 1].last = k;
    }
    return n;
}

unsigned tones_of(const record *r, unsigned positions, run runs[MOST_RUNS])
{
    tones t;
    memset(&t, 0, sizeof t);
    take_resource(&t, r, positions);
    return runs_of(&t, runs);
}

/* "A punctured position takes its 242's subcarriers." */
unsigned punctured_tones(unsigned position, unsigned positions, run runs[MOST_RUNS])
{
    tones t;
    memset(&t, 0, sizeof t);
    take_242(&t, position, positions);
    return runs_of(&t, runs);
}

/* As the listing writes them: tones=-136:-111,-109:-4. */
size_t tones_text(const record *r, unsigned positions, char *text)
{
    run runs[MOST_RUNS];
    unsigned n = tones_of(r, positions, runs);
    size_t length = 0;
    for (unsigned k = 0; k < n; k++)
        length += (size_t)sprintf(text + length, "%s%d:%d", k == 0 ? "" : ",", runs[k].first, runs[k].last);
    return length;
}
