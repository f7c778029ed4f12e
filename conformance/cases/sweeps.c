/* Sweeps of one position (02, T-14): "replace one value among 0 to 27, 48, 50 and 64 to 71 by another of these that its
 * position allows". */
#include "cases.h"

#include "../reference/reference.h"

/* Rows of each bandwidth that a plan signals, and which position is swept. */
static const struct {
    unsigned positions, swept, row[16];
} sweep_rows[] = {
    {1, 0, {0}},
    /* beside a 242 and beside pieces */
    {2, 0, {64, 25}},
    {2, 1, {3, 70}},
    /* the position that a 484+242 leaves out, each of the four */
    {4, 0, {64, 28, 96, 29}},
    {4, 1, {28, 15, 105, 106}},
    {4, 2, {29, 114, 66, 28}},
    {4, 3, {120, 29, 28, 0}},
    /* beside a 484 and its like */
    {4, 3, {72, 29, 24, 50}},
    {4, 2, {26, 27, 48, 28}},
    /* what is not claimed: a 28 that belongs to a 484+242 */
    {4, 1, {64, 28, 96, 29}},
    /* the pair that a 996+484 leaves out; beside a 996; 28s that are 242s */
    {8, 0, {64, 0, 128, 29, 30, 30, 30, 30}},
    {8, 1, {64, 0, 128, 29, 30, 30, 30, 30}},
    {8, 5, {30, 145, 30, 30, 26, 71, 29, 146}},
    {8, 4, {80, 30, 30, 30, 27, 64, 29, 73}},
    {8, 7, {0, 15, 48, 50, 64, 65, 28, 27}},
    /* the segment that a 3x996 leaves out, the pair of a 3x996+484, and what two 2x996+484s leave out */
    {16, 6, {30, 30, 168, 30, 64, 1, 48, 2, 30, 30, 30, 30, 30, 30, 30, 170}},
    {16, 10, {30, 30, 30, 30, 30, 30, 30, 30, 29, 232, 25, 66, 30, 30, 30, 30}},
    {16, 11, {30, 30, 30, 30, 30, 30, 30, 30, 29, 232, 25, 66, 30, 30, 30, 30}},
    {16, 3, {29, 264, 24, 0, 30, 30, 30, 30, 30, 30, 30, 30, 72, 29, 64, 15}},
    {16, 12, {29, 264, 24, 0, 30, 30, 30, 30, 30, 30, 30, 30, 67, 9, 74, 29}},
    {16, 2, {29, 112, 8, 28, 30, 30, 30, 30, 16, 67, 29, 274, 30, 30, 30, 30}},
    {16, 9, {29, 112, 8, 28, 30, 30, 30, 30, 16, 67, 29, 274, 30, 30, 30, 30}},
    /* resources of one segment alone */
    {16, 15, {80, 83, 30, 30, 0, 28, 96, 97, 64, 64, 72, 29, 29, 120, 122, 71}},
};

unsigned swept_in_turn(unsigned long k, unsigned *row)
{
    k %= SWEEPS;
    for (unsigned n = 0;; n++)
        for (unsigned value = 0; value <= 71; value++) {
            if (!value_is_swept(value, sweep_rows[n].swept) || k-- != 0)
                continue;
            for (unsigned p = 0; p < sweep_rows[n].positions; p++)
                row[p] = p == sweep_rows[n].swept ? value : sweep_rows[n].row[p];
            return sweep_rows[n].positions;
        }
}
