/* The check alone, over blocks that stand one after the other: the sum of their checks, and how many are right.
 *
 * A buffer holds 72 blocks: of 44 bits, they are the User blocks of a full frame of 320 MHz. Before anything is timed,
 * both sides are held to the reference at every width and count, on right blocks and damaged ones, whole and cut short.
 * At the widths of frames, and only there, the loops of both sides are compiled for their width.
 */
#include "check.h"

#include "cases/cases.h"
#include "fast.h"
#include "reference/reference.h"
#include "rounds.h"
#include "timed.h"

#include <stdio.h>
#include <stdlib.h>

#define BLOCKS 72
#define WIDEST 130

typedef uint64_t counts(const uint8_t *, size_t, uint8_t, uint32_t);

static counts *const checks_of[SIDES] = {timed_checks, fast_checks};
static counts *const blocks_of[SIDES] = {timed_blocks, fast_blocks};
static const unsigned widest_of[SIDES] = {WIDEST, 64};

static uint8_t blocks[BLOCKS * (WIDEST + 10) / 8];
static size_t length;
static unsigned width;

static uint64_t start_of(unsigned k)
{
    return (uint64_t)k * (width + 10);
}

/* Right blocks of so many random bits. */
static void of_width(chance *c, unsigned bits)
{
    width = bits;
    length = (size_t)(start_of(BLOCKS) + 7) / 8;
    for (size_t k = 0; k < length; k++)
        blocks[k] = draw_byte(c);
    for (unsigned k = 0; k < BLOCKS; k++) {
        uint64_t end = start_of(k) + width;
        put_field(blocks, length, end, 4, check_of(blocks, length, start_of(k), width));
        put_field(blocks, length, end + 4, 6, 0);
    }
}

static void turn_over(uint64_t i)
{
    blocks[i / 8] ^= (uint8_t)(1u << i % 8);
}

/* ---- held to the reference */

static void hold(int side, size_t lent, unsigned count)
{
    uint64_t checks = 0, right = 0;
    for (unsigned k = 0; k < count; k++) {
        checks += check_of(blocks, lent, start_of(k), width);
        right += (unsigned)block_is_right(blocks, lent, start_of(k), width);
    }
    if (checks_of[side](blocks, lent, (uint8_t)width, count) != checks
        || blocks_of[side](blocks, lent, (uint8_t)width, count) != right) {
        printf("bench: %s is not what the reference says of blocks of %u bits\n", side_name[side], width);
        exit(1);
    }
}

/* With every count, so that no block's slip is made up for by another's: whole, some bytes short, and of any length. */
static void hold_counts(chance *c, int side)
{
    size_t some_short = length - 1 - (size_t)below(c, 8), any = (size_t)below(c, length);
    for (unsigned count = 0; count <= BLOCKS; count++) {
        hold(side, length, count);
        hold(side, some_short, count);
        hold(side, any, count);
    }
}

/* With one bit after the other turned over in every block, check and tail included. */
static void hold_damaged(int side)
{
    for (unsigned i = 0; i < width + 10; i++) {
        for (unsigned k = 0; k < BLOCKS; k++)
            turn_over(start_of(k) + i);
        hold(side, length, BLOCKS);
        for (unsigned k = 0; k < BLOCKS; k++)
            turn_over(start_of(k) + i);
    }
}

static void hold_to_reference(chance *c)
{
    for (int side = 0; side < SIDES; side++)
        for (unsigned bits = 0; bits <= widest_of[side]; bits++) {
            of_width(c, bits);
            hold_counts(c, side);
            hold_damaged(side);
            for (unsigned k = 0; k < BLOCKS / 2; k++)
                turn_over(below(c, start_of(BLOCKS)));
            hold_counts(c, side);
        }
}

/* ---- timed */

static counts *const *timed;

static void pass(int side, unsigned times)
{
    while (times-- > 0)
        kept += timed[side](blocks, length, (uint8_t)width, BLOCKS);
}

static void print_widths(const char *what, counts *const *sides, const unsigned *widths, unsigned n)
{
    char name[60];
    chance c = chance_from(1, 'K');
    timed = sides;
    print_head(what);
    for (unsigned k = 0; k < n; k++) {
        of_width(&c, widths[k]);
        sprintf(name, "%u bits", width);
        print_line(name, pass, BLOCKS);
    }
}

void print_check_alone(void)
{
    static const unsigned of_frames[] = {18, 22, 26, 35, 44, 54};
    unsigned rising[64 - 16];
    chance c = chance_from(1, 'k');
    hold_to_reference(&c);
    for (unsigned k = 0; k < 64 - 16; k++)
        rising[k] = 17 + k;
    print_widths("a block's check and tail tested", blocks_of, of_frames, sizeof of_frames / sizeof of_frames[0]);
    print_widths("a block's check made", checks_of, of_frames, sizeof of_frames / sizeof of_frames[0]);
    print_widths("check and tail tested, by bits", blocks_of, rising, 64 - 16);
}
