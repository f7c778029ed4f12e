/* The baseline held to the reference on frames that are drawn.
 *
 * The conformance driver holds it on calls of every kind (bench/run, held). Here are frames of every size whose blocks and fields
 * are damaged one by one, since the baseline goes another way with many fields than with few, and with its last blocks: each User
 * block with a bit turned over, each field with the STA-ID of one before it and with one that may stand twice, each channel a
 * byte short, each bit of the words turned over; with resources wider than a segment and without.
 */
#include "drawn.h"

#include "cases/cases.h"
#include "fast.h"
#include "reference/reference.h"

#include <stdio.h>
#include <stdlib.h>
#include <string.h>

#define SIZE (BRACHYMEL_LISTING_SIZE + 64)

static unsigned long held;
static uint8_t is[2][SIZE], should[2][SIZE];

static void fill(uint8_t buffer[2][SIZE])
{
    for (size_t k = 0; k < SIZE; k++)
        buffer[0][k] = buffer[1][k] = (uint8_t)(29 * k + held);
}

static void compare(const char *what, brachymel_answer a, answer b)
{
    if (a.number != b.number || a.channel != b.channel || a.place != b.place || memcmp(is, should, sizeof is) != 0) {
        printf("bench: after %lu calls the baseline's %s is not what the reference says: %lu %lu %llu, not %lu %lu %llu\n", held,
               what, (unsigned long)a.number, (unsigned long)a.channel, (unsigned long long)a.place, (unsigned long)b.number,
               (unsigned long)b.channel, (unsigned long long)b.place);
        exit(1);
    }
    held++;
}

static void hold_reading(const frame *f, size_t bytes)
{
    fill(is);
    fill(should);
    compare("reading", fast_read(f->bandwidth, f->cc[0], f->length[0], f->cc[1], f->length[1], is[0], bytes),
            reference_read_bytes(f->bandwidth, f->cc[0], f->length[0], f->cc[1], f->length[1], should[0], bytes));
}

static void hold_listing(const frame *f, size_t bytes)
{
    fill(is);
    fill(should);
    compare("listing", fast_list(f->bandwidth, f->cc[0], f->length[0], f->cc[1], f->length[1], is[0], bytes),
            reference_list(f->bandwidth, f->cc[0], f->length[0], f->cc[1], f->length[1], should[0], bytes));
}

static void hold_writing(const words_case *w)
{
    fill(is);
    fill(should);
    compare("writing", fast_write(w->bandwidth, w->bytes, w->length, is[0], w->room[0], is[1], w->room[1]),
            reference_write_bytes(w->bandwidth, w->bytes, w->length, should[0], w->room[0], should[1], w->room[1]));
}

static void put_station(frame *f, unsigned ch, unsigned j, uint32_t id)
{
    put_field(f->cc[ch], MOST_LENT, user_field_at(f->bandwidth, j), 11, id);
    mend_checks(f);
}

static uint32_t station(const frame *f, unsigned ch, unsigned j)
{
    return field_of(f->cc[ch], MOST_LENT, user_field_at(f->bandwidth, j), 11);
}

/* A block in turn with one of its bits turned over, and a field with the STA-ID of an earlier one, or one that may repeat. */
static void hold_damaged(chance *c, const frame *good)
{
    static frame f;
    for (unsigned ch = 0; ch < channels_of(good->bandwidth); ch++) {
        unsigned n = fields_told(good, ch);
        for (unsigned j = 0; j < n; j++) {
            unsigned earlier_ch = ch == 1 && fields_told(good, 0) != 0 && (j == 0 || one_in(c, 2)) ? 0 : ch;
            unsigned before = earlier_ch == ch ? j : fields_told(good, 0);
            uint64_t bit = user_field_at(good->bandwidth, j) + below(c, j % 2 == 1 || j + 1 == n ? 32 : 22);
            f = *good;
            f.cc[ch][bit / 8] ^= (uint8_t)(1u << bit % 8);
            hold_reading(&f, BRACHYMEL_WORDS_SIZE);
            if (before == 0)
                continue;
            f = *good;
            put_station(&f, ch, j, station(good, earlier_ch, (unsigned)below(c, before)));
            hold_reading(&f, BRACHYMEL_WORDS_SIZE);
            f = *good;
            put_station(&f, ch, j, 2046);
            put_station(&f, earlier_ch, (unsigned)below(c, before), one_in(c, 2) ? 2046 : 0);
            hold_reading(&f, BRACHYMEL_WORDS_SIZE);
        }
    }
}

/* With no byte past the last block, the shorter channel too, and a byte less. */
static void hold_cut(const frame *good)
{
    static frame f;
    f = *good;
    for (unsigned ch = 0; ch < channels_of(f.bandwidth); ch++)
        f.length[ch] = bytes_told(&f, ch);
    hold_reading(&f, BRACHYMEL_WORDS_SIZE);
    for (unsigned ch = 0; ch < channels_of(f.bandwidth); ch++) {
        f.length[ch]--;
        hold_reading(&f, BRACHYMEL_WORDS_SIZE);
        f.length[ch]++;
    }
}

static void hold_words(chance *c, const frame *f)
{
    static words_case w;
    answer a = reference_read_bytes(f->bandwidth, f->cc[0], f->length[0], f->cc[1], f->length[1], w.bytes, sizeof w.bytes);
    if (a.number != 0)
        return;
    w.bandwidth = f->bandwidth;
    w.length = 4 * (size_t)a.place;
    w.room[0] = w.room[1] = BRACHYMEL_CHANNEL_SIZE;
    hold_writing(&w);
    for (size_t bit = below(c, 8); bit < 8 * w.length; bit += 1 + below(c, 12)) {
        w.bytes[bit / 8] ^= (uint8_t)(1u << bit % 8);
        hold_writing(&w);
        w.bytes[bit / 8] ^= (uint8_t)(1u << bit % 8);
    }
}

static void hold_frame(chance *c, const frame *f)
{
    hold_reading(f, BRACHYMEL_WORDS_SIZE);
    hold_reading(f, below(c, BRACHYMEL_WORDS_SIZE));
    hold_listing(f, BRACHYMEL_LISTING_SIZE);
    hold_listing(f, below(c, BRACHYMEL_LISTING_SIZE));
    hold_cut(f);
    hold_words(c, f);
    hold_damaged(c, f);
}

void hold_drawn(void)
{
    static const unsigned zeros[16] = {0};
    static frame f;
    chance c = chance_from(1, 'D');
    for (unsigned bandwidth = 0; bandwidth < 5; bandwidth++) {
        build_frame(&c, bandwidth, zeros, &f);
        hold_frame(&c, &f);
        for (unsigned k = 0; k < 24; k++) {
            unsigned row[16];
            if (bandwidth >= 3 && k % 2 == 1)
                draw_wide_row(&c, positions_of(bandwidth), k % 8 == 7, row);
            else
                draw_row(&c, positions_of(bandwidth), row);
            build_frame(&c, bandwidth, row, &f);
            hold_frame(&c, &f);
        }
    }
    printf("the baseline on %lu calls of drawn frames: as the reference\n", held);
}
