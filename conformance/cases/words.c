/* Words for the writer: those of a good frame, and the same damaged. */
#include "cases.h"

#include "../reference/reference.h"

#include <string.h>

static void put_word(words_case *w, size_t k, uint32_t word)
{
    put_field(w->bytes, MOST_WORD_BYTES, 32 * (uint64_t)k, 32, word);
}

static uint32_t word_at(const words_case *w, size_t k)
{
    return field_of(w->bytes, MOST_WORD_BYTES, 32 * (uint64_t)k, 32);
}

/* The words that the reference reads a good frame to; a row that is refused is drawn again. */
static void draw_good_words(chance *c, words_case *w)
{
    frame f;
    uint32_t word[MOST_WORDS];
    answer a;
    do {
        draw_good_frame(c, &f);
        a = reference_read(f.bandwidth, f.cc[0], f.length[0], f.cc[1], f.length[1], word, MOST_WORDS);
    } while (a.number != 0);
    w->bandwidth = f.bandwidth;
    w->length = 4 * (size_t)a.place;
    for (size_t k = 0; k < MOST_WORD_BYTES; k++)
        w->bytes[k] = draw_byte(c);
    for (size_t k = 0; k < a.place; k++)
        put_word(w, k, word[k]);
}

/* One bit anywhere; or a bit of a User word's field, after which the words may still be good; another
 * count, bandwidth or order; GI and LTF size in any of their sixteen pairs; a value in the row. */
static void damage_words(chance *c, words_case *w)
{
    size_t count = w->length / 4, k, j;
    if (count == 0)
        return;
    k = (size_t)below(c, count);
    j = (size_t)below(c, count);
    switch (below(c, 9)) {
    case 0:
        put_word(w, k, word_at(w, k) ^ UINT32_C(1) << below(c, 32));
        break;
    case 1:
        if (k >= 10)
            put_word(w, k, word_at(w, k) ^ UINT32_C(1) << (8 + below(c, 22)));
        break;
    case 2:
        w->length = 4 * (count + 1);
        break;
    case 3:
        w->length -= one_in(c, 2) ? 4 : 1 + (size_t)below(c, w->length);
        break;
    case 4:
        w->length += 1 + (size_t)below(c, one_in(c, 2) ? 3 : MOST_WORD_BYTES - w->length - 1);
        break;
    case 5:
        w->bandwidth = one_in(c, 3) ? 5 + (uint32_t)below(c, 4) : one_in(c, 4) ? (uint32_t)draw(c) : (uint32_t)below(c, 5);
        break;
    case 6: {
        uint32_t kept = word_at(w, k);
        put_word(w, k, word_at(w, j));
        put_word(w, j, kept);
        break;
    }
    case 7:
        put_word(w, 1, (word_at(w, 1) & ~UINT32_C(0x780)) | (uint32_t)below(c, 16) << 7);
        break;
    default:
        k = 2 + (size_t)below(c, 6);
        put_word(w, k, word_at(w, k) ^ UINT32_C(1) << below(c, 32));
    }
}

static size_t draw_room(chance *c)
{
    switch (below(c, 6)) {
    case 0: return (size_t)below(c, 40);
    case 1: return (size_t)below(c, 258);
    case 2: return 512 + (size_t)below(c, 89);
    default: return 257;
    }
}

void draw_words(chance *c, words_case *w)
{
    static uint8_t back[2][MOST_LENT];
    answer a;
    draw_good_words(c, w);
    if (one_in(c, 2))
        damage_words(c, w);
    if (one_in(c, 12))
        damage_words(c, w);
    w->room[0] = draw_room(c);
    w->room[1] = draw_room(c);
    a = reference_write_bytes(w->bandwidth, w->bytes, w->length, back[0], MOST_LENT, back[1], MOST_LENT);
    for (unsigned ch = 0; ch < 2 && a.number == 0; ch++)
        if (one_in(c, 2))
            w->room[ch] = (size_t)a.place - (one_in(c, 4) ? 1 : 0);
}
