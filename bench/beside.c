/* beside FRAMES [MILLISECONDS]: times the baseline's reader beside another reader in C, on that one's frames.
 *
 * The other is base_read of base.h: document 01 alone, so without resources wider than a segment, and the places of 3 and 9 are
 * the bits lent. A line of FRAMES is a set's name, the bandwidth code, the two channels as hex digits (- for none), the words
 * lent, and the answer as number + 256 channel + 65536 place. Before anything is timed, the baseline is held on each frame to the
 * reference, and both to the answer and to the same words. As in bench.c, the ratio is the median over rounds that take turns.
 */
#include "base.h"
#include "fast.h"
#include "reference/reference.h"
#include "rounds.h"

#include <inttypes.h>
#include <stdio.h>
#include <stdlib.h>
#include <string.h>

#define MOST_FRAMES 4096
#define MOST_SETS 64
#define MOST_WORDS 154

typedef struct {
    uint32_t bandwidth;
    uint8_t *cc[2];
    size_t length[2], room; /* room in words */
    uint64_t answer;
    unsigned set;
} lent;

static lent frames[MOST_FRAMES];
static char set_name[MOST_SETS][32];
static unsigned count, sets;
static unsigned in_set[MOST_FRAMES], used; /* the frames of the set that is timed */

/* ---- the two readers as one */

static uint64_t in_one(brachymel_answer a)
{
    return a.number | (uint64_t)a.channel << 8 | a.place << 16;
}

static uint64_t read_by(int side, const lent *f, uint32_t *words)
{
    if (side == 0)
        return in_one(fast_read(f->bandwidth, f->cc[0], f->length[0], f->cc[1], f->length[1], (uint8_t *)words, 4 * f->room));
    return base_read(f->bandwidth, f->cc[0], f->length[0], f->cc[1], f->length[1], words, f->room);
}

/* What each returns is kept as it is. */
static void read_all(int side, unsigned times)
{
    static uint32_t words[MOST_WORDS + 8];
    uint64_t sum = 0;
    while (times-- > 0)
        for (unsigned k = 0; k < used; k++) {
            const lent *f = &frames[in_set[k]];
            if (side == 0)
                sum += fast_read(f->bandwidth, f->cc[0], f->length[0], f->cc[1], f->length[1], (uint8_t *)words, 4 * f->room).place;
            else
                sum += base_read(f->bandwidth, f->cc[0], f->length[0], f->cc[1], f->length[1], words, f->room);
        }
    kept += sum;
}

/* ---- held */

static void end_with(const char *what, unsigned k)
{
    printf("beside: frame %u: %s\n", k + 1, what);
    exit(1);
}

/* Document 01's answer without the places of 3 and 9, which a request changed. */
static uint64_t of_01(uint64_t a)
{
    return (a & 255) == 3 || (a & 255) == 9 ? a & 0xFFFF : a;
}

static void hold(unsigned k)
{
    const lent *f = &frames[k];
    uint32_t words[2][MOST_WORDS + 8], right[MOST_WORDS + 8];
    uint64_t is[2];
    answer a;
    memset(right, 0x5A, sizeof right);
    a = reference_read_bytes(f->bandwidth, f->cc[0], f->length[0], f->cc[1], f->length[1], (uint8_t *)right, 4 * f->room);
    for (int side = 0; side < SIDES; side++) {
        memset(words[side], 0x5A, sizeof words[side]);
        is[side] = read_by(side, f, words[side]);
        if (of_01(is[side]) != of_01(f->answer) || memcmp(words[side], right, sizeof right) != 0)
            end_with(side == 0 ? "the baseline is wrong" : "the other reader is wrong", k);
    }
    if (is[0] != (a.number | (uint64_t)a.channel << 8 | a.place << 16))
        end_with("the baseline is not what the reference says", k);
}

/* ---- the frames */

static uint8_t *from_hex(const char *s, size_t *n)
{
    uint8_t *bytes;
    *n = strcmp(s, "-") == 0 ? 0 : strlen(s) / 2;
    bytes = malloc(*n + 1);
    for (size_t k = 0; bytes != NULL && k < *n; k++)
        bytes[k] = (uint8_t)strtoul((char[]){s[2 * k], s[2 * k + 1], 0}, NULL, 16);
    return bytes;
}

static unsigned set_of(const char *name)
{
    unsigned k = 0;
    while (k < sets && strcmp(set_name[k], name) != 0)
        k++;
    if (k == sets && sets < MOST_SETS)
        strcpy(set_name[sets++], name);
    return k;
}

static void load(const char *path)
{
    static char name[32], hex[2][4096];
    unsigned bandwidth;
    unsigned long room;
    uint64_t a;
    FILE *file = fopen(path, "r");
    if (file == NULL) {
        printf("beside: there is no %s\n", path);
        exit(2);
    }
    while (count < MOST_FRAMES
           && fscanf(file, "%31s %u %4095s %4095s %lu %" SCNu64, name, &bandwidth, hex[0], hex[1], &room, &a) == 6) {
        lent *f = &frames[count++];
        f->bandwidth = bandwidth;
        f->room = room < MOST_WORDS ? room : MOST_WORDS;
        f->answer = a;
        f->set = set_of(name);
        for (unsigned c = 0; c < 2; c++)
            if ((f->cc[c] = from_hex(hex[c], &f->length[c])) == NULL)
                exit(2);
    }
    fclose(file);
}

/* ---- the table */

static int is_refused(unsigned set)
{
    for (unsigned k = 0; k < count; k++)
        if (frames[k].set == set)
            return (frames[k].answer & 255) != 0;
    return 0;
}

static void print_sets(const char *what, int refused)
{
    ratios all = {0, 0, 0};
    printf("\n%-20s %10s %10s %7s\n", what, "here, ns", "there, ns", "ratio");
    for (unsigned set = 0; set < sets; set++) {
        timing t;
        if (is_refused(set) != refused)
            continue;
        used = 0;
        for (unsigned k = 0; k < count; k++)
            if (frames[k].set == set)
                in_set[used++] = k;
        t = time_sides(read_all, used);
        printf("%-20s %10.1f %10.1f %7.2f\n", set_name[set], t.ns[0], t.ns[1], t.ratio);
        fflush(stdout);
        add_ratio(&all, t.ratio);
    }
    if (all.sets != 0)
        printf("%s: geometric mean %.2f, worst %.2f\n", what, mean_ratio(&all), all.worst);
}

int main(int argc, char **argv)
{
    if (argc < 2)
        return 2;
    if (argc > 2)
        round_ns = 1e6 * atof(argv[2]);
    load(argv[1]);
    for (unsigned k = 0; k < count; k++)
        hold(k);
    printf("%u frames in %u sets: both readers give the answers and the words\n", count, sets);
    print_sets("accepted", 0);
    print_sets("refused", 1);
    return 0;
}
