/* Sets the captures of several boards against that of a good one, and prints what differs.
 *
 *     ./library
 *     cc -Iinclude -o target/compare examples/c/compare.c target/staticlib/libbrachymel.a
 *     target/compare examples/compare/moved-good.txt examples/compare/moved-bad.txt
 *
 * A capture is a file as the program ehtsig reads it. Exits with 0 if all read the same as the good one, 1 if any does
 * not, 2 if a file cannot be opened.
 */
#include <brachymel.h>

#include <stdio.h>
#include <string.h>

#define MOST_BYTES (BRACHYMEL_CHANNEL_LIMIT + 1) /* one too many is enough for answer 2 */

typedef struct {
    unsigned bandwidth;
    uint8_t cc1[MOST_BYTES], cc2[MOST_BYTES];
    size_t cc1_len, cc2_len;
} capture;

/* Pairs of hex digits into bytes; returns how many, and stops at anything else. */
static size_t bytes_of(const char *hex, uint8_t *bytes)
{
    size_t n = 0;
    unsigned byte;
    while (n < MOST_BYTES && sscanf(hex + 2 * n, "%2X", &byte) == 1)
        bytes[n++] = (uint8_t)byte;
    return n;
}

static int load(const char *path, capture *x)
{
    static char line[2 * MOST_BYTES + 16];
    FILE *file = fopen(path, "r");
    memset(x, 0, sizeof *x);
    if (file == NULL)
        return 0;
    while (fgets(line, sizeof line, file) != NULL) {
        if (strncmp(line, "bw=", 3) == 0)
            sscanf(line + 3, "%u", &x->bandwidth);
        else if (strncmp(line, "cc1=", 4) == 0)
            x->cc1_len = bytes_of(line + 4, x->cc1);
        else if (strncmp(line, "cc2=", 4) == 0)
            x->cc2_len = bytes_of(line + 4, x->cc2);
    }
    fclose(file);
    return 1;
}

/* Whether they read the same; prints the differences. In this much room the call is never refused. */
static int print_differences(const capture *good, const capture *bad)
{
    static uint8_t text[BRACHYMEL_COMPARE_SIZE];
    brachymel_answer a = brachymel_compare(good->bandwidth, good->cc1, good->cc1_len, good->cc2, good->cc2_len,
                                           bad->bandwidth, bad->cc1, bad->cc1_len, bad->cc2, bad->cc2_len, text, sizeof text);
    fwrite(text, 1, (size_t)a.place, stdout);
    return a.place == 0;
}

int main(int argc, char **argv)
{
    static capture good, bad;
    int same = 1;
    if (argc < 3) {
        fprintf(stderr, "usage: compare GOOD BAD..\n");
        return 2;
    }
    for (int k = 1; k < argc; k++) {
        if (!load(argv[k], k == 1 ? &good : &bad)) {
            fprintf(stderr, "compare: cannot open %s\n", argv[k]);
            return 2;
        }
        if (k == 1)
            continue;
        printf("%s:\n", argv[k]);
        if (print_differences(&good, &bad))
            printf("no difference\n");
        else
            same = 0;
    }
    return same ? 0 : 1;
}
