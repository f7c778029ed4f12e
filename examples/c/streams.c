/* Reads a capture, as the program ehtsig does, and prints how many spatial streams each station has.
 *
 *     ./library
 *     cc -Iinclude -o target/streams examples/c/streams.c target/staticlib/libbrachymel.a
 *     target/streams <examples/streams.txt
 *
 * Exits with 0 if the capture is accepted, 1 if it is refused.
 */
#include <brachymel.h>

#include <stdio.h>
#include <string.h>

/* Pairs of hex digits into bytes; returns how many, and stops at anything else. */
static size_t bytes_of(const char *hex, uint8_t *bytes, size_t room)
{
    size_t n = 0;
    unsigned byte;
    while (n < room && sscanf(hex + 2 * n, "%2X", &byte) == 1)
        bytes[n++] = (uint8_t)byte;
    return n;
}

/* The STA-ID of User field k: bits 8 to 18 of its word, which comes after ten others. */
static unsigned station_at(const uint8_t *words, uint64_t k)
{
    const uint8_t *w = words + 4 * (10 + k);
    return w[1] | (w[2] & 7u) << 8;
}

static void print_streams(unsigned id, unsigned streams)
{
    if (id == BRACHYMEL_UNASSIGNED) /* a resource, or a place on one, that nobody has */
        printf("station none\n");
    else if (streams == 0) /* alone on its resource, with an NSS above 7 */
        printf("station %u: streams not known\n", id);
    else
        printf("station %u: %u stream%s\n", id, streams, streams == 1 ? "" : "s");
}

int main(void)
{
    static char line[2 * BRACHYMEL_CHANNEL_LIMIT + 16];
    static uint8_t cc1[BRACHYMEL_CHANNEL_LIMIT], cc2[BRACHYMEL_CHANNEL_LIMIT];
    static uint8_t words[BRACHYMEL_WORDS_SIZE], streams[BRACHYMEL_STREAMS_SIZE];
    size_t cc1_len = 0, cc2_len = 0;
    unsigned bandwidth = 0;
    brachymel_answer a;
    while (fgets(line, sizeof line, stdin) != NULL) {
        if (strncmp(line, "bw=", 3) == 0)
            sscanf(line + 3, "%u", &bandwidth);
        else if (strncmp(line, "cc1=", 4) == 0)
            cc1_len = bytes_of(line + 4, cc1, sizeof cc1);
        else if (strncmp(line, "cc2=", 4) == 0)
            cc2_len = bytes_of(line + 4, cc2, sizeof cc2);
    }
    a = brachymel_streams(bandwidth, cc1, cc1_len, cc2, cc2_len, streams, sizeof streams);
    if (a.number == BRACHYMEL_NO_ROW) {
        printf("refused: answer %u, a spatial configuration that names no row\n", (unsigned)a.number);
        return 1;
    }
    if (a.number != BRACHYMEL_ACCEPTED) {
        printf("refused: answer %u, channel %u, place %llu\n", (unsigned)a.number, (unsigned)a.channel,
               (unsigned long long)a.place);
        return 1;
    }
    brachymel_read(bandwidth, cc1, cc1_len, cc2, cc2_len, words, sizeof words); /* accepted too: there is room for all words */
    for (uint64_t k = 0; k < a.place; k++)
        print_streams(station_at(words, k), streams[k]);
    return 0;
}
