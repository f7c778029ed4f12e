/* Reads a capture, as the program ehtsig does, and prints its stations from the radiotap words.
 *
 *     ./library
 *     cc -Iinclude -o target/stations examples/c/stations.c target/staticlib/libbrachymel.a
 *     target/stations <examples/annex-z8.txt
 */
#include <brachymel.h>

#include <stdio.h>
#include <string.h>

/* Pairs of hex digits into bytes; returns how many, and stops at anything else. */
static size_t bytes_of(const char *hex, uint8_t *bytes, size_t room)
{
    size_t n = 0;
    unsigned byte;
    while (n < room && sscanf(hex + 2 * n, "%2X", &byte) == 1)
        bytes[n++] = (uint8_t)byte;
    return n;
}

static uint32_t word_at(const uint8_t *words, uint64_t k)
{
    const uint8_t *w = words + 4 * k;
    return w[0] | (uint32_t)w[1] << 8 | (uint32_t)w[2] << 16 | (uint32_t)w[3] << 24;
}

static void print_station(uint32_t word)
{
    unsigned id = word >> 8 & 0x7FF;
    if (id == BRACHYMEL_UNASSIGNED) { /* a resource that nobody has: the rest of its field is arbitrary */
        printf("station none\n");
        return;
    }
    printf("station %u: MCS %u, coding %u, ", id, (unsigned)(word >> 20 & 0xF), (unsigned)(word >> 19 & 1));
    if (word & 0x40) /* on a resource that it shares */
        printf("spatial configuration %u\n", (unsigned)(word >> 24 & 0x3F));
    else
        printf("NSS %u, beamformed %u\n", (unsigned)(word >> 24 & 0xF), (unsigned)(word >> 29 & 1));
}

int main(void)
{
    static char line[2 * BRACHYMEL_CHANNEL_LIMIT + 16];
    static uint8_t cc1[BRACHYMEL_CHANNEL_LIMIT], cc2[BRACHYMEL_CHANNEL_LIMIT], words[BRACHYMEL_WORDS_SIZE];
    size_t cc1_len = 0, cc2_len = 0;
    unsigned bandwidth = 0;
    brachymel_answer a;
    while (fgets(line, sizeof line, stdin) != NULL) {
        if (strncmp(line, "bw=", 3) == 0)
            sscanf(line + 3, "%u", &bandwidth);
        else if (strncmp(line, "cc1=", 4) == 0)
            cc1_len = bytes_of(line + 4, cc1, sizeof cc1);
        else if (strncmp(line, "cc2=", 4) == 0)
            cc2_len = bytes_of(line + 4, cc2, sizeof cc2);
    }
    a = brachymel_read(bandwidth, cc1, cc1_len, cc2, cc2_len, words, sizeof words);
    if (a.number != BRACHYMEL_ACCEPTED) {
        printf("refused: answer %u, channel %u, place %llu\n", (unsigned)a.number, (unsigned)a.channel,
               (unsigned long long)a.place);
        return 1;
    }
    for (uint64_t k = 10; k < a.place; k++)
        print_station(word_at(words, k));
    return 0;
}
