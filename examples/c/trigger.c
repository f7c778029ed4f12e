/* Reads the EHT variant User Info entries of a Trigger frame, and tells which of them share subcarriers.
 *
 *     ./library
 *     cc -Iinclude -o target/trigger examples/c/trigger.c target/staticlib/libbrachymel.a
 *     target/trigger 2 0B40FA023C 0CC036033C
 *
 * The first argument is the bandwidth code, 0, 1 or 2 for 20, 40 or 80 MHz. Each other one is an entry: its five bytes,
 * the first one first, as ten hex digits. Exits with 0 if the list is accepted, 1 if it is refused.
 */
#include <brachymel.h>

#include <stdio.h>
#include <string.h>

/* Ten hex digits into five bytes; whether that is what the text is. */
static int entry_of(const char *hex, uint8_t *entry)
{
    if (strlen(hex) != 10 || strspn(hex, "0123456789ABCDEFabcdef") != 10)
        return 0;
    for (unsigned k = 0; k < BRACHYMEL_ENTRY_SIZE; k++) {
        unsigned byte = 0;
        sscanf(hex + 2 * k, "%2x", &byte);
        entry[k] = (uint8_t)byte;
    }
    return 1;
}

static unsigned number_at(const uint8_t *record, unsigned k)
{
    const uint8_t *n = record + 4 * k;
    return n[0] | (unsigned)n[1] << 8 | (unsigned)n[2] << 16 | (unsigned)n[3] << 24;
}

static void print_entry(uint32_t bandwidth, unsigned place, const uint8_t *entry)
{
    uint8_t record[BRACHYMEL_RECORD_SIZE];
    brachymel_answer a = brachymel_trigger_read(bandwidth, entry, BRACHYMEL_ENTRY_SIZE, record, sizeof record);
    printf("entry %u: ", place);
    if (a.number != BRACHYMEL_ACCEPTED)
        printf("refused, answer %u\n", (unsigned)a.number);
    else
        printf("AID %u, %u subcarriers, index %u, MCS %u\n", number_at(record, BRACHYMEL_AID12),
               number_at(record, BRACHYMEL_RU_SIZE), number_at(record, BRACHYMEL_RU_INDEX),
               number_at(record, BRACHYMEL_MCS));
}

static int print_overlaps(uint32_t bandwidth, const uint8_t *entries, size_t length)
{
    uint8_t pairs[BRACHYMEL_PAIRS_SIZE];
    brachymel_answer a = brachymel_trigger_overlaps(bandwidth, entries, length, pairs, sizeof pairs);
    if (a.number != BRACHYMEL_ACCEPTED) {
        printf("refused: answer %u", (unsigned)a.number);
        if (a.place != 0)
            printf(", entry %llu", (unsigned long long)a.place);
        printf("\n");
        return 1;
    }
    for (uint64_t k = 0; k < a.place; k++)
        printf("entries %u and %u share subcarriers\n", (unsigned)pairs[2 * k], (unsigned)pairs[2 * k + 1]);
    if (a.place == 0)
        printf("no two entries share a subcarrier\n");
    return 0;
}

int main(int argc, char **argv)
{
    static uint8_t entries[(BRACHYMEL_ENTRIES_LIMIT + 1) * BRACHYMEL_ENTRY_SIZE]; /* one too many is enough for 25 */
    uint32_t bandwidth;
    size_t length = 0;
    if (argc < 2 || strlen(argv[1]) != 1 || strspn(argv[1], "0123456789") != 1) {
        fprintf(stderr, "usage: trigger BANDWIDTH-CODE ENTRY..\n");
        return 2;
    }
    bandwidth = (uint32_t)(argv[1][0] - '0');
    for (int k = 2; k < argc && length < sizeof entries; k++) {
        if (!entry_of(argv[k], entries + length)) {
            fprintf(stderr, "trigger: not ten hex digits: %s\n", argv[k]);
            return 2;
        }
        print_entry(bandwidth, (unsigned)k - 1, entries + length);
        length += BRACHYMEL_ENTRY_SIZE;
    }
    return print_overlaps(bandwidth, entries, length);
}
