/* The baseline: the promises of the C entries, and of timed.h, kept by plain, fast C (fast.c). */
#ifndef FAST_H
#define FAST_H

#include "brachymel.h"

brachymel_answer fast_read(uint32_t bandwidth, const uint8_t *cc1, size_t cc1_len, const uint8_t *cc2, size_t cc2_len,
                           uint8_t *words, size_t words_len);
brachymel_answer fast_write(uint32_t bandwidth, const uint8_t *words, size_t words_len, uint8_t *cc1, size_t cc1_len,
                            uint8_t *cc2, size_t cc2_len);
brachymel_answer fast_list(uint32_t bandwidth, const uint8_t *cc1, size_t cc1_len, const uint8_t *cc2, size_t cc2_len,
                           uint8_t *text, size_t text_len);

brachymel_answer fast_compare(uint32_t bandwidth1, const uint8_t *cc1, size_t cc1_len, const uint8_t *cc2, size_t cc2_len,
                              uint32_t bandwidth2, const uint8_t *other1, size_t other1_len, const uint8_t *other2,
                              size_t other2_len, uint8_t *text, size_t text_len);

brachymel_answer fast_trigger_read(uint32_t bandwidth, const uint8_t *entry, size_t entry_len, uint8_t *record,
                                   size_t record_len);
brachymel_answer fast_trigger_write(uint32_t bandwidth, const uint8_t *record, size_t record_len, uint8_t *entry,
                                    size_t entry_len);
brachymel_answer fast_trigger_overlaps(uint32_t bandwidth, const uint8_t *entries, size_t entries_len, uint8_t *pairs,
                                       size_t pairs_len);

brachymel_answer fast_streams_row(uint32_t users, uint32_t number, uint8_t *row, size_t row_len);
brachymel_answer fast_streams_number(const uint8_t *row, size_t row_len);
brachymel_answer fast_streams(uint32_t bandwidth, const uint8_t *cc1, size_t cc1_len, const uint8_t *cc2, size_t cc2_len,
                              uint8_t *streams, size_t streams_len);

/* As timed_checks and timed_blocks, of blocks of at most 64 bits. */
uint64_t fast_checks(const uint8_t *s, size_t s_len, uint8_t n, uint32_t count);
uint64_t fast_blocks(const uint8_t *s, size_t s_len, uint8_t n, uint32_t count);

#endif
