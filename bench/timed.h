/* timed.h: the proved check of crates/block by itself, for timing. Link with libtimed.a.
 *
 * Blocks of n bits stand one after the other from bit 0, each followed by its check of four bits and its tail of six. A
 * check is its four bits as a number, the first sent lowest. Bits past the end of s are 0. */
#ifndef TIMED_H
#define TIMED_H

#include <stddef.h>
#include <stdint.h>

/* The sum of the checks that the bits of `count` blocks should have. */
uint64_t timed_checks(const uint8_t *s, size_t s_len, uint8_t n, uint32_t count);

/* How many of `count` blocks are right: check and tail. */
uint64_t timed_blocks(const uint8_t *s, size_t s_len, uint8_t n, uint32_t count);

#endif
