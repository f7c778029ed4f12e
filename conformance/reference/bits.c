/* Bits and fields of a byte string. */
#include "reference.h"

/* "its first bit is the lowest bit of byte 0". A bit past the end counts as 0; the checks 3 and 9
 * measure a channel before anything past its end could matter. */
unsigned bit_of(const uint8_t *bytes, size_t length, uint64_t i)
{
    if (i / 8 >= length)
        return 0;
    return bytes[i / 8] >> (i % 8) & 1;
}

/* "all fields go lowest bit first". */
uint32_t field_of(const uint8_t *bytes, size_t length, uint64_t at, unsigned width)
{
    uint32_t value = 0;
    for (unsigned k = 0; k < width; k++)
        value |= (uint32_t)bit_of(bytes, length, at + k) << k;
    return value;
}

/* How many of the bits at, at + 1, .., at + width - 1 lie past the end. */
uint64_t bits_lacking(const uint8_t *bytes, size_t length, uint64_t at, uint64_t width)
{
    uint64_t lacking = 0;
    (void)bytes;
    for (uint64_t k = 0; k < width; k++)
        if ((at + k) / 8 >= length)
            lacking++;
    return lacking;
}

/* The lowest k below width for which the two strings differ in bit at + k; width if there is none. */
uint64_t first_difference(const uint8_t *s, size_t s_length, const uint8_t *t, size_t t_length,
                          uint64_t at, uint64_t width)
{
    for (uint64_t k = 0; k < width; k++)
        if (bit_of(s, s_length, at + k) != bit_of(t, t_length, at + k))
            return k;
    return width;
}

/* Sets the bits at, .., at + width - 1 to the lowest width bits of value, lowest first. Bits past the
 * end are dropped, and every other bit stays as it was. */
void put_field(uint8_t *bytes, size_t length, uint64_t at, unsigned width, uint32_t value)
{
    for (unsigned k = 0; k < width; k++) {
        uint64_t i = at + k;
        if (i / 8 >= length)
            continue;
        bytes[i / 8] &= (uint8_t)~(1u << (i % 8));
        bytes[i / 8] |= (uint8_t)((value >> k & 1) << (i % 8));
    }
}
