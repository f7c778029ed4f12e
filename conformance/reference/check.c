/* The check and the tail that end each block. */
#include "reference.h"

/* "Check: remainder by x^8+x^2+x+1, register starting as all ones, bits in sending order, register
 * inverted; its upper four bits are sent, highest first."
 *
 * The four sent bits are returned as a number whose lowest bit is sent first, so that it can be
 * compared with a field ("all fields go lowest bit first"). */
unsigned check_of(const uint8_t *bytes, size_t length, uint64_t at, uint64_t width)
{
    unsigned remainder = 0xFF; /* the coefficients of x^7 (bit 7) down to 1 (bit 0) */
    unsigned sent = 0;
    for (uint64_t k = 0; k < width; k++) {
        unsigned leads = (remainder >> 7 & 1) ^ bit_of(bytes, length, at + k);
        remainder = remainder << 1 & 0xFF; /* times x .. */
        if (leads)
            remainder ^= 0x07; /* .. and less the divisor: x^8 is x^2 + x + 1 */
    }
    remainder = ~remainder & 0xFF;
    for (unsigned k = 0; k < 4; k++)
        sent |= (remainder >> (7 - k) & 1) << k;
    return sent;
}

/* "It covers its own block's bits before it. Tail is zero." The block's covered bits are `width` bits
 * from `at`; the check of 4 and the tail of 6 follow. */
int block_is_right(const uint8_t *bytes, size_t length, uint64_t at, uint64_t width)
{
    return field_of(bytes, length, at + width, 4) == check_of(bytes, length, at, width)
        && field_of(bytes, length, at + width + 4, 6) == 0;
}
