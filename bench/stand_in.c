/* What timed.h declares, carried out by the reference: what the timing of the check is tried on where there is no
 * library. */
#include "reference/reference.h"
#include "timed.h"

uint64_t timed_checks(const uint8_t *s, size_t s_len, uint8_t n, uint32_t count)
{
    uint64_t sum = 0;
    for (uint64_t k = 0; k < count; k++)
        sum += check_of(s, s_len, k * (n + 10u), n);
    return sum;
}

uint64_t timed_blocks(const uint8_t *s, size_t s_len, uint8_t n, uint32_t count)
{
    uint64_t sum = 0;
    for (uint64_t k = 0; k < count; k++)
        sum += (unsigned)block_is_right(s, s_len, k * (n + 10u), n);
    return sum;
}
