/* Numbers that follow from a seed alone. */
#include "cases.h"

chance chance_from(uint64_t seed, uint64_t stream)
{
    chance c = {seed * UINT64_C(0x9E3779B97F4A7C15) ^ stream * UINT64_C(0xD1B54A32D192ED03), 0};
    draw(&c);
    return c;
}

/* splitmix64 */
uint64_t draw(chance *c)
{
    uint64_t z = c->state += UINT64_C(0x9E3779B97F4A7C15);
    z = (z ^ z >> 30) * UINT64_C(0xBF58476D1CE4E5B9);
    z = (z ^ z >> 27) * UINT64_C(0x94D049BB133111EB);
    return z ^ z >> 31;
}

uint64_t below(chance *c, uint64_t bound)
{
    return (draw(c) >> 16) % bound;
}

int one_in(chance *c, unsigned n)
{
    return below(c, n) == 0;
}

uint8_t draw_byte(chance *c)
{
    switch (below(c, 8)) {
    case 0: return 0x00;
    case 1: return 0xFF;
    default: return (uint8_t)below(c, 256);
    }
}
