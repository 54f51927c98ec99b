/* A repeatable generator (splitmix64). */
#include "damage.h"

#include <string.h>

static uint64_t state;

void random_seed(uint64_t seed)
{
    state = seed;
}

uint64_t random_next(void)
{
    uint64_t mixed = state += UINT64_C(0x9e3779b97f4a7c15);
    mixed = (mixed ^ mixed >> 30) * UINT64_C(0xbf58476d1ce4e5b9);
    mixed = (mixed ^ mixed >> 27) * UINT64_C(0x94d049bb133111eb);
    return mixed ^ mixed >> 31;
}

size_t random_below(size_t bound)
{
    return (size_t)(random_next() % bound);
}

bool one_in(size_t times)
{
    return random_below(times) == 0;
}

void random_fill(void *octets, size_t length)
{
    uint8_t *at = octets;
    while (length > 0) {
        uint64_t drawn = random_next();
        size_t part = length < sizeof drawn ? length : sizeof drawn;
        memcpy(at, &drawn, part);
        at += part;
        length -= part;
    }
}

void damage_octets(void *octets, size_t length)
{
    uint8_t *at = octets;
    for (size_t changes = 1 + random_below(4); changes > 0 && length > 0; changes--) {
        size_t near = length < 64 ? length : 64;
        size_t where = random_below(one_in(2) ? near : length);
        if (one_in(2))
            at[where] ^= (uint8_t)(1 << random_below(8));
        else
            at[where] = (uint8_t)random_next();
    }
}
