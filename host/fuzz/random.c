/* Random numbers: splitmix64. */
#include "fuzz.h"

static uint64_t case_state, placement_state;

static uint64_t next(uint64_t *state)
{
    uint64_t z = *state += 0x9e3779b97f4a7c15u;
    z = (z ^ z >> 30) * 0xbf58476d1ce4e5b9u;
    z = (z ^ z >> 27) * 0x94d049bb133111ebu;
    return z ^ z >> 31;
}

void random_begin(uint64_t seed, uint64_t number)
{
    case_state = seed;
    case_state = next(&case_state) ^ number;
    case_state = next(&case_state);
    placement_state = ~case_state;
}

uint64_t random_word(void)
{
    return next(&case_state);
}

size_t below(size_t n)
{
    return n == 0 ? 0 : random_word() % n;
}

bool one_in(size_t n)
{
    return below(n) == 0;
}

uint64_t placement_word(void)
{
    return next(&placement_state);
}
