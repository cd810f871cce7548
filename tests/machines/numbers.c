/* Drawn numbers: splitmix64, begun anew for each case, so that a case is told by seed and number. */
#include "draw.h"

static uint64_t state;

uint64_t any(void)
{
    uint64_t word = state += 0x9e3779b97f4a7c15;
    word = (word ^ word >> 30) * 0xbf58476d1ce4e5b9;
    word = (word ^ word >> 27) * 0x94d049bb133111eb;
    return word ^ word >> 31;
}

void begin_draw(uint64_t seed, uint64_t number)
{
    state = seed;
    state = any() ^ number;
    state = any();
}

uint64_t below(uint64_t n) { return any() % n; }

uint64_t between(uint64_t least, uint64_t most) { return most - least == UINT64_MAX ? any() : least + below(most - least + 1); }

int chance(unsigned percent) { return below(100) < percent; }

static unsigned bits_of(uint64_t number)
{
    unsigned bits = 0;
    for (; number != 0; number >>= 1)
        bits++;
    return bits;
}

uint64_t spread(uint64_t least, uint64_t most)
{
    const unsigned bits = (unsigned)between(bits_of(least), bits_of(most));
    const uint64_t drawn = bits == 0 ? 0 : (any() | (uint64_t)1 << 63) >> (64 - bits);
    return drawn < least ? least : drawn > most ? most : drawn;
}

uint64_t one_of(const uint64_t *list, size_t count) { return list[below(count)]; }

void shuffle(size_t *list, size_t count)
{
    for (size_t i = count; i > 1; i--) {
        const size_t j = below(i), held = list[i - 1];
        list[i - 1] = list[j];
        list[j] = held;
    }
}
