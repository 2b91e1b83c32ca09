#include "random.h"

static uint64_t state = 0x800123456789ABCD;

static uint32_t next_number(void)
{
    state ^= state >> 12;
    state ^= state << 25;
    state ^= state >> 27;
    return (uint32_t)((state * 0x2545F4914F6CDD1D) >> 32);
}

int random_below(int below)
{
    return (int)(next_number() % (uint32_t)below);
}

int64_t random_between(int64_t least, int64_t largest)
{
    uint64_t high = next_number();
    uint64_t number = high << 32 | next_number();
    return least + (int64_t)(number % (uint64_t)(largest - least + 1));
}
