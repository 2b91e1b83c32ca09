#include "clock_terms.h"

#include <string.h>

int step_power(int term)
{
    static const int powers[CLOCK_TERMS] = {35, 48, 60};
    return powers[term];
}

static struct answer term_refused(int term)
{
    return refused(6, first_bit(&subframe_2, AF0 + term));
}

/* A floating number has a sign, an exponent of 11 bits and 52 bits of a fraction. It stands for (1 + fraction / 2^52) times two to the
   exponent less 1023; where the exponent is zero, for fraction / 2^52 times 2^-1022; where it is 2047, for no finite number. */
enum { FRACTION_BITS = 52, NOT_FINITE = 2047, ONE = 1023 };

/* The floating number is written out bit by bit: no floating arithmetic is done. `count` is less than 2^52 from zero. */
static uint64_t term_of(int64_t count, int power)
{
    uint64_t left = (uint64_t)(count < 0 ? -count : count);
    uint64_t sign = count < 0;
    int exponent = ONE + FRACTION_BITS - power;
    if (count == 0)
        return 0;
    while (left >> FRACTION_BITS == 0) {
        left *= 2;
        exponent--;
    }
    return sign << 63 | (uint64_t)exponent << FRACTION_BITS | (left - ((uint64_t)1 << FRACTION_BITS));
}

/* How many steps the term has, or none: it is taken apart into an odd number and a power of two. */
static int takes_steps(uint64_t term, int power, int64_t *steps)
{
    uint64_t odd = term % ((uint64_t)1 << FRACTION_BITS);
    int exponent = (int)(term >> FRACTION_BITS & NOT_FINITE);
    *steps = 0;
    if (term == 0)
        return 1;
    if (exponent == NOT_FINITE || exponent == 0)
        return 0;
    odd += (uint64_t)1 << FRACTION_BITS;
    int twos = exponent - ONE - FRACTION_BITS + power;
    for (; odd % 2 == 0; odd /= 2)
        twos++;
    if (twos < 0 || twos > 62 || odd >> (62 - twos) != 0)
        return 0;
    *steps = (term >> 63 == 1 ? -1 : 1) * (int64_t)(odd << twos);
    return 1;
}

static int is_in_width(int term, int64_t count)
{
    return count >= least_count(&subframe_2, AF0 + term) && count <= largest_count(&subframe_2, AF0 + term);
}

struct answer clock_of(const int64_t *counts, struct clock *clock)
{
    for (int i = 0; i < CLOCK_TERMS; i++)
        if (!is_in_width(i, counts[i]))
            return term_refused(i);
    for (int i = 0; i < CLOCK_TERMS; i++)
        clock->terms[i] = term_of(counts[i], step_power(i));
    return done;
}

struct answer counts_of(const struct clock *clock, int64_t *counts)
{
    int64_t steps[CLOCK_TERMS];
    for (int i = 0; i < CLOCK_TERMS; i++)
        if (!takes_steps(clock->terms[i], step_power(i), &steps[i]) || !is_in_width(i, steps[i]))
            return term_refused(i);
    memcpy(counts, steps, sizeof steps);
    return done;
}
