/* The clock terms as 64-bit floating numbers: af0 times 2^-35, af1 times 2^-48, af2 times 2^-60. */
#ifndef CLOCK_TERMS_H
#define CLOCK_TERMS_H

#include "frame.h"

enum { CLOCK_TERMS = 3, AF0 = 26 };

/* The three terms, as the bits of the floating numbers. */
struct clock {
    uint64_t terms[CLOCK_TERMS];
};

/* A term counts steps of two to the minus this. */
int step_power(int term);

/* The terms of three counts. On a refusal they stay as they were. */
struct answer clock_of(const int64_t *counts, struct clock *clock);

/* The counts of three terms. On a refusal they stay as they were. */
struct answer counts_of(const struct clock *clock, int64_t *counts);

#endif
