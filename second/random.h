/* Random numbers that are the same on every machine: xorshift64*, from a fixed seed. */
#ifndef RANDOM_H
#define RANDOM_H

#include <stdint.h>

/* A number from 0 to below - 1. */
int random_below(int below);

/* A number from least to largest, which are less than 2^63 apart. */
int64_t random_between(int64_t least, int64_t largest);

#endif
