/* Numbers as bits. A bit is one byte, 0 or 1, and a number's first bit is its most significant. */
#ifndef BITS_H
#define BITS_H

#include <stdint.h>

/* Writes the number as `width` bits, fewer than 63; a negative one as two's complement. It has to fit. */
void put_number(unsigned char *bits, int width, int64_t number);

/* The bits as a number. */
int64_t take_unsigned(const unsigned char *bits, int width);

/* The bits as a number, less 2^width where the first bit is one. */
int64_t take_signed(const unsigned char *bits, int width);

/* The index, from 0, of the first byte that is neither 0 nor 1, or -1. */
int first_no_bit(const unsigned char *bytes, int count);

#endif
