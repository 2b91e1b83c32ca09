/* Fields of bits that stand one behind another, and the counts in them. */
#ifndef FIELDS_H
#define FIELDS_H

#include <stdint.h>

/* SIGNED is two's complement; LIMITED is unsigned with a range narrower than its width. */
enum form { UNSIGNED, SIGNED, LIMITED };

/* The range is given only for LIMITED. */
struct field {
    const char *name;
    int width;
    enum form form;
    int64_t lowest, highest;
};

/* Bits are numbered from 1, over all the bits that the fields are part of. */
struct layout {
    int first_bit;
    int count;
    const struct field *fields;
};

enum { SUBFRAME_2_BITS = 576, COUNTS = 33, FIRST_RESERVED = 567 };

/* Subframe 2 (Table 3.5-1). */
extern const struct layout subframe_2;

/* The first bit of a field, and its range. Fields are counted from 0. */
int first_bit(const struct layout *layout, int field);
int64_t least_count(const struct layout *layout, int field);
int64_t largest_count(const struct layout *layout, int field);

/* Writes the counts, which have to fit in the widths, and takes them back. `bits` begins at bit 1. */
void put_counts(const struct layout *layout, const int64_t *counts, unsigned char *bits);
void take_counts(const struct layout *layout, const unsigned char *bits, int64_t *counts);

/* The first bit of the first field whose count is out of range, or 0. */
int first_out_of_range(const struct layout *layout, const int64_t *counts);

#endif
