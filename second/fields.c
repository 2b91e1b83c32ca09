#include "fields.h"

#include "bits.h"

static const struct field subframe_2_fields[COUNTS] = {
    {"wn", 13, UNSIGNED, 0, 0},
    {"itow", 8, LIMITED, 0, 83},
    {"top", 11, LIMITED, 0, 2015},
    {"health", 1, UNSIGNED, 0, 0},
    {"uraoe", 5, SIGNED, 0, 0},
    {"toe", 11, LIMITED, 0, 2015},
    {"da", 26, SIGNED, 0, 0},
    {"adot", 25, SIGNED, 0, 0},
    {"dn0", 17, SIGNED, 0, 0},
    {"dn0dot", 23, SIGNED, 0, 0},
    {"m0", 33, SIGNED, 0, 0},
    {"ecc", 33, UNSIGNED, 0, 0},
    {"omega", 33, SIGNED, 0, 0},
    {"omega0", 33, SIGNED, 0, 0},
    {"i0", 33, SIGNED, 0, 0},
    {"domegadot", 17, SIGNED, 0, 0},
    {"idot", 15, SIGNED, 0, 0},
    {"cis", 16, SIGNED, 0, 0},
    {"cic", 16, SIGNED, 0, 0},
    {"crs", 24, SIGNED, 0, 0},
    {"crc", 24, SIGNED, 0, 0},
    {"cus", 21, SIGNED, 0, 0},
    {"cuc", 21, SIGNED, 0, 0},
    {"uraoc", 5, SIGNED, 0, 0},
    {"uraoc1", 3, UNSIGNED, 0, 0},
    {"uraoc2", 3, UNSIGNED, 0, 0},
    {"af0", 26, SIGNED, 0, 0},
    {"af1", 20, SIGNED, 0, 0},
    {"af2", 10, SIGNED, 0, 0},
    {"tgd", 13, SIGNED, 0, 0},
    {"iscp", 13, SIGNED, 0, 0},
    {"iscd", 13, SIGNED, 0, 0},
    {"isf", 1, UNSIGNED, 0, 0},
};

const struct layout subframe_2 = {1, COUNTS, subframe_2_fields};

int first_bit(const struct layout *layout, int field)
{
    int bit = layout->first_bit;
    for (int i = 0; i < field; i++)
        bit += layout->fields[i].width;
    return bit;
}

/* A field's range is that of its pattern of bits: for two's complement, of a one and zeros, and of a zero and ones. */
int64_t least_count(const struct layout *layout, int field)
{
    const struct field *f = &layout->fields[field];
    if (f->form == LIMITED)
        return f->lowest;
    return f->form == SIGNED ? -((int64_t)1 << (f->width - 1)) : 0;
}

int64_t largest_count(const struct layout *layout, int field)
{
    const struct field *f = &layout->fields[field];
    if (f->form == LIMITED)
        return f->highest;
    return ((int64_t)1 << (f->form == SIGNED ? f->width - 1 : f->width)) - 1;
}

void put_counts(const struct layout *layout, const int64_t *counts, unsigned char *bits)
{
    for (int i = 0; i < layout->count; i++)
        put_number(&bits[first_bit(layout, i) - 1], layout->fields[i].width, counts[i]);
}

void take_counts(const struct layout *layout, const unsigned char *bits, int64_t *counts)
{
    for (int i = 0; i < layout->count; i++) {
        const unsigned char *start = &bits[first_bit(layout, i) - 1];
        int width = layout->fields[i].width;
        counts[i] = layout->fields[i].form == SIGNED ? take_signed(start, width) : take_unsigned(start, width);
    }
}

int first_out_of_range(const struct layout *layout, const int64_t *counts)
{
    for (int i = 0; i < layout->count; i++)
        if (counts[i] < least_count(layout, i) || counts[i] > largest_count(layout, i))
            return first_bit(layout, i);
    return 0;
}
