#include "crc.h"

#include <string.h>

/* The powers of x in the generator. */
static const int powers[] = {24, 23, 18, 17, 14, 11, 10, 7, 6, 5, 4, 3, 1, 0};

enum { POWER_COUNT = sizeof powers / sizeof powers[0] };

/* Takes the generator off the dividend, its x^24 standing at that place. */
static void take_off(unsigned char *dividend, int place)
{
    for (int i = 0; i < POWER_COUNT; i++)
        dividend[place + CHECK_BITS - powers[i]] ^= 1;
}

/* The remainder of the bits times x^24. */
static void divide(const unsigned char *bits, int count, unsigned char *remainder)
{
    unsigned char dividend[MOST_CHECKED + CHECK_BITS] = {0};
    memcpy(dividend, bits, (size_t)count);
    for (int place = 0; place < count; place++)
        if (dividend[place] == 1)
            take_off(dividend, place);
    memcpy(remainder, &dividend[count], CHECK_BITS);
}

void append_check_bits(unsigned char *bits, int count)
{
    divide(bits, count, &bits[count]);
}

int check_bits_agree(const unsigned char *bits, int count)
{
    unsigned char remainder[CHECK_BITS];
    divide(bits, count, remainder);
    return memcmp(remainder, &bits[count], CHECK_BITS) == 0;
}
