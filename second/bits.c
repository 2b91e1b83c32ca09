#include "bits.h"

static int64_t two_to_the(int power)
{
    int64_t product = 1;
    for (int i = 0; i < power; i++)
        product *= 2;
    return product;
}

void put_number(unsigned char *bits, int width, int64_t number)
{
    int64_t left = number < 0 ? number + two_to_the(width) : number;
    for (int i = width - 1; i >= 0; i--) {
        bits[i] = (unsigned char)(left % 2);
        left /= 2;
    }
}

int64_t take_unsigned(const unsigned char *bits, int width)
{
    int64_t number = 0;
    for (int i = 0; i < width; i++)
        number = 2 * number + bits[i];
    return number;
}

int64_t take_signed(const unsigned char *bits, int width)
{
    int64_t number = take_unsigned(bits, width);
    return bits[0] == 1 ? number - two_to_the(width) : number;
}

int first_no_bit(const unsigned char *bytes, int count)
{
    for (int i = 0; i < count; i++)
        if (bytes[i] > 1)
            return i;
    return -1;
}
