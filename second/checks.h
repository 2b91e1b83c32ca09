/* What has to hold of every reading. Where it does not, the program ends. */
#ifndef CHECKS_H
#define CHECKS_H

#include "lines.h"

/* The answers of reading whole and of each part alone, with the contents that reading whole and reading alone gave. */
struct reading {
    struct answer read, time, two, three;
    struct contents whole;
    struct contents alone;
};

/* Checks what was read out of a frame of `length` symbols that was made from the base by changing symbols. */
void check_reading(const struct base *base, const unsigned char *frame, int length, const struct reading *reading);

#endif
