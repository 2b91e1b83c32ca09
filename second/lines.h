/* The lines FB, FW and FR, which cases.c describes. */
#ifndef LINES_H
#define LINES_H

#include "frame.h"

/* The frame that readings start from, with what it was built of or what its bits stand for. */
struct base {
    const struct codes *codes;
    int is_built;
    struct contents contents;
    unsigned char frame[FRAME_SYMBOLS];
};

/* FB. The frame becomes the base unless it is refused. */
void print_building(struct base *base, const struct contents *contents);

/* FW. The frame of these parts becomes the base. */
void print_written(struct base *base, const struct parts *parts);

/* FR: reads these 1800 symbols, the first `length` of them or with a 0 behind them. What was read is checked first. */
void print_reading(const struct base *base, const unsigned char *symbols, int length);

#endif
