/* The order of the symbols, and where the parts of a frame stand (IS-GPS-800, 3.2.3.5 and Figure 3.2-6). */
#ifndef ORDER_H
#define ORDER_H

#include "time_word.h"

enum { BLOCK_2 = 1200, BLOCK_3 = 548, ORDERED = BLOCK_2 + BLOCK_3, FRAME_SYMBOLS = WORD_SYMBOLS + ORDERED };

/* A frame's symbols before interleaving. */
struct parts {
    unsigned char word[WORD_SYMBOLS];
    unsigned char two[BLOCK_2];
    unsigned char three[BLOCK_3];
};

/* The 1800 symbols as they are sent. */
void to_frame(const struct parts *parts, unsigned char *frame);

/* The parts of the 1800 symbols. */
void from_frame(const unsigned char *frame, struct parts *parts);

#endif
