/* The lines BF, BN and RB, which cases.c describes. */
#ifndef PROGRAM_LINES_H
#define PROGRAM_LINES_H

#include "lines.h"
#include "programs.h"

/* The frame that is read back, and the text whose parts texts are told by: the last good input of the bench program, and what that
   printed. */
struct program_base {
    const struct codes *codes;
    unsigned char frame[FRAME_SYMBOLS];
    struct text text;
};

/* BF or BN. The input is meant to be answered so; it becomes the base where a frame is printed. */
void print_bench(struct program_base *base, const struct text *input, struct answer meant);

/* The text becomes the base frame as it is printed. */
void start_symbols(struct text *text, const struct program_base *base);

/* RB. Reads back at most 1802 bytes; what is printed is checked first. */
void print_readback(const struct program_base *base, const struct text *input);

/* The same of an input that is meant to be refused so. */
void print_readback_refused(const struct program_base *base, const struct text *input, int number, int place);

/* RB of a frame as it is, by no parts of another text. */
void print_frame_readback(const struct base *base);

#endif
