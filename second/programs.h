/* The bench program, which document 01 describes, and the way back: from the bytes that are read to those that are printed. */
#ifndef PROGRAMS_H
#define PROGRAMS_H

#include "frame.h"
#include "text.h"

enum { MOST_INPUT = 8192 };

/* Bits as a line of characters. */
void add_bit_line(struct text *text, const unsigned char *bits, int count);

/* A page line and a sheet give a frame. */
void run_bench(const struct codes *codes, const struct text *input, struct text *output);

/* A frame gives how many symbols were corrected, a page line and a sheet. */
void run_readback(const struct codes *codes, const struct text *input, struct text *output);

#endif
