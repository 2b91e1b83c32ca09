/* Parts that lines of several kinds have; cases.c describes them. Each is printed behind a space. */
#ifndef LINE_PARTS_H
#define LINE_PARTS_H

#include "answer.h"
#include "text.h"

#include <stdint.h>

void print_answer(struct answer answer);
void print_counts(const int64_t *counts, int count);

/* One character a bit, or a byte 2. */
void print_bits(const unsigned char *bits, int count);

/* Four symbols of a frame a digit, the first the most significant. */
void print_frame(const unsigned char *frame);

/* How many of the bytes differ from these, then the place of each that does, and the byte. */
void print_changes(const unsigned char *from, const unsigned char *bytes, int count);

/* Bytes, and a text by the longest parts of the base. */
void print_bytes(const unsigned char *bytes, int count);
void print_text(const struct text *base, const struct text *text);

#endif
