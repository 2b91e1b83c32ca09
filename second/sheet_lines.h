/* The lines SW, SR and SK, which cases.c describes. */
#ifndef SHEET_LINES_H
#define SHEET_LINES_H

#include "sheet.h"
#include "text.h"

/* The most bytes that a sheet is written into. */
enum { MOST_ROOM = 5000 };

/* The sheet whose parts texts are told by, and whose numbers good sheets have. */
struct sheet_base {
    int64_t numbers[NUMBERS];
    struct text text;
};

/* SW. Writes into `room` bytes; the sheet becomes the base unless it is refused. */
void print_sheet_writing(struct sheet_base *base, const int64_t *numbers, int room);

/* SR. Reads the text; what is read is checked first. */
void print_sheet_reading(const struct sheet_base *base, const struct text *text);

/* The same of a text that is meant to be refused so. */
void print_sheet_refused(const struct sheet_base *base, const struct text *text, int number, int place);

/* SK. Walks over the text from a place on, and takes one step more than it needs. The walk is meant to read so many sheets and then
   to be refused with this number or, where the number is 0, to be finished. */
void print_walk(const struct sheet_base *base, const struct text *text, int place, int sheets, int number);

#endif
