/* Sheets that are changed line by line before they are put together. */
#ifndef SHEET_DRAFT_H
#define SHEET_DRAFT_H

#include "sheet.h"
#include "text.h"

enum { MOST_LINE = 80, MOST_LINES = NUMBERS + 8 };

/* A line has its end, unless that is taken out. */
struct line {
    int count;
    unsigned char bytes[MOST_LINE];
};

struct sheet_draft {
    int count;
    struct line lines[MOST_LINES];
};

/* The lines of a good sheet, in the list's order. */
void start_lines(struct sheet_draft *draft, const int64_t *numbers);

/* Other orders: the line `first` and those behind it, then those before it; and any. */
void turn_lines(struct sheet_draft *draft, int first);
void shuffle_lines(struct sheet_draft *draft);

/* Each changes a line, or puts one in before the line `k`, or takes that out. A line is of a name and a number. */
void set_line(struct sheet_draft *draft, int k, const char *name, const char *number);
void insert_line(struct sheet_draft *draft, int k, const char *name, const char *number);
void insert_empty_line(struct sheet_draft *draft, int k);
void remove_line(struct sheet_draft *draft, int k);

/* Each changes bytes of a line. */
void insert_byte(struct line *line, int at, unsigned char byte);
void remove_byte(struct line *line, int at);

/* Changes a good sheet so that it is refused with this number, 11 to 15, and says how: an empty line or an unknown name before the line
   `k`, a name a second time behind the last line, its number spoilt, or the line taken out. */
struct answer spoil_line(struct sheet_draft *draft, int k, int number);

/* Where a line's first `=` stands, or its length. */
int equals_at(const struct line *line);

/* The line's first byte, counted from the sheet's. */
int line_place(const struct sheet_draft *draft, int k);

/* Puts the lines and their trailer behind the text. */
void add_lines(struct text *text, const struct sheet_draft *draft);
void add_sheet(struct text *text, const struct sheet_draft *draft);

#endif
