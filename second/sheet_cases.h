/* The cases of sheets: the lines SW, SR and SK. */
#ifndef SHEET_CASES_H
#define SHEET_CASES_H

#include "sheet_draft.h"
#include "sheet_lines.h"

/* Prints all of them. */
void print_sheet_cases(void);

/* Sheets that are written and read, in the list's order and in others. */
void print_good_sheet_cases(struct sheet_base *base);

/* Writing that is refused, and room that is just enough or just not. */
void print_sheet_writing_cases(struct sheet_base *base);

/* Texts that are refused 10, and trailers that count other bytes than the sheet's. */
void print_trailer_cases(struct sheet_base *base);

/* Sheets that are refused 11; 12 and 13; 14; 15, or for several reasons; and any bytes. */
void print_line_cases(struct sheet_base *base);
void print_name_cases(struct sheet_base *base);
void print_number_cases(struct sheet_base *base);
void print_bad_sheet_cases(struct sheet_base *base);

/* Walks over texts of several sheets. */
void print_walk_cases(struct sheet_base *base);

/* Random numbers in the ranges of the list. */
void random_numbers(int64_t *numbers);

/* A new base, with random numbers, is written. */
void new_sheet_base(struct sheet_base *base);

/* The text becomes bytes that stand before a sheet: any bytes, such as sheets have, or the base; or such a text or none. */
void start_behind(struct text *text, const struct sheet_base *base);
void start_text(struct text *text, const struct sheet_base *base);

/* Reads this sheet behind such bytes; it is meant to be refused so. */
void print_draft_refused(const struct sheet_base *base, const struct sheet_draft *draft, int number, int place);

#endif
