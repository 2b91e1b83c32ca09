/* The cases of the programs: the lines BF, BN and RB. */
#ifndef PROGRAM_CASES_H
#define PROGRAM_CASES_H

#include "program_lines.h"
#include "sheet_draft.h"

/* Prints all of them. */
void print_program_cases(const struct codes *codes);

/* Inputs of which the bench program makes frames, each frame read back plain and with damage. */
void print_good_bench_cases(struct program_base *base);

/* Inputs whose page line is refused, and inputs that are too long. */
void print_page_line_cases(struct program_base *base);

/* Inputs whose sheet or whose page is refused, and inputs that are bad in several ways. */
void print_bench_sheet_cases(struct program_base *base);

/* Inputs of reading back that are no frame, and frames with damage. */
void print_readback_cases(struct program_base *base);

/* Page bits and numbers, of which inputs are made. */
struct input_parts {
    unsigned char page[PAGE_BITS];
    int64_t numbers[NUMBERS];
};

/* Random ones that are good: small numbers and large ones, and any page. */
void random_parts(struct input_parts *parts);

/* The text becomes a page line. */
void start_page_line(struct text *text, const unsigned char *page);

/* The text becomes the whole input, with the sheet in the list's order. */
void make_input(struct text *text, const struct input_parts *parts);

/* A new base: the input of random parts is printed, and they are left in `parts`. */
void new_program_base(struct program_base *base, struct input_parts *parts);

#endif
