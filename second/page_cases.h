/* The cases of pages: the lines PT and PP. */
#ifndef PAGE_CASES_H
#define PAGE_CASES_H

#include "page_lines.h"

/* Prints all of them. */
void print_page_cases(void);

/* Page bits that are taken as records, or refused. */
void print_taking_cases(void);

/* Records that are put, or refused. */
void print_putting_cases(void);

#endif
