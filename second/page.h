/* The 250 page bits of subframe 3 (IS-GPS-800, 3.5.4 and Table 3.5-3). */
#ifndef PAGE_H
#define PAGE_H

#include "fields.h"

enum { PAGE_BITS = 250, PAGE_1_COUNTS = 17, TOT = 4, DN = 7 };

/* The fields of page 1 behind the PRN and the page number. */
extern const struct layout page_1;

/* Writes the PRN and the page number, bits 1 to 14. */
void put_page_head(unsigned char *page, int prn, int number);

int page_number(const unsigned char *page);

/* The first bit of the first field of page 1 that is out of range, or 0; always 0 where the page is another. */
int page_out_of_range(const unsigned char *page);

#endif
