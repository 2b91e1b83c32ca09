/* Contents of frames that are good to build, made at random. */
#ifndef RANDOM_CONTENTS_H
#define RANDOM_CONTENTS_H

#include "frame.h"

void random_contents(struct contents *contents);

/* Random counts in the range of each field. */
void random_counts(const struct layout *layout, int64_t *counts);

void random_bits(unsigned char *bits, int count);

/* Page 1, each field in its range; page 6, with a text; a page of that number with any body. */
void random_page_1(unsigned char *page);
void random_page_6(unsigned char *page, int text_page);
void random_other_page(unsigned char *page, int number);

/* Sets one field of page 1. The count has to fit in its width. */
void set_page_1_field(unsigned char *page, int field, int64_t count);

#endif
