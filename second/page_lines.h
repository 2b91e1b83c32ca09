/* The lines PT and PP, which cases.c describes. */
#ifndef PAGE_LINES_H
#define PAGE_LINES_H

#include "page_record.h"

/* PT: takes these 250 bytes, the first `length` of them or with a 0 behind them. What is taken is put back first. It is meant to be
   answered so. */
void print_taking(const unsigned char *bytes, int length, struct answer meant);

/* PP: puts the record into `room` bytes, at most 251. What is put is taken first. It is meant to be answered so. */
void print_putting(const struct page_record *record, int room, struct answer meant);

#endif
