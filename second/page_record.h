/* The 250 page bits as a record: page 1, page 6 or bare bits, with PRN and page number. */
#ifndef PAGE_RECORD_H
#define PAGE_RECORD_H

#include "frame.h"

enum { BODY_BITS = 236, PAGE_6_COUNTS = 30, MOST_PAGE_COUNTS = 30, LARGEST_PAGE = 63 };

/* Each is the number of its page; bare bits have the number 0 or another that is neither 1 nor 6. */
enum page_kind { BARE = 0, PAGE_1 = 1, PAGE_6 = 6 };

/* Of the counts and the bits, the first are used, as many as the kind has. */
struct page_record {
    int prn;
    int number;
    enum page_kind kind;
    int64_t counts[MOST_PAGE_COUNTS];
    unsigned char bits[BODY_BITS];
};

/* The fields of a kind, and how many bits behind them are carried as bits. */
const struct layout *page_layout(enum page_kind kind);
int carried_bits(enum page_kind kind);

/* Takes the bytes as a record. On a refusal the record stays as it was. */
struct answer take_page(const unsigned char *bytes, int count, struct page_record *record);

/* Puts the record into the bytes. On a refusal they stay as they were. */
struct answer put_page(const struct page_record *record, unsigned char *bytes, int count);

#endif
