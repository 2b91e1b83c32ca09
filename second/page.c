#include "page.h"

#include "bits.h"

static const struct field page_1_fields[PAGE_1_COUNTS] = {
    {"A0", 16, SIGNED, 0, 0},
    {"A1", 13, SIGNED, 0, 0},
    {"A2", 7, SIGNED, 0, 0},
    {"leap seconds", 8, SIGNED, 0, 0},
    {"tot", 16, LIMITED, 0, 37799},
    {"WNot", 13, UNSIGNED, 0, 0},
    {"WNLSF", 13, UNSIGNED, 0, 0},
    {"DN", 4, LIMITED, 1, 7},
    {"future leap seconds", 8, SIGNED, 0, 0},
    {"alpha0", 8, SIGNED, 0, 0},
    {"alpha1", 8, SIGNED, 0, 0},
    {"alpha2", 8, SIGNED, 0, 0},
    {"alpha3", 8, SIGNED, 0, 0},
    {"beta0", 8, SIGNED, 0, 0},
    {"beta1", 8, SIGNED, 0, 0},
    {"beta2", 8, SIGNED, 0, 0},
    {"beta3", 8, SIGNED, 0, 0},
};

const struct layout page_1 = {15, PAGE_1_COUNTS, page_1_fields};

void put_page_head(unsigned char *page, int prn, int number)
{
    put_number(page, 8, prn);
    put_number(&page[8], 6, number);
}

int page_number(const unsigned char *page)
{
    return (int)take_unsigned(&page[8], 6);
}

int page_out_of_range(const unsigned char *page)
{
    int64_t counts[PAGE_1_COUNTS];
    if (page_number(page) != 1)
        return 0;
    take_counts(&page_1, page, counts);
    return first_out_of_range(&page_1, counts);
}
