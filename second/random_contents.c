#include "random_contents.h"

#include "bits.h"
#include "random.h"

#include <string.h>

void random_bits(unsigned char *bits, int count)
{
    for (int i = 0; i < count; i++)
        bits[i] = (unsigned char)random_below(2);
}

void random_counts(const struct layout *layout, int64_t *counts)
{
    for (int i = 0; i < layout->count; i++)
        counts[i] = random_between(least_count(layout, i), largest_count(layout, i));
}

void random_page_1(unsigned char *page)
{
    int64_t counts[PAGE_1_COUNTS];
    random_counts(&page_1, counts);
    random_bits(page, PAGE_BITS);
    put_page_head(page, random_below(256), 1);
    put_counts(&page_1, counts, page);
}

/* Behind the head stand the text page, 4 bits, and 29 characters. */
void random_page_6(unsigned char *page, int text_page)
{
    static const char letters[] = "ABCDEFGHIJKLMNOPQRSTUVWXYZ0123456789+-.'/ :\"";
    put_page_head(page, random_below(256), 6);
    put_number(&page[14], 4, text_page);
    for (int i = 0; i < 29; i++)
        put_number(&page[18 + 8 * i], 8, letters[random_below((int)sizeof letters - 1)]);
}

void random_other_page(unsigned char *page, int number)
{
    random_bits(page, PAGE_BITS);
    put_page_head(page, random_below(256), number);
}

void set_page_1_field(unsigned char *page, int field, int64_t count)
{
    put_number(&page[first_bit(&page_1, field) - 1], page_1.fields[field].width, count);
}

static void random_page(unsigned char *page)
{
    int kind = random_below(3);
    if (kind == 0)
        random_page_1(page);
    else if (kind == 1)
        random_page_6(page, random_below(16));
    else
        random_other_page(page, 2 + random_below(62));
}

void random_contents(struct contents *contents)
{
    memset(contents, 0, sizeof *contents);
    contents->toi = random_below(LARGEST_TOI + 1);
    random_counts(&subframe_2, contents->counts);
    random_page(contents->page);
}
