#include "frame_cases.h"

#include "damage.h"
#include "random.h"
#include "random_contents.h"

#include <string.h>

enum { BUILT = 345, READINGS_EACH = 4 };

static int built = 0;

static void print_built(struct base *base, const struct contents *contents)
{
    print_building(base, contents);
    print_plain(base);
    print_damaged(base, READINGS_EACH);
    built++;
}

/* Each field in turn at an end of its range. */
static void print_ends_of_counts(struct base *base)
{
    struct contents contents;
    for (int i = 0; i < COUNTS; i++) {
        random_contents(&contents);
        contents.counts[i] = least_count(&subframe_2, i);
        print_built(base, &contents);
        random_contents(&contents);
        contents.counts[i] = largest_count(&subframe_2, i);
        print_built(base, &contents);
    }
}

static void print_all_counts_at_ends(struct base *base)
{
    struct contents least, largest;
    random_contents(&least);
    random_contents(&largest);
    for (int i = 0; i < COUNTS; i++) {
        least.counts[i] = least_count(&subframe_2, i);
        largest.counts[i] = largest_count(&subframe_2, i);
    }
    print_built(base, &least);
    print_built(base, &largest);
}

static void print_times(struct base *base)
{
    static const int times[] = {0, 1, 2, 127, 128, 255, 256, 257, 398, 399};
    for (size_t i = 0; i < sizeof times / sizeof times[0]; i++) {
        struct contents contents;
        random_contents(&contents);
        contents.toi = times[i];
        print_built(base, &contents);
    }
}

static void print_page_1_field(struct base *base, int field, int64_t count)
{
    struct contents contents;
    random_contents(&contents);
    random_page_1(contents.page);
    set_page_1_field(contents.page, field, count);
    print_built(base, &contents);
}

static void print_ends_of_page_1(struct base *base)
{
    for (int i = 0; i < PAGE_1_COUNTS; i++) {
        print_page_1_field(base, i, least_count(&page_1, i));
        print_page_1_field(base, i, largest_count(&page_1, i));
    }
}

/* All fields of page 1 at an end, and all bits around them the same. */
static void print_all_page_1_at_ends(struct base *base)
{
    struct contents contents;
    for (int end = 0; end < 2; end++) {
        random_contents(&contents);
        memset(contents.page, end, PAGE_BITS);
        put_page_head(contents.page, 255 * end, 1);
        for (int i = 0; i < PAGE_1_COUNTS; i++)
            set_page_1_field(contents.page, i, end == 0 ? least_count(&page_1, i) : largest_count(&page_1, i));
        print_built(base, &contents);
    }
}

static void print_page_6(struct base *base)
{
    for (int text_page = 0; text_page < 16; text_page++) {
        struct contents contents;
        random_contents(&contents);
        random_page_6(contents.page, text_page);
        print_built(base, &contents);
    }
}

/* Among the numbers are those that differ from 1 in one bit. A body of ones would be out of range on page 1, and so would zeros. */
static void print_other_pages(struct base *base)
{
    static const int numbers[] = {0, 2, 3, 4, 5, 7, 9, 17, 33, 62, 63};
    for (size_t i = 0; i < sizeof numbers / sizeof numbers[0]; i++) {
        struct contents contents;
        for (int symbol = 0; symbol < 2; symbol++) {
            random_contents(&contents);
            memset(contents.page, symbol, PAGE_BITS);
            put_page_head(contents.page, random_below(2) * 255, numbers[i]);
            print_built(base, &contents);
        }
        random_contents(&contents);
        random_other_page(contents.page, numbers[i]);
        print_built(base, &contents);
    }
}

void print_built_cases(struct base *base)
{
    struct contents contents = {0};
    print_built(base, &contents);
    print_ends_of_counts(base);
    print_all_counts_at_ends(base);
    print_times(base);
    print_ends_of_page_1(base);
    print_all_page_1_at_ends(base);
    print_page_6(base);
    print_other_pages(base);
    while (built < BUILT) {
        random_contents(&contents);
        print_built(base, &contents);
    }
}
