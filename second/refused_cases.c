#include "frame_cases.h"

#include "random.h"
#include "random_contents.h"

#include <stddef.h>

/* Contents that are good but for what is set in them. */
static void good(struct contents *contents)
{
    random_contents(contents);
    random_page_1(contents->page);
}

static void print_with_toi(struct base *base, int toi)
{
    struct contents contents;
    good(&contents);
    contents.toi = toi;
    print_building(base, &contents);
}

static void print_with_count(struct base *base, int field, int64_t count)
{
    struct contents contents;
    good(&contents);
    contents.counts[field] = count;
    print_building(base, &contents);
}

static void print_with_two_at(struct base *base, int one, int other)
{
    struct contents contents;
    good(&contents);
    contents.page[one] = 2;
    contents.page[other] = 2;
    print_building(base, &contents);
}

static void print_with_page_1(struct base *base, int64_t tot, int64_t dn)
{
    struct contents contents;
    good(&contents);
    set_page_1_field(contents.page, TOT, tot);
    set_page_1_field(contents.page, DN, dn);
    print_building(base, &contents);
}

static void print_times_refused(struct base *base)
{
    static const int times[] = {400, 401, 511, 512, 655, 32768, 65535};
    for (size_t i = 0; i < sizeof times / sizeof times[0]; i++)
        print_with_toi(base, times[i]);
}

static void print_counts_refused(struct base *base)
{
    for (int i = 0; i < COUNTS; i++) {
        print_with_count(base, i, least_count(&subframe_2, i) - 1);
        print_with_count(base, i, largest_count(&subframe_2, i) + 1);
    }
}

/* Some of these are good counts in their low 13, 16, 32 or 33 bits. */
static void print_far_counts_refused(struct base *base)
{
    static const int64_t counts[] = {INT64_MAX,       -INT64_MAX,       (int64_t)1 << 32, -((int64_t)1 << 32),
                                     (int64_t)1 << 33, (int64_t)1 << 62, 65536,            -65536 * (int64_t)65536 * 4};
    for (size_t i = 0; i < sizeof counts / sizeof counts[0]; i++) {
        print_with_count(base, 0, counts[i]);
        print_with_count(base, 32, counts[i]);
    }
    for (int field = 10; field <= 14; field++) {
        print_with_count(base, field, INT64_MAX);
        print_with_count(base, field, -INT64_MAX);
        print_with_count(base, field, (int64_t)1 << 34);
    }
}

static void print_pages_refused(struct base *base)
{
    print_with_two_at(base, 0, 0);
    print_with_two_at(base, 100, 100);
    print_with_two_at(base, 249, 249);
    print_with_two_at(base, 13, 13);
    print_with_two_at(base, 248, 7);
    print_with_page_1(base, 37800, 7);
    print_with_page_1(base, 65535, 1);
    for (int dn = 8; dn <= 16; dn++)
        print_with_page_1(base, 37799, dn % 16);
    print_with_page_1(base, 37800, 0);
    print_with_page_1(base, 65535, 15);
}

/* Every set of the refusals 2, 3, 6 and 9 together; the four lowest bits of `which` say which. */
static void print_together(struct base *base, int which)
{
    struct contents contents;
    good(&contents);
    if (which & 1)
        contents.page[60 + random_below(100)] = 2;
    if (which & 2)
        contents.toi = 400 + random_below(112);
    if (which & 4)
        contents.counts[1] = 84;
    if (which & 8)
        set_page_1_field(contents.page, DN, 0);
    print_building(base, &contents);
}

static void print_two_counts_refused(struct base *base)
{
    for (int i = 0; i < 8; i++) {
        struct contents contents;
        int first = random_below(COUNTS - 1);
        int later = first + 1 + random_below(COUNTS - 1 - first);
        good(&contents);
        contents.counts[first] = largest_count(&subframe_2, first) + 1;
        contents.counts[later] = least_count(&subframe_2, later) - 1;
        print_building(base, &contents);
    }
}

void print_refused_cases(struct base *base)
{
    print_times_refused(base);
    print_counts_refused(base);
    print_far_counts_refused(base);
    print_pages_refused(base);
    for (int which = 1; which < 16; which++)
        print_together(base, which);
    print_two_counts_refused(base);
}
