#include "page_cases.h"

#include "random.h"
#include "random_contents.h"

#include <string.h>

enum { RANDOM_PAGES = 20 };

static void print_taken(const unsigned char *page)
{
    print_taking(page, PAGE_BITS, done);
}

/* Page 1 with one field set. */
static void print_field(int field, int64_t count, struct answer meant)
{
    unsigned char page[PAGE_BITS];
    random_page_1(page);
    set_page_1_field(page, field, count);
    print_taking(page, PAGE_BITS, meant);
}

static void print_ends_of_page_1(void)
{
    for (int i = 0; i < PAGE_1_COUNTS; i++) {
        print_field(i, least_count(&page_1, i), done);
        print_field(i, largest_count(&page_1, i), done);
    }
    for (int dn = 1; dn <= 7; dn++)
        print_field(DN, dn, done);
}

/* All fields of page 1 at an end, and all bits around them the same. */
static void print_all_at_ends(void)
{
    unsigned char page[PAGE_BITS];
    for (int end = 0; end < 2; end++) {
        memset(page, end, PAGE_BITS);
        put_page_head(page, 255 * end, 1);
        for (int i = 0; i < PAGE_1_COUNTS; i++)
            set_page_1_field(page, i, end == 0 ? least_count(&page_1, i) : largest_count(&page_1, i));
        print_taken(page);
    }
}

/* Every text page, with characters of a text; then with zeros and with ones for them, which are bytes 0 and 255. */
static void print_page_6(void)
{
    unsigned char page[PAGE_BITS];
    for (int text_page = 0; text_page < 16; text_page++) {
        random_page_6(page, text_page);
        print_taken(page);
    }
    for (int end = 0; end < 2; end++) {
        memset(page, end, PAGE_BITS);
        put_page_head(page, 255 * end, 6);
        print_taken(page);
    }
}

/* Every number but 1, with any body. */
static void print_numbers(void)
{
    unsigned char page[PAGE_BITS];
    for (int number = 0; number <= LARGEST_PAGE; number++) {
        random_other_page(page, number);
        if (number == 1)
            random_page_1(page);
        print_taken(page);
    }
    for (int end = 0; end < 2; end++) {
        memset(page, end, PAGE_BITS);
        print_taken(page);
    }
}

/* The first bits of tot and DN are 59 and 101. */
static void print_out_of_range(void)
{
    static const int tots[] = {37800, 37801, 40000, 65534, 65535};
    unsigned char page[PAGE_BITS];
    for (int i = 0; i < 5; i++)
        print_field(TOT, tots[i], refused(9, 59));
    for (int dn = 8; dn <= 16; dn++)
        print_field(DN, dn % 16, refused(9, 101));
    for (int i = 0; i < 3; i++) {
        random_page_1(page);
        set_page_1_field(page, TOT, 37800 + random_below(27736));
        set_page_1_field(page, DN, 8 * random_below(2));
        print_taking(page, PAGE_BITS, refused(9, 59));
    }
}

/* A page 1, which is out of range too in every other case, or any page. */
static void some_page(unsigned char *page, int k)
{
    random_page_1(page);
    if (k % 2 == 1)
        set_page_1_field(page, TOT, 37800);
    if (k % 4 == 2)
        random_other_page(page, random_below(64));
}

/* Bytes that are no bits, at the ends of the head and the body and anywhere. */
static void print_no_bits(void)
{
    static const int places[] = {0, 1, 7, 8, 13, 14, 100, 176, 248, 249};
    static const unsigned char bytes[] = {2, 3, 4, 7, '0', '1', 127, 128, 129, 254, 255};
    unsigned char page[PAGE_BITS];
    for (int i = 0; i < 33; i++) {
        int place = i < 30 ? places[i % 10] : random_below(PAGE_BITS);
        some_page(page, i);
        page[place] = bytes[i % 11];
        print_taking(page, PAGE_BITS, refused(2, place));
    }
    for (int i = 0; i < 6; i++) {
        int place = random_below(200);
        some_page(page, i);
        page[place] = bytes[i];
        page[place + 1 + random_below(49)] = 2;
        print_taking(page, PAGE_BITS, refused(2, place));
    }
}

/* The length is judged before the bytes and the fields. */
static void print_lengths(void)
{
    static const int lengths[] = {0, 1, 8, 14, 176, 249, 251};
    unsigned char page[PAGE_BITS];
    for (int i = 0; i < 7; i++) {
        some_page(page, 0);
        print_taking(page, lengths[i], refused(1, 0));
        some_page(page, 1);
        page[random_below(PAGE_BITS)] = 2;
        print_taking(page, lengths[i], refused(1, 0));
    }
}

void print_taking_cases(void)
{
    unsigned char page[PAGE_BITS];
    print_numbers();
    print_ends_of_page_1();
    print_all_at_ends();
    print_page_6();
    print_out_of_range();
    print_no_bits();
    print_lengths();
    for (int i = 0; i < RANDOM_PAGES; i++) {
        random_page_1(page);
        print_taken(page);
    }
}
