#include "program_cases.h"

#include "random.h"
#include "random_contents.h"

#include <string.h>

enum { RANDOM_INPUTS = 20, ORDERS = 8 };

static void print_plain_readback(const struct program_base *base)
{
    struct text symbols;
    start_symbols(&symbols, base);
    print_readback(base, &symbols);
}

/* The frame, and the same frame read back. */
static void print_good(struct program_base *base, const struct input_parts *parts)
{
    struct text input;
    make_input(&input, parts);
    print_bench(base, &input, done);
    print_plain_readback(base);
}

/* Each number in turn at both ends of its range. */
static void print_ends(struct program_base *base)
{
    struct input_parts parts;
    random_parts(&parts);
    for (int k = 0; k < NUMBERS; k++) {
        int64_t number = parts.numbers[k];
        parts.numbers[k] = least_number(k);
        print_good(base, &parts);
        parts.numbers[k] = largest_number(k);
        print_good(base, &parts);
        parts.numbers[k] = number;
    }
}

/* All numbers at an end of their ranges, which gives the longest sheet, and all page bits the same. */
static void print_all_at_ends(struct program_base *base)
{
    struct input_parts parts;
    for (int end = 0; end < 2; end++) {
        memset(parts.page, end, PAGE_BITS);
        for (int k = 0; k < NUMBERS; k++)
            parts.numbers[k] = end == 0 ? least_number(k) : largest_number(k);
        print_good(base, &parts);
    }
}

/* Page 1 with tot and DN at both ends of their ranges, page 6, and pages that differ from page 1 in one bit of their number. */
static void print_pages(struct program_base *base)
{
    static const int numbers[] = {0, 2, 3, 5, 7, 9, 17, 33, 63};
    struct input_parts parts;
    random_parts(&parts);
    for (int end = 0; end < 2; end++) {
        random_page_1(parts.page);
        set_page_1_field(parts.page, TOT, end == 0 ? 0 : 37799);
        print_good(base, &parts);
        set_page_1_field(parts.page, DN, end == 0 ? 1 : 7);
        print_good(base, &parts);
    }
    random_page_6(parts.page, random_below(16));
    print_good(base, &parts);
    for (size_t i = 0; i < sizeof numbers / sizeof numbers[0]; i++) {
        put_page_head(parts.page, random_below(256), numbers[i]);
        print_good(base, &parts);
    }
}

/* The lines in other orders. They are read back in the list's. */
static void print_orders(struct program_base *base)
{
    struct input_parts parts;
    random_parts(&parts);
    for (int i = 0; i < ORDERS; i++) {
        struct sheet_draft draft;
        struct text input;
        start_page_line(&input, parts.page);
        start_lines(&draft, parts.numbers);
        turn_lines(&draft, 1 + random_below(NUMBERS - 1));
        if (i % 2 == 1)
            shuffle_lines(&draft);
        add_sheet(&input, &draft);
        print_bench(base, &input, done);
        print_plain_readback(base);
    }
}

void print_good_bench_cases(struct program_base *base)
{
    struct input_parts parts = {0};
    print_good(base, &parts);
    print_ends(base);
    print_all_at_ends(base);
    print_pages(base);
    print_orders(base);
    for (int i = 0; i < RANDOM_INPUTS; i++) {
        random_parts(&parts);
        print_good(base, &parts);
    }
}
