#include "program_cases.h"

#include "random_contents.h"
#include "sheet_cases.h"

#include <string.h>

void random_parts(struct input_parts *parts)
{
    struct contents contents;
    random_contents(&contents);
    memcpy(parts->page, contents.page, PAGE_BITS);
    random_numbers(parts->numbers);
}

void start_page_line(struct text *text, const unsigned char *page)
{
    text->count = 0;
    add_bit_line(text, page, PAGE_BITS);
}

void make_input(struct text *text, const struct input_parts *parts)
{
    struct sheet_draft draft;
    start_page_line(text, parts->page);
    start_lines(&draft, parts->numbers);
    add_sheet(text, &draft);
}

void new_program_base(struct program_base *base, struct input_parts *parts)
{
    struct text input;
    random_parts(parts);
    make_input(&input, parts);
    print_bench(base, &input, done);
}

void print_program_cases(const struct codes *codes)
{
    static struct program_base base;
    base.codes = codes;
    print_good_bench_cases(&base);
    print_page_line_cases(&base);
    print_bench_sheet_cases(&base);
    print_readback_cases(&base);
}
