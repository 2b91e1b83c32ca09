#include "sheet_cases.h"

#include "random.h"

static int64_t limited(int64_t number, int64_t least, int64_t largest)
{
    return number < least ? least : number > largest ? largest : number;
}

/* Any number in the range, or one of at most two digits, or zero. */
static int64_t random_number(int k)
{
    int64_t least = least_number(k), largest = largest_number(k);
    int kind = random_below(4);
    if (kind == 0)
        return 0;
    if (kind == 1)
        return limited(random_below(199) - 99, least, largest);
    return random_between(least, largest);
}

void random_numbers(int64_t *numbers)
{
    for (int k = 0; k < NUMBERS; k++)
        numbers[k] = random_number(k);
}

void new_sheet_base(struct sheet_base *base)
{
    int64_t numbers[NUMBERS];
    random_numbers(numbers);
    print_sheet_writing(base, numbers, MOST_ROOM);
}

void start_behind(struct text *text, const struct sheet_base *base)
{
    int kind = random_below(3);
    text->count = 0;
    if (kind == 0)
        add_random_bytes(text, 1 + random_below(6));
    else if (kind == 1)
        add_sheet_bytes(text, 1 + random_below(20));
    else
        add_text(text, &base->text);
}

void start_text(struct text *text, const struct sheet_base *base)
{
    text->count = 0;
    if (random_below(2) == 1)
        start_behind(text, base);
}

void print_draft_refused(const struct sheet_base *base, const struct sheet_draft *draft, int number, int place)
{
    struct text text;
    start_text(&text, base);
    add_sheet(&text, draft);
    print_sheet_refused(base, &text, number, place);
}

void print_sheet_cases(void)
{
    static struct sheet_base base;
    print_good_sheet_cases(&base);
    print_sheet_writing_cases(&base);
    print_trailer_cases(&base);
    print_line_cases(&base);
    print_name_cases(&base);
    print_number_cases(&base);
    print_bad_sheet_cases(&base);
    print_walk_cases(&base);
}
