#include "sheet_cases.h"

#include "random.h"

enum { RANDOM_SHEETS = 80 };

/* Reads the lines of the base in this order. */
static void print_order(const struct sheet_base *base, const struct sheet_draft *draft)
{
    struct text text;
    start_text(&text, base);
    add_sheet(&text, draft);
    print_sheet_reading(base, &text);
}

/* Writes the sheet and reads it alone, behind other bytes, with another name of the list first, and in any order. */
static void print_good(struct sheet_base *base, const int64_t *numbers)
{
    struct text text;
    struct sheet_draft draft;
    print_sheet_writing(base, numbers, MOST_ROOM - random_below(4000));
    print_sheet_reading(base, &base->text);
    start_behind(&text, base);
    add_text(&text, &base->text);
    print_sheet_reading(base, &text);
    start_lines(&draft, numbers);
    turn_lines(&draft, 1 + random_below(NUMBERS - 1));
    print_order(base, &draft);
    shuffle_lines(&draft);
    print_order(base, &draft);
}

/* Each number in turn at an end of its range, among small ones. */
static void print_ends(struct sheet_base *base)
{
    for (int k = 0; k < NUMBERS; k++) {
        int64_t numbers[NUMBERS] = {0};
        numbers[random_below(NUMBERS)] = 1;
        numbers[k] = least_number(k);
        print_good(base, numbers);
        numbers[random_below(NUMBERS)] = 1;
        numbers[k] = largest_number(k);
        print_good(base, numbers);
    }
}

static void print_all_at_ends(struct sheet_base *base)
{
    int64_t least[NUMBERS], largest[NUMBERS];
    for (int k = 0; k < NUMBERS; k++) {
        least[k] = least_number(k);
        largest[k] = largest_number(k);
    }
    print_good(base, least);
    print_good(base, largest);
}

void print_good_sheet_cases(struct sheet_base *base)
{
    int64_t numbers[NUMBERS] = {0};
    print_good(base, numbers);
    print_ends(base);
    print_all_at_ends(base);
    for (int i = 0; i < RANDOM_SHEETS; i++) {
        random_numbers(numbers);
        print_good(base, numbers);
    }
}
