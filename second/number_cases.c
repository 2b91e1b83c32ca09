#include "sheet_cases.h"

#include "random.h"

#include <inttypes.h>
#include <stdio.h>

/* These are no numbers, or none that any name takes; 2^64 and its like are small numbers in their low bits. */
static const char *const texts[] = {
    "",      "-",     "--1", "-0",  "-00", "-01", "00",  "01",  "007", "+0",  "+1",    "+-1", "-+1",     " 0", "0 ",
    " -1",   "- 1",   "0\t", "O",   "1O",  "l",   "1e3", "0x0", "0b1", "0.",  "0.0",   ".0",  "0,0",     "/",  ":",
    "1/",    "1:",    "1_0", "1 0", "0-",  "1-1", "=",   "=0",  "0=0", "nan", "toi=0", "0;",  "\"0\"",
    "8589934592",
    "-4294967297",
    "9223372036854775807",
    "9223372036854775808",
    "-9223372036854775808",
    "-9223372036854775809",
    "18446744073709551615",
    "18446744073709551616",
    "18446744073709551617",
    "-18446744073709551615",
    "-18446744073709551616",
    "340282366920938463463374607431768211456",
    "9999999999999999999999999999999999999999",
    "-9999999999999999999999999999999999999999",
    "0000000000000000000000000000000000000000",
    "1000000000000000000000000000000000000000",
    "0000000000000000000000000000000000000001",
};

enum { TEXTS = sizeof texts / sizeof texts[0] };

/* The base with another number in the line `k` of the list. */
static void print_with(const struct sheet_base *base, int k, const char *number)
{
    struct sheet_draft draft;
    int first = random_below(NUMBERS);
    start_lines(&draft, base->numbers);
    set_line(&draft, k, listed_name(k), number);
    turn_lines(&draft, first);
    print_draft_refused(base, &draft, 14, line_place(&draft, (k - first + NUMBERS) % NUMBERS));
}

static void print_number(const struct sheet_base *base, int k, int64_t number)
{
    char text[24];
    snprintf(text, sizeof text, "%" PRId64, number);
    print_with(base, k, text);
}

/* One beyond each end of the range, and the ends with a digit more. */
static void print_beyond(const struct sheet_base *base, int k)
{
    int64_t least = least_number(k), largest = largest_number(k);
    print_number(base, k, least - 1);
    print_number(base, k, largest + 1);
    print_number(base, k, 10 * largest);
    print_number(base, k, least < 0 ? 10 * least : -largest);
}

/* A byte that is no digit somewhere in the number. */
static void print_odd_byte(const struct sheet_base *base, int k)
{
    static const unsigned char odd[] = {0, 1, '\t', 11, '\r', ' ', '+', '-', '.', '/', ':', 'O', 'a', 127, 128, 178, 255};
    struct sheet_draft draft;
    start_lines(&draft, base->numbers);
    struct line *line = &draft.lines[k];
    int first = equals_at(line) + 2;
    insert_byte(line, first + random_below(line->count - first), odd[random_below((int)sizeof odd)]);
    print_draft_refused(base, &draft, 14, line_place(&draft, k));
}

void print_number_cases(struct sheet_base *base)
{
    new_sheet_base(base);
    for (int k = 0; k < NUMBERS; k++) {
        for (int i = k % 2; i < TEXTS; i += 2)
            print_with(base, k, texts[i]);
        print_beyond(base, k);
        for (int i = 0; i < 3; i++)
            print_odd_byte(base, k);
    }
}
