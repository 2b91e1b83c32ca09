#include "sheet_cases.h"

#include "random.h"

#include <string.h>

/* The base's lines, with any of them first. */
static void start_draft(struct sheet_draft *draft, const struct sheet_base *base)
{
    start_lines(draft, base->numbers);
    turn_lines(draft, random_below(NUMBERS));
}

/* The `=` of a line is taken out, or another byte stands in its place. */
static void print_no_equals(const struct sheet_base *base, int k)
{
    static const unsigned char others[] = {':', ' ', '-', '>', 0, '\t', '<', 189};
    struct sheet_draft draft;
    start_draft(&draft, base);
    remove_byte(&draft.lines[k], equals_at(&draft.lines[k]));
    print_draft_refused(base, &draft, 11, line_place(&draft, k));
    start_draft(&draft, base);
    draft.lines[k].bytes[equals_at(&draft.lines[k])] = others[k % (int)sizeof others];
    print_draft_refused(base, &draft, 11, line_place(&draft, k));
}

static void print_empty_line(const struct sheet_base *base, int k)
{
    struct sheet_draft draft;
    start_draft(&draft, base);
    insert_empty_line(&draft, k);
    print_draft_refused(base, &draft, 11, line_place(&draft, k));
}

/* The last line, which is the one that comes before the line `k` of the list, without its end; then without `=` too. */
static void print_no_end(const struct sheet_base *base, int k)
{
    struct sheet_draft draft;
    start_lines(&draft, base->numbers);
    turn_lines(&draft, k);
    struct line *last = &draft.lines[NUMBERS - 1];
    remove_byte(last, last->count - 1);
    print_draft_refused(base, &draft, 11, line_place(&draft, NUMBERS - 1));
    remove_byte(last, equals_at(last));
    print_draft_refused(base, &draft, 11, line_place(&draft, NUMBERS - 1));
}

/* All names are given, and behind them stands something that is no line. */
static void print_rest(const struct sheet_base *base, const char *rest)
{
    struct sheet_draft draft;
    struct text text;
    start_draft(&draft, base);
    int place = line_place(&draft, NUMBERS);
    start_text(&text, base);
    add_lines(&text, &draft);
    add_string(&text, rest);
    add_trailer(&text, place + (int)strlen(rest));
    print_sheet_refused(base, &text, 11, place);
}

/* A line that ends with no byte 10 goes on in the next: its number is then none. */
static void print_joined(const struct sheet_base *base, int k)
{
    struct sheet_draft draft;
    start_draft(&draft, base);
    remove_byte(&draft.lines[k], draft.lines[k].count - 1);
    print_draft_refused(base, &draft, 14, line_place(&draft, k));
    start_draft(&draft, base);
    draft.lines[k].bytes[draft.lines[k].count - 1] = k % 2 == 0 ? '\r' : '|';
    print_draft_refused(base, &draft, 14, line_place(&draft, k));
}

void print_line_cases(struct sheet_base *base)
{
    static const char *const rests[] = {" ",    "\t",   "x",   "toi", "isf=0", "toi=0", "=",          "=0",
                                        "\n",   "\n\n", "\r\n", "0\n", "#\n",  "isf\n", "back 00000\n", "toi=0 wn=0"};
    new_sheet_base(base);
    for (int k = 0; k < NUMBERS; k++) {
        print_no_equals(base, k);
        print_empty_line(base, k);
        print_no_end(base, k);
        if (k < NUMBERS - 1)
            print_joined(base, k);
    }
    print_empty_line(base, NUMBERS);
    for (int i = 0; i < (int)(sizeof rests / sizeof rests[0]); i++)
        print_rest(base, rests[i]);
}
