#include "program_cases.h"

#include "random.h"
#include "random_contents.h"

/* The page line of the parts, what stands between it and the sheet, and the sheet. */
static void print_draft(struct program_base *base, const struct input_parts *parts, const char *between, const struct sheet_draft *draft,
                        struct answer meant)
{
    struct text input;
    start_page_line(&input, parts->page);
    add_string(&input, between);
    add_sheet(&input, draft);
    print_bench(base, &input, meant);
}

/* What stands behind the page line. */
static void print_behind(struct program_base *base, const struct input_parts *parts, const struct text *text, struct answer meant)
{
    struct text input;
    start_page_line(&input, parts->page);
    add_text(&input, text);
    print_bench(base, &input, meant);
}

/* No sheet, a sheet without lines, and trailers that are none or count other bytes than those behind the page line. */
static void print_trailers(struct program_base *base, const struct input_parts *parts)
{
    struct sheet_draft draft;
    struct text sheet = {0}, text = {0};
    start_lines(&draft, parts->numbers);
    add_sheet(&sheet, &draft);
    int lines = sheet.count - TRAILER_BYTES;
    const int counted[] = {0, lines - 1, lines + 1, lines + TRAILER_BYTES, lines + PAGE_BITS + 1, 4096};
    print_behind(base, parts, &text, refused(10, 0));
    add_trailer(&text, 0);
    print_behind(base, parts, &text, refused(15, 1));
    for (int i = 0; i < 6; i++) {
        text.count = 0;
        add_bytes(&text, sheet.bytes, lines);
        add_trailer(&text, counted[i]);
        print_behind(base, parts, &text, refused(10, 0));
    }
    for (int count = lines; count < sheet.count; count++) {
        text.count = 0;
        add_bytes(&text, sheet.bytes, count);
        print_behind(base, parts, &text, refused(10, 0));
    }
    text = sheet;
    add_string(&text, "\n");
    print_behind(base, parts, &text, refused(10, 0));
    add_text(&text, &sheet);
    print_behind(base, parts, &text, refused(10, 0));
}

/* A sheet that does not begin right behind the page line, be its lines good or not. */
static void print_starts(struct program_base *base, const struct input_parts *parts)
{
    static const char *const between[] = {"\n", " ", "x", "\r\n", "0\n", "toi=0\n", "back 00000\n", "wn"};
    for (int i = 0; i < 8; i++) {
        struct sheet_draft draft;
        start_lines(&draft, parts->numbers);
        print_draft(base, parts, between[i], &draft, refused(10, 0));
        spoil_line(&draft, random_below(NUMBERS), 11 + i % 5);
        print_draft(base, parts, between[i], &draft, refused(10, 0));
    }
}

/* Lines that are refused, one in each sheet: each number in the first line, in the last and in any. */
static void print_lines(struct program_base *base, const struct input_parts *parts)
{
    for (int number = 11; number <= 15; number++)
        for (int i = 0; i < 6; i++) {
            struct sheet_draft draft;
            start_lines(&draft, parts->numbers);
            if (i > 1)
                turn_lines(&draft, random_below(NUMBERS));
            struct answer meant = spoil_line(&draft, i == 0 ? 0 : i == 1 ? NUMBERS - 1 : random_below(NUMBERS), number);
            print_draft(base, parts, "", &draft, meant);
        }
}

/* Two faults in a sheet: that of the first line counts. A name given a second time stands last. */
static void print_two_lines(struct program_base *base, const struct input_parts *parts)
{
    static const int first_numbers[] = {11, 12, 14};
    for (int i = 0; i < 3; i++)
        for (int number = 11; number <= 15; number++) {
            struct sheet_draft draft;
            int first = random_below(NUMBERS - 1);
            start_lines(&draft, parts->numbers);
            spoil_line(&draft, first + 1 + random_below(NUMBERS - 1 - first), number);
            struct answer meant = spoil_line(&draft, first, first_numbers[i]);
            print_draft(base, parts, "", &draft, meant);
        }
}

/* Each number one beyond an end of its range. */
static void print_beyond(struct program_base *base, const struct input_parts *parts)
{
    for (int k = 0; k < NUMBERS; k++) {
        struct input_parts beyond = *parts;
        struct sheet_draft draft;
        beyond.numbers[k] = k % 2 == 0 ? largest_number(k) + 1 : least_number(k) - 1;
        start_lines(&draft, beyond.numbers);
        print_draft(base, &beyond, "", &draft, refused(14, line_place(&draft, k)));
    }
}

/* Page 1 out of range: the sheet is judged first. */
static void print_pages(struct program_base *base, const struct input_parts *parts)
{
    static const int fields[][2] = {{37800, 1}, {65535, 7}, {37799, 0}, {0, 8}, {1, 15}, {37800, 0}};
    for (int i = 0; i < 6; i++) {
        struct input_parts bad = *parts;
        struct sheet_draft draft;
        random_page_1(bad.page);
        set_page_1_field(bad.page, TOT, fields[i][0]);
        set_page_1_field(bad.page, DN, fields[i][1]);
        start_lines(&draft, bad.numbers);
        print_draft(base, &bad, "", &draft, refused(9, fields[i][0] > 37799 ? 59 : 101));
        struct answer meant = spoil_line(&draft, random_below(NUMBERS), 11 + i % 5);
        print_draft(base, &bad, "", &draft, meant);
    }
}

/* What can be wrong with an input, in the order in which it is judged. */
enum { TOO_LONG = 1, LINE_LENGTH = 2, CHARACTER = 4, START = 8, LINE = 16, PAGE = 32, ALL_FAULTS = 64 };

/* What is meant to be refused first; `line` is how the sheet is refused by itself. */
static struct answer first_fault(int faults, int character, struct answer line)
{
    if (faults & (TOO_LONG | LINE_LENGTH))
        return refused(1, 0);
    if (faults & CHARACTER)
        return refused(2, character);
    if (faults & START)
        return refused(10, 0);
    if (faults & LINE)
        return line;
    return faults & PAGE ? refused(9, 101) : done;
}

/* Every set of them. */
static void print_together(struct program_base *base, const struct input_parts *parts, int faults)
{
    struct input_parts bad = *parts;
    struct sheet_draft draft;
    struct text input;
    struct answer line = done;
    int character = random_below(PAGE_BITS);
    random_page_1(bad.page);
    if (faults & PAGE)
        set_page_1_field(bad.page, DN, 0);
    start_page_line(&input, bad.page);
    if (faults & LINE_LENGTH) {
        input.count--;
        add_string(&input, "0\n");
    }
    if (faults & CHARACTER)
        input.bytes[character] = 'x';
    start_lines(&draft, bad.numbers);
    if (faults & LINE)
        line = spoil_line(&draft, random_below(NUMBERS), 11 + random_below(5));
    int sheet = line_place(&draft, draft.count) + TRAILER_BYTES;
    if (faults & TOO_LONG)
        add_repeated(&input, &base->text, MOST_INPUT + 1 - sheet - input.count);
    else if (faults & START)
        add_string(&input, "toi=0\n");
    add_sheet(&input, &draft);
    print_bench(base, &input, first_fault(faults, character, line));
}

void print_bench_sheet_cases(struct program_base *base)
{
    struct input_parts parts;
    new_program_base(base, &parts);
    print_trailers(base, &parts);
    print_starts(base, &parts);
    print_lines(base, &parts);
    print_two_lines(base, &parts);
    print_beyond(base, &parts);
    print_pages(base, &parts);
    for (int faults = 1; faults < ALL_FAULTS; faults++)
        print_together(base, &parts, faults);
}
