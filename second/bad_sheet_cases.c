#include "sheet_cases.h"

#include "random.h"

enum { SEVERAL = 320, ARBITRARY = 60 };

static void print_missing(const struct sheet_base *base, int one, int other)
{
    struct sheet_draft draft;
    start_lines(&draft, base->numbers);
    remove_line(&draft, one > other ? one : other);
    if (one != other)
        remove_line(&draft, one < other ? one : other);
    turn_lines(&draft, random_below(draft.count));
    print_draft_refused(base, &draft, 15, 1 + (one < other ? one : other));
}

/* All but the line `k`: the first that is missing is toi, or wn. */
static void print_only(const struct sheet_base *base, int k)
{
    struct sheet_draft draft;
    start_lines(&draft, base->numbers);
    turn_lines(&draft, k);
    draft.count = 1;
    print_draft_refused(base, &draft, 15, k == 0 ? 2 : 1);
}

/* Several faults in one sheet. */

static void add_fault(struct sheet_draft *draft)
{
    int k = random_below(draft->count);
    struct line *line = &draft->lines[k];
    switch (random_below(7)) {
    case 0:
        if (equals_at(line) < line->count)
            remove_byte(line, equals_at(line));
        break;
    case 1:
        insert_empty_line(draft, k);
        break;
    case 2:
        insert_byte(line, random_below(1 + equals_at(line)), 'q');
        break;
    case 3:
        insert_line(draft, k, listed_name(random_below(NUMBERS)), "0");
        break;
    case 4:
        insert_line(draft, k, listed_name(random_below(NUMBERS)), "-0");
        break;
    case 5:
        insert_byte(line, line->count - 1, '.');
        break;
    default:
        remove_line(draft, k);
    }
}

/* In one of eight, the trailer is bad as well. Faults that make each other good are passed over. */
static void print_several(const struct sheet_base *base)
{
    struct sheet_draft draft;
    struct text text;
    start_lines(&draft, base->numbers);
    turn_lines(&draft, random_below(NUMBERS));
    for (int left = 2 + random_below(3); left > 0; left--)
        add_fault(&draft);
    start_text(&text, base);
    add_sheet(&text, &draft);
    if (random_below(8) == 0)
        text.bytes[text.count - 1 - random_below(TRAILER_BYTES)] = '?';
    if (!is_done(read_sheet(text.bytes, text.count).answer))
        print_sheet_reading(base, &text);
}

/* Bytes that are no sheet: any bytes, or such as sheets have, with a trailer that counts them all or without. */
static void print_arbitrary(const struct sheet_base *base)
{
    struct text text = {0};
    int count = random_below(60);
    add_random_bytes(&text, count);
    print_sheet_reading(base, &text);
    add_trailer(&text, count);
    print_sheet_reading(base, &text);
    text.count = 0;
    add_sheet_bytes(&text, count);
    print_sheet_reading(base, &text);
    add_trailer(&text, random_below(count + 2));
    print_sheet_reading(base, &text);
}

/* One byte anywhere changed in a good sheet, be it good still or not. */
static void print_other_byte(const struct sheet_base *base)
{
    struct text text = base->text;
    unsigned char *byte = &text.bytes[random_below(text.count)];
    *byte = random_below(2) == 0 ? '=' : (unsigned char)('a' + random_below(26));
    print_sheet_reading(base, &text);
}

void print_bad_sheet_cases(struct sheet_base *base)
{
    new_sheet_base(base);
    for (int k = 0; k < NUMBERS; k++) {
        print_missing(base, k, k);
        print_missing(base, k, random_below(NUMBERS));
        print_only(base, k);
    }
    for (int i = 0; i < SEVERAL; i++)
        print_several(base);
    for (int i = 0; i < ARBITRARY; i++) {
        print_arbitrary(base);
        print_other_byte(base);
    }
}
