#include "sheet_cases.h"

#include "must.h"
#include "random.h"

#include <ctype.h>
#include <string.h>

/* How a name is misspelt. */
enum fault { DROPPED, DOUBLED, SWAPPED, ONE_CAPITAL, CAPITALS, OTHER, FRONT, BEHIND, WITHIN, EMPTY, FAULTS };

/* A byte that stands in no name: spaces, zero, marks, bytes of other alphabets. */
static unsigned char odd_byte(void)
{
    static const unsigned char odd[] = {' ', ' ', '\t', '\r', 0, '.', '-', '_', '"', '3', 'A', 'x', 128, 255};
    return odd[random_below((int)sizeof odd)];
}

static void swap_bytes(unsigned char *one, unsigned char *other)
{
    unsigned char byte = *one;
    *one = *other;
    *other = byte;
}

/* Misspells the name of a line, which has `count` letters. */
static void misspell(struct line *line, int count, enum fault fault)
{
    int at = random_below(count);
    unsigned char *letter = &line->bytes[at];
    switch (fault) {
    case DROPPED:
        remove_byte(line, at);
        break;
    case DOUBLED:
        insert_byte(line, at, *letter);
        break;
    case SWAPPED:
        swap_bytes(letter, &line->bytes[at == 0 ? 1 : at - 1]);
        break;
    case ONE_CAPITAL:
        *letter = (unsigned char)toupper(*letter);
        break;
    case CAPITALS:
        for (int i = 0; i < count; i++)
            line->bytes[i] = (unsigned char)toupper(line->bytes[i]);
        break;
    case OTHER:
        *letter = (unsigned char)('a' + random_below(26));
        break;
    case FRONT:
        insert_byte(line, 0, odd_byte());
        break;
    case BEHIND:
        insert_byte(line, count, odd_byte());
        break;
    case WITHIN:
        insert_byte(line, 1 + random_below(count - 1), odd_byte());
        break;
    default:
        for (int i = 0; i < count; i++)
            remove_byte(line, 0);
    }
}

/* Some misspelt names are others of the list, or the same: then what comes of it is left to the reader. */
static void print_misspelt(const struct sheet_base *base, int k, enum fault fault)
{
    struct sheet_draft draft;
    struct text text;
    start_lines(&draft, base->numbers);
    misspell(&draft.lines[k], equals_at(&draft.lines[k]), fault);
    int is_listed = place_in_list(draft.lines[k].bytes, equals_at(&draft.lines[k])) >= 0;
    turn_lines(&draft, random_below(NUMBERS));
    start_text(&text, base);
    add_sheet(&text, &draft);
    if (!is_listed) {
        struct answer answer = read_sheet(text.bytes, text.count).answer;
        must(answer.number == 12, "a name that is not on the list is refused");
    }
    print_sheet_reading(base, &text);
}

/* A line more, whose name is not on the list. */
static void print_other_names(const struct sheet_base *base)
{
    static const char *const names[] = {"helth",  "prn", "page", "tot",    "tdg",  "back 00000", "back",
                                        "toi wn", "to",  "t",    "omega1", "wnot", "crc24",      "toitoi"};
    for (int i = 0; i < (int)(sizeof names / sizeof names[0]); i++) {
        struct sheet_draft draft;
        int k = random_below(NUMBERS + 1);
        start_lines(&draft, base->numbers);
        turn_lines(&draft, random_below(NUMBERS));
        insert_line(&draft, k, names[i], i % 2 == 0 ? "1" : "x");
        print_draft_refused(base, &draft, 12, line_place(&draft, k));
    }
}

/* The name of the line `k` once more, behind it: the number may be bad too. */
static void print_again(const struct sheet_base *base, int k, int later, const char *number)
{
    struct sheet_draft draft;
    start_lines(&draft, base->numbers);
    insert_line(&draft, later, listed_name(k), number);
    print_draft_refused(base, &draft, 13, line_place(&draft, later));
}

/* The name of the line `k` in place of another: one is given twice, and one is missing. */
static void print_instead(const struct sheet_base *base, int k)
{
    struct sheet_draft draft;
    int other = (k + 1 + random_below(NUMBERS - 1)) % NUMBERS;
    start_lines(&draft, base->numbers);
    set_line(&draft, other, listed_name(k), "0");
    print_draft_refused(base, &draft, 13, line_place(&draft, k > other ? k : other));
}

void print_name_cases(struct sheet_base *base)
{
    static const char *const bad[] = {"", "-0", "00", "x", "99999999999"};
    new_sheet_base(base);
    for (int k = 0; k < NUMBERS; k++) {
        for (int fault = 0; fault < FAULTS; fault++)
            print_misspelt(base, k, (enum fault)fault);
        print_again(base, k, k + 1, "0");
        print_again(base, k, NUMBERS, "0");
        print_again(base, k, k + 1 + random_below(NUMBERS - k), bad[k % 5]);
        print_instead(base, k);
    }
    print_other_names(base);
}
