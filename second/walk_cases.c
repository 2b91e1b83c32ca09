#include "sheet_cases.h"

#include "random.h"

#include <string.h>

enum { MOST_SHEETS = 6 };

/* A text of sheets, with the place behind each: the first place is the first sheet's first byte. */
struct file {
    struct text text;
    int sheets;
    int places[MOST_SHEETS + 1];
};

static void end_sheet(struct file *file)
{
    file->sheets++;
    file->places[file->sheets] = file->text.count;
}

/* The base with some other numbers. */
static void draft_sheet(const struct sheet_base *base, struct sheet_draft *draft)
{
    int64_t numbers[NUMBERS], others[NUMBERS];
    memcpy(numbers, base->numbers, sizeof numbers);
    random_numbers(others);
    for (int i = 0; i < 3; i++) {
        int k = random_below(NUMBERS);
        numbers[k] = others[k];
    }
    start_lines(draft, numbers);
    turn_lines(draft, random_below(NUMBERS));
}

static void add_good(const struct sheet_base *base, struct file *file)
{
    struct sheet_draft draft;
    draft_sheet(base, &draft);
    add_sheet(&file->text, &draft);
    end_sheet(file);
}

/* A sheet that is refused 11, 12, 13, 14 or 15. */
static void add_bad(const struct sheet_base *base, struct file *file, int number)
{
    struct sheet_draft draft;
    int k = random_below(NUMBERS);
    draft_sheet(base, &draft);
    spoil_line(&draft, k, number);
    add_sheet(&file->text, &draft);
    end_sheet(file);
}

/* So many good sheets, and bytes before the first or none. */
static void make_file(const struct sheet_base *base, struct file *file, int sheets, int before)
{
    file->text.count = 0;
    file->sheets = 0;
    file->places[0] = before;
    add_random_bytes(&file->text, before);
    for (int i = 0; i < sheets; i++)
        add_good(base, file);
}

static void print_from_end(const struct sheet_base *base, const struct file *file, int sheets, int number)
{
    print_walk(base, &file->text, file->text.count, sheets, number);
}

/* Good sheets alone, and behind bytes that are none. */
static void print_whole(const struct sheet_base *base, int sheets)
{
    struct file file;
    make_file(base, &file, sheets, 0);
    print_from_end(base, &file, sheets, 0);
    make_file(base, &file, sheets, 1 + random_below(12));
    print_from_end(base, &file, sheets, 10);
}

/* Something between the first `before` sheets and the others: bytes that are no sheet, or a sheet that is refused. */
static void print_broken(const struct sheet_base *base, int before, int behind, int number)
{
    struct file file;
    make_file(base, &file, before, 0);
    if (number == 10)
        add_random_bytes(&file.text, 1 + random_below(12));
    else
        add_bad(base, &file, number);
    for (int i = 0; i < behind; i++)
        add_good(base, &file);
    print_from_end(base, &file, behind, number);
}

/* From each place behind a sheet, from one inside the sheet before it, and from places past the end. */
static void print_places(const struct sheet_base *base, int sheets)
{
    struct file file;
    make_file(base, &file, sheets, 0);
    int end = file.text.count;
    for (int i = 0; i < sheets; i++) {
        int size = file.places[i + 1] - file.places[i];
        print_walk(base, &file.text, file.places[i], i, 0);
        print_walk(base, &file.text, file.places[i] + 1 + random_below(size - 1), 0, 10);
        print_walk(base, &file.text, file.places[i + 1] - 1 - random_below(TRAILER_BYTES), 0, 10);
    }
    print_walk(base, &file.text, end + 1, 0, 1);
    print_walk(base, &file.text, end + 2 + random_below(4000), 0, 1);
}

static void print_empty(const struct sheet_base *base)
{
    struct file file;
    make_file(base, &file, 0, 0);
    print_from_end(base, &file, 0, 0);
    print_walk(base, &file.text, 1, 0, 1);
    print_walk(base, &file.text, 9999, 0, 1);
}

void print_walk_cases(struct sheet_base *base)
{
    int64_t zeros[NUMBERS] = {0};
    print_sheet_writing(base, zeros, MOST_ROOM);
    print_empty(base);
    for (int sheets = 1; sheets <= MOST_SHEETS; sheets++)
        for (int i = 0; i < 3; i++)
            print_whole(base, sheets);
    for (int number = 10; number <= 15; number++)
        for (int before = 0; before < 3; before++)
            for (int behind = 0; behind < 3; behind++)
                print_broken(base, before, behind, number);
    print_places(base, 1);
    print_places(base, 2);
    print_places(base, 4);
    for (int i = 0; i < 3; i++) {
        new_sheet_base(base);
        print_whole(base, 2 + i);
    }
}
