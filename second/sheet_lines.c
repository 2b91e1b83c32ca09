#include "sheet_lines.h"

#include "line_parts.h"
#include "must.h"

#include <stdio.h>
#include <string.h>

/* Writing. */

void print_sheet_writing(struct sheet_base *base, const int64_t *numbers, int room)
{
    unsigned char out[MOST_ROOM];
    struct written written = write_sheet(numbers, out, room);
    printf("SW %04d", room);
    print_counts(numbers, NUMBERS);
    print_answer(written.answer);
    printf(" %04d", written.size);
    print_bytes(out, written.size);
    putchar('\n');
    if (!is_done(written.answer))
        return;
    memcpy(base->numbers, numbers, sizeof base->numbers);
    base->text.count = 0;
    add_bytes(&base->text, out, written.size);
}

/* Reading. */

static int same_numbers(const int64_t *one, const int64_t *other)
{
    return memcmp(one, other, NUMBERS * sizeof one[0]) == 0;
}

static int are_zeros(const int64_t *numbers)
{
    static const int64_t zeros[NUMBERS];
    return same_numbers(numbers, zeros);
}

/* The base has the numbers of every good sheet, and is itself what they are written as. */
static void check_sheet(const struct sheet_base *base, const struct sheet *sheet, int start)
{
    if (!is_done(sheet->answer)) {
        must(are_zeros(sheet->numbers) && sheet->before == 0, "a sheet that is refused has zeros beside it");
        return;
    }
    must(same_numbers(sheet->numbers, base->numbers), "the numbers read are the base's");
    must(sheet->before == start, "all bytes before the sheet are handed back");
    struct sheet again = read_sheet(base->text.bytes, base->text.count);
    must(is_done(again.answer) && same_numbers(again.numbers, sheet->numbers), "what is read, written and read is the same");
}

void print_sheet_reading(const struct sheet_base *base, const struct text *text)
{
    struct sheet sheet = read_sheet(text->bytes, text->count);
    int start = sheet_start(text->bytes, text->count);
    check_sheet(base, &sheet, start);
    printf("SR");
    print_text(&base->text, text);
    print_answer(sheet.answer);
    printf(" %04d\n", start);
}

void print_sheet_refused(const struct sheet_base *base, const struct text *text, int number, int place)
{
    struct answer answer = read_sheet(text->bytes, text->count).answer;
    must(same_answer(answer, refused(number, place)), "the sheet is refused as it is meant to be");
    print_sheet_reading(base, text);
}

/* Walking. */

enum { MOST_STEPS = 10 };

/* A sheet is read, and the walk goes on. */
static int goes_on(const struct step *step)
{
    return !step->is_finished && is_done(step->answer);
}

/* Takes so many steps, each from the place where the one before it goes on. */
static void take_steps(const struct text *text, int place, struct step *steps, int count)
{
    must(count <= MOST_STEPS, "there is room for the steps");
    for (int i = 0; i < count; i++) {
        steps[i] = walk_back(text->bytes, text->count, place);
        place = steps[i].place;
    }
}

static void check_steps(const struct step *steps, int sheets, int number)
{
    for (int i = 0; i < sheets; i++)
        must(goes_on(&steps[i]), "the walk reads as many sheets as it is meant to");
    for (int i = sheets; i < sheets + 2; i++) {
        must(steps[i].is_finished == (number == 0) && steps[i].answer.number == number, "the walk ends as it is meant to");
        must(are_zeros(steps[i].numbers), "a step that reads no sheet has zeros beside it");
    }
    must(steps[sheets].place == steps[sheets + 1].place, "a walk that ends stays at its place");
}

void print_walk(const struct sheet_base *base, const struct text *text, int place, int sheets, int number)
{
    struct step steps[MOST_STEPS];
    take_steps(text, place, steps, sheets + 2);
    check_steps(steps, sheets, number);
    printf("SK");
    print_text(&base->text, text);
    printf(" %04d %04d", place, sheets + 2);
    for (int i = 0; i < sheets + 2; i++) {
        printf(" %d", steps[i].is_finished);
        print_counts(steps[i].numbers, NUMBERS);
        print_answer(steps[i].answer);
        printf(" %04d", steps[i].place);
    }
    putchar('\n');
}
