#include "sheet_draft.h"

#include "must.h"
#include "random.h"

#include <inttypes.h>
#include <stdio.h>
#include <string.h>

void start_lines(struct sheet_draft *draft, const int64_t *numbers)
{
    char number[24];
    draft->count = NUMBERS;
    for (int k = 0; k < NUMBERS; k++) {
        snprintf(number, sizeof number, "%" PRId64, numbers[k]);
        set_line(draft, k, listed_name(k), number);
    }
}

void turn_lines(struct sheet_draft *draft, int first)
{
    struct sheet_draft old = *draft;
    for (int k = 0; k < old.count; k++)
        draft->lines[k] = old.lines[(first + k) % old.count];
}

void shuffle_lines(struct sheet_draft *draft)
{
    for (int k = draft->count - 1; k > 0; k--) {
        int other = random_below(k + 1);
        struct line line = draft->lines[k];
        draft->lines[k] = draft->lines[other];
        draft->lines[other] = line;
    }
}

void set_line(struct sheet_draft *draft, int k, const char *name, const char *number)
{
    char line[MOST_LINE + 1];
    int count = snprintf(line, sizeof line, "%s=%s\n", name, number);
    must(count <= MOST_LINE, "there is room for the line");
    draft->lines[k].count = count;
    memcpy(draft->lines[k].bytes, line, (size_t)count);
}

/* Makes room for a line. */
static void move_lines(struct sheet_draft *draft, int k)
{
    must(draft->count < MOST_LINES, "there is room for one more line");
    memmove(&draft->lines[k + 1], &draft->lines[k], (size_t)(draft->count - k) * sizeof draft->lines[0]);
    draft->count++;
}

void insert_line(struct sheet_draft *draft, int k, const char *name, const char *number)
{
    move_lines(draft, k);
    set_line(draft, k, name, number);
}

void insert_empty_line(struct sheet_draft *draft, int k)
{
    move_lines(draft, k);
    draft->lines[k].count = 1;
    draft->lines[k].bytes[0] = '\n';
}

void remove_line(struct sheet_draft *draft, int k)
{
    draft->count--;
    memmove(&draft->lines[k], &draft->lines[k + 1], (size_t)(draft->count - k) * sizeof draft->lines[0]);
}

void insert_byte(struct line *line, int at, unsigned char byte)
{
    must(line->count < MOST_LINE, "there is room for one more byte");
    memmove(&line->bytes[at + 1], &line->bytes[at], (size_t)(line->count - at));
    line->bytes[at] = byte;
    line->count++;
}

void remove_byte(struct line *line, int at)
{
    line->count--;
    memmove(&line->bytes[at], &line->bytes[at + 1], (size_t)(line->count - at));
}

struct answer spoil_line(struct sheet_draft *draft, int k, int number)
{
    struct line line = draft->lines[k];
    int listed = place_in_list(line.bytes, equals_at(&line));
    int place = line_place(draft, number == 13 ? draft->count : k);
    if (number == 11)
        insert_empty_line(draft, k);
    if (number == 12)
        insert_line(draft, k, "helth", "1");
    if (number == 13)
        insert_line(draft, draft->count, listed_name(k), "x");
    if (number == 14)
        insert_byte(&draft->lines[k], equals_at(&line) + 1, '+');
    if (number == 15)
        remove_line(draft, k);
    return refused(number, number == 15 ? listed + 1 : place);
}

int equals_at(const struct line *line)
{
    const unsigned char *equals = memchr(line->bytes, '=', (size_t)line->count);
    return equals == NULL ? line->count : (int)(equals - line->bytes);
}

int line_place(const struct sheet_draft *draft, int k)
{
    int place = 0;
    for (int i = 0; i < k; i++)
        place += draft->lines[i].count;
    return place;
}

void add_lines(struct text *text, const struct sheet_draft *draft)
{
    for (int k = 0; k < draft->count; k++)
        add_bytes(text, draft->lines[k].bytes, draft->lines[k].count);
}

void add_sheet(struct text *text, const struct sheet_draft *draft)
{
    add_lines(text, draft);
    add_trailer(text, line_place(draft, draft->count));
}
