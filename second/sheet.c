#include "sheet.h"

#include <inttypes.h>
#include <stdio.h>
#include <stdlib.h>
#include <string.h>

enum { MOST_SHEET = 1024 };

/* The list. */

const char *listed_name(int k)
{
    return k == 0 ? "toi" : subframe_2.fields[k - 1].name;
}

int64_t least_number(int k)
{
    return k == 0 ? 0 : least_count(&subframe_2, k - 1);
}

int64_t largest_number(int k)
{
    return k == 0 ? LARGEST_TOI : largest_count(&subframe_2, k - 1);
}

int place_in_list(const unsigned char *name, int count)
{
    for (int k = 0; k < NUMBERS; k++)
        if (strlen(listed_name(k)) == (size_t)count && memcmp(listed_name(k), name, (size_t)count) == 0)
            return k;
    return -1;
}

/* Numbers and trailers. A text is right where it is the one that its value is printed as. */

static int is_printed(const char *printed, const unsigned char *text, int count)
{
    return strlen(printed) == (size_t)count && memcmp(printed, text, (size_t)count) == 0;
}

/* No 64-bit number is printed as 24 characters. A larger one is taken for the largest, and is then not the one printed. */
static int takes_number(const unsigned char *text, int count, int64_t *number)
{
    char copy[24] = {0}, printed[24];
    if (count >= (int)sizeof copy)
        return 0;
    memcpy(copy, text, (size_t)count);
    *number = strtoll(copy, NULL, 10);
    snprintf(printed, sizeof printed, "%" PRId64, *number);
    return is_printed(printed, text, count);
}

int sheet_start(const unsigned char *bytes, int count)
{
    char digits[6] = {0}, printed[64];
    int place = count - TRAILER_BYTES;
    if (place < 0)
        return count;
    memcpy(digits, &bytes[place + 5], 5);
    unsigned long counted = strtoul(digits, NULL, 10);
    snprintf(printed, sizeof printed, "back %05lu\n", counted);
    if (!is_printed(printed, &bytes[place], TRAILER_BYTES))
        return count;
    if (counted > MOST_COUNTED || counted > (unsigned long)place)
        return count;
    return place - (int)counted;
}

/* Reading. */

/* What was given so far. */
struct given {
    int is_given[NUMBERS];
    int64_t numbers[NUMBERS];
};

/* The number of a refusal of a line, which stands here without its end, or 0. */
static int judge_line(const unsigned char *line, int count, struct given *given)
{
    const unsigned char *equals = memchr(line, '=', (size_t)count);
    if (equals == NULL)
        return 11;
    int k = place_in_list(line, (int)(equals - line));
    if (k < 0)
        return 12;
    if (given->is_given[k])
        return 13;
    int64_t number;
    if (!takes_number(equals + 1, (int)(line + count - equals) - 1, &number))
        return 14;
    if (number < least_number(k) || number > largest_number(k))
        return 14;
    given->is_given[k] = 1;
    given->numbers[k] = number;
    return 0;
}

static struct answer judge_lines(const unsigned char *lines, int count, struct given *given)
{
    for (int place = 0; place < count;) {
        const unsigned char *end = memchr(&lines[place], '\n', (size_t)(count - place));
        if (end == NULL)
            return refused(11, place);
        int number = judge_line(&lines[place], (int)(end - &lines[place]), given);
        if (number != 0)
            return refused(number, place);
        place = (int)(end - lines) + 1;
    }
    for (int k = 0; k < NUMBERS; k++)
        if (!given->is_given[k])
            return refused(15, k + 1);
    return done;
}

struct sheet read_sheet(const unsigned char *bytes, int count)
{
    struct sheet sheet = {0};
    struct given given = {0};
    int start = sheet_start(bytes, count);
    if (start == count) {
        sheet.answer = refused(10, 0);
        return sheet;
    }
    sheet.answer = judge_lines(&bytes[start], count - TRAILER_BYTES - start, &given);
    if (is_done(sheet.answer)) {
        memcpy(sheet.numbers, given.numbers, sizeof sheet.numbers);
        sheet.before = start;
    }
    return sheet;
}

/* Writing. */

static struct answer judge_numbers(const int64_t *numbers)
{
    if (numbers[0] < 0 || numbers[0] > LARGEST_TOI)
        return refused(3, 0);
    int bit = first_out_of_range(&subframe_2, &numbers[1]);
    return bit > 0 ? refused(6, bit) : done;
}

/* Prints the sheet as a string, and gives its length. */
static int print_sheet(const int64_t *numbers, char *text)
{
    char *end = text;
    for (int k = 0; k < NUMBERS; k++)
        end += sprintf(end, "%s=%" PRId64 "\n", listed_name(k), numbers[k]);
    return (int)(end - text) + sprintf(end, "back %05d\n", (int)(end - text));
}

struct written write_sheet(const int64_t *numbers, unsigned char *out, int room)
{
    char text[MOST_SHEET];
    struct written written = {judge_numbers(numbers), 0};
    if (!is_done(written.answer))
        return written;
    int size = print_sheet(numbers, text);
    if (size > room) {
        written.answer = refused(16, 0);
        return written;
    }
    memcpy(out, text, (size_t)size);
    written.size = size;
    return written;
}

/* Walking. */

struct step walk_back(const unsigned char *bytes, int count, int place)
{
    struct step step = {.place = place};
    if (place > count) {
        step.answer = refused(1, 0);
        return step;
    }
    if (place == 0) {
        step.is_finished = 1;
        return step;
    }
    struct sheet sheet = read_sheet(bytes, place);
    step.answer = sheet.answer;
    memcpy(step.numbers, sheet.numbers, sizeof step.numbers);
    if (is_done(sheet.answer))
        step.place = sheet.before;
    return step;
}
