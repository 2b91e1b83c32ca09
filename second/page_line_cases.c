#include "program_cases.h"

#include "random.h"

#include <stddef.h>

/* Characters that are neither 0 nor 1. */
static const unsigned char others[] = {'2', '/', ' ', 0, 1, '\r', '\t', 'O', 'l', '-', '=', ':', 127, 128, 176, 177, 255};

enum { OTHERS = sizeof others };

/* The sheet of the base, behind what is there. */
static void add_base_sheet(struct text *text, const struct program_base *base)
{
    add_bytes(text, &base->text.bytes[PAGE_BITS + 1], base->text.count - PAGE_BITS - 1);
}

/* So many characters of the base's page line, which is begun again behind its end, and what is there instead of the newline. */
static void print_line(struct program_base *base, int count, const char *end, struct answer meant)
{
    struct text input = {0};
    for (int i = 0; i < count; i++)
        add_bytes(&input, &base->text.bytes[i % PAGE_BITS], 1);
    add_string(&input, end);
    print_bench(base, &input, meant);
    add_base_sheet(&input, base);
    print_bench(base, &input, meant);
}

/* Lines that are shorter or longer, and lines that do not end. */
static void print_lengths(struct program_base *base)
{
    static const int counts[] = {0, 1, 2, 125, 248, 249, 251, 252, 499, 500};
    for (size_t i = 0; i < sizeof counts / sizeof counts[0]; i++) {
        print_line(base, counts[i], "\n", refused(1, 0));
        print_line(base, counts[i], "", refused(1, 0));
    }
    print_line(base, 250, "", refused(1, 0));
    print_line(base, 250, "\r\n", refused(1, 0));
    print_line(base, 250, " \n", refused(1, 0));
    print_line(base, 249, "\n\n", refused(1, 0));
    print_line(base, 249, "\r\n", refused(2, 249));
    print_line(base, 245, "toi=0\n", refused(2, 245));
}

/* The base with other bytes at one or two places of its page line. */
static void print_bytes_at(struct program_base *base, int one, unsigned char byte, int other, unsigned char other_byte,
                           struct answer meant)
{
    struct text input = base->text;
    input.bytes[other] = other_byte;
    input.bytes[one] = byte;
    print_bench(base, &input, meant);
}

/* The lowest place counts; a byte 10 ends the line, so its length is another. */
static void print_characters(struct program_base *base)
{
    static const int places[] = {0, 1, 125, 248, 249};
    for (int i = 0; i < 3 * OTHERS; i++) {
        int place = i % 6 < 5 ? places[i % 6] : random_below(PAGE_BITS);
        print_bytes_at(base, place, others[i % OTHERS], place, '0', refused(2, place));
    }
    for (int i = 0; i < 8; i++) {
        int place = random_below(PAGE_BITS - 1);
        int later = place + 1 + random_below(PAGE_BITS - 1 - place);
        print_bytes_at(base, place, others[random_below(OTHERS)], later, others[random_below(OTHERS)], refused(2, place));
        print_bytes_at(base, place, others[random_below(OTHERS)], later, '\n', refused(1, 0));
    }
    for (int i = 0; i < 5; i++)
        print_bytes_at(base, places[i], '\n', places[i], '\n', refused(1, 0));
}

/* So many bytes: the base again and again, and the base's sheet behind it. */
static void make_long(struct text *text, const struct program_base *base, int count)
{
    int sheet = base->text.count - PAGE_BITS - 1;
    text->count = 0;
    add_repeated(text, &base->text, count - sheet);
    add_base_sheet(text, base);
}

/* Up to 8192 bytes are looked at: the page line first, and no sheet that is longer than it may be. */
static void print_sizes(struct program_base *base)
{
    for (int count = MOST_INPUT - 1; count <= MOST_TEXT; count += count == MOST_INPUT + 1 ? MOST_TEXT - count : 1) {
        struct text input;
        int is_over = count > MOST_INPUT;
        make_long(&input, base, count);
        print_bench(base, &input, is_over ? refused(1, 0) : refused(10, 0));
        input.bytes[17] = 'x';
        print_bench(base, &input, is_over ? refused(1, 0) : refused(2, 17));
        input.bytes[17] = '\n';
        print_bench(base, &input, refused(1, 0));
        input.bytes[17] = '0';
        input.bytes[input.count - 1] = '0';
        print_bench(base, &input, is_over ? refused(1, 0) : refused(10, 0));
    }
}

void print_page_line_cases(struct program_base *base)
{
    struct input_parts parts;
    struct text input = {0};
    new_program_base(base, &parts);
    print_bench(base, &input, refused(1, 0));
    print_lengths(base);
    print_characters(base);
    print_sizes(base);
}
