#include "line_parts.h"

#include "order.h"

#include <inttypes.h>
#include <stdio.h>
#include <string.h>

void print_answer(struct answer answer)
{
    printf(" %02d %04d", answer.number, answer.place);
}

void print_counts(const int64_t *counts, int count)
{
    for (int i = 0; i < count; i++)
        printf(" %" PRId64, counts[i]);
}

void print_bits(const unsigned char *bits, int count)
{
    putchar(' ');
    for (int i = 0; i < count; i++)
        putchar('0' + bits[i]);
}

void print_frame(const unsigned char *frame)
{
    putchar(' ');
    for (int i = 0; i < FRAME_SYMBOLS; i += 4)
        printf("%x", 8u * frame[i] + 4u * frame[i + 1] + 2u * frame[i + 2] + frame[i + 3]);
}

void print_changes(const unsigned char *from, const unsigned char *bytes, int count)
{
    int changes = 0;
    for (int i = 0; i < count; i++)
        changes += bytes[i] != from[i];
    printf(" %04d", changes);
    for (int i = 0; i < count; i++)
        if (bytes[i] != from[i])
            printf(" %04d %03d", i, bytes[i]);
}

/* Texts. */

/* A part of the base is printed as 11 characters, so shorter ones are printed as they are. */
enum { LEAST_PART = 12 };

/* How many bytes are the same in both. */
static int count_same(const unsigned char *one, int one_count, const unsigned char *other, int other_count)
{
    int i = 0;
    while (i < one_count && i < other_count && one[i] == other[i])
        i++;
    return i;
}

/* The longest part of the base that the bytes begin with: where it stands, and how long it is. */
static int longest_part(const struct text *base, const unsigned char *bytes, int count, int *longest)
{
    int from = 0;
    *longest = 0;
    for (int i = 0; i < base->count; i++) {
        int same = count_same(&base->bytes[i], base->count - i, bytes, count);
        if (same > *longest) {
            from = i;
            *longest = same;
        }
    }
    return from;
}

static void print_byte(unsigned char byte)
{
    if (byte == '\n')
        putchar('|');
    else if (byte == ' ')
        putchar('_');
    else if (byte < '!' || byte > '~' || strchr("\\|_@", byte) != NULL)
        printf("\\%02x", byte);
    else
        putchar(byte);
}

void print_bytes(const unsigned char *bytes, int count)
{
    putchar(' ');
    for (int i = 0; i < count; i++)
        print_byte(bytes[i]);
}

void print_text(const struct text *base, const struct text *text)
{
    putchar(' ');
    for (int i = 0; i < text->count;) {
        int longest;
        int from = longest_part(base, &text->bytes[i], text->count - i, &longest);
        if (longest < LEAST_PART) {
            print_byte(text->bytes[i]);
            i++;
        } else {
            printf("@%04d,%04d;", from, longest);
            i += longest;
        }
    }
}
