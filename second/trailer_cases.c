#include "sheet_cases.h"

#include "random.h"

#include <stddef.h>
#include <stdio.h>
#include <string.h>

/* How many bytes the base has before its trailer. */
static int lines_count(const struct sheet_base *base)
{
    return base->text.count - TRAILER_BYTES;
}

/* The base's lines with this behind them, whose trailer is meant to be refused. */
static void print_lines_and(const struct sheet_base *base, const char *end)
{
    struct text text;
    start_text(&text, base);
    add_bytes(&text, base->text.bytes, lines_count(base));
    add_string(&text, end);
    print_sheet_refused(base, &text, 10, 0);
}

/* Fewer bytes than a trailer has: its first, or its last. And the base without its last bytes. */
static void print_short(const struct sheet_base *base)
{
    const unsigned char *trailer = &base->text.bytes[lines_count(base)];
    for (int count = 0; count < TRAILER_BYTES; count++) {
        struct text text = {0};
        add_bytes(&text, trailer, count);
        print_sheet_refused(base, &text, 10, 0);
        text.count = 0;
        add_bytes(&text, &trailer[TRAILER_BYTES - count], count);
        print_sheet_refused(base, &text, 10, 0);
        start_text(&text, base);
        add_bytes(&text, base->text.bytes, lines_count(base) + count);
        print_sheet_refused(base, &text, 10, 0);
    }
}

/* Each byte of a trailer replaced by others; the letters by capitals too. */
static void print_other_bytes(const struct sheet_base *base)
{
    static const unsigned char others[] = {0, '\t', '\n', '\r', ' ', '-', '/', ':', 'O', 127, 255};
    for (int at = 0; at < TRAILER_BYTES; at++) {
        struct text text;
        unsigned char *byte = &text.bytes[lines_count(base) + at];
        text = base->text;
        *byte ^= 32;
        print_sheet_refused(base, &text, 10, 0);
        for (size_t i = 0; i < sizeof others; i++) {
            text = base->text;
            if (*byte == others[i])
                continue;
            *byte = others[i];
            print_sheet_refused(base, &text, 10, 0);
        }
    }
}

/* Nearly trailers, with the right count. */
static void print_near(const struct sheet_base *base)
{
    static const char *const forms[] = {
        "back %d\n",    "back %04d\n",     "back %06d\n",   "back %010d\n",   "back %05d",      "back %05d\n\n", "back %05d\n ",
        "back %05d\r\n", "back %05d \n",   "back  %05d\n",  "back %5d\n",     "back %-5d\n",    "back +%04d\n",  "back -%04d\n",
        "back%05d\n",   "back%06d\n",      "back\t%05d\n",  "BACK %05d\n",    "Back %05d\n",    "bacK %05d\n",   "bcak %05d\n",
        "bak %05d\n",   "bakc %05d\n",     "back=%05d\n",   "back %05d=\n",   "back %03d.0\n",  "back 0x%03x\n", "back 0%03dO\n",
        "%05d back\n",  "back %05dback\n", "\nback %05d\n\n", "back %05d\nx",
    };
    for (size_t i = 0; i < sizeof forms / sizeof forms[0]; i++) {
        char end[64];
        snprintf(end, sizeof end, forms[i], lines_count(base));
        print_lines_and(base, end);
    }
}

static void print_counted(const struct sheet_base *base, int before, int counted, int number, int place)
{
    struct text text = {0};
    add_repeated(&text, &base->text, before);
    add_trailer(&text, counted);
    print_sheet_refused(base, &text, number, place);
}

/* Up to 4096 bytes are counted, and no more, be they there or not. A sheet of 4096 bytes has a trailer among its lines. */
static void print_large_counts(const struct sheet_base *base)
{
    int lines = lines_count(base);
    static const int over[] = {4097, 4098, 4196, 5000, 8192, 9999, 10000, 14096, 32768, 65535, 65536, 99999};
    for (size_t i = 0; i < sizeof over / sizeof over[0]; i++) {
        print_counted(base, 4196, over[i], 10, 0);
        print_counted(base, lines, over[i], 10, 0);
    }
    print_counted(base, 4096, 4096, 11, lines);
    print_counted(base, base->text.count * (4400 / base->text.count), base->text.count, 11, lines);
    print_counted(base, base->text.count, 4096, 10, 0);
    print_counted(base, lines, 4096, 10, 0);
}

/* Trailers that point before the first byte. */
static void print_too_far(const struct sheet_base *base)
{
    static const int missing[] = {1, 2, 5, 6, 7, 100};
    int lines = lines_count(base);
    for (size_t i = 0; i < sizeof missing / sizeof missing[0]; i++) {
        struct text text = {0};
        add_bytes(&text, &base->text.bytes[missing[i]], base->text.count - missing[i]);
        print_sheet_refused(base, &text, 10, 0);
        print_counted(base, lines, lines + missing[i], 10, 0);
        print_counted(base, 0, missing[i], 10, 0);
    }
}

/* Trailers that count some of the sheet's bytes, or some before it: what comes of it is left to the reader. */
static void print_other_counts(const struct sheet_base *base)
{
    int lines = lines_count(base);
    for (int i = 0; i < 60; i++) {
        struct text text = {0};
        int counted = i % 2 == 0 ? random_below(lines) : lines - 4 + random_below(9);
        add_sheet_bytes(&text, 5 + random_below(6));
        add_bytes(&text, base->text.bytes, lines);
        add_trailer(&text, counted);
        print_sheet_reading(base, &text);
    }
}

/* No lines: the first name is missing. */
static void print_no_lines(const struct sheet_base *base)
{
    struct text text = {0};
    add_trailer(&text, 0);
    print_sheet_refused(base, &text, 15, 1);
    text = base->text;
    add_trailer(&text, 0);
    print_sheet_refused(base, &text, 15, 1);
    text.count = 0;
    add_random_bytes(&text, 20);
    add_trailer(&text, 0);
    print_sheet_refused(base, &text, 15, 1);
}

void print_trailer_cases(struct sheet_base *base)
{
    for (int i = 0; i < 2; i++) {
        new_sheet_base(base);
        print_short(base);
        print_near(base);
        print_too_far(base);
        print_other_counts(base);
        print_no_lines(base);
    }
    new_sheet_base(base);
    print_other_bytes(base);
    print_large_counts(base);
}
