#include "lines.h"

#include "checks.h"
#include "line_parts.h"

#include <stdio.h>
#include <string.h>

void print_building(struct base *base, const struct contents *contents)
{
    unsigned char frame[FRAME_SYMBOLS] = {0};
    struct answer answer = build(base->codes, contents, frame);
    printf("FB %05d", contents->toi);
    print_counts(contents->counts, COUNTS);
    print_bits(contents->page, PAGE_BITS);
    print_answer(answer);
    print_frame(frame);
    putchar('\n');
    if (!is_done(answer))
        return;
    base->is_built = 1;
    base->contents = *contents;
    memcpy(base->frame, frame, sizeof frame);
}

void print_written(struct base *base, const struct parts *parts)
{
    memset(&base->contents, 0, sizeof base->contents);
    base->is_built = 0;
    take_counts(&subframe_2, parts->two, base->contents.counts);
    memcpy(base->contents.page, parts->three, PAGE_BITS);
    to_frame(parts, base->frame);
    printf("FW");
    print_counts(base->contents.counts, COUNTS);
    print_bits(base->contents.page, PAGE_BITS);
    print_frame(base->frame);
    putchar('\n');
}

void print_reading(const struct base *base, const unsigned char *symbols, int length)
{
    struct reading reading = {0};
    unsigned char frame[FRAME_SYMBOLS + 1] = {0};
    memcpy(frame, symbols, FRAME_SYMBOLS);
    reading.read = read_frame(base->codes, frame, length, &reading.whole);
    reading.time = read_time(frame, length, &reading.alone);
    reading.two = read_subframe_2(base->codes, frame, length, &reading.alone);
    reading.three = read_subframe_3(base->codes, frame, length, &reading.alone);
    check_reading(base, frame, length, &reading);
    printf("FR %04d", length);
    print_changes(base->frame, symbols, FRAME_SYMBOLS);
    print_answer(reading.read);
    print_answer(reading.time);
    printf(" %03d %02d", reading.alone.toi, reading.alone.corrected);
    print_answer(reading.two);
    print_answer(reading.three);
    putchar('\n');
}
