/* How a program uses the library: the frame of a sheet, played with two symbols turned, and read again.

       embedding/example <SHEET

   prints what was built and what is read from it, or the refusal with its number and place. */
#include "l1c.h"

#include <inttypes.h>
#include <stdio.h>
#include <string.h>

enum { MOST_INPUT = 8192, HEALTH = 4 };

static int tell_refusal(const char *what, uint64_t returned)
{
    printf("%s: refused %" PRIu32 " at %" PRIu32 "\n", what, l1c_number(returned), l1c_place(returned));
    return 1;
}

int main(void)
{
    static uint8_t input[MOST_INPUT];
    int64_t contents[L1C_NUMBERS];
    uint8_t page[L1C_PAGE_BITS] = {0};
    uint8_t frame[L1C_FRAME_SYMBOLS];
    uint32_t time[L1C_TIME_NUMBERS];

    size_t size = fread(input, 1, sizeof input, stdin);
    uint64_t returned = l1c_read_sheet(input, size, contents, L1C_NUMBERS);
    if (l1c_number(returned) != L1C_DONE)
        return tell_refusal("sheet", returned);
    printf("sheet: toi %" PRId64 ", health %" PRId64 "\n", contents[0], contents[HEALTH]);

    returned = l1c_build(contents, L1C_NUMBERS, page, L1C_PAGE_BITS, frame, L1C_FRAME_SYMBOLS);
    if (l1c_number(returned) != L1C_DONE)
        return tell_refusal("frame", returned);

    frame[10] ^= 1;
    frame[20] ^= 1;
    returned = l1c_read(frame, L1C_FRAME_SYMBOLS, contents, L1C_NUMBERS, page, L1C_PAGE_BITS);
    if (l1c_number(returned) != L1C_DONE)
        return tell_refusal("reading", returned);
    printf("read: toi %" PRId64 ", health %" PRId64 ", %" PRIu32 " corrected\n", contents[0], contents[HEALTH], l1c_said(returned));

    frame[100] ^= 1;
    returned = l1c_read_subframe2(frame, L1C_FRAME_SYMBOLS, &contents[1], L1C_COUNTS);
    if (l1c_number(returned) != L1C_DONE)
        tell_refusal("subframe 2 with a turned symbol", returned);
    returned = l1c_read_time(frame, L1C_FRAME_SYMBOLS, time, L1C_TIME_NUMBERS);
    if (l1c_number(returned) != L1C_DONE)
        return tell_refusal("time", returned);
    printf("time: toi %" PRIu32 ", %" PRIu32 " corrected\n", time[0], time[1]);
    return 0;
}
