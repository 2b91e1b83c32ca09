#include "sheet_cases.h"

#include "random.h"

#include <stddef.h>
#include <string.h>

/* Numbers that are good but for one, into as much room as there is. */
static void print_with(struct sheet_base *base, int k, int64_t number, int room)
{
    int64_t numbers[NUMBERS];
    memcpy(numbers, base->numbers, sizeof numbers);
    numbers[k] = number;
    print_sheet_writing(base, numbers, room);
}

/* Some of these are good times in their low 8, 9, 16 or 32 bits. */
static void print_times(struct sheet_base *base)
{
    static const int64_t times[] = {400,   401,    511,  512, -1, -2, -400, (int64_t)1 << 32, -((int64_t)1 << 32),
                                    65536, -65536, 1024, 656, INT64_MAX, -INT64_MAX};
    for (size_t i = 0; i < sizeof times / sizeof times[0]; i++)
        print_with(base, 0, times[i], MOST_ROOM);
}

static void print_counts(struct sheet_base *base)
{
    for (int k = 1; k < NUMBERS; k++) {
        print_with(base, k, least_number(k) - 1, MOST_ROOM);
        print_with(base, k, largest_number(k) + 1, MOST_ROOM);
    }
    print_with(base, 11, INT64_MAX, MOST_ROOM);
    print_with(base, 12, -INT64_MAX, MOST_ROOM);
}

static void print_several(struct sheet_base *base)
{
    for (int i = 0; i < 12; i++) {
        int64_t numbers[NUMBERS];
        int first = random_below(NUMBERS - 1);
        int later = first + 1 + random_below(NUMBERS - 1 - first);
        memcpy(numbers, base->numbers, sizeof numbers);
        numbers[first] = largest_number(first) + 1;
        numbers[later] = least_number(later) - 1;
        print_sheet_writing(base, numbers, i % 3 == 0 ? 0 : MOST_ROOM);
    }
}

/* A sheet is refused for room only where its numbers are good. */
static void print_rooms(struct sheet_base *base)
{
    int64_t numbers[NUMBERS];
    random_numbers(numbers);
    print_sheet_writing(base, numbers, MOST_ROOM);
    int size = base->text.count;
    const int rooms[] = {0, 1, size - TRAILER_BYTES, size - 1, size, size + 1, size + random_below(100)};
    for (size_t i = 0; i < sizeof rooms / sizeof rooms[0]; i++)
        print_sheet_writing(base, numbers, rooms[i]);
    print_with(base, 0, 400, size - 1);
    print_with(base, 2, 84, size - 1);
}

void print_sheet_writing_cases(struct sheet_base *base)
{
    new_sheet_base(base);
    print_times(base);
    print_counts(base);
    print_several(base);
    for (int i = 0; i < 12; i++)
        print_rooms(base);
}
