/* The library and the second program side by side.

       speed TABLES                    prints the time of each work on both sides and their ratio, and how it grows
       speed TABLES check              only whether both sides give the same on every input
       speed TABLES WORK SIDE CALLS    makes so many calls of one side, library or second, for a counter of instructions

   TABLES is the folder of the second program's tables. Exits with 1 where the two sides differ on an input. */
#include "work.h"

#include <stdio.h>
#include <stdlib.h>
#include <string.h>
#include <time.h>

enum { ROUNDS = 9, LEAST_NANOSECONDS = 20000000 };

static double now(void)
{
    struct timespec t;
    clock_gettime(CLOCK_MONOTONIC, &t);
    return (double)t.tv_sec * 1e9 + (double)t.tv_nsec;
}

static void call(void (*side)(int), int calls)
{
    for (int i = 0; i < calls; i++)
        side(i % INPUTS);
}

/* Nanoseconds a call, over so many calls. */
static double time_of(void (*side)(int), int calls)
{
    double start = now();
    call(side, calls);
    return (now() - start) / calls;
}

/* So many calls that they take long enough to be measured. */
static int enough_calls(void (*side)(int))
{
    int calls = INPUTS;
    while (time_of(side, calls) * calls < LEAST_NANOSECONDS)
        calls *= 2;
    return calls;
}

static int compare_numbers(const void *a, const void *b)
{
    double x = *(const double *)a, y = *(const double *)b;
    return (x > y) - (x < y);
}

static double median(double *numbers)
{
    qsort(numbers, ROUNDS, sizeof numbers[0], compare_numbers);
    return numbers[ROUNDS / 2];
}

static int differing_inputs(const struct work *work)
{
    int differing = 0;
    for (int i = 0; i < INPUTS; i++) {
        work->library(i);
        work->second(i);
        differing += !work->agree(i);
    }
    return differing;
}

/* Both sides in each round, in turn, so that what else the machine does meets both. */
static void measure(const struct work *work)
{
    double library[ROUNDS], second[ROUNDS], ratio[ROUNDS];
    int library_calls = enough_calls(work->library), second_calls = enough_calls(work->second);
    for (int r = 0; r < ROUNDS; r++) {
        library[r] = time_of(work->library, library_calls);
        second[r] = time_of(work->second, second_calls);
        ratio[r] = library[r] / second[r];
    }
    double middle = median(ratio);
    printf("%-28s library %8.2f us   second %8.2f us   ratio %.3f, from %.3f to %.3f\n", work->what, median(library) / 1000,
           median(second) / 1000, middle, ratio[0], ratio[ROUNDS - 1]);
}

/* How the library's time for many calls grows with them. */
static void measure_growth(const struct work *work)
{
    printf("%-28s", work->what);
    for (int calls = 256; calls <= 16384; calls *= 4) {
        double each[ROUNDS];
        for (int r = 0; r < ROUNDS; r++)
            each[r] = time_of(work->library, calls);
        printf("   %5d: %6.2f us", calls, median(each) / 1000);
    }
    printf("   each\n");
}

/* How the time of reading every sheet of a file grows with them; how many walks came to another number of sheets. */
static int measure_files(void)
{
    int differing = 0;
    for (int sheets = 1; sheets <= MOST_SHEETS; sheets *= 8) {
        double library[ROUNDS], second[ROUNDS];
        int size = make_file(sheets);
        for (int r = 0; r < ROUNDS; r++) {
            double start = now();
            differing += library_walk(size) != sheets;
            double middle = now();
            differing += second_walk(size) != sheets;
            library[r] = (middle - start) / sheets;
            second[r] = (now() - middle) / sheets;
        }
        printf("%4d sheets, %7d bytes: library %6.2f us a sheet, second %6.2f us\n", sheets, size, median(library) / 1000,
               median(second) / 1000);
    }
    return differing;
}

static int check_all(void)
{
    int differing = 0;
    for (int w = 0; w < WORKS; w++)
        differing += differing_inputs(&works[w]);
    printf("speed: %d inputs for each of %d works, both sides give the same on all but %d\n", INPUTS, WORKS, differing);
    return differing != 0;
}

static int measure_all(void)
{
    printf("median of %d rounds; the ratio is library over second, in the same round\n", ROUNDS);
    for (int w = 0; w < WORKS; w++)
        measure(&works[w]);
    printf("\nthe library, by the number of calls; median of %d\n", ROUNDS);
    for (int w = 0; w < WORKS; w++)
        measure_growth(&works[w]);
    printf("\na file of sheets, read from the last to the first; median of %d\n", ROUNDS);
    return measure_files() != 0;
}

/* So many calls of one side, or bad usage. */
static int call_one(const char *name, const char *side, int calls)
{
    for (int w = 0; w < WORKS; w++)
        if (strcmp(works[w].name, name) == 0) {
            call(strcmp(side, "library") == 0 ? works[w].library : works[w].second, calls);
            return 0;
        }
    return 2;
}

static int usage(const char *name)
{
    fprintf(stderr, "usage: %s TABLES [check | WORK library|second CALLS]\n", name);
    return 2;
}

int main(int count, char **words)
{
    if (count < 2)
        return usage(words[0]);
    make_inputs(words[1]);
    if (count == 2)
        return check_all() || measure_all();
    if (count == 3 && strcmp(words[2], "check") == 0)
        return check_all();
    if (count != 5)
        return usage(words[0]);
    return call_one(words[2], words[3], atoi(words[4]));
}
