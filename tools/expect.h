/* For C programs that hold results to what they must be: counts the results, and prints each that differs. */
#ifndef EXPECT_H
#define EXPECT_H

#include <stdio.h>

static int differing = 0;
static int tried = 0;

static void expect(int holds, const char *what)
{
    tried++;
    if (holds)
        return;
    differing++;
    printf("differs: %s\n", what);
}

static int all_are(const unsigned char *symbols, int count, unsigned char symbol)
{
    for (int i = 0; i < count; i++)
        if (symbols[i] != symbol)
            return 0;
    return 1;
}

/* The last line, and the exit status. */
static int tell_results(const char *who)
{
    printf("%s: %d of %d results as they must be\n", who, tried - differing, tried);
    return differing != 0;
}

#endif
