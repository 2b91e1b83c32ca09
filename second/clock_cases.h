/* The cases of clock terms: the lines CH and CT. */
#ifndef CLOCK_CASES_H
#define CLOCK_CASES_H

/* Prints all of them. */
void print_clock_cases(void);

#endif
