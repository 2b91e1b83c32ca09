/* The cases of parity: the lines F2, U2, F3 and U3. */
#ifndef PARITY_CASES_H
#define PARITY_CASES_H

#include "parity.h"

/* Prints the cases of subframe '2' or '3', whose equations are given. */
void print_parity_cases(char subframe, const struct parity *parity);

#endif
