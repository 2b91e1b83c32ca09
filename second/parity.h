/* Parity by plain linear algebra over the whole matrix: nothing here knows that T is a triangle. */
#ifndef PARITY_H
#define PARITY_H

#include "matrix.h"

/* The equations of one subframe, with the inverse of their parity columns. */
struct parity {
    struct matrix h;
    unsigned char inverse[MOST_EQUATIONS][MOST_EQUATIONS];
};

/* Reads the tables and inverts the parity columns. Where these have no inverse the program ends. */
void prepare_parity(struct parity *parity, const char *folder, char subframe);

/* Writes behind the data symbols of a block the only parity that meets every equation. */
void fill_parity(const struct parity *parity, unsigned char *block);

/* The first equation that the block does not meet, counted from 1, or 0 where it meets all. */
int first_unmet(const struct parity *parity, const unsigned char *block);

/* Turns parity symbols of a block so that the given equation, counted from 1, changes and no other does. */
void turn_one_equation(const struct parity *parity, unsigned char *block, int equation);

#endif
