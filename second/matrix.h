/* The parity-check matrix H of one subframe, laid out in full (IS-GPS-800, 3.2.3.4 and 6.2.4). */
#ifndef MATRIX_H
#define MATRIX_H

enum { MOST_EQUATIONS = 600, MOST_SYMBOLS = 1200 };

/* Row r of H is equation r + 1, and column c is symbol c + 1 of a block: the data, then p1, then p2. */
struct matrix {
    int equations;
    int symbols;
    unsigned char at[MOST_EQUATIONS][MOST_SYMBOLS];
};

/* Lays out H of subframe '2' or '3' from the six tables in the folder. A table that cannot be read ends the program. */
void read_matrix(struct matrix *h, const char *folder, char subframe);

#endif
