#include "parity.h"

#include <stdio.h>
#include <stdlib.h>
#include <string.h>

/* Gauss's elimination works on the parity columns of H with the unit matrix at their right. */
typedef unsigned char wide_row[2 * MOST_EQUATIONS];

static void set_up(const struct matrix *h, wide_row *rows)
{
    int n = h->equations;
    for (int r = 0; r < n; r++) {
        memset(rows[r], 0, sizeof rows[r]);
        memcpy(rows[r], &h->at[r][n], (size_t)n);
        rows[r][n + r] = 1;
    }
}

/* The first row from `column` on with a one in that column. */
static int find_pivot(wide_row *rows, int n, int column)
{
    for (int r = column; r < n; r++)
        if (rows[r][column] == 1)
            return r;
    fprintf(stderr, "second: the parity columns have no inverse\n");
    exit(1);
}

static void swap_rows(wide_row *rows, int a, int b)
{
    wide_row kept;
    memcpy(kept, rows[a], sizeof kept);
    memmove(rows[a], rows[b], sizeof kept);
    memcpy(rows[b], kept, sizeof kept);
}

static void add_row(wide_row *rows, int to, int from)
{
    for (int c = 0; c < 2 * MOST_EQUATIONS; c++)
        rows[to][c] ^= rows[from][c];
}

/* Leaves the unit matrix at the left, so that the inverse stands at the right. */
static void eliminate(wide_row *rows, int n)
{
    for (int column = 0; column < n; column++) {
        swap_rows(rows, column, find_pivot(rows, n, column));
        for (int r = 0; r < n; r++)
            if (r != column && rows[r][column] == 1)
                add_row(rows, r, column);
    }
}

void prepare_parity(struct parity *parity, const char *folder, char subframe)
{
    static wide_row rows[MOST_EQUATIONS];
    read_matrix(&parity->h, folder, subframe);
    int n = parity->h.equations;
    set_up(&parity->h, rows);
    eliminate(rows, n);
    for (int r = 0; r < n; r++)
        memcpy(parity->inverse[r], &rows[r][n], (size_t)n);
}

/* The sum modulo 2 of the symbols that stand at a row's ones. */
static unsigned char sum_at_ones(const unsigned char *row, const unsigned char *symbols, int count)
{
    unsigned char sum = 0;
    for (int i = 0; i < count; i++)
        sum ^= row[i] & symbols[i];
    return sum;
}

/* The parity has to bring to zero what the data leave in each equation: the inverse times those sums. */
void fill_parity(const struct parity *parity, unsigned char *block)
{
    unsigned char left[MOST_EQUATIONS];
    int n = parity->h.equations;
    for (int r = 0; r < n; r++)
        left[r] = sum_at_ones(parity->h.at[r], block, n);
    for (int r = 0; r < n; r++)
        block[n + r] = sum_at_ones(parity->inverse[r], left, n);
}

int first_unmet(const struct parity *parity, const unsigned char *block)
{
    for (int r = 0; r < parity->h.equations; r++)
        if (sum_at_ones(parity->h.at[r], block, parity->h.symbols) == 1)
            return r + 1;
    return 0;
}

void turn_one_equation(const struct parity *parity, unsigned char *block, int equation)
{
    int n = parity->h.equations;
    for (int r = 0; r < n; r++)
        block[n + r] ^= parity->inverse[r][equation - 1];
}
