#include "matrix.h"

#include <stdio.h>
#include <stdlib.h>
#include <string.h>

/* Where a submatrix stands in H, counted from 0, and how large it is. */
struct part {
    char letter;
    int top, left;
    int rows, columns;
};

static void stop_at(const char *path, const char *trouble)
{
    fprintf(stderr, "second: %s: %s\n", path, trouble);
    exit(1);
}

/* Puts one published coordinate, counted from 1, into its place. */
static void put_one(struct matrix *h, const struct part *part, int row, int column, const char *path)
{
    if (row < 1 || row > part->rows || column < 1 || column > part->columns)
        stop_at(path, "a coordinate lies outside its submatrix");
    unsigned char *place = &h->at[part->top + row - 1][part->left + column - 1];
    if (*place == 1)
        stop_at(path, "a coordinate stands twice");
    *place = 1;
}

/* Reads the table of one submatrix: a line has a row and a column. */
static void read_part(struct matrix *h, const struct part *part, const char *folder, char subframe)
{
    char path[4096];
    int row, column, found;
    if (snprintf(path, sizeof path, "%s/%c%c.txt", folder, part->letter, subframe) >= (int)sizeof path)
        stop_at(folder, "the name is too long");
    FILE *file = fopen(path, "r");
    if (file == NULL)
        stop_at(path, "cannot be opened");
    while ((found = fscanf(file, "%d %d", &row, &column)) == 2)
        put_one(h, part, row, column, path);
    if (found != EOF || ferror(file))
        stop_at(path, "a line is not a row and a column");
    fclose(file);
}

/* A B T stand over C D E: A and C above and below the data symbols, B and D at p1, T and E at p2. */
void read_matrix(struct matrix *h, const char *folder, char subframe)
{
    int n = subframe == '2' ? 600 : 274;
    const struct part parts[6] = {
        {'A', 0, 0, n - 1, n},     {'B', 0, n, n - 1, 1},     {'T', 0, n + 1, n - 1, n - 1},
        {'C', n - 1, 0, 1, n},     {'D', n - 1, n, 1, 1},     {'E', n - 1, n + 1, 1, n - 1},
    };
    memset(h, 0, sizeof *h);
    h->equations = n;
    h->symbols = 2 * n;
    for (int i = 0; i < 6; i++)
        read_part(h, &parts[i], folder, subframe);
}
