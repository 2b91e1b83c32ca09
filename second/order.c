#include "order.h"

#include <string.h>

enum { ROWS = 38, COLUMNS = 46 };

void to_frame(const struct parts *parts, unsigned char *frame)
{
    unsigned char cell[ROWS][COLUMNS];
    const unsigned char *two = parts->two;
    const unsigned char *three = parts->three;
    for (int r = 0; r < ROWS; r++)
        for (int c = 0; c < COLUMNS; c++)
            cell[r][c] = two < parts->two + BLOCK_2 ? *two++ : *three++;
    memcpy(frame, parts->word, WORD_SYMBOLS);
    unsigned char *next = frame + WORD_SYMBOLS;
    for (int c = 0; c < COLUMNS; c++)
        for (int r = 0; r < ROWS; r++)
            *next++ = cell[r][c];
}

void from_frame(const unsigned char *frame, struct parts *parts)
{
    unsigned char cell[ROWS][COLUMNS];
    const unsigned char *next = frame + WORD_SYMBOLS;
    for (int c = 0; c < COLUMNS; c++)
        for (int r = 0; r < ROWS; r++)
            cell[r][c] = *next++;
    memcpy(parts->word, frame, WORD_SYMBOLS);
    unsigned char *two = parts->two;
    unsigned char *three = parts->three;
    for (int r = 0; r < ROWS; r++)
        for (int c = 0; c < COLUMNS; c++)
            *(two < parts->two + BLOCK_2 ? two++ : three++) = cell[r][c];
}
