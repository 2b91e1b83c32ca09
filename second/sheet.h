/* Message sheets, which document 01 defines: lines of names and numbers, and a trailer that counts back to the first of them. */
#ifndef SHEET_H
#define SHEET_H

#include "frame.h"

enum { NUMBERS = COUNTS + 1, TRAILER_BYTES = 11, MOST_COUNTED = 4096 };

/* The list: toi, then the fields of subframe 2. Its names are counted from 0. */
const char *listed_name(int k);
int64_t least_number(int k);
int64_t largest_number(int k);

/* Where a name stands in the list, or -1. */
int place_in_list(const unsigned char *name, int count);

/* What is read: the numbers in the list's order, and how many bytes stand before the sheet; zeros on a refusal. */
struct sheet {
    struct answer answer;
    int64_t numbers[NUMBERS];
    int before;
};

/* Where the sheet at the end of the bytes begins, as its trailer tells; `count` where the trailer is refused. */
int sheet_start(const unsigned char *bytes, int count);

/* Reads the sheet at the end of the bytes. */
struct sheet read_sheet(const unsigned char *bytes, int count);

/* The sheet's length; 0 on a refusal. */
struct written {
    struct answer answer;
    int size;
};

/* Writes the sheet into the first of `room` bytes; on a refusal they all stay as they were. */
struct written write_sheet(const int64_t *numbers, unsigned char *out, int room);

/* A step of a walk: that it is finished, or what was read; and the place where the walk goes on. */
struct step {
    int is_finished;
    struct answer answer;
    int64_t numbers[NUMBERS];
    int place;
};

/* The step from a place of `count` bytes. */
struct step walk_back(const unsigned char *bytes, int count, int place);

#endif
