/* Turning symbols of the base over, and the readings that this gives. */
#ifndef DAMAGE_H
#define DAMAGE_H

#include "lines.h"

/* Turns `count` different places, at random, from `from` up to but not `to`. */
void turn_some(unsigned char *turned, int from, int to, int count);

/* Reads the base as it is. */
void print_plain(const struct base *base);

/* Reads the base with the symbols turned that are 1 in the parts. */
void print_turned(const struct base *base, const struct parts *turned);

/* Reads the base with damage of the next kinds, one reading for each; behind the last kind comes the first again. */
void print_damaged(const struct base *base, int readings);

#endif
