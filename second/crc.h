/* The check bits, CRC-24Q, by long division of polynomials (IS-GPS-800, 3.2.3.3). */
#ifndef CRC_H
#define CRC_H

enum { CHECK_BITS = 24, MOST_CHECKED = 576 };

/* Writes the 24 check bits behind the first `count` bits, at most 576. */
void append_check_bits(unsigned char *bits, int count);

/* Whether the 24 bits behind the first `count` are the check bits of these. */
int check_bits_agree(const unsigned char *bits, int count);

#endif
