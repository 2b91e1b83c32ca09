/* The time word of subframe 1 (IS-GPS-800, 3.2.3.2 and Figure 3.2-4). */
#ifndef TIME_WORD_H
#define TIME_WORD_H

enum { WORD_SYMBOLS = 52, LARGEST_TOI = 399, MOST_CORRECTED = 9 };

/* The 52 symbols of a 9-bit number. */
void make_time_word(int toi, unsigned char *word);

/* The number of symbols in which two words differ. */
int word_distance(const unsigned char *one, const unsigned char *other);

/* The TOI from 0 to 399 whose word is at most nine symbols away, with their number, or -1 where there is none. */
int nearest_toi(const unsigned char *word, int *corrected);

#endif
