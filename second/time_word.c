#include "time_word.h"

/* The register's stages are numbered from 1 to 8. A shift hands out what stands in stage 8. */
static unsigned char shift(unsigned char *stage)
{
    unsigned char out = stage[8];
    unsigned char back = stage[1] ^ stage[4] ^ stage[5] ^ stage[6] ^ stage[7] ^ stage[8];
    for (int k = 8; k > 1; k--)
        stage[k] = stage[k - 1];
    stage[1] = back;
    return out;
}

/* The low eight bits are loaded high bit first: the high one goes furthest, to stage 8. */
void make_time_word(int toi, unsigned char *word)
{
    unsigned char stage[9] = {0};
    unsigned char top = (unsigned char)(toi / 256 % 2);
    int left = toi;
    for (int k = 1; k <= 8; k++) {
        stage[k] = (unsigned char)(left % 2);
        left /= 2;
    }
    word[0] = top;
    for (int i = 1; i < WORD_SYMBOLS; i++)
        word[i] = shift(stage) ^ top;
}

int word_distance(const unsigned char *one, const unsigned char *other)
{
    int count = 0;
    for (int i = 0; i < WORD_SYMBOLS; i++)
        count += one[i] != other[i];
    return count;
}

int nearest_toi(const unsigned char *word, int *corrected)
{
    int nearest = -1;
    int least = MOST_CORRECTED + 1;
    for (int toi = 0; toi <= LARGEST_TOI; toi++) {
        unsigned char made[WORD_SYMBOLS];
        make_time_word(toi, made);
        int distance = word_distance(made, word);
        if (distance < least) {
            least = distance;
            nearest = toi;
        }
    }
    *corrected = nearest < 0 ? 0 : least;
    return nearest;
}
