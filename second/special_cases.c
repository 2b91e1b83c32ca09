#include "frame_cases.h"

#include "damage.h"
#include "random.h"
#include "random_contents.h"

#include <string.h>

static void new_base(struct base *base)
{
    struct contents contents;
    random_contents(&contents);
    print_building(base, &contents);
}

static void new_base_at(struct base *base, int toi)
{
    struct contents contents;
    random_contents(&contents);
    contents.toi = toi;
    print_building(base, &contents);
}

/* Lengths and bytes. */

/* With every other length, a byte that is no symbol as well: the length is judged first. */
static void print_lengths(struct base *base)
{
    static const int lengths[] = {0, 1, 51, 52, 53, 900, 1748, 1799, 1801};
    unsigned char symbols[FRAME_SYMBOLS];
    memcpy(symbols, base->frame, FRAME_SYMBOLS);
    symbols[0] = 2;
    for (size_t i = 0; i < sizeof lengths / sizeof lengths[0]; i++) {
        print_reading(base, base->frame, lengths[i]);
        print_reading(base, symbols, lengths[i]);
    }
}

/* Every byte that is no symbol, at the ends of the parts and anywhere. */
static void print_bytes(struct base *base)
{
    static const int places[] = {0, 51, 52, 1799};
    for (int byte = 2; byte < 256; byte++) {
        unsigned char symbols[FRAME_SYMBOLS];
        memcpy(symbols, base->frame, FRAME_SYMBOLS);
        symbols[byte % 5 < 4 ? places[byte % 5] : random_below(FRAME_SYMBOLS)] = (unsigned char)byte;
        print_reading(base, symbols, FRAME_SYMBOLS);
    }
}

/* Several such bytes, among symbols that are turned. */
static void print_bytes_together(struct base *base)
{
    unsigned char symbols[FRAME_SYMBOLS];
    memcpy(symbols, base->frame, FRAME_SYMBOLS);
    for (int i = 0; i < 12; i++)
        symbols[random_below(FRAME_SYMBOLS)] ^= 1;
    for (int i = 0; i < 4; i++)
        symbols[random_below(FRAME_SYMBOLS)] = (unsigned char)(2 + random_below(254));
    print_reading(base, symbols, FRAME_SYMBOLS);
}

/* Time words. */

/* The base with the word of another number. */
static void print_word(struct base *base, int number)
{
    unsigned char symbols[FRAME_SYMBOLS];
    memcpy(symbols, base->frame, FRAME_SYMBOLS);
    make_time_word(number, symbols);
    print_reading(base, symbols, FRAME_SYMBOLS);
}

/* The first symbols of the word turned, as many as `count`: nine are borne. */
static void print_first_turned(const struct base *base, int count)
{
    struct parts turned = {0};
    memset(turned.word, 1, (size_t)count);
    print_turned(base, &turned);
}

/* Halfway from the base's word to another that is 20 away. */
static void print_halfway(const struct base *base, int count)
{
    unsigned char word[WORD_SYMBOLS];
    struct parts turned = {0};
    int other = 0;
    make_time_word(other, word);
    while (word_distance(word, base->frame) != 20 && other < 511)
        make_time_word(++other, word);
    for (int i = 0; i < WORD_SYMBOLS && count > 0; i++)
        if (word[i] != base->frame[i]) {
            turned.word[i] = 1;
            count--;
        }
    print_turned(base, &turned);
}

/* With at least 43 turned, the word is at most nine away from that of a TOI whose top bit differs. */
static void print_word_turned(const struct base *base)
{
    for (int count = 7; count < 12; count++)
        print_first_turned(base, count);
    for (int count = 41; count <= WORD_SYMBOLS; count++)
        print_first_turned(base, count);
    for (int count = 8; count < 13; count++)
        print_halfway(base, count);
}

static void print_words(struct base *base)
{
    new_base_at(base, 0);
    print_word_turned(base);
    new_base_at(base, 137);
    print_word_turned(base);
    new_base_at(base, 255);
    print_word_turned(base);
    for (int number = 400; number < 512; number++)
        print_word(base, number);
}

/* Damage that is large or takes a plan. */

/* Turns data symbols of subframe 2 or 3, from `from` up to but not `to`, and the parity with them: every equation is met. */
static void print_with_its_parity(const struct base *base, int subframe, int from, int to, int count)
{
    struct parts turned = {0};
    turn_some(subframe == 2 ? turned.two : turned.three, from, to, count);
    fill_parity(&base->codes->two, turned.two);
    fill_parity(&base->codes->three, turned.three);
    print_turned(base, &turned);
}

static void print_all_with_parity(struct base *base)
{
    print_with_its_parity(base, 2, 0, 1, 1);
    print_with_its_parity(base, 2, 599, 600, 1);
    print_with_its_parity(base, 2, 0, 600, 2);
    print_with_its_parity(base, 2, 0, 600, 99);
    print_with_its_parity(base, 2, 576, 600, 24);
    print_with_its_parity(base, 2, 0, 600, 6);
    for (int count = 1; count < 9; count++)
        print_with_its_parity(base, 3, 0, 274, count);
    print_with_its_parity(base, 3, 250, 274, 24);
    print_with_its_parity(base, 3, 0, 24, 10);
}

static void print_one_equation(const struct base *base, int subframe, int equation)
{
    struct parts turned = {0};
    if (subframe == 2)
        turn_one_equation(&base->codes->two, turned.two, equation);
    else
        turn_one_equation(&base->codes->three, turned.three, equation);
    print_turned(base, &turned);
}

static void print_single_equations(struct base *base)
{
    print_one_equation(base, 2, 1);
    print_one_equation(base, 2, 300);
    print_one_equation(base, 2, 599);
    print_one_equation(base, 2, 600);
    print_one_equation(base, 3, 1);
    print_one_equation(base, 3, 137);
    print_one_equation(base, 3, 273);
    print_one_equation(base, 3, 274);
}

/* Each of the three is 1 where all of that part are turned. */
static void print_all_turned(const struct base *base, int word, int two, int three)
{
    struct parts turned;
    memset(turned.word, word, WORD_SYMBOLS);
    memset(turned.two, two, BLOCK_2);
    memset(turned.three, three, BLOCK_3);
    print_turned(base, &turned);
}

static void print_all_parity_turned(const struct base *base)
{
    struct parts turned = {0};
    memset(&turned.three[BLOCK_3 / 2], 1, BLOCK_3 / 2);
    print_turned(base, &turned);
    memset(&turned.two[BLOCK_2 / 2], 1, BLOCK_2 / 2);
    print_turned(base, &turned);
}

/* Single symbols and 24 of them at the ends of the data and of the parity. */
static void print_ends(const struct base *base, int subframe)
{
    int data = (subframe == 2 ? BLOCK_2 : BLOCK_3) / 2;
    const int from[] = {0, data - 1, data, data + 1, 2 * data - 1, 0, data - 24, data - 12};
    const int length[] = {1, 1, 1, 1, 1, 24, 24, 24};
    for (int i = 0; i < 8; i++) {
        struct parts turned = {0};
        memset(&(subframe == 2 ? turned.two : turned.three)[from[i]], 1, (size_t)length[i]);
        print_turned(base, &turned);
    }
}

void print_special_cases(struct base *base)
{
    for (int i = 0; i < 3; i++) {
        new_base(base);
        print_lengths(base);
        print_ends(base, 2);
        print_ends(base, 3);
    }
    new_base(base);
    print_bytes(base);
    for (int i = 0; i < 20; i++)
        print_bytes_together(base);
    print_words(base);
    new_base(base);
    print_all_with_parity(base);
    print_single_equations(base);
    new_base(base);
    print_all_parity_turned(base);
    print_all_turned(base, 0, 0, 1);
    print_all_turned(base, 1, 1, 0);
    print_all_turned(base, 1, 1, 1);
}
