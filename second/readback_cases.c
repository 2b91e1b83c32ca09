#include "program_cases.h"

#include "damage.h"
#include "random.h"

#include <stddef.h>

/* Lengths and characters. */

/* The first `count` bytes of the symbols and their newline, or with the rest behind them. */
static void print_length(const struct program_base *base, int count, const char *rest)
{
    struct text symbols, input = {0};
    start_symbols(&symbols, base);
    add_bytes(&input, symbols.bytes, count);
    add_string(&input, rest);
    print_readback_refused(base, &input, 1, 0);
}

static void print_lengths(const struct program_base *base)
{
    static const int counts[] = {0, 1, 2, 52, 250, 900, 1748, 1799, 1800};
    static const char *const ends[] = {"0", "1", " ", "\r", "x"};
    for (size_t i = 0; i < sizeof counts / sizeof counts[0]; i++)
        print_length(base, counts[i], "");
    for (int i = 0; i < 5; i++) {
        print_length(base, FRAME_SYMBOLS, ends[i]);
        print_length(base, FRAME_SYMBOLS + 1, ends[i]);
    }
    print_length(base, FRAME_SYMBOLS + 1, "\n");
    print_length(base, FRAME_SYMBOLS, "0\n");
    print_length(base, FRAME_SYMBOLS, "\r\n");
    print_length(base, FRAME_SYMBOLS - 1, "\n");
    print_length(base, FRAME_SYMBOLS - 2, "\n\n");
    print_length(base, FRAME_SYMBOLS - 2, "x\n");
    print_length(base, FRAME_SYMBOLS, "x");
}

/* Every byte that is no symbol, a newline among them, at the ends of the parts and anywhere. */
static void print_characters(const struct program_base *base)
{
    static const int places[] = {0, 51, 52, 1799};
    for (int byte = 0; byte < 256; byte++) {
        struct text input;
        int place = byte % 5 < 4 ? places[byte % 5] : random_below(FRAME_SYMBOLS);
        if (byte == '0' || byte == '1')
            continue;
        start_symbols(&input, base);
        input.bytes[place] = (unsigned char)byte;
        print_readback_refused(base, &input, 2, place);
    }
}

/* Several such bytes, among symbols that are turned; then with no newline at the end. */
static void print_characters_together(const struct program_base *base)
{
    for (int i = 0; i < 8; i++) {
        struct text input;
        int place = random_below(FRAME_SYMBOLS - 1);
        start_symbols(&input, base);
        for (int k = 0; k < 12; k++)
            input.bytes[random_below(FRAME_SYMBOLS)] ^= 1;
        input.bytes[place] = i % 2 == 0 ? '\n' : (unsigned char)('2' + random_below(200));
        input.bytes[place + 1 + random_below(FRAME_SYMBOLS - 1 - place)] = i % 3 == 0 ? '\n' : 'x';
        print_readback_refused(base, &input, 2, place);
        input.bytes[FRAME_SYMBOLS] = '0';
        print_readback_refused(base, &input, 1, 0);
    }
}

/* Damage. */

static void print_turned_symbols(const struct program_base *base, const struct parts *turned)
{
    unsigned char places[FRAME_SYMBOLS];
    struct text input;
    to_frame(turned, places);
    start_symbols(&input, base);
    for (int i = 0; i < FRAME_SYMBOLS; i++)
        input.bytes[i] ^= places[i];
    print_readback(base, &input);
}

/* Up to nine symbols of the word are corrected; from 43 on it is another's. */
static void print_words(const struct program_base *base)
{
    for (int count = 1; count <= WORD_SYMBOLS; count += count == 12 ? 29 : 1) {
        struct parts turned = {0};
        turn_some(turned.word, 0, WORD_SYMBOLS, count);
        print_turned_symbols(base, &turned);
    }
}

/* The lowest bits of `which` say which parts are damaged: the time, subframe 2, subframe 3. Each has so much that it is refused, or a
   word that is corrected. */
static void print_parts_damaged(const struct program_base *base, int which)
{
    struct parts turned = {0};
    turn_some(turned.word, 0, WORD_SYMBOLS, which & 1 ? 10 + random_below(30) : random_below(10));
    if (which & 2)
        turn_some(turned.two, 0, BLOCK_2, 1 + random_below(40));
    if (which & 4)
        turn_some(turned.three, 0, BLOCK_3, 1 + random_below(40));
    print_turned_symbols(base, &turned);
}

/* The equations of a subframe are met, and its check bits differ; the other subframe has damage too, or none. */
static void print_checks(const struct program_base *base, int subframe, int other)
{
    struct parts turned = {0};
    turn_some(turned.word, 0, WORD_SYMBOLS, random_below(10));
    turn_some(subframe == 2 ? turned.two : turned.three, 0, (subframe == 2 ? BLOCK_2 : BLOCK_3) / 2, 1);
    fill_parity(&base->codes->two, turned.two);
    fill_parity(&base->codes->three, turned.three);
    if (other)
        turn_some(subframe == 2 ? turned.three : turned.two, 0, BLOCK_3, 3);
    print_turned_symbols(base, &turned);
}

static void print_single_equations(const struct program_base *base)
{
    static const int of_two[] = {1, 2, 300, 599, 600};
    static const int of_three[] = {1, 2, 137, 273, 274};
    for (int i = 0; i < 5; i++) {
        struct parts turned = {0};
        turn_one_equation(&base->codes->three, turned.three, of_three[i]);
        print_turned_symbols(base, &turned);
        turn_one_equation(&base->codes->two, turned.two, of_two[i]);
        print_turned_symbols(base, &turned);
    }
}

void print_readback_cases(struct program_base *base)
{
    struct input_parts parts;
    new_program_base(base, &parts);
    print_lengths(base);
    print_characters(base);
    print_characters_together(base);
    for (int i = 0; i < 4; i++) {
        new_program_base(base, &parts);
        print_words(base);
        for (int which = 0; which < 8; which++)
            print_parts_damaged(base, which);
        print_checks(base, 2, i % 2);
        print_checks(base, 3, i % 2);
        print_single_equations(base);
    }
}
