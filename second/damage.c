#include "damage.h"

#include "random.h"

#include <string.h>

/* How data symbols are turned: that many anywhere, or all or some within so many neighbouring places, the outermost two always. */
enum spread { ANYWHERE, ALL_WITHIN, SOME_WITHIN };

struct pattern {
    enum spread spread;
    int count;
    int parity;
};

/* Numbers of symbols that are turned in the time word. */
static const int word_counts[] = {1, 2, 3, 4, 5, 6, 7, 8, 9, 10, 11, 12, 13, 14, 15, 26, 52};

/* Of a subframe. First what demand 3 names, then what it does not. */
static const struct pattern patterns[] = {
    {ANYWHERE, 1, 0},     {ANYWHERE, 2, 0},     {ANYWHERE, 3, 0},     {ANYWHERE, 5, 0},     {ANYWHERE, 7, 0},
    {ANYWHERE, 9, 0},     {ANYWHERE, 11, 0},    {ANYWHERE, 25, 0},    {ANYWHERE, 51, 0},    {ANYWHERE, 99, 0},
    {SOME_WITHIN, 2, 0},  {SOME_WITHIN, 3, 0},  {SOME_WITHIN, 4, 0},  {SOME_WITHIN, 6, 0},  {SOME_WITHIN, 9, 0},
    {SOME_WITHIN, 13, 0}, {SOME_WITHIN, 17, 0}, {SOME_WITHIN, 20, 0}, {SOME_WITHIN, 23, 0}, {SOME_WITHIN, 24, 0},
    {ALL_WITHIN, 4, 0},   {ALL_WITHIN, 8, 0},   {ALL_WITHIN, 24, 0},  {ANYWHERE, 0, 1},     {ANYWHERE, 0, 2},
    {ANYWHERE, 0, 3},     {ANYWHERE, 0, 8},     {ANYWHERE, 0, 40},    {ANYWHERE, 1, 1},     {ANYWHERE, 1, 30},
    {ANYWHERE, 2, 1},     {ANYWHERE, 2, 40},    {ANYWHERE, 3, 10},    {ANYWHERE, 15, 50},   {SOME_WITHIN, 4, 1},
    {SOME_WITHIN, 11, 5}, {ALL_WITHIN, 24, 30}, {SOME_WITHIN, 24, 40},
    {ANYWHERE, 4, 0},     {ANYWHERE, 6, 0},     {ANYWHERE, 8, 0},     {ANYWHERE, 4, 4},     {ANYWHERE, 10, 0},
    {ANYWHERE, 20, 0},    {ANYWHERE, 50, 0},    {ANYWHERE, 98, 0},    {SOME_WITHIN, 25, 0}, {SOME_WITHIN, 32, 6},
};

/* Of the 1800 symbols, in the order in which they are sent. */
static const struct pattern sent_patterns[] = {
    {ANYWHERE, 1, 0},     {ANYWHERE, 2, 0},     {ANYWHERE, 3, 0},     {ANYWHERE, 10, 0},    {ANYWHERE, 40, 0},
    {ALL_WITHIN, 2, 0},   {ALL_WITHIN, 5, 0},   {ALL_WITHIN, 24, 0},  {ALL_WITHIN, 38, 0},  {SOME_WITHIN, 39, 0},
    {SOME_WITHIN, 46, 0}, {SOME_WITHIN, 80, 0}, {ALL_WITHIN, 100, 0},
};

enum {
    WORD_KINDS = sizeof word_counts / sizeof word_counts[0],
    PATTERNS = sizeof patterns / sizeof patterns[0],
    SENT_KINDS = sizeof sent_patterns / sizeof sent_patterns[0],
    KINDS = WORD_KINDS + 3 * PATTERNS + SENT_KINDS
};

void turn_some(unsigned char *turned, int from, int to, int count)
{
    for (int left = count; left > 0;) {
        int place = from + random_below(to - from);
        left -= turned[place] == 0;
        turned[place] = 1;
    }
}

static void turn_within(unsigned char *turned, int symbols, int length, int all)
{
    int start = random_below(symbols - length + 1);
    for (int i = start; i < start + length; i++)
        turned[i] = all || i == start || i == start + length - 1 || random_below(2) == 1;
}

/* Turns symbols among the first `symbols`, and parity symbols among as many behind them. */
static void turn_pattern(unsigned char *turned, int symbols, const struct pattern *pattern)
{
    if (pattern->spread == ANYWHERE)
        turn_some(turned, 0, symbols, pattern->count);
    else
        turn_within(turned, symbols, pattern->count, pattern->spread == ALL_WITHIN);
    turn_some(turned, symbols, 2 * symbols, pattern->parity);
}

static void print_turned_frame(const struct base *base, const unsigned char *turned)
{
    unsigned char symbols[FRAME_SYMBOLS];
    for (int i = 0; i < FRAME_SYMBOLS; i++)
        symbols[i] = base->frame[i] ^ turned[i];
    print_reading(base, symbols, FRAME_SYMBOLS);
}

void print_plain(const struct base *base)
{
    print_reading(base, base->frame, FRAME_SYMBOLS);
}

void print_turned(const struct base *base, const struct parts *turned)
{
    unsigned char frame[FRAME_SYMBOLS];
    to_frame(turned, frame);
    print_turned_frame(base, frame);
}

static void print_word_damaged(const struct base *base, int kind)
{
    struct parts turned = {0};
    turn_some(turned.word, 0, WORD_SYMBOLS, word_counts[kind]);
    print_turned(base, &turned);
}

/* `where` is 0 for subframe 2, 1 for subframe 3, and 2 for both and the time. */
static void print_subframe_damaged(const struct base *base, const struct pattern *pattern, int where)
{
    struct parts turned = {0};
    if (where != 1)
        turn_pattern(turned.two, BLOCK_2 / 2, pattern);
    if (where != 0)
        turn_pattern(turned.three, BLOCK_3 / 2, pattern);
    if (where == 2)
        turn_some(turned.word, 0, WORD_SYMBOLS, random_below(13));
    print_turned(base, &turned);
}

static void print_sent_damaged(const struct base *base, const struct pattern *pattern)
{
    unsigned char turned[FRAME_SYMBOLS] = {0};
    turn_pattern(turned, FRAME_SYMBOLS, pattern);
    print_turned_frame(base, turned);
}

void print_damaged(const struct base *base, int readings)
{
    static int next = 0;
    for (int i = 0; i < readings; i++) {
        int kind = next;
        next = (next + 1) % KINDS;
        if (kind < WORD_KINDS)
            print_word_damaged(base, kind);
        else if (kind < WORD_KINDS + 3 * PATTERNS)
            print_subframe_damaged(base, &patterns[(kind - WORD_KINDS) / 3], (kind - WORD_KINDS) % 3);
        else
            print_sent_damaged(base, &sent_patterns[kind - WORD_KINDS - 3 * PATTERNS]);
    }
}
