/* The cases of parity: the lines F2, U2, F3 and U3. */
#include "parity_cases.h"

#include "random.h"

#include <stdio.h>

/* One subframe's equations, and the block that the present case is made of. */
struct maker {
    char subframe;
    const struct parity *parity;
    unsigned char block[MOST_SYMBOLS];
};

static int data_count(const struct maker *maker)
{
    return maker->parity->h.equations;
}

static int symbol_count(const struct maker *maker)
{
    return maker->parity->h.symbols;
}

/* Printing. */

static void print_block(const struct maker *maker)
{
    for (int i = 0; i < symbol_count(maker); i++)
        putchar('0' + maker->block[i]);
    putchar('\n');
}

static void print_filled(struct maker *maker)
{
    fill_parity(maker->parity, maker->block);
    printf("F%c ", maker->subframe);
    print_block(maker);
}

static void print_unmet(const struct maker *maker)
{
    printf("U%c %04d ", maker->subframe, first_unmet(maker->parity, maker->block));
    print_block(maker);
}

/* Blocks that are filled. */

static void set_data(struct maker *maker, unsigned char symbol)
{
    for (int i = 0; i < data_count(maker); i++)
        maker->block[i] = symbol;
}

static void set_random_data(struct maker *maker)
{
    for (int i = 0; i < data_count(maker); i++)
        maker->block[i] = (unsigned char)random_below(2);
}

static void print_single_one(struct maker *maker, int place)
{
    set_data(maker, 0);
    maker->block[place] = 1;
    print_filled(maker);
}

static void print_filled_cases(struct maker *maker)
{
    set_data(maker, 0);
    print_filled(maker);
    set_data(maker, 1);
    print_filled(maker);
    print_single_one(maker, 0);
    print_single_one(maker, data_count(maker) - 1);
    for (int i = 0; i < 60; i++) {
        set_random_data(maker);
        print_filled(maker);
    }
}

/* Blocks with symbols turned. */

static void make_good_block(struct maker *maker)
{
    set_random_data(maker);
    fill_parity(maker->parity, maker->block);
}

static void print_none_turned(struct maker *maker)
{
    make_good_block(maker);
    print_unmet(maker);
}

static void print_one_turned(struct maker *maker, int place)
{
    make_good_block(maker);
    maker->block[place] ^= 1;
    print_unmet(maker);
}

/* Turns `count` times a symbol at random: a place that comes again is turned back. */
static void print_some_turned(struct maker *maker, int count)
{
    make_good_block(maker);
    for (int i = 0; i < count; i++)
        maker->block[random_below(symbol_count(maker))] ^= 1;
    print_unmet(maker);
}

static void print_one_equation_unmet(struct maker *maker, int equation)
{
    make_good_block(maker);
    turn_one_equation(maker->parity, maker->block, equation);
    print_unmet(maker);
}

/* The ends of the data, p1, and the ends of p2. */
static void print_turned_at_ends(struct maker *maker)
{
    int n = data_count(maker);
    print_one_turned(maker, 0);
    print_one_turned(maker, n - 1);
    print_one_turned(maker, n);
    print_one_turned(maker, n + 1);
    print_one_turned(maker, symbol_count(maker) - 1);
}

static void print_ends_of_equations_unmet(struct maker *maker)
{
    int n = maker->parity->h.equations;
    print_one_equation_unmet(maker, 1);
    print_one_equation_unmet(maker, 2);
    print_one_equation_unmet(maker, n - 1);
    print_one_equation_unmet(maker, n);
}

static void print_unmet_cases(struct maker *maker)
{
    for (int i = 0; i < 5; i++)
        print_none_turned(maker);
    print_turned_at_ends(maker);
    print_ends_of_equations_unmet(maker);
    for (int i = 0; i < 10; i++)
        print_one_turned(maker, random_below(data_count(maker)));
    for (int i = 0; i < 12; i++)
        print_one_equation_unmet(maker, 1 + random_below(maker->parity->h.equations));
    for (int i = 0; i < 16; i++)
        print_some_turned(maker, 2 + random_below(8));
    for (int i = 0; i < 12; i++)
        print_some_turned(maker, 100 + random_below(400));
}

void print_parity_cases(char subframe, const struct parity *parity)
{
    struct maker maker = {.subframe = subframe, .parity = parity};
    print_filled_cases(&maker);
    print_unmet_cases(&maker);
}
