#include "clock_cases.h"

#include "clock_terms.h"
#include "line_parts.h"
#include "must.h"
#include "random.h"

#include <inttypes.h>
#include <stdio.h>
#include <string.h>

enum { RANDOM_COUNTS = 40, RANDOM_TERMS = 40 };

/* The lines. */

static void print_terms(const struct clock *clock)
{
    for (int i = 0; i < CLOCK_TERMS; i++)
        printf(" %016" PRIx64, clock->terms[i]);
}

/* CH: hands the counts out as terms. What is handed out is taken back first. */
static void print_handing(const int64_t *counts, struct answer meant)
{
    struct clock clock = {0};
    int64_t back[CLOCK_TERMS];
    struct answer answer = clock_of(counts, &clock);
    must(same_answer(answer, meant), "handing out counts is answered as it is meant to be");
    if (is_done(answer)) {
        must(is_done(counts_of(&clock, back)), "terms that are handed out can be taken back");
        must(memcmp(back, counts, sizeof back) == 0, "terms that are taken back are the same counts");
    }
    printf("CH");
    print_counts(counts, CLOCK_TERMS);
    print_terms(&clock);
    print_answer(answer);
    putchar('\n');
}

/* CT: takes the terms back. What is taken is handed out first. */
static void print_taking_back(const struct clock *clock)
{
    struct clock again;
    int64_t counts[CLOCK_TERMS] = {0};
    struct answer answer = counts_of(clock, counts);
    if (is_done(answer)) {
        must(is_done(clock_of(counts, &again)), "counts that are taken can be handed out");
        must(memcmp(&again, clock, sizeof again) == 0, "counts that are handed out are the same terms");
    }
    printf("CT");
    print_terms(clock);
    print_counts(counts, CLOCK_TERMS);
    print_answer(answer);
    putchar('\n');
}

static void print_term_refused(const struct clock *clock, int term)
{
    int64_t counts[CLOCK_TERMS];
    must(same_answer(counts_of(clock, counts), refused(6, first_bit(&subframe_2, AF0 + term))),
         "the first term that is none is refused");
    print_taking_back(clock);
}

/* Counts. */

static int64_t least(int term)
{
    return least_count(&subframe_2, AF0 + term);
}

static int64_t largest(int term)
{
    return largest_count(&subframe_2, AF0 + term);
}

static void good_counts(int64_t *counts)
{
    for (int i = 0; i < CLOCK_TERMS; i++)
        counts[i] = random_between(least(i), largest(i));
}

static void print_count(int term, int64_t count)
{
    int64_t counts[CLOCK_TERMS];
    int is_good = count >= least(term) && count <= largest(term);
    good_counts(counts);
    counts[term] = count;
    print_handing(counts, is_good ? done : refused(6, first_bit(&subframe_2, AF0 + term)));
}

/* Counts around each power of two, beyond the range too, and the ends of 64 bits. */
static void print_powers(int term)
{
    for (int64_t power = 1; power <= 4 * (largest(term) + 1); power *= 2)
        for (int sign = -1; sign <= 1; sign += 2) {
            print_count(term, sign * power - 1);
            print_count(term, sign * power);
            if (power > 2)
                print_count(term, sign * power + 1);
        }
    print_count(term, (int64_t)1 << 32);
    print_count(term, ((int64_t)1 << 52) + 1);
    print_count(term, INT64_MAX);
    print_count(term, INT64_MIN);
}

/* The lowest bits of `which` say which counts are one beyond an end. */
static void print_counts_together(int which)
{
    int64_t counts[CLOCK_TERMS];
    int first = which & 1 ? 0 : which & 2 ? 1 : 2;
    good_counts(counts);
    for (int i = 0; i < CLOCK_TERMS; i++)
        if (which >> i & 1)
            counts[i] = random_below(2) == 0 ? least(i) - 1 : largest(i) + 1;
    print_handing(counts, refused(6, first_bit(&subframe_2, AF0 + first)));
}

static void print_handing_cases(void)
{
    int64_t counts[CLOCK_TERMS] = {0};
    print_handing(counts, done);
    for (int term = 0; term < CLOCK_TERMS; term++)
        print_powers(term);
    for (int i = 0; i < 3; i++)
        for (int which = 3; which < 8; which++)
            print_counts_together(which);
    for (int i = 0; i < RANDOM_COUNTS; i++) {
        good_counts(counts);
        print_handing(counts, done);
    }
}

/* Terms. */

static void good_clock(struct clock *clock)
{
    int64_t counts[CLOCK_TERMS];
    good_counts(counts);
    clock_of(counts, clock);
}

/* Two to the power, and the sign where it is 1. */
static uint64_t power_bits(int power, int sign)
{
    return (uint64_t)sign << 63 | (uint64_t)(1023 + power) << 52;
}

static void print_with(int term, uint64_t bits)
{
    struct clock clock;
    good_clock(&clock);
    clock.terms[term] = bits;
    print_taking_back(&clock);
}

static void print_none(int term, uint64_t bits)
{
    struct clock clock;
    good_clock(&clock);
    clock.terms[term] = bits;
    print_term_refused(&clock, term);
}

/* Not finite, minus zero, the ends of the numbers below and above 2^-1022, the largest, and 1 and its neighbours. */
static const uint64_t none[] = {
    0x7FF8000000000000, 0xFFF8000000000000, 0x7FF0000000000001, 0xFFF0000000000001, 0x7FFFFFFFFFFFFFFF, 0xFFFFFFFFFFFFFFFF,
    0x7FF4000000000000, 0x7FF0000000000000, 0xFFF0000000000000, 0x8000000000000000, 0x0000000000000001, 0x8000000000000001,
    0x0008000000000000, 0x000FFFFFFFFFFFFF, 0x800FFFFFFFFFFFFF, 0x0010000000000000, 0x8010000000000000, 0x7FEFFFFFFFFFFFFF,
    0xFFEFFFFFFFFFFFFF, 0x3FF0000000000000, 0xBFF0000000000000, 0x3FEFFFFFFFFFFFFF, 0x3FF0000000000001, 0x7FE0000000000000,
};

enum { NONE = sizeof none / sizeof none[0] };

/* Every power of two from a part of a step to beyond the range, and its neighbours; and far ones, in steps around 2^63 and 2^64. */
static void print_powers_of_steps(int term)
{
    int width = subframe_2.fields[AF0 + term].width;
    for (int sign = 0; sign < 2; sign++) {
        for (int power = -3; power <= width + 1; power++) {
            uint64_t bits = power_bits(power - step_power(term), sign);
            print_with(term, bits);
            if (power % 4 == 0 || power >= width - 2) {
                print_with(term, bits - 1);
                print_with(term, bits + 1);
            }
        }
        for (int power = 61; power <= 65; power++) {
            print_none(term, power_bits(power - step_power(term), sign));
            print_none(term, power_bits(power - step_power(term), sign) - 1);
        }
    }
}

/* A good term with a low bit turned: one that stands for a part of a step, or for a step. */
static void print_turned(int term, int bit)
{
    struct clock clock;
    good_clock(&clock);
    clock.terms[term] ^= (uint64_t)1 << bit;
    print_taking_back(&clock);
}

/* The lowest bits of `which` say which terms are none. */
static void print_terms_together(int which)
{
    struct clock clock;
    good_clock(&clock);
    for (int i = 0; i < CLOCK_TERMS; i++)
        if (which >> i & 1)
            clock.terms[i] = none[random_below(NONE)];
    print_term_refused(&clock, which & 1 ? 0 : which & 2 ? 1 : 2);
}

static void print_random_terms(void)
{
    struct clock clock;
    good_clock(&clock);
    clock.terms[random_below(CLOCK_TERMS)] ^= (uint64_t)random_between(0, INT64_MAX - 1);
    print_taking_back(&clock);
}

static void print_taking_back_cases(void)
{
    struct clock zero = {0};
    print_taking_back(&zero);
    for (int term = 0; term < CLOCK_TERMS; term++) {
        for (int i = 0; i < NONE; i++)
            print_none(term, none[i]);
        print_powers_of_steps(term);
        for (int bit = 0; bit < 64; bit += 3)
            print_turned(term, bit);
    }
    for (int i = 0; i < 6; i++)
        for (int which = 3; which < 8; which++)
            print_terms_together(which);
    for (int i = 0; i < RANDOM_TERMS; i++)
        print_random_terms();
}

void print_clock_cases(void)
{
    print_handing_cases();
    print_taking_back_cases();
}
