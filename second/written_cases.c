#include "frame_cases.h"

#include "bits.h"
#include "damage.h"
#include "program_lines.h"
#include "random.h"
#include "random_contents.h"

#include <string.h>

/* What a frame is written of. Each number of `spoilt` is the index of a data symbol that is turned behind the check bits, or -1. */
struct draft {
    int word;
    unsigned char bits[SUBFRAME_2_BITS];
    unsigned char page[PAGE_BITS];
    int spoilt_2;
    int spoilt_3;
};

static void start_draft(struct draft *draft)
{
    int64_t counts[COUNTS];
    random_counts(&subframe_2, counts);
    memset(draft->bits, 0, SUBFRAME_2_BITS);
    put_counts(&subframe_2, counts, draft->bits);
    random_page_1(draft->page);
    draft->word = random_below(LARGEST_TOI + 1);
    draft->spoilt_2 = -1;
    draft->spoilt_3 = -1;
}

/* The parity is that of the spoilt data. */
static void make_parts(const struct codes *codes, const struct draft *draft, struct parts *parts)
{
    make_time_word(draft->word, parts->word);
    make_block_2(codes, draft->bits, parts->two);
    make_block_3(codes, draft->page, parts->three);
    if (draft->spoilt_2 >= 0)
        parts->two[draft->spoilt_2] ^= 1;
    if (draft->spoilt_3 >= 0)
        parts->three[draft->spoilt_3] ^= 1;
    fill_parity(&codes->two, parts->two);
    fill_parity(&codes->three, parts->three);
}

static void print_parts(struct base *base, const struct parts *parts)
{
    print_written(base, parts);
    print_plain(base);
    print_damaged(base, 1);
    print_frame_readback(base);
}

static void finish_draft(struct base *base, const struct draft *draft)
{
    struct parts parts;
    make_parts(base->codes, draft, &parts);
    print_parts(base, &parts);
}

static void set_field(struct draft *draft, int field, int64_t count)
{
    put_number(&draft->bits[first_bit(&subframe_2, field) - 1], subframe_2.fields[field].width, count);
}

enum { ITOW = 1, TOP = 2, TOE = 5 };

static void print_fields(struct base *base)
{
    static const int64_t counts[][2] = {{ITOW, 84},  {ITOW, 128}, {ITOW, 255}, {TOP, 2016},
                                        {TOP, 2047}, {TOE, 2016}, {TOE, 2047}};
    struct draft draft;
    for (size_t i = 0; i < sizeof counts / sizeof counts[0]; i++) {
        start_draft(&draft);
        set_field(&draft, (int)counts[i][0], counts[i][1]);
        finish_draft(base, &draft);
    }
}

/* Two or three fields out of range at once: the lowest bits of `which` say which. */
static void print_fields_together(struct base *base, int which, int reserved)
{
    struct draft draft;
    start_draft(&draft);
    if (which & 1)
        set_field(&draft, ITOW, 84 + random_below(172));
    if (which & 2)
        set_field(&draft, TOP, 2016 + random_below(32));
    if (which & 4)
        set_field(&draft, TOE, 2016 + random_below(32));
    put_number(&draft.bits[FIRST_RESERVED - 1], 10, reserved);
    finish_draft(base, &draft);
}

static void print_reserved(struct base *base)
{
    for (int bit = 0; bit < 10; bit++)
        print_fields_together(base, 0, 1 << bit);
    print_fields_together(base, 0, 1023);
    for (int which = 3; which < 8; which++)
        print_fields_together(base, which, 0);
    for (int which = 1; which < 8; which *= 2)
        print_fields_together(base, which, 1 + random_below(1023));
}

static void print_page_1(struct base *base, int64_t tot, int64_t dn, int64_t itow)
{
    struct draft draft;
    start_draft(&draft);
    set_page_1_field(draft.page, TOT, tot);
    set_page_1_field(draft.page, DN, dn);
    set_field(&draft, ITOW, itow);
    finish_draft(base, &draft);
}

static void print_pages(struct base *base)
{
    print_page_1(base, 37800, 3, 0);
    print_page_1(base, 65535, 7, 83);
    print_page_1(base, 37799, 0, 83);
    print_page_1(base, 0, 8, 1);
    print_page_1(base, 1, 15, 2);
    print_page_1(base, 37800, 0, 3);
    print_page_1(base, 40000, 1, 84);
    print_page_1(base, 12, 9, 255);
}

static void print_words(struct base *base)
{
    static const int words[] = {400, 401, 447, 510, 511};
    struct draft draft;
    for (size_t i = 0; i < sizeof words / sizeof words[0]; i++) {
        start_draft(&draft);
        draft.word = words[i];
        finish_draft(base, &draft);
    }
}

/* Sent where no message could be made: ones and zeros in turn, beginning with one, and a time of ones. */
static void print_default_message(struct base *base)
{
    struct draft draft;
    start_draft(&draft);
    draft.word = 511;
    for (int i = 0; i < SUBFRAME_2_BITS; i++)
        draft.bits[i] = i % 2 == 0;
    for (int i = 0; i < PAGE_BITS; i++)
        draft.page[i] = i % 2 == 0;
    finish_draft(base, &draft);
}

/* Check bits that differ under parity that is right: one data symbol turned, which may be a check bit, at the ends or anywhere. */
static void print_spoilt(struct base *base, int spoilt_2, int spoilt_3, int itow, int dn)
{
    struct draft draft;
    start_draft(&draft);
    draft.spoilt_2 = spoilt_2;
    draft.spoilt_3 = spoilt_3;
    set_field(&draft, ITOW, itow);
    set_page_1_field(draft.page, DN, dn);
    finish_draft(base, &draft);
}

static void print_checks(struct base *base)
{
    print_spoilt(base, 0, -1, 7, 1);
    print_spoilt(base, 575, -1, 7, 2);
    print_spoilt(base, 576, -1, 7, 3);
    print_spoilt(base, 599, -1, 7, 4);
    print_spoilt(base, -1, 0, 8, 5);
    print_spoilt(base, -1, 249, 8, 6);
    print_spoilt(base, -1, 250, 8, 7);
    print_spoilt(base, -1, 273, 8, 1);
    for (int i = 0; i < 4; i++)
        print_spoilt(base, random_below(600), random_below(274), 9, 2);
    print_spoilt(base, 590, -1, 84, 0);
    print_spoilt(base, -1, 260, 84, 0);
    print_spoilt(base, -1, 260, 10, 0);
    print_spoilt(base, 590, 260, 84, 0);
    print_spoilt(base, 590, -1, 11, 0);
}

/* A right frame becomes another whose equations and check bits are right, by adding the blocks of other data. */

static void add_symbols(unsigned char *symbols, const unsigned char *others, int count)
{
    for (int i = 0; i < count; i++)
        symbols[i] ^= others[i];
}

/* The generator of the check bits at some place: the data that differ least from none, in 25 neighbouring places. Where it reaches
   beyond these bits, the check bits go on with it. */
static void put_generator(unsigned char *bits, int count)
{
    static const char generator[] = "1100001100100110011111011";
    int start = random_below(count);
    memset(bits, 0, (size_t)count);
    for (int i = 0; i < 25 && start + i < count; i++)
        bits[start + i] = generator[i] == '1';
}

enum other { ANY_BITS, GENERATOR, OTHER_FIELDS };

static void make_other(const struct draft *draft, struct draft *other, enum other kind)
{
    start_draft(other);
    if (kind == ANY_BITS) {
        random_bits(other->bits, SUBFRAME_2_BITS);
        random_bits(other->page, PAGE_BITS);
    } else if (kind == GENERATOR) {
        put_generator(other->bits, SUBFRAME_2_BITS);
        put_generator(other->page, PAGE_BITS);
    } else {
        add_symbols(other->bits, draft->bits, SUBFRAME_2_BITS);
        add_symbols(other->page, draft->page, PAGE_BITS);
    }
}

static void print_added(struct base *base, enum other kind)
{
    struct draft draft, other;
    struct parts parts, added;
    start_draft(&draft);
    make_other(&draft, &other, kind);
    make_parts(base->codes, &draft, &parts);
    make_parts(base->codes, &other, &added);
    add_symbols(parts.two, added.two, BLOCK_2);
    add_symbols(parts.three, added.three, BLOCK_3);
    print_parts(base, &parts);
}

void print_written_cases(struct base *base)
{
    print_fields(base);
    print_reserved(base);
    print_pages(base);
    print_words(base);
    print_default_message(base);
    print_checks(base);
    for (int i = 0; i < 18; i++)
        print_added(base, (enum other)(i % 3));
}
