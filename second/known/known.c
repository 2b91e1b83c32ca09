/* Holds the second program to results that document 01 gives. Prints each that differs, and exits with 1 where one does. */
#include "bits.h"
#include "clock_terms.h"
#include "crc.h"
#include "expect.h"
#include "frame.h"
#include "page_record.h"
#include "programs.h"
#include "sheet.h"

#include <math.h>
#include <stdio.h>
#include <string.h>

static void try_time_words(void)
{
    unsigned char word[WORD_SYMBOLS];
    int corrected;
    make_time_word(256, word);
    expect(all_are(word, WORD_SYMBOLS, 1), "TOI 256 gives 52 ones");
    make_time_word(0, word);
    expect(all_are(word, WORD_SYMBOLS, 0), "TOI 0 gives 52 zeros");
    expect(nearest_toi(word, &corrected) == 0 && corrected == 0, "52 zeros read as 0 with 0");
    memset(word, 1, 9);
    expect(nearest_toi(word, &corrected) == 0 && corrected == 9, "the first nine of TOI 0's word turned read as 0 with 9");
}

static void try_word_distances(void)
{
    unsigned char one[WORD_SYMBOLS], other[WORD_SYMBOLS];
    int least = WORD_SYMBOLS;
    for (int i = 0; i < 512; i++)
        for (int k = i + 1; k < 512; k++) {
            make_time_word(i, one);
            make_time_word(k, other);
            int distance = word_distance(one, other);
            least = distance < least ? distance : least;
        }
    expect(least == 20, "two 9-bit values give words at least 20 symbols apart");
}

/* The symbols after the first eight, by the sum that document 01 gives in place of the register. */
static void try_word_sums(void)
{
    unsigned char word[WORD_SYMBOLS];
    int agree = 1;
    for (int toi = 0; toi < 512; toi++) {
        make_time_word(toi, word);
        for (int i = 0; i < WORD_SYMBOLS; i++)
            word[i] ^= (unsigned char)(toi / 256);
        agree = agree && word[0] == 0 && take_unsigned(&word[1], 8) == toi % 256;
        for (int i = 9; i < WORD_SYMBOLS; i++)
            agree = agree && word[i] == ((word[i - 1] + word[i - 4] + word[i - 5] + word[i - 6] + word[i - 7] + word[i - 8]) & 1);
    }
    expect(agree, "each later symbol of a time word is the sum of those 1, 4, 5, 6, 7 and 8 places before it");
}

/* The check bits of 576 zeros, or of zeros but for one bit, counted from 1. */
static int64_t check_bits_of(int bit)
{
    unsigned char bits[SUBFRAME_2_BITS + CHECK_BITS] = {0};
    if (bit > 0)
        bits[bit - 1] = 1;
    append_check_bits(bits, SUBFRAME_2_BITS);
    return take_unsigned(&bits[SUBFRAME_2_BITS], CHECK_BITS);
}

static void try_check_bits(void)
{
    expect(check_bits_of(576) == 0x864CFB, "check bits of bit 576");
    expect(check_bits_of(575) == 0x8AD50D, "check bits of bit 575");
    expect(check_bits_of(0) == 0, "check bits of zeros");
}

/* Whether the symbol at `place` of the 1748 leaves at `left`, and no other symbol is set. */
static int leaves_at(int place, int left)
{
    struct parts parts = {0}, back;
    unsigned char frame[FRAME_SYMBOLS], expected[FRAME_SYMBOLS] = {0};
    if (place < BLOCK_2)
        parts.two[place] = 1;
    else
        parts.three[place - BLOCK_2] = 1;
    expected[WORD_SYMBOLS + left] = 1;
    to_frame(&parts, frame);
    from_frame(frame, &back);
    return memcmp(frame, expected, FRAME_SYMBOLS) == 0 && memcmp(&parts, &back, sizeof parts) == 0;
}

static void try_order(void)
{
    static const int known[][2] = {{0, 0}, {1, 38}, {45, 1710}, {46, 1}, {1199, 140}, {1200, 178}, {1747, 1747}};
    for (int i = 0; i < 7; i++)
        expect(leaves_at(known[i][0], known[i][1]), "the order of the symbols");
    int agree = 1;
    for (int r = 0; r < 38; r++)
        for (int c = 0; c < 46; c++)
            agree = agree && leaves_at(46 * r + c, 38 * c + r);
    expect(agree, "the symbol at 46r + c leaves at 38c + r");
}

static void try_layouts(void)
{
    unsigned char bits[13];
    expect(first_bit(&subframe_2, COUNTS) == FIRST_RESERVED, "the fields of subframe 2 end at bit 566");
    expect(first_bit(&subframe_2, 26) == 471 && first_bit(&subframe_2, 27) == 497 && first_bit(&subframe_2, 28) == 517,
           "the clock terms begin at bits 471, 497 and 517");
    expect(first_bit(&page_1, PAGE_1_COUNTS) == 177, "the fields of page 1 end at bit 176");
    put_number(bits, 13, -4096);
    expect(bits[0] == 1 && all_are(&bits[1], 12, 0) && take_signed(bits, 13) == -4096, "-4096 in 13 bits");
}

static struct answer build_with(const struct codes *codes, int field, int64_t count)
{
    struct contents contents = {0};
    unsigned char frame[FRAME_SYMBOLS];
    contents.counts[field] = count;
    return build(codes, &contents, frame);
}

static void try_building(const struct codes *codes)
{
    struct contents contents = {0}, found = {0};
    unsigned char frame[FRAME_SYMBOLS];
    expect(is_done(build(codes, &contents, frame)) && all_are(frame, FRAME_SYMBOLS, 0), "all zero gives 1800 zeros");
    expect(is_done(read_frame(codes, frame, FRAME_SYMBOLS, &found)), "1800 zeros are read");
    expect(is_done(build_with(codes, 1, 83)), "itow 83");
    expect(same_answer(build_with(codes, 1, 84), refused(6, 14)), "itow 84");
    expect(is_done(build_with(codes, 5, 2015)), "toe 2015");
    expect(same_answer(build_with(codes, 5, 2016), refused(6, 39)), "toe 2016");
}

/* Page 1 of zeros, but for tot and DN, and what putting such a record and taking such bits is answered. */
static int page_1_is_answered(int64_t tot, int64_t dn, struct answer answer)
{
    struct page_record record = {.number = 1, .kind = PAGE_1};
    unsigned char page[PAGE_BITS] = {0}, put[PAGE_BITS];
    record.counts[TOT] = tot;
    record.counts[DN] = dn;
    put_page_head(page, 0, 1);
    put_counts(&page_1, record.counts, page);
    return same_answer(put_page(&record, put, PAGE_BITS), answer) && same_answer(take_page(page, PAGE_BITS, &record), answer);
}

static void try_page_1(void)
{
    expect(page_1_is_answered(37799, 1, done), "tot 37799");
    expect(page_1_is_answered(37800, 1, refused(9, 59)), "tot 37800");
    expect(page_1_is_answered(65535, 0, refused(9, 59)), "tot 65535, and DN 0 behind it");
    for (int dn = 0; dn < 16; dn++)
        expect(page_1_is_answered(0, dn, dn >= 1 && dn <= 7 ? done : refused(9, 101)), "DN is 1 to 7");
}

/* The kind that a page of zeros with this number is taken as, and whether a record of another kind with it is refused 9 at 9. */
static int is_kind(int number, enum page_kind kind)
{
    struct page_record record = {0};
    unsigned char page[PAGE_BITS] = {0};
    put_page_head(page, 255, number);
    put_number(&page[first_bit(&page_1, DN) - 1], 4, number == 1);
    if (!is_done(take_page(page, PAGE_BITS, &record)))
        return 0;
    int is_taken = record.prn == 255 && record.number == number && record.kind == kind;
    record.kind = kind == BARE ? PAGE_1 : BARE;
    return is_taken && same_answer(put_page(&record, page, PAGE_BITS), refused(9, 9));
}

static void try_page_numbers(void)
{
    struct page_record record = {.number = 64};
    unsigned char page[PAGE_BITS];
    int agree = 1;
    for (int number = 0; number < 64; number++)
        agree = agree && is_kind(number, number == 1 ? PAGE_1 : number == 6 ? PAGE_6 : BARE);
    expect(agree, "page 1, page 6, and the others as bare bits");
    expect(same_answer(put_page(&record, page, PAGE_BITS), refused(9, 9)), "page number 64");
    expect(carried_bits(PAGE_1) == 74 && carried_bits(PAGE_6) == 0 && carried_bits(BARE) == 236, "the bits carried as bits");
}

/* Whether a term is this floating number, the other two being zeros, and is taken back as the count. */
static int is_term(int term, int64_t count, double number)
{
    int64_t counts[CLOCK_TERMS] = {0}, back[CLOCK_TERMS];
    struct clock clock = {0}, expected = {0};
    counts[term] = count;
    memcpy(&expected.terms[term], &number, sizeof number);
    return is_done(clock_of(counts, &clock)) && memcmp(&clock, &expected, sizeof clock) == 0 && is_done(counts_of(&clock, back))
           && memcmp(back, counts, sizeof back) == 0;
}

/* Whether this floating number is refused 6 at the first bit of the term's field. */
static int is_no_term(int term, double number)
{
    static const int first_bits[CLOCK_TERMS] = {471, 497, 517};
    struct clock clock = {0};
    int64_t counts[CLOCK_TERMS];
    memcpy(&clock.terms[term], &number, sizeof number);
    return same_answer(counts_of(&clock, counts), refused(6, first_bits[term]));
}

static void try_clock_terms(void)
{
    static const double steps[CLOCK_TERMS] = {0x1p-35, 0x1p-48, 0x1p-60};
    static const int64_t over[CLOCK_TERMS] = {33554432, 524288, 512};
    for (int i = 0; i < CLOCK_TERMS; i++) {
        double beyond = (double)over[i] * steps[i];
        expect(is_term(i, 0, 0.0) && is_term(i, 1, steps[i]) && is_term(i, -1, -steps[i]), "clock terms of one step");
        expect(is_term(i, -over[i], -beyond) && is_term(i, over[i] - 1, beyond - steps[i]), "clock terms at the ends of the widths");
        expect(is_no_term(i, beyond) && is_no_term(i, -beyond - steps[i]), "clock terms that are too large");
        expect(is_no_term(i, -0.0) && is_no_term(i, steps[i] / 2) && is_no_term(i, steps[i] * 1.5), "minus zero and parts of a step");
        expect(is_no_term(i, INFINITY) && is_no_term(i, -INFINITY) && is_no_term(i, NAN), "clock terms that are not finite");
    }
}

static struct answer read_string(const char *sheet)
{
    return read_sheet((const unsigned char *)sheet, (int)strlen(sheet)).answer;
}

/* The sheet with every number 0, as a string. */
static void make_zero_sheet(char *sheet, int room)
{
    int64_t zeros[NUMBERS] = {0};
    struct written written = write_sheet(zeros, (unsigned char *)sheet, room);
    expect(is_done(written.answer) && written.size == 243, "the sheet of zeros has 232 bytes and its trailer");
    sheet[written.size] = 0;
}

static void try_zero_sheet(void)
{
    char sheet[300];
    make_zero_sheet(sheet, 243);
    expect(strncmp(sheet, "toi=0\nwn=0\nitow=0\n", 18) == 0, "the sheet of zeros is in the list's order");
    expect(strcmp(&sheet[232], "back 00232\n") == 0, "the sheet of zeros ends with back 00232");
    expect(is_done(read_string(sheet)), "the sheet of zeros is read");
    char *tgd = strstr(sheet, "tgd=");
    memcpy(tgd, "tdg=", 4);
    expect(same_answer(read_string(sheet), refused(12, 206)), "tgd spelt tdg");
    memcpy(tgd, "tgd=", 4);
    strcpy(&sheet[232], "toi=0\nback 00238\n");
    expect(same_answer(read_string(sheet), refused(13, 232)), "the toi line a second time");
}

/* The input of zeros, with this sheet behind the page line. */
static void make_zero_input(struct text *input, const char *sheet)
{
    input->count = 0;
    for (int i = 0; i < PAGE_BITS; i++)
        add_string(input, "0");
    add_string(input, "\n");
    add_string(input, sheet);
}

static int is_printed(const struct text *output, const char *expected)
{
    return output->count == (int)strlen(expected) && memcmp(output->bytes, expected, (size_t)output->count) == 0;
}

/* Whether the bench program prints this where the sheet stands behind a page line of zeros. */
static int is_benched(const struct codes *codes, const char *sheet, const char *expected)
{
    struct text input, output;
    make_zero_input(&input, sheet);
    run_bench(codes, &input, &output);
    return is_printed(&output, expected);
}

static void try_programs(const struct codes *codes)
{
    char sheet[300], zeros[FRAME_SYMBOLS + 2], read[600] = "corrected 0\n";
    struct text input, output;
    make_zero_sheet(sheet, 243);
    memset(zeros, '0', FRAME_SYMBOLS);
    strcpy(&zeros[FRAME_SYMBOLS], "\n");
    expect(is_benched(codes, sheet, zeros), "the sheet of zeros prints 1800 zeros");
    make_zero_input(&input, sheet);
    memcpy(&read[strlen(read)], input.bytes, (size_t)input.count);
    input.count = 0;
    add_string(&input, zeros);
    run_readback(codes, &input, &output);
    expect(is_printed(&output, read), "1800 zeros are read back as the sheet of zeros");
    memset(input.bytes, '1', 9);
    memcpy(read, "corrected 9", 11);
    run_readback(codes, &input, &output);
    expect(is_printed(&output, read), "the first nine symbols turned are corrected");
    memcpy(strstr(sheet, "tgd="), "tdg=", 4);
    expect(is_benched(codes, sheet, "refused 12 at 206\n"), "the bench program with tgd spelt tdg");
    memcpy(strstr(sheet, "tdg="), "tgd=", 4);
    strcpy(&sheet[232], "toi=0\nback 00238\n");
    expect(is_benched(codes, sheet, "refused 13 at 232\n"), "the bench program with the toi line a second time");
}

static void try_small_sheets(void)
{
    expect(same_answer(read_string(""), refused(10, 0)), "an empty buffer as a sheet");
    expect(same_answer(read_string("back 00000\n"), refused(15, 1)), "back 00000 alone");
}

int main(int count, char **words)
{
    static struct codes codes;
    prepare_codes(&codes, count, words);
    try_time_words();
    try_word_distances();
    try_word_sums();
    try_check_bits();
    try_order();
    try_layouts();
    try_building(&codes);
    try_page_1();
    try_page_numbers();
    try_clock_terms();
    try_zero_sheet();
    try_small_sheets();
    try_programs(&codes);
    return tell_results("second program");
}
