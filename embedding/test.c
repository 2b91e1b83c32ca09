/* Calls every function of include/l1c.h out of the archive: what the library proves is proved there, and what is tried here is the border,
   that pointers and lengths arrive in the declared order, that numbers and places come back in their halves, and that a refusal leaves
   every lent element, and those beside it, as they were. Prints each result that differs, and exits with 1 where one does. */
#include "expect.h"
#include "l1c.h"

#include <string.h>

enum { BESIDE = 8, OUT = 1024, WN = 1, ITOW = 2, HEALTH = 4, TOE = 6, PAGE_NUMBER_BIT = 13 };

/* What is lent, with elements on both sides that no call may touch. */
struct lent {
    int64_t contents[BESIDE + L1C_NUMBERS + BESIDE];
    uint8_t page[BESIDE + L1C_PAGE_BITS + BESIDE];
    uint8_t frame[BESIDE + L1C_FRAME_SYMBOLS + BESIDE];
    uint32_t time[BESIDE + L1C_TIME_NUMBERS + BESIDE];
    uint8_t out[BESIDE + OUT + BESIDE];
};

static struct lent lent, kept;

static int64_t *const contents = lent.contents + BESIDE;
static uint8_t *const page = lent.page + BESIDE;
static uint8_t *const frame = lent.frame + BESIDE;
static uint32_t *const time_read = lent.time + BESIDE;
static uint8_t *const out = lent.out + BESIDE;

static void keep(void)
{
    kept = lent;
}

/* This was returned, and nothing lent has changed since it was kept. */
static void expect_refused(uint64_t returned, uint32_t number, uint32_t place, const char *what)
{
    expect(l1c_number(returned) == number && l1c_place(returned) == place, what);
    expect(memcmp(&lent, &kept, sizeof lent) == 0, what);
}

/* Nothing is refused, this is said, and nothing beside the lent elements has changed. */
static void expect_said(uint64_t returned, uint32_t said, const char *what)
{
    expect(l1c_number(returned) == L1C_DONE && l1c_said(returned) == said, what);
    memcpy(kept.contents + BESIDE, contents, sizeof contents[0] * L1C_NUMBERS);
    memcpy(kept.page + BESIDE, page, L1C_PAGE_BITS);
    memcpy(kept.frame + BESIDE, frame, L1C_FRAME_SYMBOLS);
    memcpy(kept.time + BESIDE, time_read, sizeof time_read[0] * L1C_TIME_NUMBERS);
    memcpy(kept.out + BESIDE, out, OUT);
    expect(memcmp(&lent, &kept, sizeof lent) == 0, what);
}

/* Contents and page are zeros, and every other byte is one that no call writes. */
static void start(void)
{
    memset(&lent, 0xA5, sizeof lent);
    memset(contents, 0, sizeof contents[0] * L1C_NUMBERS);
    memset(page, 0, L1C_PAGE_BITS);
    keep();
}

static uint64_t build(void)
{
    return l1c_build(contents, L1C_NUMBERS, page, L1C_PAGE_BITS, frame, L1C_FRAME_SYMBOLS);
}

static uint64_t read_all(void)
{
    return l1c_read(frame, L1C_FRAME_SYMBOLS, contents, L1C_NUMBERS, page, L1C_PAGE_BITS);
}

static uint64_t read_time(void)
{
    return l1c_read_time(frame, L1C_FRAME_SYMBOLS, time_read, L1C_TIME_NUMBERS);
}

static uint64_t read_2(void)
{
    return l1c_read_subframe2(frame, L1C_FRAME_SYMBOLS, &contents[1], L1C_COUNTS);
}

static uint64_t read_3(void)
{
    return l1c_read_subframe3(frame, L1C_FRAME_SYMBOLS, page, L1C_PAGE_BITS);
}

/* A slice with one element less, for each slice that has a stated length. */
static void try_lengths(void)
{
    start();
    expect_refused(l1c_build(contents, 33, page, 250, frame, 1800), 1, 0, "build, 33 numbers");
    expect_refused(l1c_build(contents, 34, page, 249, frame, 1800), 1, 0, "build, 249 page bits");
    expect_refused(l1c_build(contents, 34, page, 250, frame, 1799), 1, 0, "build, 1799 symbols");
    expect_refused(l1c_build(contents, 0, page, 0, frame, 0), 1, 0, "build, nothing lent");
    build();
    keep();
    expect_refused(l1c_read(frame, 1799, contents, 34, page, 250), 1, 0, "read, 1799 symbols");
    expect_refused(l1c_read(frame, 1800, contents, 33, page, 250), 1, 0, "read, 33 numbers");
    expect_refused(l1c_read(frame, 1800, contents, 34, page, 249), 1, 0, "read, 249 page bits");
    expect_refused(l1c_read_time(frame, 1799, time_read, 2), 1, 0, "time, 1799 symbols");
    expect_refused(l1c_read_time(frame, 1800, time_read, 1), 1, 0, "time, 1 number");
    expect_refused(l1c_read_subframe2(frame, 1799, contents, 33), 1, 0, "subframe 2, 1799 symbols");
    expect_refused(l1c_read_subframe2(frame, 1800, contents, 34), 1, 0, "subframe 2, 34 counts");
    expect_refused(l1c_read_subframe3(frame, 1799, page, 250), 1, 0, "subframe 3, 1799 symbols");
    expect_refused(l1c_read_subframe3(frame, 1800, page, 249), 1, 0, "subframe 3, 249 page bits");
    expect_refused(l1c_read_sheet(out, 0, contents, 33), 1, 0, "sheet, 33 numbers, before its trailer");
    expect_refused(l1c_write_sheet(contents, 33, out, OUT), 1, 0, "sheet written, 33 numbers");
}

static void try_building(void)
{
    const int64_t no_times[] = {-1, 400, 512, 65536, INT64_MAX, INT64_MIN};
    start();
    expect_said(build(), 0, "zeros are built");
    expect(all_are(frame, L1C_FRAME_SYMBOLS, 0), "zeros are 1800 zeros");
    contents[0] = 256;
    expect_said(build(), 0, "toi 256 is built");
    expect(all_are(frame, 52, 1) && all_are(frame + 52, 1748, 0), "toi 256 is 52 ones");
    for (unsigned i = 0; i < sizeof no_times / sizeof no_times[0]; i++) {
        start();
        contents[0] = no_times[i];
        contents[ITOW] = 84;
        keep();
        expect_refused(build(), 3, 0, "no time, before the counts");
        page[249] = 2;
        keep();
        expect_refused(build(), 2, 249, "a page bit that is none, before the time");
    }
    start();
    contents[ITOW] = 84;
    keep();
    expect_refused(build(), 6, 14, "itow 84");
    contents[ITOW] = 83;
    contents[TOE] = -1;
    keep();
    expect_refused(build(), 6, 39, "toe -1");
    start();
    page[PAGE_NUMBER_BIT] = 1;
    keep();
    expect_refused(build(), 9, 101, "page 1 with DN 0");
}

/* Contents that differ in every number. */
static void fill(void)
{
    start();
    for (int k = 0; k < L1C_NUMBERS; k++)
        contents[k] = k % 2;
    contents[0] = 399;
    contents[WN] = 8191;
    contents[7] = -33554432;
    contents[12] = 8589934591;
    for (int i = 14; i < L1C_PAGE_BITS; i += 3)
        page[i] = 1;
    keep();
}

static void try_reading(void)
{
    struct lent sent;
    fill();
    expect_said(build(), 0, "contents are built");
    sent = lent;
    memset(contents, 0x77, sizeof contents[0] * L1C_NUMBERS);
    memset(page, 0x77, L1C_PAGE_BITS);
    for (int i = 0; i < 9; i++)
        frame[5 * i] ^= 1;
    expect_said(read_all(), 9, "nine turned time symbols are corrected");
    expect(memcmp(lent.contents, sent.contents, sizeof lent.contents) == 0, "the numbers come back");
    expect(memcmp(lent.page, sent.page, sizeof lent.page) == 0, "the page comes back");
    expect_said(read_time(), 0, "the time alone");
    expect(time_read[0] == 399 && time_read[1] == 9, "toi 399, nine corrected");
    memset(&contents[1], 0x77, sizeof contents[0] * L1C_COUNTS);
    memset(page, 0x77, L1C_PAGE_BITS);
    expect_said(read_2(), 0, "subframe 2 alone");
    expect_said(read_3(), 0, "subframe 3 alone");
    expect(memcmp(lent.contents, sent.contents, sizeof lent.contents) == 0, "the counts come back");
    expect(memcmp(lent.page, sent.page, sizeof lent.page) == 0, "the page comes back alone");
    frame[51] ^= 1;
    keep();
    expect_refused(read_time(), 3, 0, "ten turned time symbols, the time alone");
    expect_refused(read_all(), 3, 0, "ten turned time symbols");
    frame[1799] = 2;
    keep();
    expect_refused(read_time(), 2, 1799, "a symbol that is none, the time alone");
    expect_refused(read_2(), 2, 1799, "the same, subframe 2 alone");
}

/* Each symbol behind the time word, turned alone: the one subframe that has it is refused. */
static void try_damage(void)
{
    int refused_2 = 0, refused_3 = 0;
    fill();
    build();
    for (int i = 52; i < L1C_FRAME_SYMBOLS; i++) {
        frame[i] ^= 1;
        keep();
        uint64_t whole = read_all();
        uint64_t two = read_2();
        uint64_t three = l1c_number(two) == L1C_DONE ? read_3() : 0;
        expect(l1c_number(whole) == L1C_EQUATION_2 || l1c_number(whole) == L1C_EQUATION_3, "a turned symbol breaks an equation");
        expect(whole == (l1c_number(two) == L1C_DONE ? three : two), "alone as in the whole");
        expect(memcmp(&lent, &kept, sizeof lent) == 0, "a turned symbol, memory as it was");
        refused_2 += l1c_number(two) != L1C_DONE;
        refused_3 += l1c_number(three) != L1C_DONE;
        frame[i] ^= 1;
    }
    expect(refused_2 == 1200 && refused_3 == 548, "1200 symbols of subframe 2, 548 of subframe 3");
}

/* Puts a text behind `at` bytes, and gives how many there are then. */
static size_t put(size_t at, const char *text)
{
    memcpy(out + at, text, strlen(text));
    return at + strlen(text);
}

static uint64_t read_sheet(size_t size)
{
    return l1c_read_sheet(out, size, contents, L1C_NUMBERS);
}

static void try_sheets(void)
{
    start();
    expect_refused(read_sheet(0), 10, 0, "no bytes");
    put(0, "back 00000\n");
    keep();
    expect_refused(read_sheet(11), 15, 1, "a trailer alone");
    start();
    expect_said(l1c_write_sheet(contents, L1C_NUMBERS, out, OUT), 243, "the sheet of zeros has 243 bytes");
    expect(memcmp(out + 232, "back 00232\n", 11) == 0, "its trailer");
    expect(all_are(out + 243, OUT - 243, 0xA5), "the bytes behind it stay");
    keep();
    expect_refused(l1c_write_sheet(contents, L1C_NUMBERS, out, 242), 16, 0, "no room");
    contents[HEALTH] = 1;
    expect_said(l1c_write_sheet(contents, L1C_NUMBERS, out + 243, OUT - 243), 243, "a second sheet behind it");
    contents[HEALTH] = 5;
    expect_said(read_sheet(486), 243, "the last sheet is read, 243 bytes stand before it");
    expect(contents[HEALTH] == 1, "its health is 1");
    expect_said(read_sheet(243), 0, "then the one before, and nothing stands before it");
    expect(contents[HEALTH] == 0, "its health is 0");
    memcpy(out + 206, "tdg", 3);
    keep();
    expect_refused(read_sheet(243), 12, 206, "tgd spelt tdg");
    memcpy(out + 206, "tgd", 3);
    put(put(232, "toi=0\n"), "back 00238\n");
    keep();
    expect_refused(read_sheet(249), 13, 232, "toi a second time");
    contents[0] = 400;
    keep();
    expect_refused(l1c_write_sheet(contents, L1C_NUMBERS, out, OUT), 3, 0, "a sheet with no time");
}

int main(void)
{
    try_lengths();
    try_building();
    try_reading();
    try_damage();
    try_sheets();
    return tell_results("embedding");
}
