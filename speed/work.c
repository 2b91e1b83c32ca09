#include "work.h"

#include "l1c.h"

#include "frame.h"
#include "random.h"
#include "random_contents.h"
#include "sheet.h"

#include <string.h>

enum { MOST_TURNED = 9, MOST_SHEET = 1024 };

static struct codes codes;

/* An input: contents in the form of each side, their frame, that frame with nine time symbols turned, and their sheet. */
static struct input {
    struct contents contents;
    int64_t numbers[L1C_NUMBERS];
    uint8_t frame[L1C_FRAME_SYMBOLS];
    uint8_t turned[L1C_FRAME_SYMBOLS];
    uint8_t sheet[MOST_SHEET];
    int sheet_size;
} inputs[INPUTS];

/* What the last call of each side left. */
static struct {
    uint64_t returned;
    int64_t numbers[L1C_NUMBERS];
    uint8_t page[L1C_PAGE_BITS];
    uint8_t frame[L1C_FRAME_SYMBOLS];
    uint32_t time[L1C_TIME_NUMBERS];
} ours;

static struct {
    struct answer answer;
    struct contents contents;
    uint8_t frame[L1C_FRAME_SYMBOLS];
    struct sheet sheet;
} theirs;

static void turn_nine(uint8_t *frame)
{
    for (int left = MOST_TURNED, place = 0; left > 0; place++)
        if (random_below(WORD_SYMBOLS - place) < left) {
            frame[place] ^= 1;
            left--;
        }
}

static void make_input(struct input *input)
{
    random_contents(&input->contents);
    input->numbers[0] = input->contents.toi;
    memcpy(&input->numbers[1], input->contents.counts, sizeof input->contents.counts);
    build(&codes, &input->contents, input->frame);
    memcpy(input->turned, input->frame, sizeof input->turned);
    turn_nine(input->turned);
    input->sheet_size = write_sheet(input->numbers, input->sheet, MOST_SHEET).size;
}

void make_inputs(char *folder)
{
    char *words[] = {"speed", folder};
    prepare_codes(&codes, 2, words);
    for (int i = 0; i < INPUTS; i++)
        make_input(&inputs[i]);
}

/* Frames built. */

static void library_build(int i)
{
    ours.returned = l1c_build(inputs[i].numbers, L1C_NUMBERS, inputs[i].contents.page, L1C_PAGE_BITS, ours.frame, L1C_FRAME_SYMBOLS);
}

static void second_build(int i)
{
    theirs.answer = build(&codes, &inputs[i].contents, theirs.frame);
}

static int both_done(void)
{
    return l1c_number(ours.returned) == L1C_DONE && is_done(theirs.answer);
}

static int built_agree(int i)
{
    return both_done() && memcmp(ours.frame, inputs[i].frame, sizeof ours.frame) == 0 &&
           memcmp(theirs.frame, inputs[i].frame, sizeof theirs.frame) == 0;
}

/* Frames read. */

static void library_read(int i)
{
    ours.returned = l1c_read(inputs[i].frame, L1C_FRAME_SYMBOLS, ours.numbers, L1C_NUMBERS, ours.page, L1C_PAGE_BITS);
}

static void second_read(int i)
{
    theirs.answer = read_frame(&codes, inputs[i].frame, FRAME_SYMBOLS, &theirs.contents);
}

static int read_agree(int i)
{
    const struct input *input = &inputs[i];
    return both_done() && l1c_said(ours.returned) == 0 && theirs.contents.corrected == 0 && ours.numbers[0] == theirs.contents.toi &&
           memcmp(ours.numbers, input->numbers, sizeof ours.numbers) == 0 &&
           memcmp(theirs.contents.counts, &input->numbers[1], sizeof theirs.contents.counts) == 0 &&
           memcmp(ours.page, input->contents.page, sizeof ours.page) == 0 &&
           memcmp(theirs.contents.page, input->contents.page, sizeof theirs.contents.page) == 0;
}

/* Times read at nine errors. */

static void library_time(int i)
{
    ours.returned = l1c_read_time(inputs[i].turned, L1C_FRAME_SYMBOLS, ours.time, L1C_TIME_NUMBERS);
}

static void second_time(int i)
{
    theirs.answer = read_time(inputs[i].turned, FRAME_SYMBOLS, &theirs.contents);
}

static int time_agree(int i)
{
    return both_done() && ours.time[0] == inputs[i].numbers[0] && theirs.contents.toi == inputs[i].numbers[0] &&
           ours.time[1] == MOST_TURNED && theirs.contents.corrected == MOST_TURNED;
}

/* Sheets read. */

static void library_sheet(int i)
{
    ours.returned = l1c_read_sheet(inputs[i].sheet, (size_t)inputs[i].sheet_size, ours.numbers, L1C_NUMBERS);
}

static void second_sheet(int i)
{
    theirs.sheet = read_sheet(inputs[i].sheet, inputs[i].sheet_size);
}

static int sheet_agree(int i)
{
    return l1c_number(ours.returned) == L1C_DONE && is_done(theirs.sheet.answer) && l1c_said(ours.returned) == 0 &&
           theirs.sheet.before == 0 && memcmp(ours.numbers, inputs[i].numbers, sizeof ours.numbers) == 0 &&
           memcmp(theirs.sheet.numbers, inputs[i].numbers, sizeof theirs.sheet.numbers) == 0;
}

const struct work works[WORKS] = {
    {"build", "a frame built", library_build, second_build, built_agree},
    {"read", "a frame read", library_read, second_read, read_agree},
    {"time", "a time read at nine errors", library_time, second_time, time_agree},
    {"sheet", "a sheet read", library_sheet, second_sheet, sheet_agree},
};

/* Files of sheets. */

static uint8_t file[MOST_SHEETS * MOST_SHEET];

int make_file(int count)
{
    int size = 0;
    for (int i = 0; i < count; i++) {
        const struct input *input = &inputs[i % INPUTS];
        memcpy(&file[size], input->sheet, (size_t)input->sheet_size);
        size += input->sheet_size;
    }
    return size;
}

int library_walk(int size)
{
    int sheets = 0;
    while (size > 0) {
        uint64_t returned = l1c_read_sheet(file, (size_t)size, ours.numbers, L1C_NUMBERS);
        if (l1c_number(returned) != L1C_DONE)
            return 0;
        size = (int)l1c_said(returned);
        sheets++;
    }
    return sheets;
}

int second_walk(int size)
{
    int sheets = 0;
    while (size > 0) {
        theirs.sheet = read_sheet(file, size);
        if (!is_done(theirs.sheet.answer))
            return 0;
        size = theirs.sheet.before;
        sheets++;
    }
    return sheets;
}
