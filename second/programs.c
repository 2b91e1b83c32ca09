#include "programs.h"

#include "sheet.h"

#include <stdio.h>
#include <string.h>

/* Printing. */

void add_bit_line(struct text *text, const unsigned char *bits, int count)
{
    for (int i = 0; i < count; i++)
        add_string(text, bits[i] == 1 ? "1" : "0");
    add_string(text, "\n");
}

static void add_refusal(struct text *text, struct answer answer)
{
    char line[32];
    snprintf(line, sizeof line, "refused %d at %d\n", answer.number, answer.place);
    add_string(text, line);
}

/* Takes so many characters 0 and 1 as bits. */
static struct answer take_characters(const unsigned char *characters, int count, unsigned char *bits)
{
    for (int i = 0; i < count; i++) {
        if (characters[i] != '0' && characters[i] != '1')
            return refused(2, i);
        bits[i] = characters[i] == '1';
    }
    return done;
}

/* The bench program. */

/* The page line ends at the first byte 10. */
static struct answer take_page_line(const struct text *input, unsigned char *page)
{
    const unsigned char *end = memchr(input->bytes, '\n', (size_t)input->count);
    if (end == NULL || end - input->bytes != PAGE_BITS)
        return refused(1, 0);
    return take_characters(input->bytes, PAGE_BITS, page);
}

static struct answer take_sheet(const unsigned char *bytes, int count, struct contents *contents)
{
    struct sheet sheet = read_sheet(bytes, count);
    if (sheet_start(bytes, count) != 0)
        return refused(10, 0);
    if (!is_done(sheet.answer))
        return sheet.answer;
    contents->toi = (int)sheet.numbers[0];
    memcpy(contents->counts, &sheet.numbers[1], sizeof contents->counts);
    return done;
}

static struct answer bench(const struct codes *codes, const struct text *input, unsigned char *frame)
{
    struct contents contents = {0};
    if (input->count > MOST_INPUT)
        return refused(1, 0);
    struct answer answer = take_page_line(input, contents.page);
    if (is_done(answer))
        answer = take_sheet(&input->bytes[PAGE_BITS + 1], input->count - PAGE_BITS - 1, &contents);
    return is_done(answer) ? build(codes, &contents, frame) : answer;
}

void run_bench(const struct codes *codes, const struct text *input, struct text *output)
{
    unsigned char frame[FRAME_SYMBOLS];
    struct answer answer = bench(codes, input, frame);
    output->count = 0;
    if (is_done(answer))
        add_bit_line(output, frame, FRAME_SYMBOLS);
    else
        add_refusal(output, answer);
}

/* The way back. */

static struct answer readback(const struct codes *codes, const struct text *input, struct contents *contents)
{
    unsigned char frame[FRAME_SYMBOLS];
    if (input->count != FRAME_SYMBOLS + 1 || input->bytes[FRAME_SYMBOLS] != '\n')
        return refused(1, 0);
    struct answer answer = take_characters(input->bytes, FRAME_SYMBOLS, frame);
    return is_done(answer) ? read_frame(codes, frame, FRAME_SYMBOLS, contents) : answer;
}

static void add_contents(struct text *text, const struct contents *contents)
{
    char line[32];
    int64_t numbers[NUMBERS] = {contents->toi};
    snprintf(line, sizeof line, "corrected %d\n", contents->corrected);
    add_string(text, line);
    add_bit_line(text, contents->page, PAGE_BITS);
    memcpy(&numbers[1], contents->counts, sizeof contents->counts);
    text->count += write_sheet(numbers, &text->bytes[text->count], MOST_TEXT - text->count).size;
}

void run_readback(const struct codes *codes, const struct text *input, struct text *output)
{
    struct contents contents = {0};
    struct answer answer = readback(codes, input, &contents);
    output->count = 0;
    if (is_done(answer))
        add_contents(output, &contents);
    else
        add_refusal(output, answer);
}
