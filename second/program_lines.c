#include "program_lines.h"

#include "line_parts.h"
#include "must.h"

#include <stdio.h>
#include <string.h>

/* Behind the frame and its newline, a reading back may have one byte more. */
enum { MOST_READ = FRAME_SYMBOLS + 2 };

static int same_text(const struct text *one, const struct text *other)
{
    return one->count == other->count && memcmp(one->bytes, other->bytes, (size_t)one->count) == 0;
}

static void make_refusal(struct text *text, int number, int place)
{
    char line[32];
    snprintf(line, sizeof line, "refused %d at %d\n", number, place);
    text->count = 0;
    add_string(text, line);
}

/* What stands behind the first line. */
static void take_rest(struct text *rest, const struct text *text)
{
    const unsigned char *end = memchr(text->bytes, '\n', (size_t)text->count);
    int first = (int)(end - text->bytes) + 1;
    rest->count = 0;
    add_bytes(rest, &text->bytes[first], text->count - first);
}

/* The bench program. */

/* A frame that is printed is read back with nothing corrected; what is read back is printed as the same frame. */
static void check_built(const struct codes *codes, const struct text *output)
{
    struct text back, rest, again;
    run_readback(codes, output, &back);
    must(memcmp(back.bytes, "corrected 0\n", 12) == 0, "a frame that is printed is read back");
    take_rest(&rest, &back);
    run_bench(codes, &rest, &again);
    must(same_text(&again, output), "what is read back is printed as the same frame");
}

static void print_built(struct program_base *base, const struct text *input, const struct text *output)
{
    check_built(base->codes, output);
    for (int i = 0; i < FRAME_SYMBOLS; i++)
        base->frame[i] = output->bytes[i] == '1';
    printf("BF");
    print_text(&base->text, input);
    print_frame(base->frame);
    putchar('\n');
    base->text = *input;
}

void print_bench(struct program_base *base, const struct text *input, struct answer meant)
{
    struct text output, expected;
    run_bench(base->codes, input, &output);
    if (is_done(meant)) {
        must(output.count == FRAME_SYMBOLS + 1, "the bench program prints a frame, as it is meant to");
        print_built(base, input, &output);
        return;
    }
    make_refusal(&expected, meant.number, meant.place);
    must(same_text(&output, &expected), "the bench program refuses as it is meant to");
    printf("BN");
    print_text(&base->text, input);
    print_text(&base->text, &output);
    putchar('\n');
}

/* The way back. */

void start_symbols(struct text *text, const struct program_base *base)
{
    text->count = 0;
    for (int i = 0; i < FRAME_SYMBOLS; i++)
        add_string(text, base->frame[i] == 1 ? "1" : "0");
    add_string(text, "\n");
}

/* Built again, what is read back differs from what was read in as many symbols as are corrected: a single digit tells it. */
static void check_read(const struct codes *codes, const struct text *input, const struct text *output)
{
    struct text rest, again;
    int differing = 0;
    if (memcmp(output->bytes, "corrected ", 10) != 0)
        return;
    int corrected = output->bytes[10] - '0';
    take_rest(&rest, output);
    run_bench(codes, &rest, &again);
    must(again.count == input->count, "what is read back is printed as a frame");
    for (int i = 0; i < again.count; i++)
        differing += again.bytes[i] != input->bytes[i];
    must(differing == corrected, "as many symbols differ as are corrected");
}

void print_readback(const struct program_base *base, const struct text *input)
{
    struct text output, plain;
    must(input->count <= MOST_READ, "no more bytes are read back than a line tells");
    run_readback(base->codes, input, &output);
    check_read(base->codes, input, &output);
    start_symbols(&plain, base);
    add_string(&plain, "0");
    printf("RB %04d", input->count);
    print_changes(plain.bytes, input->bytes, input->count);
    print_text(&base->text, &output);
    putchar('\n');
}

void print_readback_refused(const struct program_base *base, const struct text *input, int number, int place)
{
    struct text output, expected;
    run_readback(base->codes, input, &output);
    make_refusal(&expected, number, place);
    must(same_text(&output, &expected), "reading back is refused as it is meant to be");
    print_readback(base, input);
}

void print_frame_readback(const struct base *base)
{
    struct program_base programs = {.codes = base->codes};
    struct text input;
    memcpy(programs.frame, base->frame, FRAME_SYMBOLS);
    start_symbols(&input, &programs);
    print_readback(&programs, &input);
}
