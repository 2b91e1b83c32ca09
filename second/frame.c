#include "frame.h"

#include "bits.h"
#include "crc.h"

#include <stdio.h>
#include <stdlib.h>
#include <string.h>

void prepare_codes(struct codes *codes, int count, char **words)
{
    if (count != 2) {
        fprintf(stderr, "usage: %s FOLDER-OF-TABLES\n", words[0]);
        exit(2);
    }
    prepare_parity(&codes->two, words[1], '2');
    prepare_parity(&codes->three, words[1], '3');
}

/* Building. */

void make_block_2(const struct codes *codes, const unsigned char *bits, unsigned char *block)
{
    memcpy(block, bits, SUBFRAME_2_BITS);
    append_check_bits(block, SUBFRAME_2_BITS);
    fill_parity(&codes->two, block);
}

void make_block_3(const struct codes *codes, const unsigned char *page, unsigned char *block)
{
    memcpy(block, page, PAGE_BITS);
    append_check_bits(block, PAGE_BITS);
    fill_parity(&codes->three, block);
}

static struct answer judge_contents(const struct contents *contents)
{
    int byte = first_no_bit(contents->page, PAGE_BITS);
    if (byte >= 0)
        return refused(2, byte);
    if (contents->toi > LARGEST_TOI)
        return refused(3, 0);
    int bit = first_out_of_range(&subframe_2, contents->counts);
    if (bit > 0)
        return refused(6, bit);
    bit = page_out_of_range(contents->page);
    return bit > 0 ? refused(9, bit) : done;
}

struct answer build(const struct codes *codes, const struct contents *contents, unsigned char *frame)
{
    struct answer answer = judge_contents(contents);
    if (!is_done(answer))
        return answer;
    struct parts parts;
    unsigned char bits[SUBFRAME_2_BITS] = {0};
    put_counts(&subframe_2, contents->counts, bits);
    make_time_word(contents->toi, parts.word);
    make_block_2(codes, bits, parts.two);
    make_block_3(codes, contents->page, parts.three);
    to_frame(&parts, frame);
    return done;
}

/* Reading. */

static struct answer judge_symbols(const unsigned char *frame, int length)
{
    if (length != FRAME_SYMBOLS)
        return refused(1, 0);
    int byte = first_no_bit(frame, FRAME_SYMBOLS);
    return byte >= 0 ? refused(2, byte) : done;
}

static struct answer judge_time(const struct parts *parts, struct contents *contents)
{
    int corrected;
    int toi = nearest_toi(parts->word, &corrected);
    if (toi < 0)
        return refused(3, 0);
    contents->toi = toi;
    contents->corrected = corrected;
    return done;
}

/* Whether any of the reserved bits, 567 to 576, is set. */
static int is_reserved_set(const unsigned char *bits)
{
    return memchr(&bits[FIRST_RESERVED - 1], 1, SUBFRAME_2_BITS - FIRST_RESERVED + 1) != NULL;
}

static struct answer judge_block_2(const struct codes *codes, const struct parts *parts, struct contents *contents)
{
    int64_t counts[COUNTS];
    int equation = first_unmet(&codes->two, parts->two);
    if (equation > 0)
        return refused(4, equation);
    if (!check_bits_agree(parts->two, SUBFRAME_2_BITS))
        return refused(5, 0);
    take_counts(&subframe_2, parts->two, counts);
    int bit = first_out_of_range(&subframe_2, counts);
    if (bit > 0)
        return refused(6, bit);
    if (is_reserved_set(parts->two))
        return refused(6, FIRST_RESERVED);
    memcpy(contents->counts, counts, sizeof counts);
    return done;
}

static struct answer judge_block_3(const struct codes *codes, const struct parts *parts, struct contents *contents)
{
    int equation = first_unmet(&codes->three, parts->three);
    if (equation > 0)
        return refused(7, equation);
    if (!check_bits_agree(parts->three, PAGE_BITS))
        return refused(8, 0);
    int bit = page_out_of_range(parts->three);
    if (bit > 0)
        return refused(9, bit);
    memcpy(contents->page, parts->three, PAGE_BITS);
    return done;
}

struct answer read_time(const unsigned char *frame, int length, struct contents *contents)
{
    struct parts parts;
    struct answer answer = judge_symbols(frame, length);
    if (!is_done(answer))
        return answer;
    from_frame(frame, &parts);
    return judge_time(&parts, contents);
}

struct answer read_subframe_2(const struct codes *codes, const unsigned char *frame, int length, struct contents *contents)
{
    struct parts parts;
    struct answer answer = judge_symbols(frame, length);
    if (!is_done(answer))
        return answer;
    from_frame(frame, &parts);
    return judge_block_2(codes, &parts, contents);
}

struct answer read_subframe_3(const struct codes *codes, const unsigned char *frame, int length, struct contents *contents)
{
    struct parts parts;
    struct answer answer = judge_symbols(frame, length);
    if (!is_done(answer))
        return answer;
    from_frame(frame, &parts);
    return judge_block_3(codes, &parts, contents);
}

struct answer read_frame(const struct codes *codes, const unsigned char *frame, int length, struct contents *contents)
{
    struct parts parts;
    struct contents found = *contents;
    struct answer answer = judge_symbols(frame, length);
    if (!is_done(answer))
        return answer;
    from_frame(frame, &parts);
    answer = judge_time(&parts, &found);
    if (is_done(answer))
        answer = judge_block_2(codes, &parts, &found);
    if (is_done(answer))
        answer = judge_block_3(codes, &parts, &found);
    if (is_done(answer))
        *contents = found;
    return answer;
}
