#include "page_record.h"

#include "bits.h"

#include <string.h>

#define CHARACTER {"character", 8, UNSIGNED, 0, 0}
#define SEVEN_CHARACTERS CHARACTER, CHARACTER, CHARACTER, CHARACTER, CHARACTER, CHARACTER, CHARACTER

/* A text page and 29 characters. */
static const struct field page_6_fields[PAGE_6_COUNTS] = {
    {"text page", 4, UNSIGNED, 0, 0}, SEVEN_CHARACTERS, SEVEN_CHARACTERS, SEVEN_CHARACTERS, SEVEN_CHARACTERS, CHARACTER,
};

static const struct layout page_6 = {15, PAGE_6_COUNTS, page_6_fields};
static const struct layout bare = {15, 0, NULL};

const struct layout *page_layout(enum page_kind kind)
{
    return kind == PAGE_1 ? &page_1 : kind == PAGE_6 ? &page_6 : &bare;
}

/* The index of the first bit behind the fields. */
static int fields_end(const struct layout *layout)
{
    return first_bit(layout, layout->count) - 1;
}

int carried_bits(enum page_kind kind)
{
    return PAGE_BITS - fields_end(page_layout(kind));
}

/* Taking. */

static enum page_kind kind_of(int number)
{
    return number == 1 ? PAGE_1 : number == 6 ? PAGE_6 : BARE;
}

struct answer take_page(const unsigned char *bytes, int count, struct page_record *record)
{
    if (count != PAGE_BITS)
        return refused(1, 0);
    int byte = first_no_bit(bytes, count);
    if (byte >= 0)
        return refused(2, byte);
    int bit = page_out_of_range(bytes);
    if (bit > 0)
        return refused(9, bit);
    record->prn = (int)take_unsigned(bytes, 8);
    record->number = page_number(bytes);
    record->kind = kind_of(record->number);
    const struct layout *layout = page_layout(record->kind);
    take_counts(layout, bytes, record->counts);
    memcpy(record->bits, &bytes[fields_end(layout)], (size_t)carried_bits(record->kind));
    return done;
}

/* Putting. */

static struct answer judge_record(const struct page_record *record)
{
    int byte = first_no_bit(record->bits, carried_bits(record->kind));
    if (byte >= 0)
        return refused(2, byte);
    if (record->number > LARGEST_PAGE || kind_of(record->number) != record->kind)
        return refused(9, 9);
    int bit = first_out_of_range(page_layout(record->kind), record->counts);
    return bit > 0 ? refused(9, bit) : done;
}

struct answer put_page(const struct page_record *record, unsigned char *bytes, int count)
{
    if (count != PAGE_BITS)
        return refused(1, 0);
    struct answer answer = judge_record(record);
    if (!is_done(answer))
        return answer;
    const struct layout *layout = page_layout(record->kind);
    put_page_head(bytes, record->prn, record->number);
    put_counts(layout, record->counts, bytes);
    memcpy(&bytes[fields_end(layout)], record->bits, (size_t)carried_bits(record->kind));
    return done;
}
