#include "page_lines.h"

#include "line_parts.h"
#include "must.h"

#include <stdio.h>
#include <string.h>

/* What bytes hold that are lent to be put in. */
enum { GARBAGE = 7, MOST_BYTES = PAGE_BITS + 1 };

/* Bits with N places set: a byte that is no bit is first printed as a zero. */
static void print_any_bytes(const unsigned char *bytes, int count)
{
    unsigned char bits[PAGE_BITS];
    for (int i = 0; i < count; i++)
        bits[i] = bytes[i] > 1 ? 0 : bytes[i];
    print_bits(bits, count);
    print_changes(bits, bytes, count);
}

static void print_head(const struct page_record *record)
{
    printf(" %03d %03d %d", record->prn, record->number, (int)record->kind);
    print_counts(record->counts, page_layout(record->kind)->count);
}

/* Taking. */

static void check_taken(const struct page_record *record, const unsigned char *bytes)
{
    unsigned char back[PAGE_BITS];
    must(is_done(put_page(record, back, PAGE_BITS)), "a page that is taken can be put back");
    must(memcmp(back, bytes, PAGE_BITS) == 0, "a page that is put back is the same");
}

void print_taking(const unsigned char *bytes, int length, struct answer meant)
{
    struct page_record record;
    unsigned char all[MOST_BYTES] = {0};
    memcpy(all, bytes, PAGE_BITS);
    struct answer answer = take_page(all, length, &record);
    must(same_answer(answer, meant), "taking the page is answered as it is meant to be");
    printf("PT %04d", length);
    print_any_bytes(bytes, PAGE_BITS);
    print_answer(answer);
    if (is_done(answer)) {
        check_taken(&record, bytes);
        print_head(&record);
        print_bits(record.bits, carried_bits(record.kind));
    } else {
        putchar(' ');
    }
    putchar('\n');
}

/* Putting. */

static void check_put(const struct page_record *record, const unsigned char *bytes)
{
    struct page_record back;
    size_t counts = (size_t)page_layout(record->kind)->count;
    must(is_done(take_page(bytes, PAGE_BITS, &back)), "a page that is put can be taken");
    must(back.prn == record->prn && back.number == record->number && back.kind == record->kind,
         "a record that is taken back has the same head");
    must(memcmp(back.counts, record->counts, counts * sizeof back.counts[0]) == 0, "a record that is taken back has the same counts");
    must(memcmp(back.bits, record->bits, (size_t)carried_bits(record->kind)) == 0, "a record that is taken back has the same bits");
}

static void check_stay(const unsigned char *bytes)
{
    for (int i = 0; i < MOST_BYTES; i++)
        must(bytes[i] == GARBAGE, "the bytes stay where putting is refused");
}

void print_putting(const struct page_record *record, int room, struct answer meant)
{
    unsigned char bytes[MOST_BYTES];
    memset(bytes, GARBAGE, sizeof bytes);
    struct answer answer = put_page(record, bytes, room);
    must(same_answer(answer, meant), "putting the page is answered as it is meant to be");
    printf("PP %04d", room);
    print_head(record);
    print_any_bytes(record->bits, carried_bits(record->kind));
    print_answer(answer);
    if (is_done(answer)) {
        check_put(record, bytes);
        print_bits(bytes, PAGE_BITS);
    } else {
        check_stay(bytes);
        putchar(' ');
    }
    putchar('\n');
}
