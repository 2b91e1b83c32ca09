#include "page_cases.h"

#include "random.h"
#include "random_contents.h"

static const enum page_kind kinds[] = {PAGE_1, PAGE_6, BARE};

/* A good record, with any characters on page 6. */
static void good(struct page_record *record, enum page_kind kind)
{
    unsigned char page[PAGE_BITS];
    int number = random_below(64);
    if (kind == PAGE_1)
        random_page_1(page);
    else
        random_other_page(page, kind == PAGE_6 ? 6 : number == 1 || number == 6 ? 63 : number);
    take_page(page, PAGE_BITS, record);
}

static void print_good(const struct page_record *record)
{
    print_putting(record, PAGE_BITS, done);
}

static void print_count(enum page_kind kind, int field, int64_t count, struct answer meant)
{
    struct page_record record;
    good(&record, kind);
    record.counts[field] = count;
    print_putting(&record, PAGE_BITS, meant);
}

/* Each count at both ends of its range, and one beyond each. */
static void print_ends(enum page_kind kind)
{
    const struct layout *layout = page_layout(kind);
    for (int i = 0; i < layout->count; i++) {
        struct answer out = refused(9, first_bit(layout, i));
        print_count(kind, i, least_count(layout, i), done);
        print_count(kind, i, largest_count(layout, i), done);
        print_count(kind, i, least_count(layout, i) - 1, out);
        print_count(kind, i, largest_count(layout, i) + 1, out);
    }
}

/* Some of these are good counts in their low bits. */
static void print_far(enum page_kind kind)
{
    static const int64_t far[] = {INT64_MAX, INT64_MIN, -INT64_MAX, (int64_t)1 << 32, ((int64_t)1 << 62) + 1, 65537, -65536};
    const struct layout *layout = page_layout(kind);
    for (int i = 0; i < 7; i++) {
        int any = random_below(layout->count);
        print_count(kind, 0, far[i], refused(9, first_bit(layout, 0)));
        print_count(kind, any, far[i], refused(9, first_bit(layout, any)));
        print_count(kind, layout->count - 1, far[i], refused(9, first_bit(layout, layout->count - 1)));
    }
}

static void print_two_counts(enum page_kind kind)
{
    const struct layout *layout = page_layout(kind);
    for (int i = 0; i < 6; i++) {
        struct page_record record;
        int first = random_below(layout->count - 1);
        int later = first + 1 + random_below(layout->count - 1 - first);
        good(&record, kind);
        record.counts[first] = i % 2 == 0 ? largest_count(layout, first) + 1 : least_count(layout, first) - 1;
        record.counts[later] = largest_count(layout, later) + 1;
        print_putting(&record, PAGE_BITS, refused(9, first_bit(layout, first)));
    }
}

/* Numbers that are the kind's and that are not; those over 63 are others in their low six bits. */
static void print_page_numbers(enum page_kind kind)
{
    static const int numbers[] = {0, 1, 2, 4, 5, 6, 7, 9, 14, 62, 63, 64, 65, 70, 127, 128, 129, 134, 192, 193, 198, 255};
    for (int i = 0; i < (int)(sizeof numbers / sizeof numbers[0]); i++) {
        struct page_record record;
        int number = numbers[i];
        int is_own = kind == BARE ? number <= LARGEST_PAGE && number != 1 && number != 6 : number == (int)kind;
        good(&record, kind);
        record.number = number;
        print_putting(&record, PAGE_BITS, is_own ? done : refused(9, 9));
    }
}

static void print_prns(enum page_kind kind)
{
    static const int prns[] = {0, 1, 127, 128, 255};
    for (int i = 0; i < 5; i++) {
        struct page_record record;
        good(&record, kind);
        record.prn = prns[i];
        print_good(&record);
    }
}

/* Bytes among the bits that are none, one or two of them, be the number and the counts good or not. */
static void print_no_bits(enum page_kind kind)
{
    static const unsigned char bytes[] = {2, 3, '0', '1', 128, 255};
    int bits = carried_bits(kind);
    for (int i = 0; i < 18; i++) {
        struct page_record record;
        int place = i < 6 ? 0 : i < 12 ? bits - 1 : random_below(bits - 1);
        good(&record, kind);
        record.bits[place] = bytes[i % 6];
        if (place < bits - 1)
            record.bits[place + 1 + random_below(bits - 1 - place)] = bytes[random_below(6)];
        if (i % 3 == 1)
            record.number = 255;
        if (i % 3 == 2)
            record.counts[0] = INT64_MAX;
        print_putting(&record, PAGE_BITS, refused(2, place));
    }
}

/* The lowest bits of `which` say what is wrong: the length, a bit, the number, a count. */
static void print_together(enum page_kind kind, int which)
{
    struct page_record record;
    const struct layout *layout = page_layout(kind);
    struct answer meant = done;
    good(&record, kind);
    if (which & 8 && layout->count > 0) {
        record.counts[layout->count - 1] = 256;
        meant = refused(9, first_bit(layout, layout->count - 1));
    }
    if (which & 4) {
        record.number = record.number == 1 ? 6 : 1;
        meant = refused(9, 9);
    }
    if (which & 2 && carried_bits(kind) > 0) {
        record.bits[73] = 2;
        meant = refused(2, 73);
    }
    if (which & 1)
        meant = refused(1, 0);
    print_putting(&record, which & 1 ? 249 : PAGE_BITS, meant);
}

static void print_rooms(enum page_kind kind)
{
    static const int rooms[] = {0, 1, 14, 176, 249, 251};
    for (int i = 0; i < 6; i++) {
        struct page_record record;
        good(&record, kind);
        print_putting(&record, rooms[i], refused(1, 0));
    }
}

static void print_kind(enum page_kind kind)
{
    struct page_record record;
    print_page_numbers(kind);
    print_prns(kind);
    print_rooms(kind);
    for (int which = 1; which < 16; which++)
        print_together(kind, which);
    for (int i = 0; i < 10; i++) {
        good(&record, kind);
        print_good(&record);
    }
    if (carried_bits(kind) > 0)
        print_no_bits(kind);
    if (page_layout(kind)->count == 0)
        return;
    print_ends(kind);
    print_far(kind);
    print_two_counts(kind);
}

void print_putting_cases(void)
{
    for (int i = 0; i < 3; i++)
        print_kind(kinds[i]);
}
