#include "checks.h"

#include "bits.h"
#include "must.h"

#include <string.h>

static int same_counts(const struct contents *one, const struct contents *other)
{
    return memcmp(one->counts, other->counts, sizeof one->counts) == 0;
}

static int same_page(const struct contents *one, const struct contents *other)
{
    return memcmp(one->page, other->page, sizeof one->page) == 0;
}

static int same_time(const struct contents *one, const struct contents *other)
{
    return one->toi == other->toi && one->corrected == other->corrected;
}

/* No change that is made to a base gives other contents that are right. */
static void check_contents(const struct base *base, const struct reading *reading)
{
    if (is_done(reading->two))
        must(same_counts(&reading->alone, &base->contents), "the counts read are the base's");
    if (is_done(reading->three))
        must(same_page(&reading->alone, &base->contents), "the page bits read are the base's");
    if (is_done(reading->read))
        must(same_time(&reading->whole, &reading->alone) && same_counts(&reading->whole, &reading->alone)
                 && same_page(&reading->whole, &reading->alone),
             "reading whole gives what reading alone gives");
}

/* Reading whole is refused as the first of the parts that is refused alone. */
static void check_order(const struct reading *reading)
{
    struct answer first = reading->time;
    if (is_done(first))
        first = reading->two;
    if (is_done(first))
        first = reading->three;
    must(same_answer(reading->read, first), "reading whole refuses what the first part refuses");
}

/* How many symbols are turned from `from` up to but not `to`. */
static int count_turned(const unsigned char *turned, int from, int to)
{
    int count = 0;
    for (int i = from; i < to; i++)
        count += turned[i];
    return count;
}

/* How many neighbouring places hold all the turned data symbols. */
static int spread(const unsigned char *turned, int data)
{
    int first = 0;
    int last = data - 1;
    while (first <= last && turned[first] == 0)
        first++;
    while (last >= first && turned[last] == 0)
        last--;
    return last - first + 1;
}

/* Demand 3 of a subframe with that many data symbols and as many of parity. */
static void check_noticed(const unsigned char *turned, int data, struct answer answer)
{
    int count = count_turned(turned, 0, data);
    if (count + count_turned(turned, data, 2 * data) == 0)
        return;
    if (count == 0 || count == 2 || count % 2 == 1 || spread(turned, data) <= 24)
        must(!is_done(answer), "demand 3: the subframe is refused");
}

/* Demand 3 of a frame that was built. */
static void check_demand_3(const struct base *base, const unsigned char *frame, const struct reading *reading)
{
    unsigned char turned[FRAME_SYMBOLS];
    struct parts parts;
    for (int i = 0; i < FRAME_SYMBOLS; i++)
        turned[i] = frame[i] ^ base->frame[i];
    from_frame(turned, &parts);
    int in_word = count_turned(parts.word, 0, WORD_SYMBOLS);
    if (in_word <= 9)
        must(is_done(reading->time) && reading->alone.toi == base->contents.toi && reading->alone.corrected == in_word,
             "demand 3: the time read is the time sent");
    check_noticed(parts.two, BLOCK_2 / 2, reading->two);
    check_noticed(parts.three, BLOCK_3 / 2, reading->three);
    if (count_turned(turned, 0, FRAME_SYMBOLS) == 0)
        must(is_done(reading->read), "a frame that was built is read");
}

void check_reading(const struct base *base, const unsigned char *frame, int length, const struct reading *reading)
{
    check_contents(base, reading);
    check_order(reading);
    if (base->is_built && length == FRAME_SYMBOLS && first_no_bit(frame, length) < 0)
        check_demand_3(base, frame, reading);
}
