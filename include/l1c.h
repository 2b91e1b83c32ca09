/* L1C navigation frames of IS-GPS-800: building and reading them, and the sheets of their contents.

   The archive libexports.a defines these functions, for x86-64; `rt lib --cpu=x86-64`, in crates/exports_c, proves it and writes it as
   libexports_c.a, which tools/link-archive copies to out/libexports.a. Each meets a contract that fixes what it returns and every element
   lent to it afterwards (crates/exports_c, docs/CONTRACTS.md).

   Contents are 34 numbers, in the order of a sheet: toi, then the 33 counts of subframe 2 from wn to isf. A symbol or a bit is one byte,
   0 or 1. A page is the 250 bits of subframe 3 before its check bits; a frame is 1800 symbols.

   A slice is a pointer and how many elements it has. The caller answers for this: each pointer is not null, is aligned for its type and has
   that many elements, and what a call may write overlaps nothing else that it is lent. All else is judged: any elements and any lengths
   may be lent.

   A call returns in the high 32 bits the refusal's number, 0 where nothing is refused (l1c_number), and in the low 32 bits the refusal's
   place, or what the call says (l1c_said). A slice of another length than stated is refused 1 at 0, before all else. On a refusal all lent
   memory stays as it was. */
#ifndef L1C_H
#define L1C_H

#include <stddef.h>
#include <stdint.h>

#ifdef __cplusplus
extern "C" {
#endif

enum { L1C_NUMBERS = 34, L1C_COUNTS = 33, L1C_PAGE_BITS = 250, L1C_FRAME_SYMBOLS = 1800, L1C_TIME_NUMBERS = 2 };

/* The refusals' numbers, and what their place is. */
enum l1c_refusal {
    L1C_DONE = 0,
    L1C_LENGTH = 1,        /* a lent slice has not the stated length: 0 */
    L1C_NOT_A_BIT = 2,     /* a byte is neither 0 nor 1: its index, from 0 */
    L1C_TIME = 3,          /* no TOI within nine, or no number from 0 to 399 in building: 0 */
    L1C_EQUATION_2 = 4,    /* an equation of subframe 2 isn't met: the first such one, from 1 */
    L1C_CHECK_2 = 5,       /* check bits of subframe 2 differ: 0 */
    L1C_FIELD_2 = 6,       /* a field of subframe 2 is out of range, or reserved bits are set: its first bit, 567 for reserved */
    L1C_EQUATION_3 = 7,    /* an equation of subframe 3 isn't met: the first such one, from 1 */
    L1C_CHECK_3 = 8,       /* check bits of subframe 3 differ: 0 */
    L1C_FIELD_3 = 9,       /* a field of page 1 is out of range: its first bit */
    L1C_TRAILER = 10,      /* trailer absent, malformed, over 4096 or pointing before the bytes: 0 */
    L1C_LINE = 11,         /* line without `=` or without its end: its first byte, counted from the sheet's */
    L1C_NAME = 12,         /* name not on the list: the same */
    L1C_NAME_AGAIN = 13,   /* name already given: the same */
    L1C_NUMBER = 14,       /* number malformed or out of the field's range: the same */
    L1C_NAME_MISSING = 15, /* a name is missing: its position in the list, toi being 1; the lowest */
    L1C_ROOM = 16          /* fewer bytes than the sheet has: 0 */
};

static inline uint32_t l1c_number(uint64_t returned)
{
    return (uint32_t)(returned >> 32);
}

static inline uint32_t l1c_place(uint64_t returned)
{
    return (uint32_t)returned;
}

static inline uint32_t l1c_said(uint64_t returned)
{
    return (uint32_t)returned;
}

/* Builds the frame of 34 numbers and 250 page bits into 1800 symbols. Says 0. Refused 1, 2 (page bits), 3 (toi is no number from 0 to 399),
   6, 9. */
uint64_t l1c_build(const int64_t *contents, size_t contents_count, const uint8_t *page, size_t page_count, uint8_t *frame,
                   size_t frame_count);

/* Reads a frame of 1800 symbols into 34 numbers and 250 page bits. Says how many of the time symbols were corrected, at most nine. Refused
   1, 2, then 3, then 4 5 6, then 7 8 9. */
uint64_t l1c_read(const uint8_t *frame, size_t frame_count, int64_t *contents, size_t contents_count, uint8_t *page,
                  size_t page_count);

/* Reads the time alone out of a whole frame, into 2 numbers: toi, and how many symbols were corrected. Says 0. Refused 1, 2, then 3. */
uint64_t l1c_read_time(const uint8_t *frame, size_t frame_count, uint32_t *time, size_t time_count);

/* Reads subframe 2 alone out of a whole frame, into 33 counts. Says 0. Refused 1, 2, then 4 5 6. */
uint64_t l1c_read_subframe2(const uint8_t *frame, size_t frame_count, int64_t *counts, size_t counts_count);

/* Reads subframe 3 alone out of a whole frame, into 250 page bits. Says 0. Refused 1, 2, then 7 8 9. */
uint64_t l1c_read_subframe3(const uint8_t *frame, size_t frame_count, uint8_t *page, size_t page_count);

/* Reads the sheet at the end of the bytes into 34 numbers. Says the length of the part before the sheet, where the sheet before it ends.
   Refused 1 (also for 2^32 bytes or more, whose lengths would not fit), 10, then line by line 11 12 13 14, then 15. */
uint64_t l1c_read_sheet(const uint8_t *bytes, size_t bytes_count, int64_t *contents, size_t contents_count);

/* Writes the sheet of 34 numbers from the first byte of `out` on; the bytes behind it stay. Says the sheet's length, at most 800. Refused 1
   (other than 34 numbers), 3, 6, 16 (fewer bytes than the sheet has). */
uint64_t l1c_write_sheet(const int64_t *contents, size_t contents_count, uint8_t *out, size_t out_count);

#ifdef __cplusplus
}
#endif

#endif
