/* Whole frames: building them, and reading them whole or in part. */
#ifndef FRAME_H
#define FRAME_H

#include "answer.h"
#include "fields.h"
#include "order.h"
#include "page.h"
#include "parity.h"

/* The equations of both subframes. */
struct codes {
    struct parity two;
    struct parity three;
};

/* From the folder of tables that a program's words name; the program ends where they name none. */
void prepare_codes(struct codes *codes, int count, char **words);

struct contents {
    int toi;
    int corrected;
    int64_t counts[COUNTS];
    unsigned char page[PAGE_BITS];
};

/* Builds the 1800 symbols. On a refusal the frame stays as it was. */
struct answer build(const struct codes *codes, const struct contents *contents, unsigned char *frame);

/* Blocks of data symbols and parity: of the 576 bits of subframe 2, and of the 250 page bits. */
void make_block_2(const struct codes *codes, const unsigned char *bits, unsigned char *block);
void make_block_3(const struct codes *codes, const unsigned char *page, unsigned char *block);

/* Each reads a part alone, out of a frame of `length` symbols. `contents` changes only in that part, and not on a refusal. */
struct answer read_time(const unsigned char *frame, int length, struct contents *contents);
struct answer read_subframe_2(const struct codes *codes, const unsigned char *frame, int length, struct contents *contents);
struct answer read_subframe_3(const struct codes *codes, const unsigned char *frame, int length, struct contents *contents);

/* Reads the whole frame. */
struct answer read_frame(const struct codes *codes, const unsigned char *frame, int length, struct contents *contents);

#endif
