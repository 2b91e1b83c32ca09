/* The cases of whole frames: the lines FB, FW and FR. */
#ifndef FRAME_CASES_H
#define FRAME_CASES_H

#include "lines.h"

/* Prints all of them. */
void print_frame_cases(const struct codes *codes);

/* Contents that are built, each frame read plain and with damage. */
void print_built_cases(struct base *base);

/* Contents that are refused. */
void print_refused_cases(struct base *base);

/* Frames that no builder makes. */
void print_written_cases(struct base *base);

/* Frames of another length, frames with bytes that are no symbols, and damage that is large or takes a plan. */
void print_special_cases(struct base *base);

#endif
