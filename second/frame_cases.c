#include "frame_cases.h"

void print_frame_cases(const struct codes *codes)
{
    static struct base base;
    base.codes = codes;
    print_built_cases(&base);
    print_refused_cases(&base);
    print_written_cases(&base);
    print_special_cases(&base);
}
