#include "must.h"

#include <stdio.h>
#include <stdlib.h>

void must(int holds, const char *what)
{
    if (holds)
        return;
    fflush(stdout);
    fprintf(stderr, "second: this does not hold of the case behind the last line: %s\n", what);
    exit(1);
}
