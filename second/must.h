/* What has to hold of the cases. */
#ifndef MUST_H
#define MUST_H

/* Ends the program where it does not hold. */
void must(int holds, const char *what);

#endif
