/* The work that is measured: the same inputs for the library and for the second program, and one call of each on an input. */
#ifndef WORK_H
#define WORK_H

enum { INPUTS = 256 };

struct work {
    const char *name;
    const char *what; /* of one call */
    void (*library)(int input);
    void (*second)(int input);
    int (*agree)(int input); /* what the last call of each left is the same, and is what the input was made from */
};

enum { WORKS = 4 };

extern const struct work works[WORKS];

/* Makes the inputs, the second program's matrices from the folder of its tables. */
void make_inputs(char *folder);

/* Reads every sheet of a file of `count` sheets, from the last to the first; 0 where one is refused. */
enum { MOST_SHEETS = 4096 };
int make_file(int count);
int library_walk(int size);
int second_walk(int size);

#endif
