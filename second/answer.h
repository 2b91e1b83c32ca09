/* What is answered: that it is done, or a refusal. */
#ifndef ANSWER_H
#define ANSWER_H

/* A refusal's number and place; number 0 where nothing is refused. */
struct answer {
    int number;
    int place;
};

extern const struct answer done;

struct answer refused(int number, int place);

int is_done(struct answer answer);
int same_answer(struct answer one, struct answer other);

#endif
