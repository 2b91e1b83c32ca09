#include "answer.h"

const struct answer done = {0, 0};

struct answer refused(int number, int place)
{
    return (struct answer){number, place};
}

int is_done(struct answer answer)
{
    return answer.number == 0;
}

int same_answer(struct answer one, struct answer other)
{
    return one.number == other.number && one.place == other.place;
}
