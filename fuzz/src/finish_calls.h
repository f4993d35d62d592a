// The two entries that finish, called with all their lists lent.
#ifndef FINISH_CALLS_H
#define FINISH_CALLS_H

#include "lists.h"
#include "model.h"

// What is handed in, and how.
#define MOST_READING (READING_NUMBERS + 32)
struct request {
    struct model_picture p;
    uint64_t reading[MOST_READING]; // as it is lent to finishing alone
    uint64_t reading_len;
    uint64_t answer_len;
    int huge; // the samples are a list of about 2^32 zeros
};

// The lists of one call as they are lent.
struct lists {
    struct lent file, reading, comps, samples, records, planes, answer;
};

struct lists lend_all(const struct request *q, enum side side);

// What cuzhantir_finish (alone) or cuzhantir_picture returns.
uint32_t call_entry(const struct request *q, const struct lists *l, int alone);

#endif
