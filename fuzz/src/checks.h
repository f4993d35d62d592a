// Calls of the exports with everything about them checked.
#ifndef CHECKS_H
#define CHECKS_H

#include "exports.h"
#include "lists.h"
#include "model.h"

struct input;

// What each target does with an input.
void run_target(struct input in);

// Calls cuzhantir_read, with so many numbers for the reading, and compares what it gives.
void check_read(const struct model_file *f, enum side side, uint64_t reading_len, const uint64_t expected[READING_NUMBERS]);

// Request R-1, with no model: where the file reaches its codestream, so many of its bytes give the same numbers where its
// header is among them, and else "ended" or 4.
void check_beginning(const struct model_file *f, uint64_t length);

// Compares the answer of finishing or writing. The number of a refusal has to be one that the entry may answer.
void check_answer(const struct lent *answer, uint32_t returned, uint64_t lowest, uint64_t highest, const uint64_t expected[ANSWER_NUMBERS]);

#endif
