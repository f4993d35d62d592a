// Rules of finishing that need no model: a picture is put to the exports twice, and what they give is compared.
#ifndef FINISH_RULES_H
#define FINISH_RULES_H

#include "finish_calls.h"

// The two editions give the same but for the marks, or edition 2 refuses by 26 for channel 0.
void check_editions(const struct request *q, int alone);

// Definitions in another order, which the seed picks, are refused by the same number or accepted with the same samples. Where
// they name no channel and no colour twice, the records are the same too: all of their numbers in edition 2, and all but
// the marks in edition 1. The reading has to be the file's own.
void check_order(const struct request *q, int alone, uint32_t seed);

#endif
