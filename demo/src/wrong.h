// Results made wrong on purpose, to see that the comparison notices (demo/check-fails).
#ifndef DEMO_WRONG_H
#define DEMO_WRONG_H

#include "finish.h"

enum wrong { WRONG_NOTHING, WRONG_IGNORE, WRONG_EDITION, WRONG_OFFSET, WRONG_SWAP, WRONG_SAMPLE, WRONG_MARK, WRONG_PRECISION };

// False where there is no such word.
bool wrong_by_name(const char *word, enum wrong *w);

// Changes a finished picture: two planes exchanged, or one number of the last plane.
void make_wrong(enum wrong w, struct finished *f);

#endif
