// Finished planes told and written.
#ifndef DEMO_SHOW_H
#define DEMO_SHOW_H

#include "finish.h"

struct place {
  const char *folder; // NULL: no files are written
  const char *name;   // of the picture, without folder and ending
};

// Writes a file for each plane, one for the colours and one for the colours on white by the marks, and says what each plane is. False
// where a file could not be written.
bool show_planes(struct place to, bool quiet, struct bytes file, const uint64_t *reading, const struct finished *f);

#endif
