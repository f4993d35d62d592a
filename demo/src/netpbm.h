// Planes as pictures that a viewer opens.
#ifndef DEMO_NETPBM_H
#define DEMO_NETPBM_H

#include "finish.h"

enum { WRITTEN, NOT_WRITTEN_DEPTH, NOT_WRITTEN_EMPTY, NOT_WRITTEN_FILE };

struct written {
  int outcome;
  bool scaled;      // more than 16 bits: the 16 high ones were written
  uint64_t clamped; // samples outside their precision
};

// One plane as PGM: P5, 16 bits where the precision is over 8. Signed samples are shifted so that the lowest is 0.
struct written write_pgm(const char *path, const struct finished *f, uint32_t plane);

// Planes 0, 1 and 2 as PPM.
struct written write_ppm(const char *path, const struct finished *f);

// Planes 0, 1 and 2 have one size and one precision.
bool fit_together(const struct finished *f);

#define NO_PLANE UINT32_C(4294967295)

// The first plane behind these three that is marked as opacity (1, or 2 where it was multiplied in) and has their size; NO_PLANE
// where there is none.
uint32_t marked_opacity(const struct finished *f);

// Planes 0, 1 and 2 on white as PPM, seen through a plane as their opacity; with NO_PLANE they hide all of the white.
struct written write_on_white(const char *path, const struct finished *f, uint32_t opacity);

#endif
