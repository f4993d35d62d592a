// Finished planes beside OpenJPEG's own.
#ifndef DEMO_COMPARE_H
#define DEMO_COMPARE_H

#include <openjpeg.h>

#include "finish.h"

struct difference {
  bool found;
  char text[200]; // where it is, and both values
};

// How many samples of a plane are compared, from its first; all where it is this.
#define ALL_SAMPLES UINT64_MAX

// What is compared of a plane. OpenJPEG's marks are those of edition 1. In edition 2 a mark is held against the definition.
struct measure {
  uint64_t limit;     // of the samples
  bool by_definition; // the mark is held against the one below
  uint32_t mark;
};

// The first difference: the number of planes, then plane by plane all numbers of its record, then its samples. There is a measure
// for each plane.
struct difference compare_planes(const struct finished *f, const opj_image_t *other, const struct measure *measures);

#endif
