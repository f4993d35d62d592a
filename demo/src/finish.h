// From OpenJPEG's components to finished planes, by the library.
#ifndef DEMO_FINISH_H
#define DEMO_FINISH_H

#include <openjpeg.h>

#include "file.h"
#include "cuzhantir_jp2.h"

// Components as the library takes them: numbers, and all samples in one list.
struct components {
  uint32_t *numbers;
  uint32_t count;
  int32_t *samples;
  size_t samples_len;
};

struct finished {
  uint64_t answer[CUZHANTIR_ANSWER_LENGTH];
  uint32_t *records;
  size_t records_len;
  int32_t *planes;
  size_t planes_len;
};

// One component of OpenJPEG's in the library's numbers, with the index of its first sample.
void numbers_of(const opj_image_comp_t *from, uint32_t first, uint32_t *to);

struct components components_of(const opj_image_t *image);

void free_components(struct components *c);

// The two flags of finishing, as the library takes them.
struct flags {
  uint32_t ignore;
  uint32_t edition2;
};

// reading is what the library gave for the file.
struct finished finish_picture(struct bytes file, const uint64_t *reading, struct flags flags, const struct components *c);

void free_finished(struct finished *f);

bool is_finished(const struct finished *f);

uint32_t planes_of(const struct finished *f);

// Number k of plane p.
uint32_t plane_number(const struct finished *f, uint32_t p, unsigned k);

// The samples of plane p; NULL where it has none.
const int32_t *plane_samples(const struct finished *f, uint32_t p);

uint64_t plane_size(const struct finished *f, uint32_t p);

// Number k of component c.
uint32_t component_number(const struct components *from, uint32_t c, unsigned k);

#endif
