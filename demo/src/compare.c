#include "compare.h"

#include <inttypes.h>
#include <stdio.h>

static const char *const names[CUZHANTIR_COMPONENT_LENGTH] = {"dx",  "dy",   "width", "height",        "x0",     "y0",      "precision",
                                            "bpp", "sign", "resolutions", "factor", "samples", "opacity mark"};

static void say_number(struct difference *d, uint32_t plane, unsigned k, uint32_t ours, const char *whose, uint32_t theirs)
{
  d->found = true;
  snprintf(d->text, sizeof d->text, "plane %" PRIu32 ", %s: ours %" PRIu32 ", %s %" PRIu32, plane, names[k], ours, whose,
           theirs);
}

static void say_sample(struct difference *d, const struct finished *f, uint32_t plane, uint64_t i, int32_t ours,
                       int32_t theirs)
{
  uint32_t w = plane_number(f, plane, CUZHANTIR_COMPONENT_W);
  d->found = true;
  snprintf(d->text, sizeof d->text,
           "plane %" PRIu32 ", row %" PRIu64 ", column %" PRIu64 ": ours %" PRId32 ", OpenJPEG's %" PRId32, plane, i / w,
           i % w, ours, theirs);
}

// Where samples start is ours to say. OpenJPEG has a pointer there, so that is only compared for being there.
static void compare_numbers(struct difference *d, const struct finished *f, uint32_t plane, const opj_image_comp_t *other,
                            const struct measure *m)
{
  uint32_t theirs[CUZHANTIR_COMPONENT_LENGTH];
  uint32_t first = plane_number(f, plane, CUZHANTIR_COMPONENT_DATA);
  numbers_of(other, first == CUZHANTIR_NO_SAMPLES ? 0 : first, theirs);
  if (m->by_definition) {
    theirs[CUZHANTIR_COMPONENT_ALPHA] = m->mark;
  }
  for (unsigned k = 0; k < CUZHANTIR_COMPONENT_LENGTH && !d->found; k++) {
    uint32_t ours = plane_number(f, plane, k);
    bool defined = m->by_definition && k == CUZHANTIR_COMPONENT_ALPHA;
    if (ours != theirs[k]) {
      say_number(d, plane, k, ours, defined ? "its definition's" : "OpenJPEG's", theirs[k]);
    }
  }
}

static void compare_samples(struct difference *d, const struct finished *f, uint32_t plane, const opj_image_comp_t *other,
                            uint64_t limit)
{
  const int32_t *ours = plane_samples(f, plane);
  uint64_t size = ours == NULL ? 0 : plane_size(f, plane);
  uint64_t n = limit < size ? limit : size;
  for (uint64_t i = 0; i < n && !d->found; i++) {
    if (ours[i] != other->data[i]) {
      say_sample(d, f, plane, i, ours[i], other->data[i]);
    }
  }
}

struct difference compare_planes(const struct finished *f, const opj_image_t *other, const struct measure *measures)
{
  struct difference d = {false, ""};
  if (planes_of(f) != other->numcomps) {
    d.found = true;
    snprintf(d.text, sizeof d.text, "planes: ours %" PRIu32 ", OpenJPEG's %" PRIu32, planes_of(f),
             (uint32_t)other->numcomps);
  }
  for (uint32_t p = 0; !d.found && p < planes_of(f); p++) {
    compare_numbers(&d, f, p, &other->comps[p], &measures[p]);
    if (!d.found) {
      compare_samples(&d, f, p, &other->comps[p], measures[p].limit);
    }
  }
  return d;
}
