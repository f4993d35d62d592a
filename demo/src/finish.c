#include "finish.h"

#include <stdlib.h>
#include <string.h>

static uint64_t area(const opj_image_comp_t *c)
{
  return c->data == NULL ? 0 : (uint64_t)c->w * c->h;
}

// The header marks bpp as obsolete. It is one of the 13 numbers all the same, so it is handed on.
#pragma GCC diagnostic push
#pragma GCC diagnostic ignored "-Wdeprecated-declarations"
static uint32_t bpp_of(const opj_image_comp_t *c)
{
  return c->bpp;
}
#pragma GCC diagnostic pop

void numbers_of(const opj_image_comp_t *from, uint32_t first, uint32_t *to)
{
  to[CUZHANTIR_COMPONENT_DX] = from->dx;
  to[CUZHANTIR_COMPONENT_DY] = from->dy;
  to[CUZHANTIR_COMPONENT_W] = from->w;
  to[CUZHANTIR_COMPONENT_H] = from->h;
  to[CUZHANTIR_COMPONENT_X0] = from->x0;
  to[CUZHANTIR_COMPONENT_Y0] = from->y0;
  to[CUZHANTIR_COMPONENT_PREC] = from->prec;
  to[CUZHANTIR_COMPONENT_BPP] = bpp_of(from);
  to[CUZHANTIR_COMPONENT_SGND] = from->sgnd;
  to[CUZHANTIR_COMPONENT_RESNO_DECODED] = from->resno_decoded;
  to[CUZHANTIR_COMPONENT_FACTOR] = from->factor;
  to[CUZHANTIR_COMPONENT_DATA] = from->data == NULL ? CUZHANTIR_NO_SAMPLES : first;
  to[CUZHANTIR_COMPONENT_ALPHA] = from->alpha;
}

static size_t samples_in(const opj_image_t *image)
{
  size_t n = 0;
  for (uint32_t c = 0; c < image->numcomps; c++) {
    n += area(&image->comps[c]);
  }
  return n;
}

struct components components_of(const opj_image_t *image)
{
  struct components to;
  to.count = image->numcomps;
  to.numbers = need((size_t)to.count * CUZHANTIR_COMPONENT_LENGTH, sizeof *to.numbers);
  to.samples_len = samples_in(image);
  to.samples = need(to.samples_len, sizeof *to.samples);
  size_t at = 0;
  for (uint32_t c = 0; c < to.count; c++) {
    const opj_image_comp_t *from = &image->comps[c];
    numbers_of(from, (uint32_t)at, to.numbers + (size_t)c * CUZHANTIR_COMPONENT_LENGTH);
    if (from->data != NULL) {
      memcpy(to.samples + at, from->data, area(from) * sizeof *to.samples);
    }
    at += area(from);
  }
  return to;
}

void free_components(struct components *c)
{
  free(c->numbers);
  free(c->samples);
}

static void ask(struct bytes file, const uint64_t *reading, struct flags flags, const struct components *c,
                struct finished *f)
{
  cuzhantir_finish(file.data, file.len, reading, CUZHANTIR_READING_LENGTH, flags.ignore, flags.edition2, c->numbers,
                   (size_t)c->count * CUZHANTIR_COMPONENT_LENGTH, c->count, c->samples, c->samples_len, f->records,
                   f->records_len, f->planes, f->planes_len, f->answer, CUZHANTIR_ANSWER_LENGTH);
}

static bool too_short(const struct finished *f)
{
  return f->answer[CUZHANTIR_ANSWER_KIND] != 0 && f->answer[CUZHANTIR_ANSWER_NUMBER] == CUZHANTIR_DESTINATION_TOO_SHORT;
}

// The library takes no memory. It says how long a destination has to be, records first, and changes nothing until both are.
struct finished finish_picture(struct bytes file, const uint64_t *reading, struct flags flags, const struct components *c)
{
  struct finished f = {.records = need(0, sizeof *f.records), .planes = need(0, sizeof *f.planes)};
  ask(file, reading, flags, c, &f);
  if (too_short(&f)) {
    f.records_len = f.answer[CUZHANTIR_ANSWER_PLACE];
    free(f.records);
    f.records = need(f.records_len, sizeof *f.records);
    ask(file, reading, flags, c, &f);
  }
  if (too_short(&f)) {
    f.planes_len = f.answer[CUZHANTIR_ANSWER_PLACE];
    free(f.planes);
    f.planes = need(f.planes_len, sizeof *f.planes);
    ask(file, reading, flags, c, &f);
  }
  return f;
}

void free_finished(struct finished *f)
{
  free(f->records);
  free(f->planes);
}

bool is_finished(const struct finished *f)
{
  return f->answer[CUZHANTIR_ANSWER_KIND] == 0;
}

uint32_t planes_of(const struct finished *f)
{
  return (uint32_t)f->answer[CUZHANTIR_ANSWER_COUNT];
}

uint32_t plane_number(const struct finished *f, uint32_t p, unsigned k)
{
  return f->records[(size_t)p * CUZHANTIR_COMPONENT_LENGTH + k];
}

const int32_t *plane_samples(const struct finished *f, uint32_t p)
{
  uint32_t first = plane_number(f, p, CUZHANTIR_COMPONENT_DATA);
  return first == CUZHANTIR_NO_SAMPLES ? NULL : f->planes + first;
}

uint64_t plane_size(const struct finished *f, uint32_t p)
{
  return (uint64_t)plane_number(f, p, CUZHANTIR_COMPONENT_W) * plane_number(f, p, CUZHANTIR_COMPONENT_H);
}

uint32_t component_number(const struct components *from, uint32_t c, unsigned k)
{
  return from->numbers[(size_t)c * CUZHANTIR_COMPONENT_LENGTH + k];
}
