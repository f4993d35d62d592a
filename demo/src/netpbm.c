#include "netpbm.h"

#include <inttypes.h>
#include <stdio.h>

enum { MOST_BITS = 32, NETPBM_BITS = 16, COLOURS = 3, MARK_OPACITY = 1, MARK_PREMULTIPLIED = 2 };

static uint64_t highest(uint32_t prec)
{
  return (UINT64_C(1) << prec) - 1;
}

static uint32_t bits_written(uint32_t prec)
{
  return prec > NETPBM_BITS ? NETPBM_BITS : prec;
}

// A sample as a level from 0 up: a signed one is shifted. 32 bits without sign lie in the sample as they are.
static int64_t level_of(int32_t sample, uint32_t prec, bool sgnd)
{
  if (sgnd) {
    return (int64_t)sample + (INT64_C(1) << (prec - 1));
  }
  return prec == MOST_BITS ? (int64_t)(uint32_t)sample : sample;
}

static uint32_t clamped_level(int64_t level, uint32_t prec, struct written *w)
{
  int64_t top = (int64_t)highest(prec);
  if (level < 0 || level > top) {
    w->clamped++;
    level = level < 0 ? 0 : top;
  }
  return (uint32_t)(level >> (prec - bits_written(prec)));
}

static void put_level(FILE *to, uint32_t level, uint32_t prec)
{
  if (prec > 8) {
    putc((int)(level >> 8), to);
  }
  putc((int)(level & 255), to);
}

static uint32_t level_at(const struct finished *f, uint32_t plane, uint64_t i, struct written *w)
{
  uint32_t prec = plane_number(f, plane, CUZHANTIR_COMPONENT_PREC);
  bool sgnd = plane_number(f, plane, CUZHANTIR_COMPONENT_SGND) != 0;
  return clamped_level(level_of(plane_samples(f, plane)[i], prec, sgnd), prec, w);
}

static uint64_t highest_written(const struct finished *f, uint32_t plane)
{
  return highest(bits_written(plane_number(f, plane, CUZHANTIR_COMPONENT_PREC)));
}

// What is seen of a colour's level on white. A colour with its opacity multiplied in is a share already.
static uint32_t on_white(const struct finished *f, uint32_t plane, uint32_t opacity, uint64_t i, uint32_t level)
{
  struct written ignored = {0};
  uint64_t top = highest_written(f, plane), whole = highest_written(f, opacity), share = level_at(f, opacity, i, &ignored);
  bool multiplied = plane_number(f, opacity, CUZHANTIR_COMPONENT_ALPHA) == MARK_PREMULTIPLIED;
  uint64_t seen = (multiplied ? level : level * share / whole) + top * (whole - share) / whole;
  return (uint32_t)(seen > top ? top : seen);
}

static void put_sample(FILE *to, const struct finished *f, uint32_t plane, uint32_t opacity, uint64_t i, struct written *w)
{
  uint32_t level = level_at(f, plane, i, w);
  if (opacity != NO_PLANE) {
    level = on_white(f, plane, opacity, i, level);
  }
  put_level(to, level, plane_number(f, plane, CUZHANTIR_COMPONENT_PREC));
}

static int writable(const struct finished *f, uint32_t plane)
{
  uint32_t prec = plane_number(f, plane, CUZHANTIR_COMPONENT_PREC);
  if (plane_samples(f, plane) == NULL || plane_size(f, plane) == 0) {
    return NOT_WRITTEN_EMPTY;
  }
  return prec == 0 || prec > MOST_BITS ? NOT_WRITTEN_DEPTH : WRITTEN;
}

static void put_header(FILE *to, const char *magic, const struct finished *f, uint32_t plane)
{
  fprintf(to, "%s\n%" PRIu32 " %" PRIu32 "\n%" PRIu64 "\n", magic, plane_number(f, plane, CUZHANTIR_COMPONENT_W),
          plane_number(f, plane, CUZHANTIR_COMPONENT_H), highest_written(f, plane));
}

static void put_samples(FILE *to, const struct finished *f, uint32_t plane, uint32_t planes, uint32_t opacity,
                        struct written *w)
{
  uint64_t all = plane_size(f, plane) * planes;
  for (uint64_t i = 0; i < all; i++) {
    put_sample(to, f, plane + (uint32_t)(i % planes), opacity, i / planes, w);
  }
}

// Planes from the given one on, side by side: 1 for PGM, 3 for PPM. With a plane of opacity they are seen on white.
static struct written write_planes(const char *path, const char *magic, const struct finished *f, uint32_t plane,
                                   uint32_t planes, uint32_t opacity)
{
  struct written w = {writable(f, plane), plane_number(f, plane, CUZHANTIR_COMPONENT_PREC) > NETPBM_BITS, 0};
  if (w.outcome != WRITTEN) {
    return w;
  }
  FILE *to = fopen(path, "wb");
  if (to == NULL) {
    w.outcome = NOT_WRITTEN_FILE;
    return w;
  }
  put_header(to, magic, f, plane);
  put_samples(to, f, plane, planes, opacity, &w);
  bool failed = ferror(to) != 0;
  if (fclose(to) != 0 || failed) {
    w.outcome = NOT_WRITTEN_FILE;
  }
  return w;
}

struct written write_pgm(const char *path, const struct finished *f, uint32_t plane)
{
  return write_planes(path, "P5", f, plane, 1, NO_PLANE);
}

struct written write_ppm(const char *path, const struct finished *f)
{
  return write_planes(path, "P6", f, 0, COLOURS, NO_PLANE);
}

struct written write_on_white(const char *path, const struct finished *f, uint32_t opacity)
{
  return write_planes(path, "P6", f, 0, COLOURS, opacity);
}

static bool like_plane_0(const struct finished *f, uint32_t p)
{
  return writable(f, p) == WRITTEN && plane_number(f, p, CUZHANTIR_COMPONENT_W) == plane_number(f, 0, CUZHANTIR_COMPONENT_W) &&
         plane_number(f, p, CUZHANTIR_COMPONENT_H) == plane_number(f, 0, CUZHANTIR_COMPONENT_H);
}

bool fit_together(const struct finished *f)
{
  if (planes_of(f) < COLOURS) {
    return false;
  }
  bool fit = true;
  for (uint32_t p = 0; p < COLOURS; p++) {
    fit = fit && like_plane_0(f, p) &&
          plane_number(f, p, CUZHANTIR_COMPONENT_PREC) == plane_number(f, 0, CUZHANTIR_COMPONENT_PREC);
  }
  return fit;
}

uint32_t marked_opacity(const struct finished *f)
{
  for (uint32_t p = COLOURS; p < planes_of(f); p++) {
    uint32_t mark = plane_number(f, p, CUZHANTIR_COMPONENT_ALPHA);
    if ((mark == MARK_OPACITY || mark == MARK_PREMULTIPLIED) && like_plane_0(f, p)) {
      return p;
    }
  }
  return NO_PLANE;
}
