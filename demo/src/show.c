#include "show.h"

#include <errno.h>
#include <inttypes.h>
#include <stdio.h>
#include <string.h>

#include "meaning.h"
#include "netpbm.h"

enum { PATH_LEN = 4096, COLOURS = 3 };

static bool told(const char *path, struct written w, bool quiet)
{
  if (w.outcome == NOT_WRITTEN_FILE) {
    fprintf(stderr, "demo: %s cannot be written: %s\n", path, strerror(errno));
    return false;
  }
  if (quiet) {
    return true;
  }
  if (w.outcome == NOT_WRITTEN_DEPTH) {
    printf(", no PGM: more than 32 bits");
  } else if (w.outcome == NOT_WRITTEN_EMPTY) {
    printf(", no PGM: it has no samples");
  } else {
    printf(", %s", strrchr(path, '/') + 1);
  }
  if (w.outcome == WRITTEN && w.scaled) {
    printf(" with the 16 high bits");
  }
  if (w.clamped > 0) {
    printf(", where %" PRIu64 " samples outside the precision are held at its ends", w.clamped);
  }
  return true;
}

static void describe(const struct finished *f, uint32_t p, const struct meaning *m)
{
  printf("  plane %" PRIu32 ": %s", p, m->name);
  if (m->channel != NO_CHANNEL) {
    printf(" from channel %" PRIu32, m->channel);
  }
  uint32_t prec = plane_number(f, p, CUZHANTIR_COMPONENT_PREC);
  printf(", %" PRIu32 " by %" PRIu32 ", %" PRIu32 " bit%s%s", plane_number(f, p, CUZHANTIR_COMPONENT_W), plane_number(f, p, CUZHANTIR_COMPONENT_H), prec,
         prec == 1 ? "" : "s", plane_number(f, p, CUZHANTIR_COMPONENT_SGND) != 0 ? " signed" : "");
  if (plane_number(f, p, CUZHANTIR_COMPONENT_DX) != 1 || plane_number(f, p, CUZHANTIR_COMPONENT_DY) != 1) {
    printf(", one sample for %" PRIu32 " by %" PRIu32, plane_number(f, p, CUZHANTIR_COMPONENT_DX), plane_number(f, p, CUZHANTIR_COMPONENT_DY));
  }
  if (m->sense == SENSE_COLOUR && m->colour != p + 1) {
    printf(", though colour %" PRIu32 " belongs in plane %" PRIu32, m->colour, m->colour - 1);
  }
  // In edition 1 a later swap may take the mark from the record that was marked before. The crate and OpenJPEG do so too.
  uint32_t mark = plane_number(f, p, CUZHANTIR_COMPONENT_ALPHA);
  if (mark != m->mark) {
    printf(", its mark is %" PRIu32 " where its definition says %" PRIu32, mark, m->mark);
  } else if (mark != 0) {
    printf(", mark %" PRIu32, mark);
  }
}

static bool show_plane(struct place to, bool quiet, const struct finished *f, uint32_t p, const struct meaning *m)
{
  char path[PATH_LEN];
  bool fine = true;
  if (!quiet) {
    describe(f, p, m);
  }
  if (to.folder != NULL) {
    snprintf(path, sizeof path, "%s/%s.plane%" PRIu32 "-%s.pgm", to.folder, to.name, p, m->name);
    fine = told(path, write_pgm(path, f, p), quiet);
  }
  if (!quiet) {
    printf("\n");
  }
  return fine;
}

static bool show_colours(struct place to, bool quiet, const struct finished *f)
{
  char path[PATH_LEN];
  snprintf(path, sizeof path, "%s/%s.rgb.ppm", to.folder, to.name);
  if (!quiet) {
    printf("  planes 0, 1, 2 together");
  }
  bool fine = told(path, write_ppm(path, f), quiet);
  if (!quiet) {
    printf("\n");
  }
  return fine;
}

// The colours as a viewer shows them that goes by the marks.
static bool show_on_white(struct place to, bool quiet, const struct finished *f)
{
  char path[PATH_LEN];
  uint32_t opacity = marked_opacity(f);
  snprintf(path, sizeof path, "%s/%s.on-white.ppm", to.folder, to.name);
  if (!quiet && opacity == NO_PLANE) {
    printf("  on white, with no plane marked as opacity");
  } else if (!quiet) {
    printf("  on white, with plane %" PRIu32 " marked as opacity", opacity);
  }
  bool fine = told(path, write_on_white(path, f, opacity), quiet);
  if (!quiet) {
    printf("\n");
  }
  return fine;
}

bool show_planes(struct place to, bool quiet, struct bytes file, const uint64_t *reading, const struct finished *f)
{
  bool fine = true;
  bool colours = is_rgb(reading) && fit_together(f);
  for (uint32_t p = 0; p < planes_of(f); p++) {
    struct meaning m = meaning_of(file, reading, f, p);
    colours = colours && (p >= COLOURS || (m.sense == SENSE_COLOUR && m.colour == p + 1));
    fine = show_plane(to, quiet, f, p, &m) && fine;
  }
  if (colours && to.folder != NULL) {
    fine = show_colours(to, quiet, f) && fine;
  }
  if (colours && to.folder != NULL && planes_of(f) > COLOURS) {
    fine = show_on_white(to, quiet, f) && fine;
  }
  return fine;
}
