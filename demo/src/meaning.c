#include "meaning.h"

#include <stdio.h>

enum { ENUMCS_SRGB = 16, ENUMCS_GREY = 17, METH_ENUMERATED = 1, ASOC_NONE = 65535 };

struct definition {
  uint32_t typ;
  uint32_t asoc;
};

// Samples are packed in the order of the channels, and reordering moves records alone. So the channel that fills a plane is
// known by where the plane's samples start: as many channels come before it as planes start before it.
static uint32_t channel_of(const struct finished *f, uint32_t plane)
{
  uint32_t before = 0;
  uint32_t first = plane_number(f, plane, CUZHANTIR_COMPONENT_DATA);
  for (uint32_t p = 0; p < planes_of(f); p++) {
    if (plane_number(f, p, CUZHANTIR_COMPONENT_DATA) == CUZHANTIR_NO_SAMPLES || plane_size(f, p) == 0) {
      return NO_CHANNEL;
    }
    before += plane_number(f, p, CUZHANTIR_COMPONENT_DATA) < first;
  }
  return before;
}

// The file's last definition of a channel: 6 bytes each, channel, typ, asoc. False where there is none.
static bool definition_of(struct bytes file, const uint64_t *reading, uint32_t channel, struct definition *d)
{
  for (uint64_t i = reading[CUZHANTIR_READING_CDEF_COUNT]; i > 0; i--) {
    uint64_t place = reading[CUZHANTIR_READING_CDEF_PLACE] + 6 * (i - 1);
    if (two_bytes(file, place) == channel) {
      d->typ = two_bytes(file, place + 2);
      d->asoc = two_bytes(file, place + 4);
      return true;
    }
  }
  return false;
}

bool is_rgb(const uint64_t *reading)
{
  return reading[CUZHANTIR_READING_METH] == METH_ENUMERATED && reading[CUZHANTIR_READING_ENUMCS] == ENUMCS_SRGB;
}

static bool is_grey(const uint64_t *reading)
{
  return reading[CUZHANTIR_READING_METH] == METH_ENUMERATED && reading[CUZHANTIR_READING_ENUMCS] == ENUMCS_GREY;
}

// Without definitions channel i is colour i + 1 (I.5.3.6), as far as the colour space has colours.
static bool beyond_colours(const uint64_t *reading, uint32_t colour)
{
  return (is_rgb(reading) && colour > 3) || (is_grey(reading) && colour > 1);
}

static enum sense sense_of(uint32_t typ)
{
  switch (typ) {
  case 0: return SENSE_COLOUR;
  case 1: return SENSE_OPACITY;
  case 2: return SENSE_PREMULTIPLIED;
  case 65535: return SENSE_UNSPECIFIED;
  default: return SENSE_OTHER;
  }
}

static void name_colour(const uint64_t *reading, struct meaning *m)
{
  static const char *const rgb[] = {"red", "green", "blue"};
  if (is_rgb(reading) && m->colour >= 1 && m->colour <= 3) {
    snprintf(m->name, sizeof m->name, "%s", rgb[m->colour - 1]);
  } else if (is_grey(reading) && m->colour == 1) {
    snprintf(m->name, sizeof m->name, "grey");
  } else {
    snprintf(m->name, sizeof m->name, "colour%u", (unsigned)m->colour);
  }
}

static void name_other(struct meaning *m, uint32_t typ)
{
  switch (m->sense) {
  case SENSE_OPACITY: snprintf(m->name, sizeof m->name, "opacity"); break;
  case SENSE_PREMULTIPLIED: snprintf(m->name, sizeof m->name, "premultiplied-opacity"); break;
  case SENSE_UNSPECIFIED: snprintf(m->name, sizeof m->name, "unspecified"); break;
  default: snprintf(m->name, sizeof m->name, "type%u", (unsigned)typ); break;
  }
}

static void name_by_definition(const uint64_t *reading, struct definition d, struct meaning *m)
{
  m->sense = sense_of(d.typ);
  m->colour = d.asoc == ASOC_NONE ? 0 : d.asoc;
  if (m->sense == SENSE_COLOUR && m->colour != 0) {
    name_colour(reading, m);
    return;
  }
  if (m->sense == SENSE_COLOUR) {
    m->sense = SENSE_OTHER;
  }
  name_other(m, d.typ);
  if (m->colour != 0) {
    size_t used = 0;
    while (m->name[used] != '\0') {
      used++;
    }
    snprintf(m->name + used, sizeof m->name - used, "-of-colour%u", (unsigned)m->colour);
  }
}

static void name_by_place(const uint64_t *reading, uint32_t plane, struct meaning *m)
{
  m->colour = plane + 1;
  m->sense = beyond_colours(reading, m->colour) ? SENSE_OTHER : SENSE_COLOUR;
  if (m->sense == SENSE_COLOUR) {
    name_colour(reading, m);
  } else {
    snprintf(m->name, sizeof m->name, "extra");
  }
}

struct meaning meaning_of(struct bytes file, const uint64_t *reading, const struct finished *f, uint32_t plane)
{
  struct meaning m = {.channel = channel_of(f, plane)};
  struct definition d;
  if (reading[CUZHANTIR_READING_CDEF_COUNT] == 0) {
    name_by_place(reading, plane, &m);
  } else if (m.channel != NO_CHANNEL && definition_of(file, reading, m.channel, &d)) {
    name_by_definition(reading, d, &m);
    m.mark = d.typ;
  } else {
    m.sense = SENSE_OTHER;
    snprintf(m.name, sizeof m.name, "undefined");
  }
  return m;
}
