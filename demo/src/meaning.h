// What a finished plane shows, by the file's definitions.
#ifndef DEMO_MEANING_H
#define DEMO_MEANING_H

#include "finish.h"

enum sense { SENSE_COLOUR, SENSE_OPACITY, SENSE_PREMULTIPLIED, SENSE_UNSPECIFIED, SENSE_OTHER };

#define NO_CHANNEL UINT32_C(4294967295)

struct meaning {
  enum sense sense;
  uint32_t colour;  // the number of the colour, from 1; of opacity, the colour that it belongs to, 0 for the whole picture
  uint32_t channel; // where its samples come from
  uint32_t mark;    // the typ of its channel's last definition, which is the plane's mark in edition 2; 0 where there is none
  char name[40];    // for file names
};

struct meaning meaning_of(struct bytes file, const uint64_t *reading, const struct finished *f, uint32_t plane);

// Colours that the boxes call sRGB.
bool is_rgb(const uint64_t *reading);

#endif
