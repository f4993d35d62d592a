// Decoding with OpenJPEG: the codestream alone, and a whole file with OpenJPEG's own colour steps.
#ifndef DEMO_DECODE_H
#define DEMO_DECODE_H

#include <openjpeg.h>

#include "file.h"

struct decoded {
  opj_image_t *image; // NULL where OpenJPEG refuses
  char message[256];  // its first error then
};

// Components as the codestream holds them: no box is looked at.
struct decoded decode_codestream(struct bytes codestream);

// Components after the palette and the definitions of the file's boxes.
struct decoded decode_file(struct bytes file);

void free_decoded(struct decoded *d);

#endif
