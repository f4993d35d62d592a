// What document 01 asks for, in plain C. It is written from the definitions (crates/*/specs) and shares no code with the
// port, so a difference between them is a fault of the compiler, of the boundary or of the model. Edition 2 of finishing is
// written from the words of request R-2 alone, so there it may be a fault of the definitions too.
#ifndef MODEL_H
#define MODEL_H

#include "exports.h"

struct model_file {
    const uint8_t *bytes;
    uint64_t length;
};

// A number of so many bytes, the highest first; a byte past the end counts as 0.
uint64_t model_number(const struct model_file *f, uint64_t at, unsigned bytes);

void model_read(const struct model_file *f, uint64_t reading[READING_NUMBERS]);

// A picture as it is handed in, and the lengths of its destinations.
struct model_picture {
    struct model_file file;
    uint64_t reading[READING_NUMBERS];
    uint32_t ignore;
    uint32_t edition2; // 0 is edition 1, any other number edition 2
    const uint32_t *comps;
    uint64_t comps_len;
    uint32_t count;
    const int32_t *samples;
    uint64_t samples_len, records_len, planes_len;
};

// What comes of it. The lists are valid until the next picture.
struct model_finished {
    uint64_t answer[ANSWER_NUMBERS];
    const uint32_t *records; // 13 numbers a plane
    const int32_t *planes;
    uint64_t plane_samples;
    uint64_t needed_records, needed_samples; // where no number but 30 applies, else 0
};
void model_finish(const struct model_picture *p, struct model_finished *out);

// The most samples that a destination may have for the model to follow.
#define MODEL_SAMPLES (1u << 17)

struct model_request {
    const uint32_t *comps;
    uint64_t comps_len;
    uint32_t count, x0, y0, x1, y1, space;
    const uint8_t *profile;
    uint64_t profile_len, codestream, d_len;
};

struct model_written {
    uint64_t answer[ANSWER_NUMBERS];
    const uint8_t *bytes;
    uint64_t length;
    uint64_t needed; // where no number but 30 applies, else 0
};
void model_write(const struct model_request *r, struct model_written *out);

// The most bytes that a destination may have for the model to follow.
#define MODEL_BYTES (1u << 18)

#endif
