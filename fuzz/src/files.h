// Files made from a part of an input.
#ifndef FILES_H
#define FILES_H

#include "input.h"

#define MOST_FILE (1u << 20)
struct file {
    const uint8_t *bytes;
    size_t length;
};

// The bytes as they are, boxes by orders, bytes with a piece in them repeated, or a header that is mostly right.
enum form { AS_IT_IS, BOXES, REPEATED, HEADER, FORMS };

// The file is valid until the next one is made.
struct file make_file(struct input in, enum form form);

#endif
