// The bytes of a file.
#ifndef DEMO_FILE_H
#define DEMO_FILE_H

#include <stdbool.h>
#include <stddef.h>
#include <stdint.h>

struct bytes {
  const uint8_t *data;
  size_t len;
};

// False where the file cannot be read; errno says why.
bool read_bytes(const char *path, struct bytes *out);

void free_bytes(struct bytes *b);

// A number of two bytes at a place, the high byte first.
uint32_t two_bytes(struct bytes b, uint64_t place);

// Memory, or an end with a line that says so.
void *need(size_t count, size_t size);

#endif
