#include "file.h"

#include <errno.h>
#include <stdio.h>
#include <stdlib.h>
#include <string.h>

void *need(size_t count, size_t size)
{
  void *p = calloc(count > 0 ? count : 1, size);
  if (p == NULL) {
    fprintf(stderr, "demo: no memory for %zu times %zu bytes\n", count, size);
    exit(2);
  }
  return p;
}

// Until the end, in a buffer that doubles: a pipe has no length, and a folder has a wrong one.
static bool read_all(FILE *f, uint8_t **data, size_t *len)
{
  size_t room = 65536;
  *data = need(room, 1);
  *len = 0;
  size_t got;
  while ((got = fread(*data + *len, 1, room - *len, f)) > 0) {
    *len += got;
    if (*len == room) {
      uint8_t *larger = need(2 * room, 1);
      memcpy(larger, *data, room);
      free(*data);
      *data = larger;
      room *= 2;
    }
  }
  return ferror(f) == 0;
}

bool read_bytes(const char *path, struct bytes *out)
{
  FILE *f = fopen(path, "rb");
  if (f == NULL) {
    return false;
  }
  uint8_t *data;
  size_t len;
  bool whole = read_all(f, &data, &len);
  int why = errno;
  fclose(f);
  if (!whole) {
    free(data);
    errno = why;
    return false;
  }
  out->data = data;
  out->len = len;
  return true;
}

void free_bytes(struct bytes *b)
{
  free((void *)b->data);
  b->data = NULL;
  b->len = 0;
}

uint32_t two_bytes(struct bytes b, uint64_t place)
{
  return (uint32_t)b.data[place] << 8 | b.data[place + 1];
}
