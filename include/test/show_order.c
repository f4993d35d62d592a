/*
 * Shows which channel of a JP2 file is on which plane once its picture is finished, what it is, and its mark:
 * show_order FILE [EDITION], with edition 1 or 2, and 1 where none is named.
 *
 * Exit status: 0 shown; 1 the file is refused, ends before a codestream or cannot be read; 2 usage.
 */
#include "cuzhantir_jp2.h"

#include <errno.h>
#include <stdio.h>
#include <stdlib.h>
#include <string.h>

#define MOST_CHANNELS 16384

/* All bytes of a file, for the caller to free, or NULL and the cause in errno. A part of a file would not do: the boxes in
   question may stand behind large ones, and what a reading answers depends on the file's length. */
static uint8_t *whole_file(const char *name, size_t *length) {
  FILE *f = fopen(name, "rb");
  uint8_t *bytes = NULL;
  size_t room = 65536;
  int fault = 0;
  *length = 0;
  if (f == NULL) {
    return NULL;
  }
  do {
    uint8_t *longer = (uint8_t *)realloc(bytes, room *= 2);
    if (longer == NULL) {
      fault = ENOMEM;
      break;
    }
    bytes = longer;
    *length += fread(bytes + *length, 1, room - *length, f);
  } while (*length == room);
  if (ferror(f)) {
    fault = errno;
  }
  fclose(f);
  if (fault != 0) {
    free(bytes);
    errno = fault;
    return NULL;
  }
  return bytes;
}

/* What a channel is. Its definition says it in both editions; the mark of a finished plane says it in edition 2 alone (see
   cuzhantir_finish). */
static void show_channel(const uint8_t *file, size_t length, const uint64_t *reading, uint32_t channel) {
  static const char *const colours[] = {"red, grey or Y", "green or Cb", "blue or Cr"};
  struct cuzhantir_definition d;
  uint64_t n;
  printf("channel %u", (unsigned)channel);
  for (n = 0; cuzhantir_definition_at(file, length, reading, n, &d); n++) {
    if (d.channel != channel) {
      continue;
    }
    if (d.typ == 0 && d.asoc >= 1 && d.asoc <= 3) {
      printf(", colour %u (%s)", (unsigned)d.asoc, colours[d.asoc - 1]);
    } else if (d.typ == 0 && d.asoc >= 1 && d.asoc <= 65534) {
      printf(", colour %u", (unsigned)d.asoc);
    } else if (d.typ == 1 || d.typ == 2) {
      printf(", opacity");
    } else {
      printf(", not told");
    }
  }
}

static int refused(uint64_t number, const char *at, uint64_t place) {
  printf("refused with %u at %s %llu: %s\n", (unsigned)number, at, (unsigned long long)place, cuzhantir_cause(number));
  return 1;
}

/* Finishes a picture of one sample a component. Samples are packed in the order of the channels, so the first sample's index
   of a plane is the number of its channel. */
static int show(const uint8_t *file, size_t length, uint32_t edition2) {
  static uint32_t comps[MOST_CHANNELS * CUZHANTIR_COMPONENT_LENGTH], records[MOST_CHANNELS * CUZHANTIR_COMPONENT_LENGTH];
  static int32_t samples[MOST_CHANNELS], planes[MOST_CHANNELS];
  uint64_t reading[CUZHANTIR_READING_LENGTH], answer[CUZHANTIR_ANSWER_LENGTH], p;
  uint32_t count, c, number = cuzhantir_read(file, length, reading, CUZHANTIR_READING_LENGTH);
  if (number != CUZHANTIR_DONE) {
    return refused(number, "byte", reading[CUZHANTIR_READING_PLACE]);
  }
  /* a file that ends before a codestream is not refused, so the kind has to be tested */
  if (reading[CUZHANTIR_READING_KIND] != CUZHANTIR_READING_CODESTREAM) {
    printf("the file ends before a codestream: there is no picture in it\n");
    return 1;
  }
  count = (uint32_t)reading[CUZHANTIR_READING_NUMCOMPS]; /* 16384 at most */
  if (count == 0) {
    printf("the file has no image header (ihdr): its components are not known\n");
    return 1;
  }
  for (c = 0; c < count; c++) {
    comps[c * CUZHANTIR_COMPONENT_LENGTH + CUZHANTIR_COMPONENT_W] = 1;
    comps[c * CUZHANTIR_COMPONENT_LENGTH + CUZHANTIR_COMPONENT_H] = 1;
    comps[c * CUZHANTIR_COMPONENT_LENGTH + CUZHANTIR_COMPONENT_DATA] = c;
  }
  number = cuzhantir_finish(file, length, reading, CUZHANTIR_READING_LENGTH, 0, edition2, comps,
                            sizeof comps / sizeof *comps, count, samples, MOST_CHANNELS, records,
                            sizeof records / sizeof *records, planes, MOST_CHANNELS, answer, CUZHANTIR_ANSWER_LENGTH);
  if (number != CUZHANTIR_DONE) {
    return refused(number, "index", answer[CUZHANTIR_ANSWER_PLACE]);
  }
  printf("%llu by %llu, components: %u%s\n", (unsigned long long)reading[CUZHANTIR_READING_W],
         (unsigned long long)reading[CUZHANTIR_READING_H], (unsigned)count,
         reading[CUZHANTIR_READING_CDEF_COUNT] == 0 ? ", no definitions: the channels keep their order" : "");
  for (p = 0; p < answer[CUZHANTIR_ANSWER_COUNT]; p++) {
    const uint32_t *record = records + p * CUZHANTIR_COMPONENT_LENGTH;
    printf("plane %llu: ", (unsigned long long)p);
    show_channel(file, length, reading, record[CUZHANTIR_COMPONENT_DATA]);
    printf(", mark %u\n", (unsigned)record[CUZHANTIR_COMPONENT_ALPHA]);
  }
  return 0;
}

/* The number of an edition that is named by "1" or "2". Answers 0 where the name is another. */
static int edition_named(const char *name, uint32_t *edition2) {
  if (strcmp(name, "1") == 0) {
    *edition2 = CUZHANTIR_EDITION_1;
    return 1;
  }
  *edition2 = CUZHANTIR_EDITION_2;
  return strcmp(name, "2") == 0;
}

int main(int argc, char **argv) {
  uint8_t *file;
  size_t length;
  uint32_t edition2 = CUZHANTIR_EDITION_1;
  int status;
  if (argc < 2 || argc > 3 || (argc == 3 && !edition_named(argv[2], &edition2))) {
    fprintf(stderr, "usage: show_order FILE [EDITION]\n");
    return 2;
  }
  file = whole_file(argv[1], &length);
  if (file == NULL) {
    fprintf(stderr, "show_order: %s: %s\n", argv[1], strerror(errno));
    return 1;
  }
  status = show(file, length, edition2);
  free(file);
  return status;
}
