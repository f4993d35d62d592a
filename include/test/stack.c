/*
 * Measures how much stack each entry takes, and holds it to the bounds of the header.
 *
 *   stack PICTURE          PICTURE is a file with definitions or a palette, of at most 64 channels
 *
 * Finishing is measured in both editions, and has to keep to the same bounds.
 *
 * An entry runs in a thread whose stack is filled with a pattern before. The deepest byte that has changed afterwards says
 * how much was taken; what a thread takes that calls nothing is subtracted.
 */
#ifndef _DEFAULT_SOURCE
#define _DEFAULT_SOURCE
#endif

#include "cuzhantir_jp2.h"

#include <pthread.h>
#include <stdio.h>
#include <stdlib.h>
#include <string.h>

#define STACK_BYTES (1024 * 1024)
#define PATTERN 0xa5
#define FEW 64
#define SOME 1024
#define MOST 16384

static uint8_t file[131072];
static size_t file_len;
static uint64_t reading[CUZHANTIR_READING_LENGTH];
static uint64_t answer[CUZHANTIR_ANSWER_LENGTH];
static uint32_t comps[MOST * CUZHANTIR_COMPONENT_LENGTH];
static uint32_t records[MOST * CUZHANTIR_COMPONENT_LENGTH];
static const int32_t samples[1] = {1};
static int32_t planes[MOST];
static uint32_t count;
static uint32_t ignore;
static uint32_t edition2;
static uint32_t returned;
static uint8_t written[262144];

static void calls_nothing(void) {
}

static void reads(void) {
  returned = cuzhantir_read(file, file_len, reading, CUZHANTIR_READING_LENGTH);
}

static void finishes(void) {
  returned = cuzhantir_finish(file, file_len, reading, CUZHANTIR_READING_LENGTH, ignore, edition2, comps,
                              sizeof comps / sizeof comps[0], count, samples, 1, records,
                              sizeof records / sizeof records[0], planes, MOST, answer, CUZHANTIR_ANSWER_LENGTH);
}

static void reads_and_finishes(void) {
  returned =
      cuzhantir_picture(file, file_len, ignore, edition2, comps, sizeof comps / sizeof comps[0], count, samples, 1,
                        records, sizeof records / sizeof records[0], planes, MOST, answer, CUZHANTIR_ANSWER_LENGTH);
}

static void writes(void) {
  returned = cuzhantir_write(comps, sizeof comps / sizeof comps[0], count, 0, 0, 1, 1, CUZHANTIR_SPACE_SRGB, NULL, 0, 0,
                             written, sizeof written, answer, CUZHANTIR_ANSWER_LENGTH);
}

typedef void (*job)(void);

static void *run(void *chosen) {
  (*(job *)chosen)();
  return NULL;
}

static void give_up(const char *why) {
  fprintf(stderr, "stack: %s\n", why);
  exit(2);
}

/* How many bytes of its stack a thread changed. */
static size_t taken(job j) {
  static unsigned char *stack = NULL;
  pthread_attr_t attributes;
  pthread_t thread;
  size_t unchanged = 0;
  if (stack == NULL) {
    stack = (unsigned char *)aligned_alloc(4096, STACK_BYTES);
  }
  if (stack == NULL) {
    give_up("no memory");
  }
  memset(stack, PATTERN, STACK_BYTES);
  if (pthread_attr_init(&attributes) != 0 || pthread_attr_setstack(&attributes, stack, STACK_BYTES) != 0 ||
      pthread_create(&thread, &attributes, run, &j) != 0 || pthread_join(thread, NULL) != 0) {
    give_up("no thread");
  }
  pthread_attr_destroy(&attributes);
  while (unchanged < STACK_BYTES && stack[unchanged] == PATTERN) {
    unchanged++;
  }
  return STACK_BYTES - unchanged;
}

/* Whether an entry was taken to an end, in so many bytes of stack at most. */
static int within(const char *what, job j, size_t bound) {
  size_t own = taken(calls_nothing);
  size_t all = taken(j);
  size_t used = all > own ? all - own : 0;
  int fits = returned == CUZHANTIR_DONE && used > 0 && used <= bound;
  printf("%-64s %6zu bytes of %6zu%s\n", what, used, bound, fits ? "" : ": does not hold");
  return fits;
}

/* Components of one sample, which they share. */
static void set_components(uint32_t n) {
  uint32_t c;
  memset(comps, 0, sizeof comps);
  for (c = 0; c < n; c++) {
    comps[c * CUZHANTIR_COMPONENT_LENGTH + CUZHANTIR_COMPONENT_PREC] = 8;
    comps[c * CUZHANTIR_COMPONENT_LENGTH + CUZHANTIR_COMPONENT_W] = 1;
    comps[c * CUZHANTIR_COMPONENT_LENGTH + CUZHANTIR_COMPONENT_H] = 1;
  }
  count = n;
}

/* A number of so many bytes at the end of the file. */
static void put(size_t bytes, uint32_t value) {
  while (bytes > 0) {
    bytes--;
    file[file_len++] = (uint8_t)(value >> (8 * bytes) & 0xff);
  }
}

static void put_header(uint32_t content, uint32_t kind) {
  put(4, 8 + content);
  put(4, kind);
}

/* A file of n channels, whose definitions reverse their order. */
static void set_reversed(uint32_t n) {
  uint32_t ihdr = 14, cdef = 2 + CUZHANTIR_CDEF_BYTES * n, c;
  file_len = 0;
  put_header(4, 0x6a502020);
  put(4, 0x0d0a870a);
  put_header(12, 0x66747970);
  put(4, 0x6a703220);
  put(4, 0);
  put(4, 0x6a703220);
  put_header(8 + ihdr + 8 + cdef, 0x6a703268);
  put_header(ihdr, 0x69686472);
  put(4, 1);
  put(4, 1);
  put(2, n);
  put(4, 0x07070000);
  put_header(cdef, 0x63646566);
  put(2, n);
  for (c = 0; c < n; c++) {
    put(2, c);
    put(2, 0);
    put(2, n - c);
  }
}

/* Finishes a picture in both ways and in both editions. */
static int within_finishing(const char *picture, size_t bound) {
  char what[96];
  int holds = 1;
  for (edition2 = CUZHANTIR_EDITION_1; edition2 <= CUZHANTIR_EDITION_2; edition2++) {
    unsigned edition = edition2 == CUZHANTIR_EDITION_1 ? 1 : 2;
    snprintf(what, sizeof what, "finishing, edition %u%s", edition, picture);
    holds &= within(what, finishes, bound);
    snprintf(what, sizeof what, "reading and finishing, edition %u%s", edition, picture);
    holds &= within(what, reads_and_finishes, bound);
  }
  return holds;
}

/* Reads and finishes a picture of n channels in reverse order. */
static int within_reversed(uint32_t n, size_t bound) {
  char picture[64];
  set_reversed(n);
  set_components(n);
  reads();
  snprintf(picture, sizeof picture, ", %u channels in reverse", (unsigned)n);
  return within_finishing(picture, bound);
}

int main(int argc, char **argv) {
  FILE *f = argc == 2 ? fopen(argv[1], "rb") : NULL;
  int holds = 1;
  if (f == NULL) {
    give_up("usage: stack PICTURE");
  }
  file_len = fread(file, 1, sizeof file, f);
  fclose(f);
  holds &= within("reading", reads, CUZHANTIR_STACK_READ);
  set_components((uint32_t)reading[CUZHANTIR_READING_NUMCOMPS]);
  holds &= within_finishing("", CUZHANTIR_STACK_FINISH_64);
  holds &= within_reversed(FEW, CUZHANTIR_STACK_FINISH_64);
  holds &= within_reversed(SOME, CUZHANTIR_STACK_FINISH);
  holds &= within_reversed(MOST, CUZHANTIR_STACK_FINISH);
  ignore = 1;
  set_components(MOST);
  holds &= within_finishing(", 16384 components", CUZHANTIR_STACK_FINISH);
  holds &= within("writing, 16384 components", writes, CUZHANTIR_STACK_READ);
  return holds ? 0 : 1;
}
