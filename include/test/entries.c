/*
 * Tries the four entries by the names of the header, finishing in both editions. C11, and C++17 from the same source.
 *
 *   entries SAMPLES        SAMPLES is the folder with the sample pictures
 *
 * Every list that is handed in ends where the memory ends: a page behind it can be neither read nor written, so an entry
 * that reaches one element too far stops the program. Every destination holds a pattern before, and each element that an
 * entry has no business with has to hold it afterwards.
 */
#ifndef _DEFAULT_SOURCE
#define _DEFAULT_SOURCE
#endif

#include "cuzhantir_jp2.h"

#include <stdio.h>
#include <stdlib.h>
#include <string.h>
#include <sys/mman.h>
#include <unistd.h>

static unsigned checks = 0;
static unsigned failures = 0;

static void check(int holds, const char *what, const char *file, int line) {
  checks++;
  if (!holds) {
    failures++;
    printf("%s:%d: does not hold: %s\n", file, line, what);
  }
}

#define CHECK(condition) check((condition) ? 1 : 0, #condition, __FILE__, __LINE__)

static void give_up(const char *why) {
  fprintf(stderr, "entries: %s\n", why);
  exit(2);
}

/* Lent memory: so many bytes, then a page that nobody may touch. */
struct lent {
  unsigned char *pages;
  size_t mapped;
  unsigned char *at;
  size_t bytes;
};

#define PATTERN 0xa5

static struct lent lend(size_t bytes) {
  struct lent l;
  size_t page = (size_t)sysconf(_SC_PAGESIZE);
  size_t open_pages = (bytes + page - 1) / page * page + page;
  void *pages = mmap(NULL, open_pages + page, PROT_READ | PROT_WRITE, MAP_PRIVATE | MAP_ANONYMOUS, -1, 0);
  if (pages == MAP_FAILED) {
    give_up("no memory");
  }
  l.pages = (unsigned char *)pages;
  l.mapped = open_pages + page;
  l.at = l.pages + open_pages - bytes;
  l.bytes = bytes;
  memset(l.pages, PATTERN, open_pages);
  if (mprotect(l.pages + open_pages, page, PROT_NONE) != 0) {
    give_up("a page cannot be closed");
  }
  return l;
}

/* Lent memory with bytes of the caller's in it. */
static struct lent lend_copy(const void *from, size_t bytes) {
  struct lent l = lend(bytes);
  if (bytes != 0) {
    memcpy(l.at, from, bytes);
  }
  return l;
}

static void give_back(struct lent l) {
  munmap(l.pages, l.mapped);
}

/* Whether all from a byte on, and all in front of the list, has the pattern still. */
static int untouched_from(struct lent l, size_t from) {
  unsigned char *p;
  for (p = l.pages; p < l.at; p++) {
    if (*p != PATTERN) {
      return 0;
    }
  }
  for (p = l.at + from; p < l.at + l.bytes; p++) {
    if (*p != PATTERN) {
      return 0;
    }
  }
  return 1;
}

static int untouched(struct lent l) {
  return untouched_from(l, 0);
}

/* A small file, made box by box. */
struct bytes {
  uint8_t at[512];
  size_t length;
};

static void put(struct bytes *b, uint32_t number, unsigned width) {
  if (b->length + width > sizeof b->at) {
    give_up("a file of the test is too long");
  }
  while (width > 0) {
    width--;
    b->at[b->length] = (uint8_t)(number >> (8 * width) & 255u);
    b->length++;
  }
}

static size_t open_box(struct bytes *b, const char *type) {
  size_t place = b->length;
  size_t i;
  put(b, 0, 4);
  for (i = 0; i < 4; i++) {
    put(b, (uint8_t)type[i], 1);
  }
  return place;
}

static void close_box(struct bytes *b, size_t place) {
  uint32_t length = (uint32_t)(b->length - place);
  struct bytes number;
  number.length = 0;
  put(&number, length, 4);
  memcpy(b->at + place, number.at, 4);
}

static void put_ihdr(struct bytes *b, uint32_t height, uint32_t width, uint32_t count) {
  size_t box = open_box(b, "ihdr");
  put(b, height, 4);
  put(b, width, 4);
  put(b, count, 2);
  put(b, 7, 1);
  put(b, 7, 1);
  put(b, 0, 2);
  close_box(b, box);
}

static void put_colr(struct bytes *b, uint32_t enumcs) {
  size_t box = open_box(b, "colr");
  put(b, 1, 1);
  put(b, 0, 2);
  put(b, enumcs, 4);
  close_box(b, box);
}

/* Definitions, three numbers each. */
static void put_cdef(struct bytes *b, const uint32_t *definitions, uint32_t count) {
  size_t box = open_box(b, "cdef");
  uint32_t i;
  put(b, count, 2);
  for (i = 0; i < 3 * count; i++) {
    put(b, definitions[i], 2);
  }
  close_box(b, box);
}

/* Signature and file type; an open jp2h. */
static size_t begin_file(struct bytes *b) {
  size_t box;
  b->length = 0;
  box = open_box(b, "jP  ");
  put(b, 0x0d0a870au, 4);
  close_box(b, box);
  box = open_box(b, "ftyp");
  put(b, 0x6a703220u, 4);
  put(b, 0, 4);
  put(b, 0x6a703220u, 4);
  close_box(b, box);
  return open_box(b, "jp2h");
}

static void end_file(struct bytes *b, size_t jp2h) {
  close_box(b, jp2h);
  close_box(b, open_box(b, "jp2c"));
}

/* Grey, of a height and a width, 8 bits. */
static void grey_file(struct bytes *b, uint32_t height, uint32_t width) {
  size_t jp2h = begin_file(b);
  put_ihdr(b, height, width, 1);
  put_colr(b, 17);
  end_file(b, jp2h);
}

/* Three components of 1 by 2, of which the definitions make the third the first plane, and turn the colours round. */
static const uint32_t turned[9] = {0, 0, 3, 1, 0, 2, 2, 0, 1};

static void turned_file(struct bytes *b) {
  size_t jp2h = begin_file(b);
  put_ihdr(b, 1, 2, 3);
  put_colr(b, 16);
  put_cdef(b, turned, 3);
  end_file(b, jp2h);
}

/* One component under a palette of three rows and two columns of 8 bits, with definitions where there are any. */
static void palette_file(struct bytes *b, const uint32_t *definitions, uint32_t defined) {
  size_t jp2h = begin_file(b);
  size_t box;
  put_ihdr(b, 1, 2, 1);
  box = open_box(b, "pclr");
  put(b, 3, 2);
  put(b, 2, 1);
  put(b, 0x0787u, 2);
  put(b, 0x0a0b1415u, 4);
  put(b, 0x1e1fu, 2);
  close_box(b, box);
  box = open_box(b, "cmap");
  put(b, 0x00000100u, 4);
  put(b, 0x00000101u, 4);
  close_box(b, box);
  if (defined > 0) {
    put_cdef(b, definitions, defined);
  }
  end_file(b, jp2h);
}

/* Where that file has the column of its second mapping. */
#define PALETTE_SECOND_COLUMN 96

/* A component of a height and a width, 8 bits, with its first sample at an index. */
static void component(uint32_t *numbers, uint32_t height, uint32_t width, uint32_t data) {
  memset(numbers, 0, CUZHANTIR_COMPONENT_LENGTH * sizeof *numbers);
  numbers[CUZHANTIR_COMPONENT_DX] = 1;
  numbers[CUZHANTIR_COMPONENT_DY] = 1;
  numbers[CUZHANTIR_COMPONENT_W] = width;
  numbers[CUZHANTIR_COMPONENT_H] = height;
  numbers[CUZHANTIR_COMPONENT_PREC] = 8;
  numbers[CUZHANTIR_COMPONENT_BPP] = 8;
  numbers[CUZHANTIR_COMPONENT_DATA] = data;
}

/* All that is handed to finishing. */
struct picture {
  struct lent file;
  struct lent comps;
  uint32_t count;
  struct lent samples;
  uint32_t ignore;
  uint32_t edition2;
};

static struct picture lend_picture(const struct bytes *file, const uint32_t *comps, uint32_t count,
                                   const int32_t *samples, size_t samples_len) {
  struct picture p;
  p.file = lend_copy(file->at, file->length);
  p.comps = lend_copy(comps, count * CUZHANTIR_COMPONENT_LENGTH * sizeof *comps);
  p.count = count;
  p.samples = lend_copy(samples, samples_len * sizeof *samples);
  p.ignore = 0;
  p.edition2 = CUZHANTIR_EDITION_1;
  return p;
}

static void give_back_picture(struct picture p) {
  give_back(p.file);
  give_back(p.comps);
  give_back(p.samples);
}

/* The turned picture: A is 10, 11; B is 20, 21; C is 30, 31. */
static struct picture turned_picture(void) {
  static const int32_t samples[6] = {10, 11, 20, 21, 30, 31};
  uint32_t comps[3 * CUZHANTIR_COMPONENT_LENGTH];
  struct bytes file;
  uint32_t c;
  turned_file(&file);
  for (c = 0; c < 3; c++) {
    component(comps + c * CUZHANTIR_COMPONENT_LENGTH, 1, 2, 2 * c);
  }
  return lend_picture(&file, comps, 3, samples, 6);
}

static struct picture palette_picture(const uint32_t *definitions, uint32_t defined) {
  static const int32_t samples[2] = {-1, 1};
  uint32_t comps[CUZHANTIR_COMPONENT_LENGTH];
  struct bytes file;
  palette_file(&file, definitions, defined);
  component(comps, 1, 2, 0);
  return lend_picture(&file, comps, 1, samples, 2);
}

/* The destinations of finishing, in elements. */
struct destinations {
  struct lent records;
  struct lent planes;
  struct lent answer;
};

static struct destinations lend_destinations(size_t records, size_t planes, size_t answer) {
  struct destinations d;
  d.records = lend(records * sizeof(uint32_t));
  d.planes = lend(planes * sizeof(int32_t));
  d.answer = lend(answer * sizeof(uint64_t));
  return d;
}

static void give_back_destinations(struct destinations d) {
  give_back(d.records);
  give_back(d.planes);
  give_back(d.answer);
}

static uint32_t *records_of(struct destinations d) {
  return (uint32_t *)(void *)d.records.at;
}

static int32_t *planes_of(struct destinations d) {
  return (int32_t *)(void *)d.planes.at;
}

static uint64_t *answer_of(struct destinations d) {
  return (uint64_t *)(void *)d.answer.at;
}

static uint32_t finish_in_one(struct picture p, struct destinations d) {
  return cuzhantir_picture(p.file.at, p.file.bytes, p.ignore, p.edition2, (uint32_t *)(void *)p.comps.at,
                           p.comps.bytes / sizeof(uint32_t), p.count, (int32_t *)(void *)p.samples.at,
                           p.samples.bytes / sizeof(int32_t), records_of(d), d.records.bytes / sizeof(uint32_t),
                           planes_of(d), d.planes.bytes / sizeof(int32_t), answer_of(d),
                           d.answer.bytes / sizeof(uint64_t));
}

static uint32_t finish_with(struct picture p, struct lent reading, struct destinations d) {
  return cuzhantir_finish(p.file.at, p.file.bytes, (uint64_t *)(void *)reading.at, reading.bytes / sizeof(uint64_t),
                          p.ignore, p.edition2, (uint32_t *)(void *)p.comps.at, p.comps.bytes / sizeof(uint32_t),
                          p.count, (int32_t *)(void *)p.samples.at, p.samples.bytes / sizeof(int32_t), records_of(d),
                          d.records.bytes / sizeof(uint32_t), planes_of(d), d.planes.bytes / sizeof(int32_t),
                          answer_of(d), d.answer.bytes / sizeof(uint64_t));
}

static struct lent read_lent(struct lent file, uint32_t *returned) {
  struct lent reading = lend(CUZHANTIR_READING_LENGTH * sizeof(uint64_t));
  *returned = cuzhantir_read(file.at, file.bytes, (uint64_t *)(void *)reading.at, CUZHANTIR_READING_LENGTH);
  return reading;
}

/* Finishing alone, after reading. */
static uint32_t finish_in_two(struct picture p, struct destinations d) {
  uint32_t returned;
  struct lent reading = read_lent(p.file, &returned);
  struct lent before = lend_copy(reading.at, reading.bytes);
  returned = finish_with(p, reading, d);
  CHECK(memcmp(reading.at, before.at, reading.bytes) == 0);
  give_back(before);
  give_back(reading);
  return returned;
}

/* Both ways of finishing. */
typedef uint32_t (*finishing)(struct picture p, struct destinations d);

static const finishing both[2] = {finish_in_one, finish_in_two};

/* Numbers for the edition, and what each has to pick. All 32 bits count, and no bit counts alone. */
struct pick {
  uint32_t number;
  uint32_t edition;
};

static const struct pick picks[] = {
    {CUZHANTIR_EDITION_1, 1}, {CUZHANTIR_EDITION_2, 2}, {0, 1},        {1, 2},          {2, 2},
    {256, 2},                 {65536, 2},               {2147483648u, 2}, {UINT32_MAX, 2},
};

#define PICKS (sizeof picks / sizeof picks[0])

/* --- reading --- */

struct sample {
  const char *name;
  uint64_t numcomps;
  uint64_t bpc;
  uint64_t enumcs;
  uint64_t definitions;
  uint64_t columns;
  uint64_t codestream;
};

/* All of them are 48 wide and 36 high. */
static const struct sample samples[] = {
    {"opj-grey8.jp2", 1, 7, 17, 0, 0, 85},  {"opj-rgb8.jp2", 3, 7, 16, 0, 0, 85},
    {"opj-rgba8.jp2", 4, 7, 16, 4, 0, 119}, {"opj-greyalpha.jp2", 2, 15, 17, 2, 0, 107},
    {"opj-rgb16.jp2", 3, 15, 16, 0, 0, 85}, {"pil-rgb.jp2", 3, 7, 16, 0, 0, 85},
    {"pil-la.jp2", 2, 7, 17, 0, 0, 85},     {"im-rgba.jp2", 4, 7, 16, 4, 0, 119},
    {"gdal-bgr.jp2", 3, 7, 16, 3, 0, 113},  {"gdal-pal.jp2", 1, 7, 16, 0, 3, 131},
    {"vips-rgba.jp2", 4, 7, 16, 4, 0, 119},
};

static struct lent lend_file(const char *folder, const char *name) {
  static uint8_t bytes[65536];
  char path[4096];
  FILE *f;
  size_t length;
  int printed = snprintf(path, sizeof path, "%s/%s", folder, name);
  if (printed < 0 || (size_t)printed >= sizeof path) {
    give_up("the folder's name is too long");
  }
  f = fopen(path, "rb");
  if (f == NULL) {
    give_up("a sample picture cannot be opened");
  }
  length = fread(bytes, 1, sizeof bytes, f);
  fclose(f);
  return lend_copy(bytes, length);
}

static void reads_sample(const char *folder, const struct sample *s) {
  struct lent file = lend_file(folder, s->name);
  uint32_t returned;
  struct lent list = read_lent(file, &returned);
  const uint64_t *reading = (const uint64_t *)(void *)list.at;
  CHECK(returned == CUZHANTIR_DONE);
  CHECK(reading[CUZHANTIR_READING_KIND] == CUZHANTIR_READING_CODESTREAM);
  CHECK(reading[CUZHANTIR_READING_VALUE] == s->codestream);
  CHECK(reading[CUZHANTIR_READING_PLACE] == 0);
  CHECK(reading[CUZHANTIR_READING_H] == 36);
  CHECK(reading[CUZHANTIR_READING_W] == 48);
  CHECK(reading[CUZHANTIR_READING_NUMCOMPS] == s->numcomps);
  CHECK(reading[CUZHANTIR_READING_BPC] == s->bpc);
  CHECK(reading[CUZHANTIR_READING_C] == 7);
  CHECK(reading[CUZHANTIR_READING_METH] == 1);
  CHECK(reading[CUZHANTIR_READING_ENUMCS] == s->enumcs);
  CHECK(reading[CUZHANTIR_READING_HELD] == 1);
  CHECK(reading[CUZHANTIR_READING_BRAND] == 0x6a703220u);
  CHECK(reading[CUZHANTIR_READING_CL_PLACE] == 28);
  CHECK(reading[CUZHANTIR_READING_CL_COUNT] == 1);
  CHECK(reading[CUZHANTIR_READING_PCLR_COLUMNS] == s->columns);
  CHECK(reading[CUZHANTIR_READING_CMAP_COUNT] == s->columns);
  CHECK(reading[CUZHANTIR_READING_CDEF_COUNT] == s->definitions);
  CHECK(reading[CUZHANTIR_READING_STATE] == 15);
  CHECK(reading[CUZHANTIR_READING_HASJP2H] == 1);
  CHECK(reading[CUZHANTIR_READING_HASIHDR] == 1);
  CHECK(file.at[s->codestream] == 0xff && file.at[s->codestream + 1] == 0x4f);
  give_back(list);
  give_back(file);
}

/* The camera's order blue, green, red: channel 0 is colour 3. */
static void reads_definitions(const char *folder) {
  static const uint32_t expected[9] = {0, 0, 3, 1, 0, 2, 2, 0, 1};
  struct lent file = lend_file(folder, "gdal-bgr.jp2");
  uint32_t returned;
  struct lent list = read_lent(file, &returned);
  uint64_t *reading = (uint64_t *)(void *)list.at;
  struct cuzhantir_definition d = {9, 9, 9};
  uint32_t n;
  for (n = 0; n < 3; n++) {
    CHECK(cuzhantir_definition_at(file.at, file.bytes, reading, n, &d) == 1);
    CHECK(d.channel == expected[3 * n] && d.typ == expected[3 * n + 1] && d.asoc == expected[3 * n + 2]);
  }
  CHECK(cuzhantir_definition_at(file.at, file.bytes, reading, 3, &d) == 0);
  CHECK(cuzhantir_definition_at(file.at, file.bytes, reading, UINT64_MAX, &d) == 0);
  CHECK(cuzhantir_definition_at(file.at, 104, reading, 2, &d) == 0);
  CHECK(cuzhantir_definition_at(file.at, 105, reading, 2, &d) == 1);
  CHECK(cuzhantir_definition_at(file.at, 5, reading, 0, &d) == 0);
  reading[CUZHANTIR_READING_CDEF_PLACE] = UINT64_MAX;
  reading[CUZHANTIR_READING_CDEF_COUNT] = UINT64_MAX;
  CHECK(cuzhantir_definition_at(file.at, file.bytes, reading, 0, &d) == 0);
  give_back(list);
  give_back(file);
}

static void reads_mappings(const char *folder) {
  struct lent file = lend_file(folder, "gdal-pal.jp2");
  uint32_t returned;
  struct lent list = read_lent(file, &returned);
  const uint64_t *reading = (const uint64_t *)(void *)list.at;
  struct cuzhantir_mapping m = {9, 9, 9};
  uint32_t n;
  for (n = 0; n < 3; n++) {
    CHECK(cuzhantir_mapping_at(file.at, file.bytes, reading, n, &m) == 1);
    CHECK(m.component == 0 && m.type == 1 && m.column == n);
  }
  CHECK(cuzhantir_mapping_at(file.at, file.bytes, reading, 3, &m) == 0);
  CHECK(reading[CUZHANTIR_READING_PCLR_ENTRIES] == 4);
  CHECK(file.at[reading[CUZHANTIR_READING_PCLR_PLACE]] == 7);
  give_back(list);
  give_back(file);
}

static void refuses_reading(const struct bytes *b, uint32_t number, uint64_t place) {
  struct lent file = lend_copy(b->at, b->length);
  uint32_t returned;
  struct lent list = read_lent(file, &returned);
  const uint64_t *reading = (const uint64_t *)(void *)list.at;
  size_t i;
  CHECK(returned == number);
  CHECK(reading[CUZHANTIR_READING_KIND] == CUZHANTIR_READING_REFUSED);
  CHECK(reading[CUZHANTIR_READING_VALUE] == number);
  CHECK(reading[CUZHANTIR_READING_PLACE] == place);
  for (i = CUZHANTIR_READING_H; i < CUZHANTIR_READING_LENGTH; i++) {
    CHECK(reading[i] == 0);
  }
  give_back(list);
  give_back(file);
}

/* Document 01's marked cases on ihdr and on the length of a child, with their places. */
static void refuses_small_files(void) {
  struct bytes b;
  size_t jp2h = begin_file(&b);
  size_t box = open_box(&b, "ihdr");
  put(&b, 0, 4);
  put(&b, 0, 4);
  put(&b, 0, 4);
  put(&b, 0, 1);
  close_box(&b, box);
  end_file(&b, jp2h);
  refuses_reading(&b, CUZHANTIR_IHDR_LENGTH_WRONG, 40);

  jp2h = begin_file(&b);
  put_ihdr(&b, 1, 1, 1);
  open_box(&b, "free");
  end_file(&b, jp2h);
  refuses_reading(&b, CUZHANTIR_CHILD_HEADER_WRONG, 62);

  jp2h = begin_file(&b);
  put_ihdr(&b, 1, 1, 16385);
  end_file(&b, jp2h);
  refuses_reading(&b, CUZHANTIR_IHDR_TOO_MANY, 40);

  begin_file(&b);
  b.length = 32;
  close_box(&b, open_box(&b, "jp2c"));
  refuses_reading(&b, CUZHANTIR_CODESTREAM_BEFORE_HEADER, 32);
}

static void reads_ended(void) {
  struct lent list = lend(CUZHANTIR_READING_LENGTH * sizeof(uint64_t));
  const uint64_t *reading = (const uint64_t *)(void *)list.at;
  CHECK(cuzhantir_read(NULL, 0, (uint64_t *)(void *)list.at, CUZHANTIR_READING_LENGTH) == CUZHANTIR_DONE);
  CHECK(reading[CUZHANTIR_READING_KIND] == CUZHANTIR_READING_ENDED);
  CHECK(reading[CUZHANTIR_READING_VALUE] == 0);
  give_back(list);
}

/* A list for the reading of one number too few is left alone; one too many keeps its last. */
static void reads_into_any_length(void) {
  struct bytes b;
  size_t length;
  grey_file(&b, 2, 3);
  for (length = 0; length < CUZHANTIR_READING_LENGTH; length++) {
    struct lent list = lend(length * sizeof(uint64_t));
    CHECK(cuzhantir_read(b.at, b.length, (uint64_t *)(void *)list.at, length) == CUZHANTIR_DESTINATION_TOO_SHORT);
    CHECK(untouched(list));
    give_back(list);
  }
  {
    struct lent list = lend((CUZHANTIR_READING_LENGTH + 1) * sizeof(uint64_t));
    const uint64_t *reading = (const uint64_t *)(void *)list.at;
    CHECK(cuzhantir_read(b.at, b.length, (uint64_t *)(void *)list.at, CUZHANTIR_READING_LENGTH + 1) == CUZHANTIR_DONE);
    CHECK(reading[CUZHANTIR_READING_KIND] == CUZHANTIR_READING_CODESTREAM);
    CHECK(reading[CUZHANTIR_READING_VALUE] == 85);
    CHECK(untouched_from(list, CUZHANTIR_READING_LENGTH * sizeof(uint64_t)));
    give_back(list);
  }
}

/* --- finishing --- */

static void answers_refusal(struct destinations d, uint32_t number, uint64_t place) {
  const uint64_t *answer = answer_of(d);
  CHECK(answer[CUZHANTIR_ANSWER_KIND] == CUZHANTIR_ANSWER_REFUSED);
  CHECK(answer[CUZHANTIR_ANSWER_NUMBER] == number);
  CHECK(answer[CUZHANTIR_ANSWER_PLACE] == place);
  CHECK(answer[CUZHANTIR_ANSWER_COUNT] == 0);
  CHECK(untouched(d.records));
  CHECK(untouched(d.planes));
}

static void answers_planes(struct destinations d, uint64_t planes) {
  const uint64_t *answer = answer_of(d);
  CHECK(answer[CUZHANTIR_ANSWER_KIND] == CUZHANTIR_ANSWER_DONE);
  CHECK(answer[CUZHANTIR_ANSWER_NUMBER] == CUZHANTIR_DONE);
  CHECK(answer[CUZHANTIR_ANSWER_PLACE] == 0);
  CHECK(answer[CUZHANTIR_ANSWER_COUNT] == planes);
}

/* With a picture and its edition, a number comes, with its place, by both ways of finishing. */
static void refuses_in_edition(struct picture p, size_t records, size_t planes, uint32_t number, uint64_t place) {
  size_t way;
  for (way = 0; way < 2; way++) {
    struct destinations d = lend_destinations(records, planes, CUZHANTIR_ANSWER_LENGTH);
    CHECK(both[way](p, d) == number);
    answers_refusal(d, number, place);
    give_back_destinations(d);
  }
}

/* The same number and place come in both editions. */
static void refuses_finishing(struct picture p, size_t records, size_t planes, uint32_t number, uint64_t place) {
  p.edition2 = CUZHANTIR_EDITION_1;
  refuses_in_edition(p, records, planes, number, place);
  p.edition2 = CUZHANTIR_EDITION_2;
  refuses_in_edition(p, records, planes, number, place);
}

/* Definitions that name colours alone give the same in both editions. */
static void finishes_turned(uint32_t edition2) {
  static const int32_t packed[6] = {10, 11, 20, 21, 30, 31};
  static const uint32_t starts[3] = {4, 2, 0};
  struct picture p = turned_picture();
  struct destinations d[2];
  size_t way;
  uint32_t plane;
  p.edition2 = edition2;
  for (way = 0; way < 2; way++) {
    /* one element more than is needed in each, which stays */
    d[way] = lend_destinations(3 * CUZHANTIR_COMPONENT_LENGTH + 1, 7, CUZHANTIR_ANSWER_LENGTH + 1);
    CHECK(both[way](p, d[way]) == CUZHANTIR_DONE);
    answers_planes(d[way], 3);
    CHECK(memcmp(planes_of(d[way]), packed, sizeof packed) == 0);
    for (plane = 0; plane < 3; plane++) {
      const uint32_t *record = records_of(d[way]) + plane * CUZHANTIR_COMPONENT_LENGTH;
      CHECK(record[CUZHANTIR_COMPONENT_DATA] == starts[plane]);
      CHECK(record[CUZHANTIR_COMPONENT_W] == 2 && record[CUZHANTIR_COMPONENT_H] == 1);
      CHECK(record[CUZHANTIR_COMPONENT_PREC] == 8 && record[CUZHANTIR_COMPONENT_ALPHA] == 0);
    }
    CHECK(untouched_from(d[way].records, 3 * CUZHANTIR_COMPONENT_LENGTH * sizeof(uint32_t)));
    CHECK(untouched_from(d[way].planes, sizeof packed));
    CHECK(untouched_from(d[way].answer, CUZHANTIR_ANSWER_LENGTH * sizeof(uint64_t)));
  }
  CHECK(memcmp(d[0].records.at, d[1].records.at, d[0].records.bytes) == 0);
  CHECK(memcmp(d[0].planes.at, d[1].planes.at, d[0].planes.bytes) == 0);
  CHECK(memcmp(d[0].answer.at, d[1].answer.at, d[0].answer.bytes) == 0);
  give_back_destinations(d[0]);
  give_back_destinations(d[1]);
  give_back_picture(p);
}

/* With the ignore flag the records keep their order. */
static void finishes_ignoring(uint32_t edition2) {
  struct picture p = turned_picture();
  size_t way;
  uint32_t plane;
  p.ignore = 1;
  p.edition2 = edition2;
  for (way = 0; way < 2; way++) {
    struct destinations d = lend_destinations(3 * CUZHANTIR_COMPONENT_LENGTH, 6, CUZHANTIR_ANSWER_LENGTH);
    CHECK(both[way](p, d) == CUZHANTIR_DONE);
    for (plane = 0; plane < 3; plane++) {
      CHECK(records_of(d)[plane * CUZHANTIR_COMPONENT_LENGTH + CUZHANTIR_COMPONENT_DATA] == 2 * plane);
    }
    give_back_destinations(d);
  }
  give_back_picture(p);
}

/* Entries 10, 20, 30 and 11, 21, 31: sample -1 reads the first row, 1 the second; the second column has a sign. */
static void finishes_palette(uint32_t edition2) {
  static const int32_t looked_up[4] = {10, 20, 11, 21};
  struct picture p = palette_picture(NULL, 0);
  size_t way;
  p.edition2 = edition2;
  for (way = 0; way < 2; way++) {
    struct destinations d = lend_destinations(2 * CUZHANTIR_COMPONENT_LENGTH, 4, CUZHANTIR_ANSWER_LENGTH);
    CHECK(both[way](p, d) == CUZHANTIR_DONE);
    answers_planes(d, 2);
    CHECK(memcmp(planes_of(d), looked_up, sizeof looked_up) == 0);
    CHECK(records_of(d)[CUZHANTIR_COMPONENT_SGND] == 0);
    CHECK(records_of(d)[CUZHANTIR_COMPONENT_LENGTH + CUZHANTIR_COMPONENT_SGND] == 1);
    CHECK(records_of(d)[CUZHANTIR_COMPONENT_LENGTH + CUZHANTIR_COMPONENT_DATA] == 2);
    give_back_destinations(d);
  }
  give_back_picture(p);
}

/* --- editions --- */

/* What a plane shows: its first sample, and its mark. */
struct shown {
  int32_t sample;
  uint32_t mark;
};

/* The samples of channels 0 to 3 in pictures of points. */
enum { A = 10, B = 20, C = 30, D = 40 };

#define POINTS 4
#define OWN_MARK 7

/* A picture of one point a component, each with the same mark, and definitions, three numbers each. */
static struct picture points_picture(const uint32_t *definitions, uint32_t defined, uint32_t count, uint32_t mark) {
  static const int32_t points[POINTS] = {A, B, C, D};
  uint32_t comps[POINTS * CUZHANTIR_COMPONENT_LENGTH];
  struct bytes file;
  size_t jp2h = begin_file(&file);
  uint32_t c;
  put_ihdr(&file, 1, 1, count);
  if (defined > 0) {
    put_cdef(&file, definitions, defined);
  }
  end_file(&file, jp2h);
  for (c = 0; c < count; c++) {
    component(comps + c * CUZHANTIR_COMPONENT_LENGTH, 1, 1, c);
    comps[c * CUZHANTIR_COMPONENT_LENGTH + CUZHANTIR_COMPONENT_ALPHA] = mark;
  }
  return lend_picture(&file, comps, count, points, count);
}

/* A picture of planes of at most two samples is finished to these, by both ways, in the edition that it names. */
static void finishes_to(struct picture p, const struct shown *planes, uint32_t count) {
  size_t way;
  uint32_t n;
  for (way = 0; way < 2; way++) {
    struct destinations d =
        lend_destinations(count * CUZHANTIR_COMPONENT_LENGTH, 2 * (size_t)count, CUZHANTIR_ANSWER_LENGTH);
    CHECK(both[way](p, d) == CUZHANTIR_DONE);
    answers_planes(d, count);
    for (n = 0; n < count; n++) {
      const uint32_t *record = records_of(d) + n * CUZHANTIR_COMPONENT_LENGTH;
      uint32_t start = record[CUZHANTIR_COMPONENT_DATA];
      CHECK(start < 2 * count && planes_of(d)[start] == planes[n].sample);
      CHECK(record[CUZHANTIR_COMPONENT_ALPHA] == planes[n].mark);
    }
    give_back_destinations(d);
  }
}

/* The same picture in both editions. */
static void finishes_by_edition(struct picture p, const struct shown *first, const struct shown *second, uint32_t count) {
  p.edition2 = CUZHANTIR_EDITION_1;
  finishes_to(p, first, count);
  p.edition2 = CUZHANTIR_EDITION_2;
  finishes_to(p, second, count);
  give_back_picture(p);
}

/* Opacity, then a colour; and the two exchanged. */
static const uint32_t opacity_first[6] = {0, 1, 0, 1, 0, 1};
static const uint32_t opacity_last[6] = {1, 0, 1, 0, 1, 0};

/* Document 01's marked case: with the opacity first, edition 1 loses its mark and edition 2 does not. */
static void picks_edition(void) {
  static const struct shown lost[2] = {{B, 0}, {A, 0}};
  static const struct shown kept[2] = {{B, 0}, {A, 1}};
  struct picture first = points_picture(opacity_first, 2, 2, 0);
  struct picture last = points_picture(opacity_last, 2, 2, 0);
  size_t i;
  CHECK(CUZHANTIR_EDITION_1 == 0 && CUZHANTIR_EDITION_2 == 1);
  for (i = 0; i < PICKS; i++) {
    first.edition2 = last.edition2 = picks[i].number;
    finishes_to(first, picks[i].edition == 1 ? lost : kept, 2);
    finishes_to(last, kept, 2);
  }
  give_back_picture(first);
  give_back_picture(last);
}

/* In edition 2 a definition sets the mark of its own channel's record, wherever that goes, over the one that it had. */
static void marks_own_channel(void) {
  static const struct shown two[2][2] = {{{B, OWN_MARK}, {A, 0}}, {{B, 0}, {A, 1}}};
  static const uint32_t definitions[12] = {2, 0, 1, 0, 0, 2, 1, 1, 0, 3, 1, 0};
  static const struct shown four[2][4] = {{{C, OWN_MARK}, {A, 0}, {B, 1}, {D, 1}}, {{C, 0}, {A, 0}, {B, 1}, {D, 1}}};
  finishes_by_edition(points_picture(opacity_first, 2, 2, OWN_MARK), two[0], two[1], 2);
  finishes_by_edition(points_picture(definitions, 4, 4, OWN_MARK), four[0], four[1], 4);
}

/* A channel that is defined twice has the last typ in edition 2, whatever the asoc, and whether or not it moved. */
static void marks_last_definition(void) {
  static const uint32_t twice[9] = {0, 1, 0, 0, 2, 0, 1, 0, 1};
  static const uint32_t turned_round[9] = {0, 2, 0, 0, 1, 0, 1, 0, 1};
  static const uint32_t not_told[9] = {0, 1, 0, 0, 65535, 65535, 1, 0, 1};
  static const uint32_t moved_then_marked[9] = {0, 0, 2, 0, 1, 1, 1, 0, 1};
  static const uint32_t marked_then_moved[9] = {0, 1, 0, 1, 0, 1, 0, 0, 2};
  static const struct shown none[2] = {{B, 0}, {A, 0}};
  static const struct shown own[2] = {{B, OWN_MARK}, {A, 0}};
  static const struct shown marked_1[2] = {{B, 0}, {A, 1}};
  static const struct shown marked_2[2] = {{B, 0}, {A, 2}};
  static const struct shown marked_65535[2] = {{B, 0}, {A, 65535}};
  finishes_by_edition(points_picture(twice, 3, 2, 0), none, marked_2, 2);
  finishes_by_edition(points_picture(turned_round, 3, 2, 0), none, marked_1, 2);
  finishes_by_edition(points_picture(not_told, 3, 2, 0), none, marked_65535, 2);
  finishes_by_edition(points_picture(moved_then_marked, 3, 2, 0), marked_1, marked_1, 2);
  finishes_by_edition(points_picture(marked_then_moved, 3, 2, OWN_MARK), own, none, 2);
}

/* The channels of a palette are its columns. */
static void marks_palette_channels(void) {
  static const struct shown planes[2][2] = {{{11, 0}, {10, 0}}, {{11, 0}, {10, 1}}};
  finishes_by_edition(palette_picture(opacity_first, 2), planes[0], planes[1], 2);
}

/* Where there are no definitions, or they are ignored, no mark is set, and channel 0 need not be defined. */
static void keeps_marks(void) {
  static const uint32_t without_0[3] = {1, 0, 2};
  static const struct shown own[2] = {{A, OWN_MARK}, {B, OWN_MARK}};
  struct picture undefined = points_picture(NULL, 0, 2, OWN_MARK);
  struct picture ignored = points_picture(opacity_first, 2, 2, OWN_MARK);
  struct picture ignored_without_0 = points_picture(without_0, 1, 2, OWN_MARK);
  size_t i;
  for (i = 0; i < PICKS; i++) {
    undefined.edition2 = ignored.edition2 = ignored_without_0.edition2 = picks[i].number;
    finishes_to(undefined, own, 2);
    ignored.ignore = ignored_without_0.ignore = 1;
    finishes_to(ignored, own, 2);
    finishes_to(ignored_without_0, own, 2);
    ignored.ignore = UINT32_MAX;
    finishes_to(ignored, own, 2);
  }
  give_back_picture(undefined);
  give_back_picture(ignored);
  give_back_picture(ignored_without_0);
}

/* Edition 2 asks for a definition of channel 0 too, and names the lowest channel that has none. */
static void asks_for_channel_0(void) {
  static const uint32_t second_alone[3] = {1, 0, 2};
  static const uint32_t third_alone[3] = {2, 0, 3};
  static const uint32_t first_alone[3] = {0, 0, 1};
  static const struct shown both_planes[2] = {{A, 0}, {B, 0}};
  struct picture p = points_picture(second_alone, 1, 2, 0);
  size_t i;
  for (i = 0; i < PICKS; i++) {
    p.edition2 = picks[i].number;
    if (picks[i].edition == 1) {
      finishes_to(p, both_planes, 2);
    } else {
      refuses_in_edition(p, 2 * CUZHANTIR_COMPONENT_LENGTH, 2, CUZHANTIR_CHANNEL_UNDEFINED, 0);
    }
  }
  give_back_picture(p);

  p = points_picture(third_alone, 1, 3, 0);
  refuses_in_edition(p, 3 * CUZHANTIR_COMPONENT_LENGTH, 3, CUZHANTIR_CHANNEL_UNDEFINED, 1);
  p.edition2 = CUZHANTIR_EDITION_2;
  refuses_in_edition(p, 3 * CUZHANTIR_COMPONENT_LENGTH, 3, CUZHANTIR_CHANNEL_UNDEFINED, 0);
  give_back_picture(p);

  p = points_picture(first_alone, 1, 2, 0);
  refuses_finishing(p, 2 * CUZHANTIR_COMPONENT_LENGTH, 2, CUZHANTIR_CHANNEL_UNDEFINED, 1);
  give_back_picture(p);
  finishes_by_edition(points_picture(first_alone, 1, 1, OWN_MARK), both_planes, both_planes, 1);
}

/* In edition 1 a number comes that stands behind 26 in the order of the checks; in edition 2 it is 26 for channel 0. */
static void refuses_later(struct picture p, size_t records, size_t planes, uint32_t number, uint64_t place) {
  refuses_in_edition(p, records, planes, number, place);
  p.edition2 = CUZHANTIR_EDITION_2;
  refuses_in_edition(p, records, planes, CUZHANTIR_CHANNEL_UNDEFINED, 0);
}

/* 29 and 25 come before 26, and 27, 28 and 30 after it, whichever channel is not defined. */
static void checks_channel_0_in_turn(void) {
  static const uint32_t without_0[3] = {1, 0, 2};
  static const uint32_t outside[6] = {1, 0, 2, 2, 0, 1};
  struct picture p = points_picture(outside, 2, 2, 0);
  refuses_finishing(p, 2 * CUZHANTIR_COMPONENT_LENGTH, 2, CUZHANTIR_DEFINITION_OUTSIDE, 1);
  give_back_picture(p);

  p = points_picture(without_0, 1, 2, 0);
  p.count = 3;
  refuses_finishing(p, 3 * CUZHANTIR_COMPONENT_LENGTH, 3, CUZHANTIR_OUTSIDE_LIST, 0);
  p.count = 2;
  refuses_later(p, 0, 0, CUZHANTIR_DESTINATION_TOO_SHORT, 2 * CUZHANTIR_COMPONENT_LENGTH);
  refuses_later(p, 2 * CUZHANTIR_COMPONENT_LENGTH, 1, CUZHANTIR_DESTINATION_TOO_SHORT, 2);
  give_back_picture(p);

  p = palette_picture(without_0, 1);
  ((uint32_t *)(void *)p.comps.at)[CUZHANTIR_COMPONENT_DATA] = CUZHANTIR_NO_SAMPLES;
  refuses_later(p, 2 * CUZHANTIR_COMPONENT_LENGTH, 4, CUZHANTIR_COMPONENT_WITHOUT_SAMPLES, 0);
  CHECK(p.file.at[PALETTE_SECOND_COLUMN] == 1);
  p.file.at[PALETTE_SECOND_COLUMN] = 0;
  refuses_later(p, 2 * CUZHANTIR_COMPONENT_LENGTH, 4, CUZHANTIR_MAPPING_WRONG, 1);
  give_back_picture(p);
}

/* Order n, below 24, of four definitions. */
static void arrange(uint32_t n, const uint32_t *listed, uint32_t *arranged) {
  uint32_t left[4] = {0, 1, 2, 3};
  uint32_t i;
  uint32_t k;
  for (i = 0; i < 4; i++) {
    uint32_t chosen = n % (4 - i);
    n /= 4 - i;
    memcpy(arranged + 3 * i, listed + 3 * left[chosen], 3 * sizeof *arranged);
    for (k = chosen; k + 1 < 4 - i; k++) {
      left[k] = left[k + 1];
    }
  }
}

/* The numbers of all records in which two finished pictures of four planes differ, the mark apart from the others. */
struct differing {
  uint32_t marks;
  uint32_t others;
};

static struct differing compare_records(struct destinations a, struct destinations b) {
  struct differing d = {0, 0};
  uint32_t i;
  for (i = 0; i < 4 * CUZHANTIR_COMPONENT_LENGTH; i++) {
    if (records_of(a)[i] == records_of(b)[i]) {
      continue;
    }
    if (i % CUZHANTIR_COMPONENT_LENGTH == CUZHANTIR_COMPONENT_ALPHA) {
      d.marks++;
    } else {
      d.others++;
    }
  }
  return d;
}

/* No channel and no colour is named twice, so the order of the definitions does not matter: in edition 2 all numbers of the
   records are the same, in edition 1 all but the marks, and there some order changes a mark. */
static void lists_definitions_freely(void) {
  static const uint32_t listed[12] = {2, 0, 1, 0, 0, 2, 1, 1, 0, 3, 2, 0};
  uint32_t arranged[12];
  uint32_t edition2;
  uint32_t n;
  size_t way;
  for (edition2 = CUZHANTIR_EDITION_1; edition2 <= CUZHANTIR_EDITION_2; edition2++) {
    struct picture as_listed = points_picture(listed, 4, 4, 0);
    struct destinations first = lend_destinations(4 * CUZHANTIR_COMPONENT_LENGTH, 4, CUZHANTIR_ANSWER_LENGTH);
    uint32_t marks = 0;
    as_listed.edition2 = edition2;
    CHECK(finish_in_one(as_listed, first) == CUZHANTIR_DONE);
    for (n = 0; n < 24; n++) {
      struct picture p;
      arrange(n, listed, arranged);
      p = points_picture(arranged, 4, 4, 0);
      p.edition2 = edition2;
      for (way = 0; way < 2; way++) {
        struct destinations d = lend_destinations(4 * CUZHANTIR_COMPONENT_LENGTH, 4, CUZHANTIR_ANSWER_LENGTH);
        struct differing differing;
        CHECK(both[way](p, d) == CUZHANTIR_DONE);
        differing = compare_records(d, first);
        CHECK(differing.others == 0);
        CHECK(memcmp(planes_of(d), planes_of(first), 4 * sizeof(int32_t)) == 0);
        marks += differing.marks;
        give_back_destinations(d);
      }
      give_back_picture(p);
    }
    CHECK((marks == 0) == (edition2 == CUZHANTIR_EDITION_2));
    give_back_destinations(first);
    give_back_picture(as_listed);
  }
}

/* --- refusals of finishing --- */

/* The needed lengths: asked with nothing, then records alone, then both. */
static void asks_for_lengths(void) {
  struct picture p = turned_picture();
  refuses_finishing(p, 0, 0, CUZHANTIR_DESTINATION_TOO_SHORT, 3 * CUZHANTIR_COMPONENT_LENGTH);
  refuses_finishing(p, 3 * CUZHANTIR_COMPONENT_LENGTH - 1, 6, CUZHANTIR_DESTINATION_TOO_SHORT,
                    3 * CUZHANTIR_COMPONENT_LENGTH);
  refuses_finishing(p, 3 * CUZHANTIR_COMPONENT_LENGTH, 0, CUZHANTIR_DESTINATION_TOO_SHORT, 6);
  refuses_finishing(p, 3 * CUZHANTIR_COMPONENT_LENGTH, 5, CUZHANTIR_DESTINATION_TOO_SHORT, 6);
  give_back_picture(p);
}

/* One number too few in the list of components, and one sample too few. */
static void refuses_short_sources(void) {
  struct picture p = turned_picture();
  struct lent comps = p.comps;
  struct lent shorter = lend_copy(comps.at, comps.bytes - sizeof(uint32_t));
  p.comps = shorter;
  refuses_finishing(p, 3 * CUZHANTIR_COMPONENT_LENGTH, 6, CUZHANTIR_OUTSIDE_LIST, 0);
  p.comps = comps;
  give_back(shorter);

  {
    struct lent all = p.samples;
    shorter = lend_copy(all.at, all.bytes - sizeof(int32_t));
    p.samples = shorter;
    refuses_finishing(p, 3 * CUZHANTIR_COMPONENT_LENGTH, 6, CUZHANTIR_OUTSIDE_LIST, 0);
    p.samples = all;
    give_back(shorter);
  }

  p.count = 4;
  refuses_finishing(p, 4 * CUZHANTIR_COMPONENT_LENGTH, 6, CUZHANTIR_OUTSIDE_LIST, 0);
  p.count = UINT32_MAX;
  refuses_finishing(p, 4 * CUZHANTIR_COMPONENT_LENGTH, 6, CUZHANTIR_OUTSIDE_LIST, 0);
  p.count = 2;
  refuses_finishing(p, 3 * CUZHANTIR_COMPONENT_LENGTH, 6, CUZHANTIR_DEFINITION_OUTSIDE, 0);
  p.count = 3;
  give_back_picture(p);
}

/* A file that is refused is refused in both ways, with the box's offset. */
static void refuses_file(void) {
  struct picture p = turned_picture();
  p.file.at[4] = 'x';
  refuses_finishing(p, 3 * CUZHANTIR_COMPONENT_LENGTH, 6, CUZHANTIR_BOX_BEFORE_SIGNATURE, 0);
  p.file.at[4] = 'j';
  p.file.at[43] = 21;
  refuses_finishing(p, 3 * CUZHANTIR_COMPONENT_LENGTH, 6, CUZHANTIR_IHDR_LENGTH_WRONG, 40);
  give_back_picture(p);
}

/* A list for the answer of fewer than 4 numbers: nothing is done. */
static void refuses_short_answer(uint32_t edition2) {
  struct picture p = turned_picture();
  struct lent no_reading = lend(0);
  size_t length;
  size_t way;
  p.edition2 = edition2;
  for (length = 0; length < CUZHANTIR_ANSWER_LENGTH; length++) {
    for (way = 0; way < 2; way++) {
      struct destinations d = lend_destinations(3 * CUZHANTIR_COMPONENT_LENGTH, 6, length);
      /* with a list that is no reading, and with a file that is refused, too */
      CHECK(finish_with(p, no_reading, d) == CUZHANTIR_DESTINATION_TOO_SHORT);
      p.file.at[4] = 'x';
      CHECK(both[way](p, d) == CUZHANTIR_DESTINATION_TOO_SHORT);
      p.file.at[4] = 'j';
      CHECK(both[way](p, d) == CUZHANTIR_DESTINATION_TOO_SHORT);
      CHECK(untouched(d.records));
      CHECK(untouched(d.planes));
      CHECK(untouched(d.answer));
      give_back_destinations(d);
    }
  }
  give_back(no_reading);
  give_back_picture(p);
}

static void refuses_reading_list(struct picture p, struct lent reading, uint32_t number, uint64_t place) {
  struct destinations d = lend_destinations(3 * CUZHANTIR_COMPONENT_LENGTH, 6, CUZHANTIR_ANSWER_LENGTH);
  CHECK(finish_with(p, reading, d) == number);
  answers_refusal(d, number, place);
  give_back_destinations(d);
}

/* Finishing with a list that is no reading, with one of another file, and with a refused one. */
static void refuses_no_reading(uint32_t edition2) {
  struct picture p = turned_picture();
  uint32_t returned;
  struct lent reading = read_lent(p.file, &returned);
  uint64_t *numbers = (uint64_t *)(void *)reading.at;
  size_t length;
  p.edition2 = edition2;
  for (length = 0; length < CUZHANTIR_READING_LENGTH; length++) {
    struct lent shorter = lend_copy(reading.at, length * sizeof(uint64_t));
    refuses_reading_list(p, shorter, CUZHANTIR_OUTSIDE_LIST, 0);
    give_back(shorter);
  }

  /* a file that ends one byte before its last definition does */
  {
    struct lent whole = p.file;
    size_t end = (size_t)numbers[CUZHANTIR_READING_CDEF_PLACE] + 3 * CUZHANTIR_CDEF_BYTES;
    p.file = lend_copy(whole.at, end - 1);
    refuses_reading_list(p, reading, CUZHANTIR_OUTSIDE_LIST, 0);
    give_back(p.file);
    p.file = whole;
  }

  numbers[CUZHANTIR_READING_CDEF_PLACE] = UINT64_MAX;
  refuses_reading_list(p, reading, CUZHANTIR_OUTSIDE_LIST, 0);

  /* sizes of a palette that no reading has; the low 32 bits alone would be no palette */
  numbers[CUZHANTIR_READING_CDEF_COUNT] = 0;
  numbers[CUZHANTIR_READING_PCLR_COLUMNS] = UINT64_C(1) << 32;
  refuses_reading_list(p, reading, CUZHANTIR_OUTSIDE_LIST, 0);
  numbers[CUZHANTIR_READING_PCLR_COLUMNS] = 0;
  numbers[CUZHANTIR_READING_PCLR_ENTRIES] = UINT64_C(1) << 32;
  refuses_reading_list(p, reading, CUZHANTIR_OUTSIDE_LIST, 0);
  numbers[CUZHANTIR_READING_PCLR_ENTRIES] = 0;

  numbers[CUZHANTIR_READING_KIND] = 3;
  refuses_reading_list(p, reading, CUZHANTIR_OUTSIDE_LIST, 0);
  numbers[CUZHANTIR_READING_KIND] = CUZHANTIR_READING_REFUSED;
  numbers[CUZHANTIR_READING_VALUE] = CUZHANTIR_CDEF_EMPTY;
  numbers[CUZHANTIR_READING_PLACE] = 77;
  refuses_reading_list(p, reading, CUZHANTIR_CDEF_EMPTY, 77);
  numbers[CUZHANTIR_READING_VALUE] = CUZHANTIR_DEFINITION_OUTSIDE;
  refuses_reading_list(p, reading, CUZHANTIR_OUTSIDE_LIST, 0);
  numbers[CUZHANTIR_READING_VALUE] = CUZHANTIR_DONE;
  refuses_reading_list(p, reading, CUZHANTIR_OUTSIDE_LIST, 0);
  give_back(reading);
  give_back_picture(p);
}

/* Lists of length 0 with a pointer to nothing: a picture without components, and one whose planes have no samples. */
static void takes_null(uint32_t edition2) {
  uint64_t reading[CUZHANTIR_READING_LENGTH];
  uint64_t answer[CUZHANTIR_ANSWER_LENGTH];
  uint32_t comps[3 * CUZHANTIR_COMPONENT_LENGTH];
  uint32_t records[3 * CUZHANTIR_COMPONENT_LENGTH];
  struct bytes file;
  uint32_t c;
  CHECK(cuzhantir_read(NULL, 0, NULL, 0) == CUZHANTIR_DESTINATION_TOO_SHORT);
  CHECK(cuzhantir_read(NULL, 0, reading, CUZHANTIR_READING_LENGTH) == CUZHANTIR_DONE);
  CHECK(cuzhantir_finish(NULL, 0, reading, CUZHANTIR_READING_LENGTH, 0, edition2, NULL, 0, 0, NULL, 0, NULL, 0, NULL, 0,
                         answer, CUZHANTIR_ANSWER_LENGTH) == CUZHANTIR_DONE);
  CHECK(answer[CUZHANTIR_ANSWER_COUNT] == 0);
  CHECK(cuzhantir_finish(NULL, 0, NULL, 0, 0, edition2, NULL, 0, 0, NULL, 0, NULL, 0, NULL, 0, answer,
                         CUZHANTIR_ANSWER_LENGTH) == CUZHANTIR_OUTSIDE_LIST);
  CHECK(cuzhantir_finish(NULL, 0, NULL, 0, 0, edition2, NULL, 0, 0, NULL, 0, NULL, 0, NULL, 0, NULL, 0) ==
        CUZHANTIR_DESTINATION_TOO_SHORT);
  CHECK(cuzhantir_picture(NULL, 0, 0, edition2, NULL, 0, 0, NULL, 0, NULL, 0, NULL, 0, answer,
                          CUZHANTIR_ANSWER_LENGTH) == CUZHANTIR_DONE);
  CHECK(cuzhantir_picture(NULL, 0, 0, edition2, NULL, 0, 0, NULL, 0, NULL, 0, NULL, 0, NULL, 0) ==
        CUZHANTIR_DESTINATION_TOO_SHORT);
  CHECK(cuzhantir_picture(NULL, 0, 0, edition2, NULL, 0, 1, NULL, 0, NULL, 0, NULL, 0, answer,
                          CUZHANTIR_ANSWER_LENGTH) == CUZHANTIR_OUTSIDE_LIST);

  turned_file(&file);
  for (c = 0; c < 3; c++) {
    component(comps + c * CUZHANTIR_COMPONENT_LENGTH, 1, 2, CUZHANTIR_NO_SAMPLES);
  }
  CHECK(cuzhantir_picture(file.at, file.length, 0, edition2, comps, 3 * CUZHANTIR_COMPONENT_LENGTH, 3, NULL, 0, records,
                          3 * CUZHANTIR_COMPONENT_LENGTH, NULL, 0, answer, CUZHANTIR_ANSWER_LENGTH) == CUZHANTIR_DONE);
  CHECK(answer[CUZHANTIR_ANSWER_COUNT] == 3);
  CHECK(records[CUZHANTIR_COMPONENT_DATA] == CUZHANTIR_NO_SAMPLES);
  CHECK(cuzhantir_read(file.at, file.length, reading, CUZHANTIR_READING_LENGTH) == CUZHANTIR_DONE);
  CHECK(cuzhantir_finish(file.at, file.length, reading, CUZHANTIR_READING_LENGTH, 0, edition2, comps,
                         3 * CUZHANTIR_COMPONENT_LENGTH, 3, NULL, 0, records, 3 * CUZHANTIR_COMPONENT_LENGTH, NULL, 0,
                         answer, CUZHANTIR_ANSWER_LENGTH) == CUZHANTIR_DONE);
  CHECK(cuzhantir_finish(file.at, file.length, reading, CUZHANTIR_READING_LENGTH, 0, edition2, comps,
                         3 * CUZHANTIR_COMPONENT_LENGTH, 3, NULL, 0, NULL, 0, NULL, 0, answer,
                         CUZHANTIR_ANSWER_LENGTH) == CUZHANTIR_DESTINATION_TOO_SHORT);
  CHECK(cuzhantir_write(NULL, 0, 0, 0, 0, 1, 1, CUZHANTIR_SPACE_GREY, NULL, 0, 0, NULL, 0, answer,
                        CUZHANTIR_ANSWER_LENGTH) == CUZHANTIR_WRITE_COUNT_WRONG);
  CHECK(cuzhantir_write(NULL, 0, 1, 0, 0, 1, 1, CUZHANTIR_SPACE_GREY, NULL, 0, 0, NULL, 0, answer,
                        CUZHANTIR_ANSWER_LENGTH) == CUZHANTIR_OUTSIDE_LIST);
  CHECK(cuzhantir_write(comps, CUZHANTIR_COMPONENT_LENGTH, 1, 0, 0, 1, 1, CUZHANTIR_SPACE_GREY, NULL, 0, 0, NULL, 0,
                        answer, CUZHANTIR_ANSWER_LENGTH) == CUZHANTIR_DESTINATION_TOO_SHORT);
  CHECK(cuzhantir_write(NULL, 0, 0, 0, 0, 0, 0, 0, NULL, 0, 0, NULL, 0, NULL, 0) == CUZHANTIR_DESTINATION_TOO_SHORT);
}

/* --- writing --- */

/* What is handed to writing. */
struct request {
  struct lent comps;
  uint32_t count;
  uint32_t corners[4];
  uint32_t space;
  struct lent profile;
  uint64_t codestream;
};

static uint32_t write_request(struct request r, struct lent d, struct lent answer) {
  return cuzhantir_write((uint32_t *)(void *)r.comps.at, r.comps.bytes / sizeof(uint32_t), r.count, r.corners[0],
                         r.corners[1], r.corners[2], r.corners[3], r.space, r.profile.at, r.profile.bytes, r.codestream,
                         d.at, d.bytes, (uint64_t *)(void *)answer.at, answer.bytes / sizeof(uint64_t));
}

/* sRGB with an opacity channel, 3 wide and 2 high. */
static struct request opacity_request(void) {
  uint32_t comps[4 * CUZHANTIR_COMPONENT_LENGTH];
  struct request r;
  uint32_t c;
  for (c = 0; c < 4; c++) {
    component(comps + c * CUZHANTIR_COMPONENT_LENGTH, 2, 3, CUZHANTIR_NO_SAMPLES);
  }
  comps[3 * CUZHANTIR_COMPONENT_LENGTH + CUZHANTIR_COMPONENT_ALPHA] = 1;
  r.comps = lend_copy(comps, sizeof comps);
  r.count = 4;
  r.corners[0] = 10;
  r.corners[1] = 20;
  r.corners[2] = 13;
  r.corners[3] = 22;
  r.space = CUZHANTIR_SPACE_SRGB;
  r.profile = lend(0);
  r.codestream = 1000;
  return r;
}

static void give_back_request(struct request r) {
  give_back(r.comps);
  give_back(r.profile);
}

static void refuses_writing(struct request r, size_t room, uint32_t number, uint64_t place) {
  struct lent d = lend(room);
  struct lent list = lend(CUZHANTIR_ANSWER_LENGTH * sizeof(uint64_t));
  const uint64_t *answer = (const uint64_t *)(void *)list.at;
  CHECK(write_request(r, d, list) == number);
  CHECK(answer[CUZHANTIR_ANSWER_KIND] == CUZHANTIR_ANSWER_REFUSED);
  CHECK(answer[CUZHANTIR_ANSWER_NUMBER] == number);
  CHECK(answer[CUZHANTIR_ANSWER_PLACE] == place);
  CHECK(answer[CUZHANTIR_ANSWER_COUNT] == 0);
  CHECK(untouched(d));
  give_back(list);
  give_back(d);
}

/* What was written is read back, field by field. */
static void reads_back(struct lent d, size_t written) {
  uint64_t reading[CUZHANTIR_READING_LENGTH];
  struct cuzhantir_definition def = {9, 9, 9};
  uint32_t c;
  CHECK(cuzhantir_read(d.at, written, reading, CUZHANTIR_READING_LENGTH) == CUZHANTIR_DONE);
  CHECK(reading[CUZHANTIR_READING_KIND] == CUZHANTIR_READING_CODESTREAM);
  CHECK(reading[CUZHANTIR_READING_VALUE] == written);
  CHECK(reading[CUZHANTIR_READING_H] == 2);
  CHECK(reading[CUZHANTIR_READING_W] == 3);
  CHECK(reading[CUZHANTIR_READING_NUMCOMPS] == 4);
  CHECK(reading[CUZHANTIR_READING_BPC] == 7);
  CHECK(reading[CUZHANTIR_READING_METH] == 1);
  CHECK(reading[CUZHANTIR_READING_ENUMCS] == 16);
  CHECK(reading[CUZHANTIR_READING_CDEF_COUNT] == 4);
  for (c = 0; c < 4; c++) {
    CHECK(cuzhantir_definition_at(d.at, written, reading, c, &def) == 1);
    CHECK(def.channel == c);
    CHECK(def.typ == (c < 3 ? 0u : 1u));
    CHECK(def.asoc == (c < 3 ? c + 1 : 0u));
  }
  /* the codestream's box: its header and the length that was named */
  CHECK(d.at[written - 8] == 0 && d.at[written - 7] == 0 && d.at[written - 6] == 0x03 && d.at[written - 5] == 0xf0);
}

static void writes_and_reads_back(void) {
  struct request r = opacity_request();
  struct lent list = lend(CUZHANTIR_ANSWER_LENGTH * sizeof(uint64_t));
  const uint64_t *answer = (const uint64_t *)(void *)list.at;
  struct lent d = lend(130);
  CHECK(write_request(r, d, list) == CUZHANTIR_DONE);
  CHECK(answer[CUZHANTIR_ANSWER_KIND] == CUZHANTIR_ANSWER_DONE);
  CHECK(answer[CUZHANTIR_ANSWER_NUMBER] == CUZHANTIR_DONE);
  CHECK(answer[CUZHANTIR_ANSWER_COUNT] == 119);
  CHECK(untouched_from(d, 119));
  reads_back(d, 119);
  give_back(d);
  give_back(list);
  give_back_request(r);
}

/* A profile goes into the file byte for byte. */
static void writes_profile(void) {
  static const uint8_t bytes[5] = {9, 8, 7, 6, 5};
  uint64_t reading[CUZHANTIR_READING_LENGTH];
  struct request r = opacity_request();
  struct lent list = lend(CUZHANTIR_ANSWER_LENGTH * sizeof(uint64_t));
  const uint64_t *answer = (const uint64_t *)(void *)list.at;
  struct lent d = lend(200);
  give_back(r.profile);
  r.profile = lend_copy(bytes, sizeof bytes);
  CHECK(write_request(r, d, list) == CUZHANTIR_DONE);
  CHECK(cuzhantir_read(d.at, (size_t)answer[CUZHANTIR_ANSWER_COUNT], reading, CUZHANTIR_READING_LENGTH) ==
        CUZHANTIR_DONE);
  CHECK(reading[CUZHANTIR_READING_METH] == 2);
  CHECK(reading[CUZHANTIR_READING_ICC_COUNT] == sizeof bytes);
  CHECK(memcmp(d.at + reading[CUZHANTIR_READING_ICC_PLACE], bytes, sizeof bytes) == 0);
  give_back(d);
  give_back(list);
  give_back_request(r);
}

/* Every list one element too short, and each number of writing. */
static void refuses_requests(void) {
  struct request r = opacity_request();
  uint32_t *comps = (uint32_t *)(void *)r.comps.at;
  struct lent all = r.comps;
  size_t length;
  refuses_writing(r, 0, CUZHANTIR_DESTINATION_TOO_SHORT, 119);
  refuses_writing(r, 118, CUZHANTIR_DESTINATION_TOO_SHORT, 119);

  r.comps = lend_copy(all.at, all.bytes - sizeof(uint32_t));
  refuses_writing(r, 200, CUZHANTIR_OUTSIDE_LIST, 0);
  give_back(r.comps);
  r.comps = all;

  for (length = 0; length < CUZHANTIR_ANSWER_LENGTH; length++) {
    struct lent d = lend(200);
    struct lent answer = lend(length * sizeof(uint64_t));
    CHECK(write_request(r, d, answer) == CUZHANTIR_DESTINATION_TOO_SHORT);
    CHECK(untouched(d));
    CHECK(untouched(answer));
    give_back(answer);
    give_back(d);
  }

  r.count = 0;
  refuses_writing(r, 200, CUZHANTIR_WRITE_COUNT_WRONG, 0);
  r.count = 16385;
  refuses_writing(r, 200, CUZHANTIR_WRITE_COUNT_WRONG, 0);
  r.count = 4;
  r.corners[2] = r.corners[0];
  refuses_writing(r, 200, CUZHANTIR_WRITE_ZERO, 0);
  r.corners[2] = 13;
  r.codestream = 4261412864u;
  refuses_writing(r, 200, CUZHANTIR_WRITE_TOO_LONG, 0);
  r.codestream = 1000;
  comps[2 * CUZHANTIR_COMPONENT_LENGTH + CUZHANTIR_COMPONENT_PREC] = 39;
  refuses_writing(r, 200, CUZHANTIR_WRITE_DEPTH_WRONG, 2);
  comps[2 * CUZHANTIR_COMPONENT_LENGTH + CUZHANTIR_COMPONENT_PREC] = 8;
  comps[CUZHANTIR_COMPONENT_LENGTH + CUZHANTIR_COMPONENT_SGND] = 2;
  refuses_writing(r, 200, CUZHANTIR_WRITE_DEPTH_WRONG, 1);
  give_back_request(r);
}

/* --- words --- */

/* Each number has words of its own, and no other has. */
static void has_words(void) {
  uint64_t n;
  uint64_t m;
  const char *none = cuzhantir_cause(UINT64_MAX);
  for (n = CUZHANTIR_DONE; n <= CUZHANTIR_WRITE_TOO_LONG; n++) {
    CHECK(strcmp(cuzhantir_cause(n), none) != 0);
    for (m = 0; m < n; m++) {
      CHECK(strcmp(cuzhantir_cause(n), cuzhantir_cause(m)) != 0);
    }
  }
  CHECK(strcmp(cuzhantir_cause(CUZHANTIR_WRITE_TOO_LONG + 1), none) == 0);
}

int main(int argc, char **argv) {
  size_t i;
  if (argc != 2) {
    give_up("usage: entries SAMPLES");
  }
  for (i = 0; i < sizeof samples / sizeof samples[0]; i++) {
    reads_sample(argv[1], &samples[i]);
  }
  reads_definitions(argv[1]);
  reads_mappings(argv[1]);
  refuses_small_files();
  reads_ended();
  reads_into_any_length();
  for (i = 0; i < PICKS; i++) {
    finishes_turned(picks[i].number);
    finishes_ignoring(picks[i].number);
    finishes_palette(picks[i].number);
  }
  picks_edition();
  marks_own_channel();
  marks_last_definition();
  marks_palette_channels();
  keeps_marks();
  asks_for_channel_0();
  checks_channel_0_in_turn();
  lists_definitions_freely();
  asks_for_lengths();
  refuses_short_sources();
  refuses_file();
  refuses_short_answer(CUZHANTIR_EDITION_1);
  refuses_short_answer(CUZHANTIR_EDITION_2);
  refuses_no_reading(CUZHANTIR_EDITION_1);
  refuses_no_reading(CUZHANTIR_EDITION_2);
  takes_null(CUZHANTIR_EDITION_1);
  takes_null(CUZHANTIR_EDITION_2);
  writes_and_reads_back();
  writes_profile();
  refuses_requests();
  has_words();
  printf("entries: %u checks, %u failed\n", checks, failures);
  return failures == 0 ? 0 : 1;
}
