#include "picture.h"

#include <errno.h>
#include <inttypes.h>
#include <stdio.h>
#include <stdlib.h>
#include <string.h>

#include "causes.h"
#include "compare.h"
#include "decode.h"
#include "known.h"
#include "meaning.h"
#include "show.h"

struct work {
  const struct options *options;
  const char *name; // without folder
  char stem[256];   // without ending too
  bool headed;      // the name was said
  struct bytes file;
  uint64_t reading[CUZHANTIR_READING_LENGTH];
  struct result result;
};

static const char *name_of(const char *path)
{
  const char *slash = strrchr(path, '/');
  return slash == NULL ? path : slash + 1;
}

static void stem_of(const char *name, char *stem, size_t len)
{
  snprintf(stem, len, "%s", name);
  char *end = strrchr(stem, '.');
  if (end != NULL && end != stem) {
    *end = '\0';
  }
}

// The picture's name before the first line about it.
static void head(struct work *w)
{
  if (!w->headed) {
    printf("%s%s\n", w->name, w->options->edition2 == CUZHANTIR_EDITION_1 ? "" : ", edition 2");
    w->headed = true;
  }
}

static void judge(struct work *w, enum verdict v, const char *word)
{
  w->result.verdict = v;
  snprintf(w->result.word, sizeof w->result.word, "%s", word);
}

// A refusal of ours, beside OpenJPEG's answer to the same file.
static void both_refuse(struct work *w, const char *word)
{
  struct decoded theirs = decode_file(w->file);
  head(w);
  if (theirs.image == NULL) {
    printf("  OpenJPEG refuses the file too: %s\n", theirs.message);
    judge(w, VERDICT_REFUSED, word);
  } else {
    printf("  DIFFERS: OpenJPEG makes %" PRIu32 " planes of it\n", (uint32_t)theirs.image->numcomps);
    judge(w, VERDICT_DIFFER, "differ");
  }
  free_decoded(&theirs);
}

// What OpenJPEG makes of a file that ended at a high word has to come from the codestream behind it.
static bool decodes_behind_high_word(struct work *w)
{
  uint64_t at = behind_high_word(w->file);
  if (at == 0) {
    return false;
  }
  struct bytes rest = {w->file.data + at, w->file.len - at};
  struct decoded whole = decode_file(w->file);
  struct decoded alone = decode_codestream(rest);
  bool both = whole.image != NULL && alone.image != NULL;
  free_decoded(&whole);
  free_decoded(&alone);
  return both;
}

static void ended(struct work *w)
{
  char word[64];
  head(w);
  printf("  no codestream: the file ended\n");
  if (!decodes_behind_high_word(w)) {
    both_refuse(w, "ended");
    return;
  }
  printf("  %s\n", known_high_word()->line);
  snprintf(word, sizeof word, "known %s", known_high_word()->word);
  judge(w, VERDICT_KNOWN, word);
}

static void refused(struct work *w, uint64_t number, uint64_t place)
{
  char word[64];
  head(w);
  printf("  refused: ");
  print_refusal(stdout, number, place);
  printf("\n");
  snprintf(word, sizeof word, "refused %" PRIu64 " %" PRIu64, number, place);
  both_refuse(w, word);
}

static void judge_refusal(struct work *w, const opj_image_t *codestream, const char *message)
{
  char word[64];
  const struct known *k = known_refusal(w->file, w->reading, w->options->edition2, codestream, message);
  head(w);
  if (k == NULL) {
    printf("  DIFFERS: finished here, OpenJPEG refuses: %s\n", message);
    judge(w, VERDICT_DIFFER, "differ");
    return;
  }
  printf("  OpenJPEG refuses: %s\n  %s\n", message, k->line);
  snprintf(word, sizeof word, "known %s", k->word);
  judge(w, VERDICT_KNOWN, word);
}

// What is compared of each plane, and whether any is not compared whole.
static bool set_measures(struct work *w, const struct finished *f, const struct components *c, struct measure *measures)
{
  bool some = false;
  for (uint32_t p = 0; p < planes_of(f); p++) {
    struct meaning m = meaning_of(w->file, w->reading, f, p);
    measures[p].limit = samples_set(w->file, w->reading, c, m.channel);
    measures[p].by_definition = w->options->edition2 != CUZHANTIR_EDITION_1;
    // where nothing tells the channel, no definition is known, and the mark is not compared
    measures[p].mark = m.channel == NO_CHANNEL ? plane_number(f, p, CUZHANTIR_COMPONENT_ALPHA) : m.mark;
    some = some || measures[p].limit != ALL_SAMPLES;
  }
  return some;
}

static void judge_planes(struct work *w, const struct finished *f, const struct components *c, const opj_image_t *theirs)
{
  char word[64];
  struct measure *measures = need(planes_of(f), sizeof *measures);
  bool some = set_measures(w, f, c, measures);
  struct difference d = compare_planes(f, theirs, measures);
  free(measures);
  if (d.found || some || !w->options->quiet) {
    head(w);
  }
  if (d.found) {
    printf("  DIFFERS: %s\n", d.text);
    judge(w, VERDICT_DIFFER, "differ");
    return;
  }
  if (some) {
    printf("  %s\n", known_rest()->line);
    snprintf(word, sizeof word, "known %s", known_rest()->word);
    judge(w, VERDICT_KNOWN, word);
    return;
  }
  if (!w->options->quiet) {
    printf(planes_of(f) == 1 ? "  1 plane agrees" : "  %" PRIu32 " planes agree", planes_of(f));
    printf("%s\n", w->options->edition2 == CUZHANTIR_EDITION_1 ? "" : ", and marks are those of the definitions");
  }
  snprintf(word, sizeof word, "agree %" PRIu32, planes_of(f));
  judge(w, VERDICT_AGREE, word);
}

static void judge_finished(struct work *w, const struct finished *f, const struct components *c,
                           const opj_image_t *codestream)
{
  char word[64];
  const struct known *k = known_overrun(w->file, w->reading, c);
  if (k != NULL) {
    head(w);
    printf("  %s\n", k->line);
    snprintf(word, sizeof word, "known %s", k->word);
    judge(w, VERDICT_KNOWN, word);
    return;
  }
  struct decoded theirs = decode_file(w->file);
  if (theirs.image == NULL) {
    judge_refusal(w, codestream, theirs.message);
  } else {
    judge_planes(w, f, c, theirs.image);
  }
  free_decoded(&theirs);
}

static struct flags flags_of(const struct options *o)
{
  struct flags flags = {o->wrong == WRONG_IGNORE, o->edition2};
  if (o->wrong == WRONG_EDITION) {
    flags.edition2 = o->edition2 == CUZHANTIR_EDITION_1 ? CUZHANTIR_EDITION_2 : CUZHANTIR_EDITION_1;
  }
  return flags;
}

// A line a plane: the picture's name, the plane and the 13 numbers of its record.
static void list_records(const struct work *w, const struct finished *f)
{
  for (uint32_t p = 0; w->options->records != NULL && p < planes_of(f); p++) {
    fprintf(w->options->records, "%s\t%" PRIu32, w->name, p);
    for (unsigned k = 0; k < CUZHANTIR_COMPONENT_LENGTH; k++) {
      fprintf(w->options->records, "\t%" PRIu32, plane_number(f, p, k));
    }
    fputc('\n', w->options->records);
  }
}

static void finish(struct work *w, const opj_image_t *codestream)
{
  struct components c = components_of(codestream);
  struct finished f = finish_picture(w->file, w->reading, flags_of(w->options), &c);
  make_wrong(w->options->wrong, &f);
  list_records(w, &f);
  if (!is_finished(&f)) {
    refused(w, f.answer[CUZHANTIR_ANSWER_NUMBER], f.answer[CUZHANTIR_ANSWER_PLACE]);
  } else {
    struct place to = {w->options->folder, w->stem};
    bool fine = show_planes(to, w->options->quiet, w->file, w->reading, &f);
    judge_finished(w, &f, &c, codestream);
    if (!fine) {
      judge(w, VERDICT_FAILED, "failed");
    }
  }
  free_finished(&f);
  free_components(&c);
}

static void not_decoded(struct work *w, uint64_t offset, const char *message)
{
  head(w);
  printf("  OpenJPEG refuses the codestream at %" PRIu64 ": %s\n", offset, message);
  both_refuse(w, "undecodable");
}

static void take_codestream(struct work *w)
{
  uint64_t offset = w->reading[CUZHANTIR_READING_VALUE] + (w->options->wrong == WRONG_OFFSET);
  uint64_t at = offset < w->file.len ? offset : w->file.len;
  struct bytes codestream = {w->file.data + at, w->file.len - at};
  struct decoded d = decode_codestream(codestream);
  if (d.image == NULL) {
    not_decoded(w, offset, d.message);
  } else {
    if (!w->options->quiet) {
      uint32_t n = d.image->numcomps;
      printf("  codestream at %" PRIu64 ", %" PRIu32 " component%s\n", offset, n, n == 1 ? "" : "s");
    }
    finish(w, d.image);
  }
  free_decoded(&d);
}

static void take_file(struct work *w)
{
  cuzhantir_read(w->file.data, w->file.len, w->reading, CUZHANTIR_READING_LENGTH);
  switch (w->reading[CUZHANTIR_READING_KIND]) {
  case CUZHANTIR_READING_CODESTREAM: take_codestream(w); break;
  case CUZHANTIR_READING_ENDED: ended(w); break;
  default: refused(w, w->reading[CUZHANTIR_READING_VALUE], w->reading[CUZHANTIR_READING_PLACE]); break;
  }
}

struct result show_picture(const char *path, const struct options *o)
{
  struct work w = {.options = o, .name = name_of(path)};
  stem_of(w.name, w.stem, sizeof w.stem);
  if (!o->quiet) {
    head(&w);
  }
  if (!read_bytes(path, &w.file)) {
    fprintf(stderr, "demo: %s cannot be read: %s\n", path, strerror(errno));
    judge(&w, VERDICT_FAILED, "failed");
    return w.result;
  }
  take_file(&w);
  free_bytes(&w.file);
  return w.result;
}
