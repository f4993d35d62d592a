// From JP2 files to planes in colour order, by the library, beside OpenJPEG.
#include <stdio.h>
#include <stdlib.h>
#include <string.h>

#include "picture.h"

static const char help[] =
    "demo [--edition N] [--out FOLDER] [--verdicts FILE] [--records FILE] [--quiet] [--wrong WORD] FILE.jp2 ...\n"
    "\n"
    "Decodes the codestream of each file with OpenJPEG, has its planes put in colour order by the library, and compares\n"
    "them with those that OpenJPEG makes of the whole file.\n"
    "\n"
    "  --edition N       the edition of the rules by which planes are finished, 1 or 2; 1 where none is named. OpenJPEG's\n"
    "                    marks are edition 1's. In edition 2 marks are compared with the file's definitions, and all else\n"
    "                    with OpenJPEG's\n"
    "  --out FOLDER      writes a PGM for each plane, and two PPM where planes 0 to 2 are red, green and blue: these three,\n"
    "                    and what a viewer that goes by the marks shows on white\n"
    "  --verdicts FILE   writes a line a picture: its name, a tab, the verdict\n"
    "  --records FILE    writes a line a finished plane: its picture's name, its number and the 13 numbers of its record\n"
    "  --quiet           says nothing of pictures that agree\n"
    "  --wrong WORD      makes our result wrong, so that a difference has to be found: ignore (boxes of colour ignored),\n"
    "                    edition (finished by the other one), offset (codestream taken a byte late), swap (first and last\n"
    "                    plane exchanged), sample, mark, precision (of the last plane)\n"
    "\n"
    "Exit status: 0 all agree, or differ as known; 1 one differs; 2 something could not be read, written or understood.\n";

struct run {
  struct options options;
  const char *verdicts;
  const char *records;
  int first; // of the files among the arguments
};

static int misused(const char *what)
{
  fprintf(stderr, "demo: %s\n%s", what, help);
  return 2;
}

static bool edition_by_name(const char *word, uint32_t *edition2)
{
  *edition2 = strcmp(word, "1") == 0 ? CUZHANTIR_EDITION_1 : CUZHANTIR_EDITION_2;
  return strcmp(word, "1") == 0 || strcmp(word, "2") == 0;
}

// One option and its word, if it has one: how many arguments were taken, 0 where it is no option.
static int take_option(struct run *r, char **argv)
{
  if (strcmp(argv[0], "--quiet") == 0) {
    r->options.quiet = true;
    return 1;
  }
  if (argv[1] == NULL) {
    return 0;
  }
  if (strcmp(argv[0], "--out") == 0) {
    r->options.folder = argv[1];
    return 2;
  }
  if (strcmp(argv[0], "--verdicts") == 0) {
    r->verdicts = argv[1];
    return 2;
  }
  if (strcmp(argv[0], "--records") == 0) {
    r->records = argv[1];
    return 2;
  }
  if (strcmp(argv[0], "--edition") == 0) {
    return edition_by_name(argv[1], &r->options.edition2) ? 2 : 0;
  }
  return strcmp(argv[0], "--wrong") == 0 && wrong_by_name(argv[1], &r->options.wrong) ? 2 : 0;
}

static bool take_options(struct run *r, int argc, char **argv)
{
  r->first = 1;
  while (r->first < argc && strncmp(argv[r->first], "--", 2) == 0) {
    int taken = take_option(r, argv + r->first);
    if (taken == 0) {
      return false;
    }
    r->first += taken;
  }
  return true;
}

// A file to write to; true where none is named.
static bool open_named(const char *path, FILE **to)
{
  return path == NULL || (*to = fopen(path, "w")) != NULL;
}

static bool close_named(FILE *to)
{
  return to == NULL || fclose(to) == 0;
}

static void summarise(const unsigned *counts, int pictures)
{
  printf("%d in all: %u agree, %u refused by both, %u differ as known, %u differ, %u failed\n", pictures,
         counts[VERDICT_AGREE], counts[VERDICT_REFUSED], counts[VERDICT_KNOWN], counts[VERDICT_DIFFER],
         counts[VERDICT_FAILED]);
}

static int show_all(struct run *r, int argc, char **argv, FILE *verdicts)
{
  unsigned counts[VERDICTS] = {0};
  for (int i = r->first; i < argc; i++) {
    struct result got = show_picture(argv[i], &r->options);
    counts[got.verdict]++;
    if (verdicts != NULL) {
      const char *slash = strrchr(argv[i], '/');
      fprintf(verdicts, "%s\t%s\n", slash == NULL ? argv[i] : slash + 1, got.word);
    }
  }
  summarise(counts, argc - r->first);
  return counts[VERDICT_FAILED] > 0 ? 2 : counts[VERDICT_DIFFER] > 0 ? 1 : 0;
}

int main(int argc, char **argv)
{
  struct run r = {.options = {.edition2 = CUZHANTIR_EDITION_1, .wrong = WRONG_NOTHING}};
  if (!take_options(&r, argc, argv)) {
    return misused("no such option, or its word is missing or another");
  }
  if (r.first == argc) {
    return misused("no file named");
  }
  FILE *verdicts = NULL;
  if (!open_named(r.verdicts, &verdicts) || !open_named(r.records, &r.options.records)) {
    return misused("the file of verdicts or of records cannot be written");
  }
  int status = show_all(&r, argc, argv, verdicts);
  bool closed = close_named(verdicts);
  return close_named(r.options.records) && closed ? status : 2;
}
