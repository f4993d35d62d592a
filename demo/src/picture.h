// One picture, from its file to the verdict.
#ifndef DEMO_PICTURE_H
#define DEMO_PICTURE_H

#include <stdio.h>

#include "wrong.h"

enum verdict { VERDICT_AGREE, VERDICT_REFUSED, VERDICT_KNOWN, VERDICT_DIFFER, VERDICT_FAILED, VERDICTS };

struct options {
  const char *folder; // where planes are written; NULL: they are not
  bool quiet;         // say nothing of pictures that agree
  uint32_t edition2;  // enum cuzhantir_edition
  FILE *records;      // where the records of finished planes are listed; NULL: they are not
  enum wrong wrong;
};

struct result {
  enum verdict verdict;
  char word[64]; // the verdict in short: "agree 3", "refused 27 1", "known channel-0", "differ"
};

struct result show_picture(const char *path, const struct options *o);

#endif
