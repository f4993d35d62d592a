#include "wrong.h"

#include <string.h>

static const char *const words[] = {"nothing", "ignore", "edition", "offset", "swap", "sample", "mark", "precision"};

bool wrong_by_name(const char *word, enum wrong *w)
{
  for (unsigned i = 0; i < sizeof words / sizeof words[0]; i++) {
    if (strcmp(word, words[i]) == 0) {
      *w = (enum wrong)i;
      return true;
    }
  }
  return false;
}

static void swap_records(uint32_t *a, uint32_t *b)
{
  for (unsigned k = 0; k < CUZHANTIR_COMPONENT_LENGTH; k++) {
    uint32_t kept = a[k];
    a[k] = b[k];
    b[k] = kept;
  }
}

void make_wrong(enum wrong w, struct finished *f)
{
  if (!is_finished(f) || planes_of(f) == 0) {
    return;
  }
  uint32_t last = planes_of(f) - 1;
  uint32_t *record = f->records + (size_t)last * CUZHANTIR_COMPONENT_LENGTH;
  switch (w) {
  case WRONG_SWAP: swap_records(f->records, record); break;
  case WRONG_SAMPLE: f->planes[record[CUZHANTIR_COMPONENT_DATA] + plane_size(f, last) - 1] ^= 1; break;
  case WRONG_MARK: record[CUZHANTIR_COMPONENT_ALPHA] ^= 1; break;
  case WRONG_PRECISION: record[CUZHANTIR_COMPONENT_PREC] += 1; break;
  default: break;
  }
}
