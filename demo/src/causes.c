#include "causes.h"

#include <inttypes.h>
#include <stddef.h>

#include "cuzhantir_jp2.h"

// What the place of a refusal counts; NULL where it is always 0.
static const char *place_of(uint64_t number)
{
  switch (number) {
  case CUZHANTIR_FILE_TOO_LONG:
  case CUZHANTIR_OUTSIDE_LIST: return NULL;
  case CUZHANTIR_DEFINITION_OUTSIDE: return "definition";
  case CUZHANTIR_CHANNEL_UNDEFINED: return "channel";
  case CUZHANTIR_MAPPING_WRONG:
  case CUZHANTIR_COMPONENT_WITHOUT_SAMPLES: return "mapping";
  case CUZHANTIR_DESTINATION_TOO_SHORT: return "length needed";
  default: return "box at";
  }
}

void print_refusal(FILE *to, uint64_t number, uint64_t place)
{
  fprintf(to, "%" PRIu64 ", %s", number, cuzhantir_cause(number));
  if (place_of(number) != NULL) {
    fprintf(to, ", %s %" PRIu64, place_of(number), place);
  }
}
