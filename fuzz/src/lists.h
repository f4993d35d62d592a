// Memory for lent lists. Each list has rooms of its own, and each room lies between two ranges of addresses that trap.
#ifndef LISTS_H
#define LISTS_H

#include <stddef.h>
#include <stdint.h>

// Where a list lies in its room: it ends where the range behind starts, starts where the range before ends, or is one
// element from the start, which is another alignment.
enum side { AT_END, AT_START, SHIFTED, SIDES };

// One for each list that an export takes.
enum slot { FILE_LIST, READING_LIST, COMPS_LIST, SAMPLES_LIST, RECORDS_LIST, PLANES_LIST, ANSWER_LIST, PROFILE_LIST, BYTES_LIST, SLOTS };

struct lent {
    uint8_t *list;        // what is lent
    size_t bytes;
    uint8_t *own;         // the same memory where this program writes
    uint8_t *first, *end; // the room, where this program writes
};

// A list that an export may only read: any write to it traps.
struct lent lend(enum slot slot, enum side side, size_t element, const void *content, size_t bytes);

// A list that an export may write. It holds a pattern before.
struct lent lend_blank(enum slot slot, enum side side, size_t element, size_t bytes);

// What surrounds the list in its room has not changed.
void check_around(const struct lent *l, const char *name);

// The list has the content at its front, and the pattern behind it.
void check_holds(const struct lent *l, const void *content, size_t bytes, const char *name);

// Lists that are too long for a room: zeros that can be read, with a file's content at the front of one of them.
#define HUGE_FILE (UINT64_C(1) << 33)
#define HUGE_SAMPLES (UINT64_C(1) << 33)
const uint8_t *huge_file(const uint8_t *content, size_t bytes);
const int32_t *huge_samples(void);

// A range of addresses of which nothing can be touched.
#define UNTOUCHABLE (UINT64_C(1) << 36)
void *untouchable(void);

#endif
