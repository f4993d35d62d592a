#define _GNU_SOURCE
#include "lists.h"
#include "finding.h"

#include <string.h>
#include <sys/mman.h>
#include <unistd.h>

#define PAGE ((size_t)4096)
#define GUARD ((size_t)1 << 28)
#define MARGIN ((size_t)1024)
#define CLASSES 4
static const size_t CLASS_PAGES[CLASSES] = {1, 8, 64, 1024};

// One memory, seen at two ranges of addresses: this program writes at one, and at the other nobody can.
struct room {
    uint8_t *writable, *readable;
    size_t bytes;
};
static struct room rooms[SLOTS][CLASSES];

static void *reserve(size_t bytes, int protection)
{
    void *p = mmap(NULL, bytes, protection, MAP_PRIVATE | MAP_ANONYMOUS | MAP_NORESERVE, -1, 0);
    require(p != MAP_FAILED, "no memory to reserve");
    return p;
}

// A view of the memory between two ranges that trap.
static uint8_t *view(int memory, size_t bytes, int protection)
{
    uint8_t *p = reserve(bytes + 2 * GUARD, PROT_NONE);
    void *v = mmap(p + GUARD, bytes, protection, MAP_SHARED | MAP_FIXED, memory, 0);
    require(v != MAP_FAILED, "no view of a room");
    return v;
}

static void make_room(struct room *r, size_t bytes)
{
    int memory = memfd_create("room", 0);
    require(memory >= 0 && ftruncate(memory, (off_t)bytes) == 0, "no memory for a room");
    r->bytes = bytes;
    r->writable = view(memory, bytes, PROT_READ | PROT_WRITE);
    r->readable = view(memory, bytes, PROT_READ);
    close(memory);
}

// The smallest room of a slot that has so many bytes.
static struct room *room_for(enum slot slot, size_t bytes)
{
    int c = 0;
    while (c < CLASSES - 1 && CLASS_PAGES[c] * PAGE < bytes)
        c++;
    require(bytes <= CLASS_PAGES[c] * PAGE, "a list is too long for every room");
    struct room *r = &rooms[slot][c];
    if (r->writable == NULL)
        make_room(r, CLASS_PAGES[c] * PAGE);
    return r;
}

static size_t least(size_t a, size_t b)
{
    return a < b ? a : b;
}

// The pattern, twice, so that a whole period can start at any place of the first.
#define PERIOD ((size_t)4096)
static uint8_t pattern[2 * PERIOD];

__attribute__((constructor)) static void make_pattern(void)
{
    for (size_t i = 0; i < 2 * PERIOD; i++)
        pattern[i] = (uint8_t)(0x5b + i % PERIOD * 37 + (i % PERIOD >> 8) * 11);
}

// The pattern from a place on. Places are counted from the list's start, and those before it are below 0.
static const uint8_t *pattern_from(const uint8_t *place, const uint8_t *origin)
{
    return pattern + (size_t)(place - origin) % PERIOD;
}

static void fill(uint8_t *from, const uint8_t *to, const uint8_t *origin)
{
    while (from < to) {
        size_t n = least((size_t)(to - from), PERIOD);
        memcpy(from, pattern_from(from, origin), n);
        from += n;
    }
}

static uint8_t *margin_before(const struct lent *l)
{
    return l->own - least((size_t)(l->own - l->first), MARGIN);
}

static uint8_t *margin_after(const struct lent *l)
{
    uint8_t *behind = l->own + l->bytes;
    return behind + least((size_t)(l->end - behind), MARGIN);
}

static size_t offset_in(const struct room *r, enum side side, size_t element, size_t bytes)
{
    if (side == AT_START)
        return 0;
    if (side == SHIFTED && bytes + element <= r->bytes)
        return element;
    return r->bytes - bytes;
}

static struct lent take(enum slot slot, enum side side, size_t element, size_t bytes, int writable)
{
    struct room *r = room_for(slot, bytes);
    size_t at = offset_in(r, side, element, bytes);
    struct lent l = {(writable ? r->writable : r->readable) + at, bytes, r->writable + at, r->writable, r->writable + r->bytes};
    fill(margin_before(&l), l.own, l.own);
    fill(l.own + bytes, margin_after(&l), l.own);
    return l;
}

struct lent lend(enum slot slot, enum side side, size_t element, const void *content, size_t bytes)
{
    struct lent l = take(slot, side, element, bytes, 0);
    if (bytes > 0)
        memcpy(l.own, content, bytes);
    return l;
}

struct lent lend_blank(enum slot slot, enum side side, size_t element, size_t bytes)
{
    struct lent l = take(slot, side, element, bytes, 1);
    fill(l.own, l.own + bytes, l.own);
    return l;
}

static void check_pattern(const uint8_t *from, const uint8_t *to, const uint8_t *origin, const char *name)
{
    while (from < to) {
        size_t n = least((size_t)(to - from), PERIOD);
        if (memcmp(from, pattern_from(from, origin), n) != 0)
            finding("%s: changed within %zu bytes from byte %td on, where nothing may be written", name, n, from - origin);
        from += n;
    }
}

void check_around(const struct lent *l, const char *name)
{
    check_pattern(margin_before(l), l->own, l->own, name);
    check_pattern(l->own + l->bytes, margin_after(l), l->own, name);
}

void check_holds(const struct lent *l, const void *content, size_t bytes, const char *name)
{
    if (bytes > l->bytes)
        finding("%s: %zu bytes are told of, in a list of %zu", name, bytes, l->bytes);
    if (bytes > 0 && memcmp(l->own, content, bytes) != 0)
        finding("%s: not the content that is asked for", name);
    check_pattern(l->own + bytes, l->own + l->bytes, l->own, name);
    check_around(l, name);
}

const uint8_t *huge_file(const uint8_t *content, size_t bytes)
{
    static uint8_t *memory;
    static size_t before;
    if (memory == NULL)
        memory = reserve(HUGE_FILE, PROT_READ | PROT_WRITE);
    if (before > bytes)
        memset(memory + bytes, 0, before - bytes);
    if (bytes > 0)
        memcpy(memory, content, bytes);
    before = bytes;
    return memory;
}

const int32_t *huge_samples(void)
{
    static int32_t *memory;
    if (memory == NULL)
        memory = reserve(HUGE_SAMPLES * sizeof(int32_t), PROT_READ);
    return memory;
}

void *untouchable(void)
{
    static void *memory;
    if (memory == NULL)
        memory = reserve(UNTOUCHABLE, PROT_NONE);
    return memory;
}
