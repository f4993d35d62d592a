#include "finish_rules.h"
#include "files.h"
#include "finding.h"
#include "reach.h"

#include <inttypes.h>
#include <string.h>

// What a call gave: its answer, and both destinations to their ends.
struct given {
    uint64_t answer[ANSWER_NUMBERS];
    const uint32_t *records;
    const int32_t *planes;
};

// The first of two calls is kept here while the second is made in the same memory.
static uint32_t kept_records[(MOST_COMPONENTS + 4) * COMPONENT_NUMBERS];
static int32_t kept_planes[MODEL_SAMPLES];

static struct given ask(const struct request *q, int alone)
{
    struct given g;
    struct lists l = lend_all(q, AT_END);
    uint32_t returned = call_entry(q, &l, alone);
    memcpy(g.answer, l.answer.own, sizeof g.answer);
    if (returned != g.answer[ANSWER_NUMBER])
        finding("returned %" PRIu32 ", and the answer says %" PRIu64, returned, g.answer[ANSWER_NUMBER]);
    g.records = (const uint32_t *)l.records.own;
    g.planes = (const int32_t *)l.planes.own;
    return g;
}

static struct given ask_and_keep(const struct request *q, int alone)
{
    struct given g = ask(q, alone);
    require(q->p.records_len <= sizeof kept_records / sizeof *kept_records && q->p.planes_len <= MODEL_SAMPLES, "no room to keep a picture");
    memcpy(kept_records, g.records, q->p.records_len * sizeof *kept_records);
    memcpy(kept_planes, g.planes, q->p.planes_len * sizeof *kept_planes);
    g.records = kept_records;
    g.planes = kept_planes;
    return g;
}

static int same_answer(const struct given *a, const struct given *b)
{
    return memcmp(a->answer, b->answer, sizeof a->answer) == 0;
}

static int same_planes(const struct request *q, const struct given *a, const struct given *b)
{
    return memcmp(a->planes, b->planes, q->p.planes_len * sizeof *a->planes) == 0;
}

// The whole list for the records; behind them both have the pattern of before.
static int same_records(const struct request *q, const struct given *a, const struct given *b, int marks_too)
{
    for (uint64_t i = 0; i < q->p.records_len; i++) {
        int is_mark = i % COMPONENT_NUMBERS == ALPHA && i / COMPONENT_NUMBERS < a->answer[ANSWER_COUNT];
        if ((marks_too || !is_mark) && a->records[i] != b->records[i])
            return 0;
    }
    return 1;
}

static int refuses(const struct given *g, uint64_t number, uint64_t place)
{
    return g->answer[ANSWER_KIND] == 1 && g->answer[ANSWER_NUMBER] == number && g->answer[ANSWER_PLACE] == place;
}

// 26 for channel 0 comes where edition 1 answers something that is not tested before it.
static void check_channel_0(const struct given *first)
{
    uint64_t n = first->answer[ANSWER_NUMBER];
    if (n != 0 && (n < 26 || n == 29))
        finding("the editions differ: 26 for channel 0 where edition 1 answers %" PRIu64, n);
}

void check_editions(const struct request *q, int alone)
{
    struct request first = *q, second = *q;
    first.p.edition2 = 0;
    second.p.edition2 = q->p.edition2 == 0 ? 1 : q->p.edition2;
    struct given a = ask_and_keep(&first, alone), b = ask(&second, alone);
    if (refuses(&b, 26, 0))
        return check_channel_0(&a);
    if (!same_answer(&a, &b))
        finding("the editions differ: %" PRIu64 " and %" PRIu64, a.answer[ANSWER_NUMBER], b.answer[ANSWER_NUMBER]);
    if (!same_planes(q, &a, &b))
        finding("the editions differ in their samples");
    if (!same_records(q, &a, &b, 0))
        finding("the editions differ in more than marks");
    reached(205, !same_records(q, &a, &b, 1));
}

// A file of which only the order of the definitions is another.
static uint8_t turned[MOST_FILE];

static uint8_t *definition(const struct request *q, uint64_t j)
{
    return turned + q->p.reading[CDEF_PLACE] + CUZHANTIR_CDEF_BYTES * j;
}

static void exchange_definitions(const struct request *q, uint64_t i, uint64_t j)
{
    uint8_t keep[CUZHANTIR_CDEF_BYTES], *a = definition(q, i), *b = definition(q, j);
    memcpy(keep, a, sizeof keep);
    memmove(a, b, sizeof keep);
    memcpy(b, keep, sizeof keep);
}

// The seed picks an order. Where it picks the one that is there, the first and the last definition are exchanged.
static void turn_definitions(const struct request *q, uint32_t seed)
{
    uint64_t last = q->p.reading[CDEF_COUNT] - 1;
    memcpy(turned, q->p.file.bytes, q->p.file.length);
    for (uint64_t i = last; i > 0; i--) {
        exchange_definitions(q, i, (seed >> 8) % (i + 1));
        seed = seed * 1664525u + 1013904223u;
    }
    if (memcmp(turned, q->p.file.bytes, q->p.file.length) == 0)
        exchange_definitions(q, 0, last);
}

// "The premises on definitions": no channel is defined twice, and no colour is given twice.
static int premises(const struct request *q)
{
    static uint8_t channel_seen[65536], colour_seen[65536];
    memset(channel_seen, 0, sizeof channel_seen);
    memset(colour_seen, 0, sizeof colour_seen);
    for (uint64_t j = 0; j < q->p.reading[CDEF_COUNT]; j++) {
        uint64_t at = q->p.reading[CDEF_PLACE] + CUZHANTIR_CDEF_BYTES * j;
        uint64_t channel = model_number(&q->p.file, at, 2), typ = model_number(&q->p.file, at + 2, 2), asoc = model_number(&q->p.file, at + 4, 2);
        int colour = typ == 0 && asoc != 0 && asoc != 65535;
        if (channel_seen[channel] || (colour && colour_seen[asoc]))
            return 0;
        channel_seen[channel] = 1;
        if (colour)
            colour_seen[asoc] = 1;
    }
    return 1;
}

static int may_be_turned(const struct request *q)
{
    return q->p.reading[KIND] != REFUSED && q->p.reading[CDEF_COUNT] > 1;
}

void check_order(const struct request *q, int alone, uint32_t seed)
{
    if (!may_be_turned(q))
        return;
    struct request other = *q;
    turn_definitions(q, seed);
    other.p.file.bytes = turned;
    struct given a = ask_and_keep(q, alone), b = ask(&other, alone);
    // of definitions at fault the lowest is named, which may be another one now
    if (a.answer[ANSWER_NUMBER] == 25)
        b.answer[ANSWER_PLACE] = a.answer[ANSWER_PLACE];
    if (!same_answer(&a, &b))
        finding("in another order of definitions: %" PRIu64 ", and before %" PRIu64, b.answer[ANSWER_NUMBER], a.answer[ANSWER_NUMBER]);
    if (!same_planes(q, &a, &b))
        finding("in another order of definitions the samples differ");
    int ignored = q->p.ignore != 0, free_order = ignored || premises(q);
    if (free_order && !same_records(q, &a, &b, ignored || q->p.edition2 != 0))
        finding("in another order of definitions the records differ");
    reached(206, (uint64_t)(free_order * 2 + (q->p.edition2 != 0)) * 32 + a.answer[ANSWER_NUMBER] % 32);
}
