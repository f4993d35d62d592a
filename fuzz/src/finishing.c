// The target of finishing: a file, a picture and two destinations, finished in one step and with a reading.
#include "checks.h"
#include "files.h"
#include "finding.h"
#include "finish_calls.h"
#include "finish_rules.h"
#include "reach.h"

#include <inttypes.h>
#include <string.h>

#define MOST_DISTINCT 16
static uint32_t comps[(MOST_COMPONENTS + 2) * COMPONENT_NUMBERS];
static int32_t samples[MODEL_SAMPLES];

// Every finished plane lies in the part of the destination that was written, and the planes take up all of it.
static void check_planes(const struct lists *l, uint64_t planes, uint64_t written)
{
    uint64_t taken = 0;
    for (uint64_t i = 0; i < planes; i++) {
        uint32_t r[COMPONENT_NUMBERS];
        memcpy(r, l->records.own + i * sizeof r, sizeof r);
        uint64_t size = r[DATA] == NONE ? 0 : (uint64_t)r[W] * r[H];
        if (size > 0 && r[DATA] + size > written)
            finding("plane %" PRIu64 " reaches past the finished samples", i);
        taken += size;
    }
    if (taken != written)
        finding("the planes have %" PRIu64 " samples, and %" PRIu64 " were written", taken, written);
}

static void check_call(const struct request *q, enum side side, int alone, const struct model_finished *expected)
{
    struct lists l = lend_all(q, side);
    uint32_t returned = call_entry(q, &l, alone);
    int short_answer = q->answer_len < ANSWER_NUMBERS;
    int done = !short_answer && expected->answer[ANSWER_KIND] == 0;
    check_answer(&l.answer, returned, 1, 30, expected->answer);
    uint64_t planes = done ? expected->answer[ANSWER_COUNT] : 0, written = done ? expected->plane_samples : 0;
    check_holds(&l.records, expected->records, planes * COMPONENT_NUMBERS * sizeof(uint32_t), "records");
    check_holds(&l.planes, expected->planes, written * sizeof(int32_t), "planes");
    check_planes(&l, planes, written);
}

// Finished in one step, and alone with the reading, both as the model says.
static void check_both(const struct request *q, enum side side, const struct model_finished *expected)
{
    check_call(q, side, 0, expected);
    check_call(q, side, 1, expected);
}

static void check_at(const struct request *q, enum side side, struct model_finished *expected)
{
    model_finish(&q->p, expected);
    check_both(q, side, expected);
}

// Destinations of exactly the lengths that are needed are enough, and one less of either is named with that length.
static void check_lengths(struct request q, enum side side, uint64_t records, uint64_t needed)
{
    struct model_finished m;
    q.p.records_len = records;
    q.p.planes_len = needed;
    check_at(&q, side, &m);
    if (m.answer[ANSWER_KIND] != 0)
        finding("refused by %" PRIu64 " with room enough", m.answer[ANSWER_NUMBER]);
    q.p.planes_len = needed - (needed > 0);
    check_at(&q, side, &m);
    if (needed > 0 && (m.answer[ANSWER_NUMBER] != 30 || m.answer[ANSWER_PLACE] != needed))
        finding("one sample less is not refused as it has to be");
    q.p.records_len = records - (records > 0);
    check_at(&q, side, &m);
    if (records > 0 && (m.answer[ANSWER_NUMBER] != 30 || m.answer[ANSWER_PLACE] != records))
        finding("one number less is not refused as it has to be");
}

// Destinations of which nothing can be touched: what is refused whatever their length is refused without a look at them.
static void check_untouched(const struct request *q)
{
    struct request far = *q;
    struct model_finished m;
    struct lists l = lend_all(q, AT_END);
    far.p.records_len = far.p.planes_len = UINT64_C(1) << 33;
    model_finish(&far.p, &m);
    l.records.list = l.planes.list = untouchable();
    for (int alone = 0; alone < 2; alone++) {
        l.answer = lend_blank(ANSWER_LIST, AT_START, sizeof(uint64_t), q->answer_len * sizeof(uint64_t));
        check_answer(&l.answer, call_entry(&far, &l, alone), 1, 30, m.answer);
    }
}

static void note_finished(const struct request *q, const struct model_finished *m)
{
    uint64_t second = q->p.edition2 != 0;
    reached(200, (second * 64 + m->answer[ANSWER_NUMBER]) * 64 + magnitude(m->answer[ANSWER_PLACE]));
    reached(201, magnitude(m->answer[ANSWER_COUNT]) * 64 + magnitude(m->plane_samples));
    uint64_t order = 0;
    for (uint64_t i = 0; i < m->answer[ANSWER_COUNT] && i < 6; i++)
        order = order * 31 + m->records[i * COMPONENT_NUMBERS + DATA] % 29 + m->records[i * COMPONENT_NUMBERS + ALPHA] % 3;
    reached(202, second * 512 + order % 512);
    reached(204, m->answer[ANSWER_COUNT] < 16 ? m->answer[ANSWER_COUNT] : 16);
}

// A component's shape is small, or not; its samples come after those before it, or from anywhere, or there are none.
static uint64_t make_component(struct input *in, uint32_t *c, uint64_t next)
{
    uint8_t shape = take_u8(in), sides = take_u8(in), look = take_u8(in);
    for (unsigned k = 0; k < COMPONENT_NUMBERS; k++)
        c[k] = look * 7u + k;
    c[W] = (sides & 15u) << (shape & 8 ? 2 * (shape >> 4) : 0);
    c[H] = sides >> 4;
    c[DATA] = (uint32_t)next;
    if (shape & 1)
        c[DATA] = NONE;
    if (shape & 2)
        c[DATA] = take_u16(in);
    if (shape & 4)
        c[take_u8(in) % COMPONENT_NUMBERS] = take_u32(in);
    return next + (c[DATA] == next ? (uint64_t)c[W] * c[H] : 0);
}

// A few components from the input, over and over, up to the count. How many samples they take.
static uint64_t make_components(struct input *in, uint32_t count, unsigned distinct)
{
    uint64_t next = 0;
    for (uint32_t c = 0; c < count && c < distinct; c++)
        next = make_component(in, comps + c * COMPONENT_NUMBERS, next);
    for (uint32_t c = distinct; c < count; c++)
        memcpy(comps + c * COMPONENT_NUMBERS, comps + (c - distinct) * COMPONENT_NUMBERS, COMPONENT_NUMBERS * sizeof *comps);
    return next;
}

// Samples next to a palette's ends, or any.
static void make_samples(uint64_t n, uint8_t seed)
{
    for (uint64_t i = 0; i < n; i++) {
        uint32_t h = (uint32_t)(i + seed) * 2654435761u;
        samples[i] = seed & 1 ? (int32_t)(h ^ h >> 15) : (int32_t)(h >> 20) % (2 + seed) - 2;
    }
}

// Other numbers at some places of the reading: small ones, ones next to 2^32 and any.
static void corrupt(struct input *in, uint64_t *reading, unsigned times)
{
    for (unsigned i = 0; i < times; i++) {
        uint8_t at = take_u8(in), how = take_u8(in);
        uint64_t n = take_u16(in);
        uint64_t *r = &reading[at % READING_NUMBERS];
        switch (how % 6) {
        case 0: *r = n; break;
        case 1: *r += n; break;
        case 2: *r -= n; break;
        case 3: *r += UINT64_C(1) << 32; break;
        case 4: *r = UINT64_MAX - n; break;
        default: *r = n << (how & 48); break;
        }
    }
}

// Numbers for the two flags. Of the edition every bit may be the only one that is set.
static const uint32_t IGNORES[8] = {0, 0, 0, 0, 1, 2, 0x80000000u, 0x100};
#define SINGLE_BITS 128
static uint32_t pick_edition(uint8_t choice)
{
    static const uint32_t EDITIONS[4] = {0, 1, 0, UINT32_MAX};
    return choice < SINGLE_BITS ? EDITIONS[choice % 4] : UINT32_C(1) << choice % 32;
}

// The first numbers of an input. With zeros nothing is wrong with a picture.
struct choices {
    uint8_t form, ignore, edition, corruptions, distinct, comps, samples, records, planes, answer, seed;
    struct input count, file;
};

static struct choices take_choices(struct input *in)
{
    struct choices c;
    c.form = take_u8(in);
    c.ignore = take_u8(in);
    c.edition = take_u8(in);
    c.corruptions = take_u8(in) % 4;
    c.count = take_part(in, 2);
    c.distinct = take_u8(in);
    c.comps = take_u8(in);
    c.samples = take_u8(in);
    c.records = take_u8(in);
    c.planes = take_u8(in);
    c.answer = take_u8(in);
    c.seed = take_u8(in);
    c.file = take_part(in, take_u16(in));
    return c;
}

static uint64_t least(uint64_t a, uint64_t b)
{
    return a < b ? a : b;
}

// Samples as many as the components take, or next to that; or about 2^32 of them.
static void lend_samples(struct request *q, const struct choices *c, uint64_t taken)
{
    q->huge = c->samples >= 250;
    if (q->huge) {
        q->p.samples = huge_samples();
        q->p.samples_len = MOST_SAMPLES - 2 + (c->samples - 250);
    } else {
        q->p.samples = samples;
        q->p.samples_len = near(least(taken, MODEL_SAMPLES - 64), c->samples);
        make_samples(q->p.samples_len, c->seed);
    }
}

// The file, and the reading that the export gives, which is the model's.
static void read_file(struct request *q, const struct choices *c)
{
    struct file f = make_file(c->file, c->form % FORMS);
    q->p.file = (struct model_file){f.bytes, f.length};
    model_read(&q->p.file, q->p.reading);
    struct lent file = lend(FILE_LIST, AT_END, 1, f.bytes, f.length);
    struct model_file m = {file.list, f.length};
    check_read(&m, AT_START, READING_NUMBERS, q->p.reading);
    memcpy(q->reading, q->p.reading, sizeof q->p.reading);
    q->reading_len = READING_NUMBERS;
}

// The picture, with as many components as the file says, or another number.
static void make_picture(struct input *in, struct request *q, struct choices *c)
{
    q->p.ignore = IGNORES[c->ignore % 8];
    q->p.edition2 = pick_edition(c->edition);
    q->p.count = take_count(&c->count, (uint32_t)q->p.reading[NUMCOMPS]);
    uint32_t there = (uint32_t)least(q->p.count, MOST_COMPONENTS + 2);
    uint64_t taken = make_components(in, there, 1 + c->distinct % MOST_DISTINCT);
    q->p.comps = comps;
    q->p.comps_len = least(near((uint64_t)there * COMPONENT_NUMBERS, c->comps), sizeof comps / sizeof *comps);
    lend_samples(q, c, taken);
    q->answer_len = near(ANSWER_NUMBERS, c->answer);
}

// With a reading that no file gave, or a list of another length, only finishing alone can be asked.
static void check_corrupted(struct request *q, struct input *in, unsigned times)
{
    struct model_finished m;
    q->reading_len = near(READING_NUMBERS, take_u8(in));
    corrupt(in, q->reading, times);
    memcpy(q->p.reading, q->reading, sizeof q->p.reading);
    if (q->reading_len < READING_NUMBERS)
        q->p.reading[KIND] = REFUSED + 1;
    model_finish(&q->p, &m);
    for (enum side side = 0; side < SIDES; side++)
        check_call(q, side, 1, &m);
    note_finished(q, &m);
    reached(203, m.answer[ANSWER_NUMBER]);
}

// What comes of the picture where the destinations have no room at all.
static struct model_finished without_room(const struct request *q)
{
    struct model_picture p = q->p;
    struct model_finished m;
    p.records_len = p.planes_len = 0;
    model_finish(&p, &m);
    return m;
}

static int refused_for_good(const struct model_finished *m)
{
    return m->answer[ANSWER_KIND] == 1 && (m->answer[ANSWER_NUMBER] != 30 || m->needed_samples > MOST_SAMPLES);
}

void run_target(struct input in)
{
    static struct request q;
    struct choices c = take_choices(&in);
    struct model_finished m;
    read_file(&q, &c);
    make_picture(&in, &q, &c);
    struct model_finished bare = without_room(&q);
    q.p.records_len = near(bare.needed_records, c.records);
    q.p.planes_len = near(least(bare.needed_samples, MODEL_SAMPLES - 64), c.planes);
    model_finish(&q.p, &m);
    for (enum side side = 0; side < SIDES; side++)
        check_both(&q, side, &m);
    note_finished(&q, &m);
    if (q.answer_len >= ANSWER_NUMBERS) {
        check_editions(&q, c.seed & 1);
        check_order(&q, c.seed >> 1 & 1, c.seed * 2654435761u);
    }
    if (refused_for_good(&bare))
        check_untouched(&q);
    else if (bare.needed_samples <= MODEL_SAMPLES && q.answer_len >= ANSWER_NUMBERS)
        check_lengths(q, c.seed % SIDES, bare.needed_records, bare.needed_samples);
    if (c.corruptions > 0)
        check_corrupted(&q, &in, c.corruptions);
}
