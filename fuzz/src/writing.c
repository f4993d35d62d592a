// The target of writing: components, corners, a colour space, a profile and the length of a codestream.
#include "call.h"
#include "checks.h"
#include "finding.h"
#include "input.h"
#include "reach.h"

#include <inttypes.h>
#include <string.h>

#define MOST_DISTINCT 16
#define MOST_PROFILE 4096
static uint32_t comps[(MOST_COMPONENTS + 2) * COMPONENT_NUMBERS];

struct request {
    struct model_request r;
    uint64_t answer_len;
    int huge; // the profile is a long list of zeros
};

static uint32_t call_write(const struct request *q, enum side side, const struct lent *d, const struct lent *answer)
{
    const struct model_request *r = &q->r;
    struct lent c = lend(COMPS_LIST, side, sizeof(uint32_t), r->comps, r->comps_len * sizeof(uint32_t));
    struct lent profile = {0};
    if (!q->huge)
        profile = lend(PROFILE_LIST, side, 1, r->profile, r->profile_len);
    struct words w = {0};
    add_list(&w, c.list, r->comps_len);
    add_u32(&w, r->count);
    add_u32(&w, r->x0);
    add_u32(&w, r->y0);
    add_u32(&w, r->x1);
    add_u32(&w, r->y1);
    add_u32(&w, r->space);
    add_list(&w, q->huge ? r->profile : profile.list, r->profile_len);
    add_u64(&w, r->codestream);
    add_list(&w, d->list, r->d_len);
    add_list(&w, answer->list, q->answer_len);
    return call(cuzhantir_write, &w);
}

// What was written is read back: height, width, count, depth, profile and the codestream's place.
static void check_back(const struct request *q, enum side side, const struct lent *d, uint64_t length)
{
    struct lent file = lend(FILE_LIST, side, 1, d->own, length);
    struct model_file m = {file.list, length};
    uint64_t r[READING_NUMBERS];
    model_read(&m, r);
    check_read(&m, side, READING_NUMBERS, r);
    if (r[KIND] != CODESTREAM || r[VALUE] != length)
        finding("what was written is not read up to its codestream");
    if (r[IMAGE_H] != (uint32_t)(q->r.y1 - q->r.y0) || r[IMAGE_W] != (uint32_t)(q->r.x1 - q->r.x0) || r[NUMCOMPS] != q->r.count)
        finding("height, width or count is read back as another");
    if (r[ICC_COUNT] != q->r.profile_len || (r[ICC_COUNT] > 0 && memcmp(file.own + r[ICC_PLACE], q->r.profile, r[ICC_COUNT]) != 0))
        finding("the profile is read back as another");
    for (uint64_t c = 0; c < q->r.count; c++) {
        uint64_t depth = r[BPC] == 255 ? model_number(&m, r[BPCC_PLACE] + c, 1) : r[BPC];
        if ((depth & 127) + 1 != q->r.comps[c * COMPONENT_NUMBERS + PREC])
            finding("the depth of component %" PRIu64 " is read back as another", c);
    }
}

static void check_call(const struct request *q, enum side side, const struct model_written *expected)
{
    struct lent d = lend_blank(BYTES_LIST, side, 1, q->r.d_len);
    struct lent answer = lend_blank(ANSWER_LIST, side, sizeof(uint64_t), q->answer_len * sizeof(uint64_t));
    uint32_t returned = call_write(q, side, &d, &answer);
    int done = q->answer_len >= ANSWER_NUMBERS && expected->answer[ANSWER_KIND] == 0;
    check_answer(&answer, returned, 29, 34, expected->answer);
    check_holds(&d, expected->bytes, done ? expected->length : 0, "destination");
    if (done)
        check_back(q, side, &d, expected->length);
}

// A destination of exactly the length that is needed is enough, and one byte less is named with it.
static void check_lengths(struct request q, enum side side, uint64_t needed)
{
    struct model_written m;
    q.r.d_len = needed;
    model_write(&q.r, &m);
    check_call(&q, side, &m);
    if (m.answer[ANSWER_KIND] != 0)
        finding("refused by %" PRIu64 " with room enough", m.answer[ANSWER_NUMBER]);
    q.r.d_len = needed - 1;
    model_write(&q.r, &m);
    check_call(&q, side, &m);
    if (m.answer[ANSWER_NUMBER] != 30 || m.answer[ANSWER_PLACE] != needed)
        finding("one byte less is not refused as it has to be");
}

// What is refused whatever the destination's length is refused without a look at it.
static void check_untouched(struct request q, const struct model_written *expected)
{
    q.r.d_len = UINT64_C(1) << 33;
    struct lent d = {.list = untouchable()};
    struct lent answer = lend_blank(ANSWER_LIST, AT_START, sizeof(uint64_t), q.answer_len * sizeof(uint64_t));
    uint32_t returned = call_write(&q, AT_START, &d, &answer);
    check_answer(&answer, returned, 29, 34, expected->answer);
}

static void note_written(const struct request *q, const struct model_written *m)
{
    reached(300, m->answer[ANSWER_NUMBER] * 64 + magnitude(m->answer[ANSWER_PLACE]));
    reached(301, magnitude(m->answer[ANSWER_COUNT]));
    reached(304, q->r.profile_len < 64 ? q->r.profile_len : 64);
    reached(303, q->r.count < 32 ? q->r.count : 32);
    reached(302, magnitude(q->r.codestream) * 64 + magnitude(q->r.profile_len));
}

// The numbers of a component that are written, and any others.
static void make_component(struct input *in, uint32_t *c)
{
    uint8_t prec = take_u8(in), look = take_u8(in);
    for (unsigned k = 0; k < COMPONENT_NUMBERS; k++)
        c[k] = look * UINT32_C(0x01020304) + k;
    c[PREC] = prec;
    c[SGND] = look & 1;
    c[ALPHA] = look >> 1 & 1 ? look >> 2 : 0;
    if (look & 128)
        c[take_u8(in) % COMPONENT_NUMBERS] = take_u32(in);
}

static void make_components(struct input *in, uint32_t count, unsigned distinct)
{
    for (uint32_t c = 0; c < count && c < distinct; c++)
        make_component(in, comps + c * COMPONENT_NUMBERS);
    for (uint32_t c = distinct; c < count; c++)
        memcpy(comps + c * COMPONENT_NUMBERS, comps + (c - distinct) * COMPONENT_NUMBERS, COMPONENT_NUMBERS * sizeof *comps);
}

static uint64_t least(uint64_t a, uint64_t b)
{
    return a < b ? a : b;
}

// A profile is the rest of the input, or a list of zeros next to the longest that can be written.
static void make_profile(struct input *in, struct request *q, uint8_t choice)
{
    q->huge = choice >= 250;
    if (q->huge) {
        q->r.profile = (const uint8_t *)huge_samples();
        q->r.profile_len = (choice == 255 ? UINT64_C(1) << 32 : 16777213) + (choice - 250u);
    } else {
        q->r.profile = in->at;
        q->r.profile_len = choice == 0 ? 0 : least(in->left, MOST_PROFILE);
    }
}

static uint64_t take_codestream(struct input *in)
{
    uint8_t how = take_u8(in);
    uint64_t n = take_u32(in);
    switch (how % 4) {
    case 0: return n;
    case 1: return 4261412863 + how / 4 - 8;
    case 2: return n << (how / 4 % 32);
    default: return UINT64_MAX - n;
    }
}

struct choices {
    uint8_t distinct, comps, profile, bytes, answer, side;
    uint32_t count;
};

static struct choices make_request(struct input *in, struct request *q)
{
    struct choices c;
    c.distinct = take_u8(in);
    c.comps = take_u8(in);
    c.profile = take_u8(in);
    c.bytes = take_u8(in);
    c.answer = take_u8(in);
    c.side = take_u8(in) % SIDES;
    c.count = take_count(in, 3);
    q->r.count = c.count;
    q->r.space = take_u8(in);
    q->r.x0 = take_u32(in);
    q->r.y0 = take_u32(in);
    q->r.x1 = take_u32(in);
    q->r.y1 = take_u32(in);
    q->r.codestream = take_codestream(in);
    uint32_t there = (uint32_t)least(c.count, MOST_COMPONENTS + 2);
    make_components(in, there, 1 + c.distinct % MOST_DISTINCT);
    q->r.comps = comps;
    q->r.comps_len = least(near((uint64_t)there * COMPONENT_NUMBERS, c.comps), sizeof comps / sizeof *comps);
    make_profile(in, q, c.profile);
    q->answer_len = near(ANSWER_NUMBERS, c.answer);
    return c;
}

void run_target(struct input in)
{
    struct request q;
    struct model_written m;
    struct choices c = make_request(&in, &q);
    q.r.d_len = 0;
    model_write(&q.r, &m);
    uint64_t needed = m.needed;
    if (needed == 0)
        check_untouched(q, &m);
    q.r.d_len = near(least(needed, MODEL_BYTES - 64), c.bytes);
    model_write(&q.r, &m);
    for (enum side side = 0; side < SIDES; side++)
        check_call(&q, side, &m);
    note_written(&q, &m);
    if (needed > 0 && needed <= MODEL_BYTES && q.answer_len >= ANSWER_NUMBERS)
        check_lengths(q, c.side, needed);
}
