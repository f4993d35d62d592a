#include "finish_calls.h"
#include "call.h"

struct lists lend_all(const struct request *q, enum side side)
{
    const struct model_picture *p = &q->p;
    struct lists l = {0};
    l.file = lend(FILE_LIST, side, 1, p->file.bytes, p->file.length);
    l.reading = lend(READING_LIST, side, sizeof(uint64_t), q->reading, q->reading_len * sizeof(uint64_t));
    l.comps = lend(COMPS_LIST, side, sizeof(uint32_t), p->comps, p->comps_len * sizeof(uint32_t));
    if (!q->huge)
        l.samples = lend(SAMPLES_LIST, side, sizeof(int32_t), p->samples, p->samples_len * sizeof(int32_t));
    l.records = lend_blank(RECORDS_LIST, side, sizeof(uint32_t), p->records_len * sizeof(uint32_t));
    l.planes = lend_blank(PLANES_LIST, side, sizeof(int32_t), p->planes_len * sizeof(int32_t));
    l.answer = lend_blank(ANSWER_LIST, side, sizeof(uint64_t), q->answer_len * sizeof(uint64_t));
    return l;
}

uint32_t call_entry(const struct request *q, const struct lists *l, int alone)
{
    const struct model_picture *p = &q->p;
    struct words w = {0};
    add_list(&w, l->file.list, p->file.length);
    if (alone)
        add_list(&w, l->reading.list, q->reading_len);
    add_u32(&w, p->ignore);
    add_u32(&w, p->edition2);
    add_list(&w, l->comps.list, p->comps_len);
    add_u32(&w, p->count);
    add_list(&w, q->huge ? (const void *)p->samples : l->samples.list, p->samples_len);
    add_list(&w, l->records.list, p->records_len);
    add_list(&w, l->planes.list, p->planes_len);
    add_list(&w, l->answer.list, q->answer_len);
    return call(alone ? (void *)cuzhantir_finish : (void *)cuzhantir_picture, &w);
}
