// Writing: document 01, "Writing" and the numbers 29 to 34.
#include "model.h"
#include "finding.h"

#include <string.h>

static uint8_t bytes[MODEL_BYTES];
static uint64_t length;

static void put(uint64_t number, unsigned count)
{
    require(length + count <= MODEL_BYTES, "more bytes than the model has room for");
    for (unsigned i = count; i > 0; i--)
        bytes[length++] = (uint8_t)(number >> 8 * (i - 1));
}

static void put_list(const uint8_t *list, uint64_t n)
{
    require(length + n <= MODEL_BYTES, "more bytes than the model has room for");
    if (n > 0)
        memcpy(bytes + length, list, n);
    length += n;
}

static uint64_t number_of(const struct model_request *r, uint64_t c, unsigned k)
{
    return r->comps[c * COMPONENT_NUMBERS + k];
}

// 32: the lowest component with a precision or a sign that cannot be written.
static int64_t first_ill(const struct model_request *r)
{
    for (uint64_t c = 0; c < r->count; c++) {
        uint64_t prec = number_of(r, c, PREC);
        if (prec < 1 || prec > 38 || number_of(r, c, SGND) > 1)
            return (int64_t)c;
    }
    return -1;
}

static uint64_t depth_of(const struct model_request *r, uint64_t c)
{
    return number_of(r, c, PREC) - 1 + 128 * number_of(r, c, SGND);
}

static int depths_differ(const struct model_request *r)
{
    for (uint64_t c = 1; c < r->count; c++)
        if (number_of(r, c, PREC) != number_of(r, 0, PREC))
            return 1;
    return 0;
}

static uint64_t enumcs_of(const struct model_request *r)
{
    return r->profile_len != 0 || r->space < 1 || r->space > 3 ? 0 : 15 + r->space;
}

static uint64_t colours_of(const struct model_request *r)
{
    uint64_t e = enumcs_of(r);
    return e == 17 ? 1 : e == 0 ? 0 : 3;
}

// Definitions are written where exactly one component is marked, and it is none of the colours.
static int has_definitions(const struct model_request *r)
{
    uint64_t marked = 0, which = 0;
    for (uint64_t c = 0; c < r->count; c++)
        if (number_of(r, c, ALPHA) != 0) {
            marked++;
            which = c;
        }
    return marked == 1 && colours_of(r) != 0 && which >= colours_of(r);
}

static void put_definition(const struct model_request *r, uint64_t c)
{
    int colour = c < colours_of(r), opacity = number_of(r, c, ALPHA) != 0;
    put(c, 2);
    put(colour ? 0 : opacity ? 1 : 65535, 2);
    put(colour ? c + 1 : opacity ? 0 : 65535, 2);
}

static void put_ihdr(const struct model_request *r)
{
    put(22, 4);
    put(0x69686472, 4);
    put((uint32_t)(r->y1 - r->y0), 4);
    put((uint32_t)(r->x1 - r->x0), 4);
    put(r->count, 2);
    put(depths_differ(r) ? 255 : depth_of(r, 0), 1);
    put(7, 1);
    put(0, 2);
}

static void put_bpcc(const struct model_request *r)
{
    put(8 + r->count, 4);
    put(0x62706363, 4);
    for (uint64_t c = 0; c < r->count; c++)
        put(depth_of(r, c), 1);
}

static uint64_t colr_length(const struct model_request *r)
{
    return 8 + 3 + (r->profile_len != 0 ? r->profile_len : 4);
}

static void put_colr(const struct model_request *r)
{
    put(colr_length(r), 4);
    put(0x636f6c72, 4);
    put(r->profile_len != 0 ? 2 : 1, 1);
    put(0, 2);
    if (r->profile_len != 0)
        put_list(r->profile, r->profile_len);
    else
        put(enumcs_of(r), 4);
}

static void put_cdef(const struct model_request *r)
{
    put(10 + 6 * (uint64_t)r->count, 4);
    put(0x63646566, 4);
    put(r->count, 2);
    for (uint64_t c = 0; c < r->count; c++)
        put_definition(r, c);
}

static uint64_t jp2h_length(const struct model_request *r)
{
    uint64_t bpcc = depths_differ(r) ? 8 + (uint64_t)r->count : 0;
    uint64_t cdef = has_definitions(r) ? 10 + 6 * (uint64_t)r->count : 0;
    return 8 + 22 + bpcc + colr_length(r) + cdef;
}

static void put_front(const struct model_request *r)
{
    static const uint8_t start[] = "\0\0\0\14jP  \r\n\207\n\0\0\0\24ftypjp2 \0\0\0\0jp2 ";
    length = 0;
    put_list(start, sizeof start - 1);
    put(jp2h_length(r), 4);
    put(0x6a703268, 4);
    put_ihdr(r);
    if (depths_differ(r))
        put_bpcc(r);
    put_colr(r);
    if (has_definitions(r))
        put_cdef(r);
    put(8 + r->codestream, 4);
    put(0x6a703263, 4);
}

static void decline(struct model_written *out, uint64_t number, uint64_t place)
{
    out->answer[ANSWER_KIND] = 1;
    out->answer[ANSWER_NUMBER] = number;
    out->answer[ANSWER_PLACE] = place;
}

void model_write(const struct model_request *r, struct model_written *out)
{
    memset(out, 0, sizeof *out);
    if (r->count < 1 || r->count > MOST_COMPONENTS)
        return decline(out, 31, 0);
    if (r->comps_len < (uint64_t)COMPONENT_NUMBERS * r->count)
        return decline(out, 29, 0);
    int64_t ill = first_ill(r);
    if (ill >= 0)
        return decline(out, 32, (uint64_t)ill);
    if (r->y1 == r->y0 || r->x1 == r->x0)
        return decline(out, 33, 0);
    if (r->profile_len > 16777215 || r->codestream > 4261412863)
        return decline(out, 34, 0);
    out->needed = 12 + 20 + jp2h_length(r) + 8;
    if (r->d_len < out->needed)
        return decline(out, 30, out->needed);
    put_front(r);
    out->answer[ANSWER_COUNT] = length;
    out->bytes = bytes;
    out->length = length;
}
