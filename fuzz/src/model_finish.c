// Finishing: document 01, "Colour, palette, order" and the numbers 25 to 30; and request R-2, edition 2.
#include "model.h"
#include "finding.h"

#include <string.h>

typedef unsigned __int128 wide;

// The lists of the record that finishing looks at, and the picture.
struct colouring {
    const struct model_picture *p;
    uint64_t pclr, entries, columns;
    uint64_t cmap, mappings;
    uint64_t cdef, definitions;
};

static uint32_t records[MOST_COMPONENTS * COMPONENT_NUMBERS];
static int32_t planes[MODEL_SAMPLES];

static uint32_t number_of(const struct model_picture *p, uint64_t c, unsigned k)
{
    uint64_t at = c * COMPONENT_NUMBERS + k;
    return at < p->comps_len ? p->comps[at] : 0;
}

static uint64_t size_of(const struct model_picture *p, uint64_t c)
{
    return number_of(p, c, DATA) == NONE ? 0 : (uint64_t)number_of(p, c, H) * number_of(p, c, W);
}

// The bytes of the first n columns of a row.
static uint64_t row_bytes(const struct colouring *k, uint64_t n)
{
    uint64_t sum = 0;
    for (uint64_t i = 0; i < n; i++) {
        uint64_t bytes = ((model_number(&k->p->file, k->pclr + i, 1) & 127) + 8) / 8;
        sum += bytes < 4 ? bytes : 4;
    }
    return sum;
}

static int plane_outside(const struct model_picture *p, uint64_t c)
{
    uint32_t first = number_of(p, c, DATA);
    return first != NONE && (wide)first + (wide)number_of(p, c, H) * number_of(p, c, W) > p->samples_len;
}

static int outside_lists(const struct model_picture *p)
{
    if (p->count > MOST_COMPONENTS || p->comps_len < (uint64_t)COMPONENT_NUMBERS * p->count || p->samples_len > MOST_SAMPLES)
        return 1;
    for (uint64_t c = 0; c < p->count; c++)
        if (plane_outside(p, c))
            return 1;
    return 0;
}

static int past_file(const struct colouring *k, uint64_t place, uint64_t bytes)
{
    return (wide)place + bytes > k->p->file.length;
}

static int palette_outside(const struct colouring *k)
{
    if (k->columns == 0)
        return 0;
    return k->entries == 0 || k->entries > 1024 || k->columns > 255 || past_file(k, k->pclr, k->columns)
           || past_file(k, k->pclr, k->columns + k->entries * row_bytes(k, k->columns));
}

static int outside_file(const struct colouring *k)
{
    if (palette_outside(k))
        return 1;
    if (k->mappings != 0 && (k->mappings != k->columns || past_file(k, k->cmap, 4 * k->mappings)))
        return 1;
    return k->definitions != 0 && (k->definitions > 65535 || past_file(k, k->cdef, 6 * k->definitions));
}

static uint64_t channel_of(const struct colouring *k, uint64_t j)
{
    return model_number(&k->p->file, k->cdef + 6 * j, 2);
}

static uint64_t typ_of(const struct colouring *k, uint64_t j)
{
    return model_number(&k->p->file, k->cdef + 6 * j + 2, 2);
}

static uint64_t asoc_of(const struct colouring *k, uint64_t j)
{
    return model_number(&k->p->file, k->cdef + 6 * j + 4, 2);
}

static uint64_t mapped_component(const struct colouring *k, uint64_t c)
{
    return model_number(&k->p->file, k->cmap + 4 * c, 2);
}

static uint64_t mapping_type(const struct colouring *k, uint64_t c)
{
    return model_number(&k->p->file, k->cmap + 4 * c + 2, 1);
}

static uint64_t mapping_column(const struct colouring *k, uint64_t c)
{
    return model_number(&k->p->file, k->cmap + 4 * c + 3, 1);
}

static uint64_t channels(const struct colouring *k)
{
    return k->mappings != 0 ? k->columns : k->p->count;
}

static uint64_t component_of(const struct colouring *k, uint64_t c)
{
    return k->mappings != 0 ? mapped_component(k, c) : c;
}

// 25: the lowest definition with a channel or a colour that is not below the channels.
static int64_t first_misnamed(const struct colouring *k)
{
    for (uint64_t j = 0; j < k->definitions; j++) {
        uint64_t asoc = asoc_of(k, j);
        if (channel_of(k, j) >= channels(k) || (asoc != 0 && asoc != 65535 && asoc > channels(k)))
            return (int64_t)j;
    }
    return -1;
}

// 26: the lowest channel that no definition names, from 1 up. "It also wants channel 0 defined", R-2 says of edition 2.
static int64_t first_undefined(const struct colouring *k)
{
    static uint8_t named[65536];
    if (k->definitions == 0)
        return -1;
    memset(named, 0, sizeof named);
    for (uint64_t j = 0; j < k->definitions; j++)
        named[channel_of(k, j)] = 1;
    for (uint64_t c = k->p->edition2 != 0 ? 0 : 1; c < channels(k); c++)
        if (!named[c])
            return (int64_t)c;
    return -1;
}

// 27: the lowest mapping without a component, or neither direct nor to its own column.
static int64_t first_mismapped(const struct colouring *k)
{
    for (uint64_t c = 0; c < k->mappings; c++) {
        uint64_t type = mapping_type(k, c), column = mapping_column(k, c);
        if (mapped_component(k, c) >= k->p->count || !((type == 0 && column == 0) || (type == 1 && column == c)))
            return (int64_t)c;
    }
    return -1;
}

// 28: the lowest mapping whose component has no samples.
static int64_t first_dataless(const struct colouring *k)
{
    for (uint64_t c = 0; c < k->mappings; c++)
        if (number_of(k->p, mapped_component(k, c), DATA) == NONE)
            return (int64_t)c;
    return -1;
}

// With one component, a direct mapping of a channel from 1 up makes all mappings palette mappings.
static int corrected(const struct colouring *k)
{
    for (uint64_t c = 1; k->p->count == 1 && c < k->mappings; c++)
        if (mapping_type(k, c) == 0)
            return 1;
    return 0;
}

static wide samples_before(const struct colouring *k, uint64_t c)
{
    wide sum = 0;
    for (uint64_t i = 0; i < c; i++)
        sum += size_of(k->p, component_of(k, i));
    return sum;
}

// A column of the palette: where its entry of row 0 stands, how far the next row is, and the bytes of an entry.
struct column {
    uint64_t at, step;
    unsigned bytes;
};

static struct column column_of(const struct colouring *k, uint64_t c)
{
    uint64_t before = row_bytes(k, c);
    return (struct column){k->pclr + k->columns + before, row_bytes(k, k->columns), (unsigned)(row_bytes(k, c + 1) - before)};
}

static int32_t look_up(const struct colouring *k, const struct column *column, int32_t sample)
{
    uint64_t last = k->entries - 1, row = sample < 0 ? 0 : (uint64_t)sample > last ? last : (uint64_t)sample;
    return (int32_t)(uint32_t)model_number(&k->p->file, column->at + row * column->step, column->bytes);
}

static void pack_channel(const struct colouring *k, uint64_t c, uint64_t start, int by_palette)
{
    uint64_t component = component_of(k, c), size = size_of(k->p, component);
    const int32_t *from = k->p->samples + (size == 0 ? 0 : number_of(k->p, component, DATA));
    struct column column = {0};
    if (by_palette)
        column = column_of(k, c);
    for (uint64_t i = 0; i < size; i++)
        planes[start + i] = by_palette ? look_up(k, &column, from[i]) : from[i];
}

static void pack_record(const struct colouring *k, uint64_t c, uint64_t start)
{
    uint32_t *r = records + c * COMPONENT_NUMBERS;
    for (unsigned n = 0; n < COMPONENT_NUMBERS; n++)
        r[n] = number_of(k->p, component_of(k, c), n);
    if (r[DATA] != NONE)
        r[DATA] = (uint32_t)start;
    if (k->mappings != 0) {
        uint64_t b = model_number(&k->p->file, k->pclr + c, 1);
        r[PREC] = (b & 127) + 1;
        r[SGND] = b >> 7;
    }
}

static void pack(const struct colouring *k)
{
    int all = corrected(k);
    uint64_t start = 0;
    for (uint64_t c = 0; c < channels(k); c++) {
        pack_record(k, c, start);
        pack_channel(k, c, start, k->mappings != 0 && (all || mapping_type(k, c) == 1));
        start += size_of(k->p, component_of(k, c));
    }
}

static void swap_records(uint64_t a, uint64_t b)
{
    uint32_t keep[COMPONENT_NUMBERS], *ra = records + a * COMPONENT_NUMBERS, *rb = records + b * COMPONENT_NUMBERS;
    memcpy(keep, ra, sizeof keep);
    memmove(ra, rb, sizeof keep);
    memcpy(rb, keep, sizeof keep);
}

// Where each channel stands, and which one stands at each position.
static uint32_t seat[MOST_COMPONENTS], holder[MOST_COMPONENTS];

static void exchange(uint64_t p, uint64_t q)
{
    swap_records(p, q);
    uint32_t a = holder[p], b = holder[q];
    holder[p] = b;
    holder[q] = a;
    seat[a] = (uint32_t)q;
    seat[b] = (uint32_t)p;
}

static void mark(uint64_t position, uint64_t typ)
{
    records[position * COMPONENT_NUMBERS + ALPHA] = (uint32_t)typ;
}

// In edition 1 the mark goes to the position that the channel had.
static void define(const struct colouring *k, uint64_t j)
{
    uint64_t p = seat[channel_of(k, j)], typ = typ_of(k, j), asoc = asoc_of(k, j);
    if (typ == 0 && asoc != 0 && asoc != 65535)
        exchange(p, asoc - 1);
    if (k->p->edition2 == 0)
        mark(p, typ);
}

// Edition 2, once all records have moved: "each plane the mark from its own channel's definition", and "a channel defined
// twice takes its last definition's typ". So from the last definition to the first, each channel is marked once.
static void mark_own_channels(const struct colouring *k)
{
    static uint8_t marked[MOST_COMPONENTS];
    memset(marked, 0, sizeof marked);
    for (uint64_t j = k->definitions; j > 0; j--) {
        uint64_t c = channel_of(k, j - 1);
        if (!marked[c])
            mark(seat[c], typ_of(k, j - 1));
        marked[c] = 1;
    }
}

static void reorder(const struct colouring *k)
{
    for (uint32_t c = 0; c < channels(k); c++)
        seat[c] = holder[c] = c;
    for (uint64_t j = 0; j < k->definitions; j++)
        define(k, j);
    if (k->p->edition2 != 0)
        mark_own_channels(k);
}

static void decline(struct model_finished *out, uint64_t number, uint64_t place)
{
    out->answer[ANSWER_KIND] = 1;
    out->answer[ANSWER_NUMBER] = number;
    out->answer[ANSWER_PLACE] = place;
}

static int declined_colours(const struct colouring *k, struct model_finished *out)
{
    static int64_t (*const search[])(const struct colouring *) = {first_misnamed, first_undefined, first_mismapped, first_dataless};
    for (unsigned i = 0; i < 4; i++) {
        int64_t at = search[i](k);
        if (at >= 0) {
            decline(out, 25 + i, (uint64_t)at);
            return 1;
        }
    }
    return 0;
}

static void finish_coloured(const struct colouring *k, struct model_finished *out)
{
    if (declined_colours(k, out))
        return;
    uint64_t n = channels(k);
    wide needed = samples_before(k, n);
    out->needed_records = COMPONENT_NUMBERS * n;
    out->needed_samples = (uint64_t)needed;
    if (k->p->records_len < out->needed_records)
        return decline(out, 30, out->needed_records);
    if (needed > MOST_SAMPLES || k->p->planes_len < needed)
        return decline(out, 30, (uint64_t)needed);
    require(needed <= MODEL_SAMPLES, "more samples than the model has room for");
    pack(k);
    reorder(k);
    out->answer[ANSWER_COUNT] = n;
    out->records = records;
    out->planes = planes;
    out->plane_samples = (uint64_t)needed;
}

static struct colouring colouring_of(const struct model_picture *p)
{
    const uint64_t *r = p->reading;
    return (struct colouring){p, r[PCLR_PLACE], r[PCLR_ENTRIES], r[PCLR_COLUMNS], r[CMAP_PLACE], r[CMAP_COUNT], r[CDEF_PLACE], r[CDEF_COUNT]};
}

// 29 on the list for the reading: a kind, a number of a refusal, or sides of a palette that no reading has. A list that is
// too short is told by its kind.
static int no_reading(const uint64_t *r)
{
    if (r[KIND] > REFUSED || (r[KIND] == REFUSED && (r[VALUE] < 1 || r[VALUE] > 24)))
        return 1;
    return r[PCLR_ENTRIES] > UINT32_MAX || r[PCLR_COLUMNS] > UINT32_MAX;
}

void model_finish(const struct model_picture *p, struct model_finished *out)
{
    memset(out, 0, sizeof *out);
    if (no_reading(p->reading))
        return decline(out, 29, 0);
    if (p->reading[KIND] == REFUSED)
        return decline(out, p->reading[VALUE], p->reading[PLACE]);
    struct colouring k = colouring_of(p);
    if (outside_lists(p) || outside_file(&k))
        return decline(out, 29, 0);
    if (p->ignore != 0)
        k.columns = k.mappings = k.definitions = 0;
    finish_coloured(&k, out);
}
