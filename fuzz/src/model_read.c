// Reading: document 01, "The walk through the file", "Child boxes" and the numbers 1 to 24.
#include "model.h"

#include <string.h>

enum {
    JP = 0x6a502020, FTYP = 0x66747970, JP2H = 0x6a703268, JP2C = 0x6a703263,
    IHDR = 0x69686472, BPCC = 0x62706363, COLR = 0x636f6c72, PCLR = 0x70636c72, CMAP = 0x636d6170, CDEF = 0x63646566
};
#define UNKNOWN_BITS UINT64_C(0x7fffffff)

// The walk: the file, the record so far, and the refusal's number with its place. 0: none yet.
struct walk {
    const struct model_file *f;
    uint64_t r[READING_NUMBERS];
    uint64_t number, place;
};

// A box: its type, where it starts, where its content starts, and the content's length.
struct box {
    uint64_t type, place, start, content;
};

// How the bytes from a place up to an end begin.
enum begins { NOTHING, CUT, HIGH_WORD, TO_END, SHORT, PAST, WHOLE };

uint64_t model_number(const struct model_file *f, uint64_t at, unsigned bytes)
{
    uint64_t n = 0;
    for (unsigned i = 0; i < bytes; i++)
        n = n << 8 | (at + i < f->length ? f->bytes[at + i] : 0);
    return n;
}

static enum begins next_box(const struct model_file *f, uint64_t at, uint64_t end, struct box *b)
{
    uint64_t left = end - at;
    if (left == 0)
        return NOTHING;
    if (left < 8)
        return CUT;
    uint64_t lbox = model_number(f, at, 4), header = lbox == 1 ? 16 : 8;
    if (left < header)
        return CUT;
    uint64_t length = lbox == 0 ? left : lbox == 1 ? model_number(f, at + 8, 8) : lbox;
    if (length > UINT32_MAX)
        return HIGH_WORD;
    *b = (struct box){model_number(f, at + 4, 4), at, at + header, length - header};
    if (lbox == 0)
        return TO_END;
    if (length < header)
        return SHORT;
    return length > left ? PAST : WHOLE;
}

static void refuse(struct walk *w, uint64_t number, uint64_t place)
{
    w->number = number;
    w->place = place;
}

static uint64_t field(const struct walk *w, const struct box *b, uint64_t at, unsigned bytes)
{
    return model_number(w->f, b->start + at, bytes);
}

static void read_ihdr(struct walk *w, const struct box *b)
{
    if (w->r[NUMCOMPS] != 0)
        return;
    if (b->content != 14)
        return refuse(w, 13, b->place);
    uint64_t h = field(w, b, 0, 4), width = field(w, b, 4, 4), n = field(w, b, 8, 2);
    if (h == 0 || width == 0 || n == 0)
        return refuse(w, 14, b->place);
    if (n > MOST_COMPONENTS)
        return refuse(w, 15, b->place);
    w->r[IMAGE_H] = h;
    w->r[IMAGE_W] = width;
    w->r[NUMCOMPS] = n;
    w->r[BPC] = field(w, b, 10, 1);
    w->r[IMAGE_C] = field(w, b, 11, 1);
    w->r[UNKC] = field(w, b, 12, 1);
    w->r[IPR] = field(w, b, 13, 1);
    w->r[HAS_IHDR] = 1;
}

static void read_bpcc(struct walk *w, const struct box *b)
{
    if (b->content != w->r[NUMCOMPS])
        return refuse(w, 17, b->place);
    w->r[BPCC_PLACE] = b->start;
    w->r[BPCC_COUNT] = b->content;
}

static void read_lab(struct walk *w, const struct box *b)
{
    uint64_t *lab = w->r + LAB;
    memset(lab, 0, 9 * sizeof *lab);
    lab[0] = 14;
    w->r[LAB_COUNT] = b->content == 7 ? 8 : 9;
    if (b->content == 7) {
        lab[7] = 0x443530;
    } else if (b->content == 35) {
        for (int i = 0; i < 7; i++)
            lab[2 + i] = field(w, b, 7 + 4 * (uint64_t)i, 4);
    } else {
        lab[1] = 0x44454600;
        lab[8] = 0x443530;
    }
}

static void read_colr(struct walk *w, const struct box *b)
{
    if (b->content < 3)
        return refuse(w, 16, b->place);
    if (w->r[HELD] != 0)
        return;
    uint64_t meth = field(w, b, 0, 1);
    if (meth == 1 && b->content < 7)
        return refuse(w, 16, b->place);
    w->r[METH] = meth;
    w->r[PRECEDENCE] = field(w, b, 1, 1);
    w->r[APPROX] = field(w, b, 2, 1);
    if (meth == 1) {
        w->r[ENUMCS] = field(w, b, 3, 4);
        if (w->r[ENUMCS] == 14)
            read_lab(w, b);
    }
    if (meth == 2) {
        w->r[ICC_PLACE] = b->start + 3;
        w->r[ICC_COUNT] = b->content - 3;
    }
    if (meth == 1 || meth == 2)
        w->r[HELD] = 1;
}

// The bytes of one row of a palette whose columns' widths start in the content at 3.
static uint64_t row_bytes(const struct walk *w, const struct box *b, uint64_t columns)
{
    uint64_t sum = 0;
    for (uint64_t i = 0; i < columns; i++) {
        uint64_t bytes = ((field(w, b, 3 + i, 1) & 127) + 8) / 8;
        sum += bytes < 4 ? bytes : 4;
    }
    return sum;
}

static void read_pclr(struct walk *w, const struct box *b)
{
    if (w->r[PCLR_COLUMNS] != 0)
        return refuse(w, 18, b->place);
    if (b->content < 3)
        return refuse(w, 20, b->place);
    uint64_t entries = field(w, b, 0, 2), columns = field(w, b, 2, 1);
    if (entries == 0 || entries > 1024 || columns == 0)
        return refuse(w, 19, b->place);
    if (b->content < 3 + columns || b->content < 3 + columns + entries * row_bytes(w, b, columns))
        return refuse(w, 20, b->place);
    w->r[PCLR_PLACE] = b->start + 3;
    w->r[PCLR_ENTRIES] = entries;
    w->r[PCLR_COLUMNS] = columns;
}

static void read_cmap(struct walk *w, const struct box *b)
{
    uint64_t columns = w->r[PCLR_COLUMNS];
    if (columns == 0)
        return refuse(w, 21, b->place);
    if (w->r[CMAP_COUNT] != 0)
        return refuse(w, 18, b->place);
    if (b->content < 4 * columns)
        return refuse(w, 22, b->place);
    w->r[CMAP_PLACE] = b->start;
    w->r[CMAP_COUNT] = columns;
}

static void read_cdef(struct walk *w, const struct box *b)
{
    if (w->r[CDEF_COUNT] != 0)
        return refuse(w, 18, b->place);
    if (b->content < 2)
        return refuse(w, 23, b->place);
    uint64_t n = field(w, b, 0, 2);
    if (n == 0)
        return refuse(w, 24, b->place);
    if (b->content < 2 + 6 * n)
        return refuse(w, 23, b->place);
    w->r[CDEF_PLACE] = b->start + 2;
    w->r[CDEF_COUNT] = n;
}

static int is_child(uint64_t type)
{
    return type == IHDR || type == BPCC || type == COLR || type == PCLR || type == CMAP || type == CDEF;
}

static void read_child(struct walk *w, const struct box *b)
{
    switch (b->type) {
    case IHDR: return read_ihdr(w, b);
    case BPCC: return read_bpcc(w, b);
    case COLR: return read_colr(w, b);
    case PCLR: return read_pclr(w, b);
    case CMAP: return read_cmap(w, b);
    case CDEF: return read_cdef(w, b);
    default: w->r[IMGSTATE] |= UNKNOWN_BITS;
    }
}

static void read_jp2h(struct walk *w, const struct box *b)
{
    if ((w->r[STATE] & 2) == 0)
        return refuse(w, 9, b->place);
    w->r[IMGSTATE] = 0;
    int has_ihdr = 0;
    uint64_t at = b->start, end = b->start + b->content;
    struct box c;
    enum begins how;
    while ((how = next_box(w->f, at, end, &c)) == WHOLE) {
        read_child(w, &c);
        if (w->number != 0)
            return;
        has_ihdr |= c.type == IHDR;
        at = c.start + c.content;
    }
    if (how == CUT || how == HIGH_WORD || how == TO_END)
        return refuse(w, 10, at);
    if (how == SHORT || how == PAST)
        return refuse(w, 11, at);
    if (!has_ihdr)
        return refuse(w, 12, b->place);
    w->r[STATE] |= 4;
    w->r[HAS_JP2H] = 1;
}

static void read_jp(struct walk *w, const struct box *b)
{
    if (w->r[STATE] != 0 || b->content != 4 || field(w, b, 0, 4) != 0x0d0a870a)
        return refuse(w, 7, b->place);
    w->r[STATE] = 1;
}

static void read_ftyp(struct walk *w, const struct box *b)
{
    if (w->r[STATE] != 1 || b->content < 8 || b->content % 4 != 0)
        return refuse(w, 8, b->place);
    w->r[STATE] = 3;
    w->r[BRAND] = field(w, b, 0, 4);
    w->r[MINVERSION] = field(w, b, 4, 4);
    w->r[CL_PLACE] = b->start + 8;
    w->r[CL_COUNT] = (b->content - 8) / 4;
}

static void pass_over(struct walk *w, const struct box *b)
{
    if ((w->r[STATE] & 1) == 0)
        return refuse(w, 5, b->place);
    if ((w->r[STATE] & 2) == 0)
        return refuse(w, 6, b->place);
    w->r[STATE] |= UNKNOWN_BITS;
}

static void read_outer(struct walk *w, const struct box *b)
{
    if (b->type == JP)
        read_jp(w, b);
    else if (b->type == FTYP)
        read_ftyp(w, b);
    else if (b->type == JP2H)
        read_jp2h(w, b);
    else if (is_child(b->type) && (w->r[STATE] & 4) == 0)
        w->r[STATE] |= UNKNOWN_BITS;
    else if (is_child(b->type))
        read_child(w, b);
    else
        pass_over(w, b);
}

static int is_read(uint64_t type)
{
    return type == JP || type == FTYP || type == JP2H || is_child(type);
}

// A box that is no codestream. Whether the walk goes on behind it.
static int read_one(struct walk *w, enum begins how, const struct box *b)
{
    if (how == SHORT)
        refuse(w, 3, b->place);
    else if (how == PAST && is_read(b->type))
        refuse(w, 4, b->place);
    else if (how == PAST)
        pass_over(w, b);
    else
        read_outer(w, b);
    return how == WHOLE && w->number == 0;
}

static void reach_codestream(struct walk *w, const struct box *b)
{
    if ((w->r[STATE] & 4) == 0)
        return refuse(w, 2, b->place);
    w->r[STATE] |= 8;
    w->r[KIND] = CODESTREAM;
    w->r[VALUE] = b->start;
}

static void read_boxes(struct walk *w)
{
    uint64_t at = 0;
    struct box b;
    for (;;) {
        enum begins how = next_box(w->f, at, w->f->length, &b);
        w->r[KIND] = ENDED;
        if (how == NOTHING || how == CUT || how == HIGH_WORD)
            return;
        if (b.type == JP2C)
            return reach_codestream(w, &b);
        if (!read_one(w, how, &b))
            return;
        at = b.start + b.content;
    }
}

void model_read(const struct model_file *f, uint64_t reading[READING_NUMBERS])
{
    struct walk w = {.f = f};
    if (f->length > UINT32_MAX)
        refuse(&w, 1, 0);
    else
        read_boxes(&w);
    if (w.number != 0) {
        memset(w.r, 0, sizeof w.r);
        w.r[KIND] = REFUSED;
        w.r[VALUE] = w.number;
        w.r[PLACE] = w.place;
    }
    memcpy(reading, w.r, sizeof w.r);
}
