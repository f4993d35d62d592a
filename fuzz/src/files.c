#include "files.h"

#include <string.h>

static uint8_t made[MOST_FILE];
static size_t length;

static void put_bytes(const uint8_t *from, size_t n)
{
    if (n > sizeof made - length)
        n = sizeof made - length;
    if (n > 0)
        memcpy(made + length, from, n);
    length += n;
}

static void put_number(uint64_t n, unsigned bytes)
{
    uint8_t b[8];
    for (unsigned i = 0; i < bytes; i++)
        b[i] = (uint8_t)(n >> 8 * (bytes - 1 - i));
    put_bytes(b, bytes);
}

// The types of box that are put together, by the low four bits of an order. 1 opens a jp2h and 2 closes it.
enum { OPEN = 1, CLOSE = 2, SIGNATURE = 3, FILE_TYPE = 4, DEFINITIONS = 10, ANY_TYPE = 14, BARE = 15 };
static const uint32_t TYPES[16] = {0x6a703263, 0x6a703268, 0, 0x6a502020, 0x66747970, 0x69686472, 0x62706363, 0x636f6c72,
                                   0x70636c72, 0x636d6170, 0x63646566, 0x72657320, 0x75756964, 0x786d6c20, 0, 0};

// How a box tells its length, by the high four bits of an order.
enum { PLAIN, EXTENDED, LENGTH_ZERO, WITH_HIGH_WORD, LENGTH_OFF, EXTENDED_OFF };

static void put_header(uint32_t type, unsigned form, size_t content, int8_t off)
{
    int extended = form == EXTENDED || form == WITH_HIGH_WORD || form == EXTENDED_OFF;
    int64_t n = (int64_t)content + (extended ? 16 : 8);
    if (form == LENGTH_OFF || form == EXTENDED_OFF)
        n += off;
    put_number(extended ? 1 : form == LENGTH_ZERO ? 0 : (uint64_t)n, 4);
    put_number(type, 4);
    if (extended)
        put_number((uint64_t)n | (form == WITH_HIGH_WORD ? UINT64_C(1) << 32 : 0), 8);
}

// The signature and the file type are the usual ones where no content is given; definitions are counted.
static void put_content(unsigned kind, struct input content)
{
    if (kind == SIGNATURE && content.left == 0)
        put_number(0x0d0a870a, 4);
    else if (kind == FILE_TYPE && content.left == 0)
        put_bytes((const uint8_t *)"jp2 \0\0\0\0jp2 ", 12);
    else if (kind == DEFINITIONS && content.left % 6 == 0)
        put_number(content.left / 6, 2);
    put_bytes(content.at, content.left);
}

static size_t content_length(unsigned kind, size_t given)
{
    if (kind == SIGNATURE && given == 0)
        return 4;
    if (kind == FILE_TYPE && given == 0)
        return 12;
    return given + (kind == DEFINITIONS && given % 6 == 0 ? 2 : 0);
}

static void put_box(struct input *in, unsigned kind, unsigned form)
{
    uint32_t type = kind == ANY_TYPE ? take_u32(in) : TYPES[kind];
    int8_t off = form == LENGTH_OFF || form == EXTENDED_OFF ? (int8_t)take_u8(in) : 0;
    size_t n = take_u8(in);
    if (n == 255)
        n = take_u16(in);
    struct input content = take_part(in, n);
    put_header(type, form, content_length(kind, content.left), off);
    put_content(kind, content);
}

static void patch_length(size_t at, size_t n)
{
    size_t end = length;
    length = at;
    put_number(n, 4);
    length = end;
}

// Boxes, an order each: type and form of length in one byte, what the form needs, the content's length and the content.
static void put_boxes(struct input in)
{
    size_t open = SIZE_MAX;
    while (in.left > 0 && length < sizeof made - 65536) {
        uint8_t order = take_u8(&in);
        unsigned kind = order & 15, form = order >> 4;
        if ((kind == OPEN || kind == CLOSE) && open != SIZE_MAX) {
            patch_length(open, length - open);
            open = SIZE_MAX;
        }
        if (kind == OPEN) {
            open = length;
            put_header(TYPES[OPEN], PLAIN, 0, 0);
        } else if (kind == BARE) {
            struct input part = take_part(&in, form);
            put_bytes(part.at, part.left);
        } else if (kind != CLOSE) {
            put_box(&in, kind, form);
        }
    }
    if (open != SIZE_MAX)
        patch_length(open, length - open);
}

// Bytes, of which a piece is there many times: long lists out of short inputs.
static void put_repeated(struct input in)
{
    size_t before = take_u16(&in), piece = take_u8(&in), times = take_u16(&in);
    struct input front = take_part(&in, before), again = take_part(&in, piece);
    put_bytes(front.at, front.left);
    for (size_t i = 0; i < times && length < sizeof made - 65536; i++)
        put_bytes(again.at, again.left);
    put_bytes(in.at, in.left);
}

// A header that is mostly right: each byte of the input is a choice, so that a changed byte makes another header that is
// read up to its codestream, more often than not.

static size_t open_box(uint32_t type)
{
    size_t at = length;
    put_number(0, 4);
    put_number(type, 4);
    return at;
}

static void close_box(size_t at)
{
    patch_length(at, length - at);
}

static void put_signature(void)
{
    put_bytes((const uint8_t *)"\0\0\0\14jP  \r\n\207\n\0\0\0\24ftypjp2 \0\0\0\0jp2 ", 32);
}

static void put_ihdr(struct input *in, unsigned components)
{
    size_t at = open_box(0x69686472);
    put_number(1 + take_u8(in), 4);
    put_number(1 + take_u8(in), 4);
    put_number(components, 2);
    put_number(take_u8(in), 1);
    put_number(7, 1);
    put_number(0, 2);
    close_box(at);
}

static void put_bpcc(struct input *in, unsigned components)
{
    size_t at = open_box(0x62706363);
    for (unsigned c = 0; c < components; c++)
        put_number(take_u8(in), 1);
    close_box(at);
}

static void put_colr(struct input *in)
{
    size_t at = open_box(0x636f6c72);
    uint8_t choice = take_u8(in);
    put_number(choice % 4, 1);
    put_number(take_u8(in), 2);
    if (choice % 4 == 1)
        put_number(choice & 16 ? 14 : 12 + (choice >> 5), 4);
    struct input rest = take_part(in, choice & 4 ? 28 : choice & 8 ? take_u8(in) : 0);
    put_bytes(rest.at, rest.left);
    close_box(at);
}

static size_t entry_bytes(uint8_t width)
{
    size_t n = ((width & 127u) + 8) / 8;
    return n < 4 ? n : 4;
}

// How many columns the palette has.
static unsigned put_pclr(struct input *in)
{
    size_t at = open_box(0x70636c72), row = 0;
    unsigned entries = 1 + take_u8(in) % 16, columns = 1 + take_u8(in) % 16;
    put_number(entries, 2);
    put_number(columns, 1);
    for (unsigned i = 0; i < columns; i++) {
        uint8_t width = take_u8(in);
        put_number(width, 1);
        row += entry_bytes(width);
    }
    uint8_t seed = take_u8(in);
    for (size_t i = 0; i < entries * row; i++)
        put_number((i * 89 + seed) ^ i >> 3, 1);
    close_box(at);
    return columns;
}

static void put_cmap(struct input *in, unsigned components, unsigned columns)
{
    size_t at = open_box(0x636d6170);
    for (unsigned i = 0; i < columns; i++) {
        uint8_t choice = take_u8(in);
        put_number(choice == 255 ? components : (choice >> 2) % components, 2);
        put_number((choice & 3) != 3, 1);
        put_number((choice & 3) == 3 ? 0 : choice == 254 ? i + 1 : i, 1);
    }
    close_box(at);
}

static uint32_t pick_typ(uint8_t choice)
{
    static const uint16_t TYPS[8] = {0, 0, 0, 0, 0, 1, 2, 65535};
    return TYPS[choice % 8];
}

static uint32_t pick_asoc(uint8_t choice, unsigned channels)
{
    if (choice >= 250)
        return choice == 255 ? channels + 1 : choice == 254 ? 65534 : choice % 2 ? 65535 : 0;
    return 1 + choice % channels;
}

// Each channel is defined once, from some channel on, and some more than once.
static void put_cdef(struct input *in, unsigned channels)
{
    size_t at = open_box(0x63646566);
    uint8_t choice = take_u8(in);
    unsigned count = channels + (choice & 3);
    put_number(count, 2);
    for (unsigned i = 0; i < count; i++) {
        uint8_t colour = take_u8(in);
        put_number((i + (choice >> 2)) % channels, 2);
        put_number(pick_typ(choice & 3 ? colour >> 5 : choice >> 5), 2);
        put_number(pick_asoc(colour, channels), 2);
    }
    close_box(at);
}

// What a header has; the bits of a choice.
enum { HAS_BPCC = 1, HAS_PCLR = 2, HAS_CMAP = 4, HAS_CDEF = 8, HAS_OTHER = 16, HAS_COLR = 32, OUTSIDE = 64 };

static void put_colouring(struct input *in, uint8_t has, unsigned components)
{
    unsigned columns = has & HAS_PCLR ? put_pclr(in) : 0;
    int mapped = has & HAS_CMAP && columns > 0;
    if (mapped)
        put_cmap(in, components, columns);
    if (has & HAS_CDEF)
        put_cdef(in, mapped ? columns : components);
}

static void put_made_header(struct input in)
{
    uint8_t has = take_u8(&in);
    unsigned components = 1 + take_u8(&in) % 8;
    put_signature();
    size_t at = open_box(TYPES[OPEN]);
    put_ihdr(&in, components);
    if (has & HAS_BPCC)
        put_bpcc(&in, components);
    if (has & HAS_COLR)
        put_colr(&in);
    if (has & HAS_OTHER)
        put_number(UINT64_C(0x0000000872657320), 8);
    if (has & OUTSIDE)
        close_box(at);
    put_colouring(&in, has, components);
    if (!(has & OUTSIDE))
        close_box(at);
    put_boxes(in);
    put_header(TYPES[0], PLAIN, 2, 0);
    put_number(0xff4f, 2);
}

struct file make_file(struct input in, enum form form)
{
    length = 0;
    if (form == BOXES)
        put_boxes(in);
    else if (form == REPEATED)
        put_repeated(in);
    else if (form == HEADER)
        put_made_header(in);
    else
        put_bytes(in.at, in.left);
    return (struct file){made, length};
}
