// The target of reading: any bytes as a file.
#include "checks.h"
#include "files.h"
#include "lists.h"
#include "reach.h"

// Magnitudes of all numbers, and what the short ones are.
static void note_reading(const uint64_t *r)
{
    for (uint32_t i = IMAGE_H; i < READING_NUMBERS; i++)
        reached(i, magnitude(r[i]));
    if (r[KIND] == REFUSED)
        reached(100, r[VALUE] * 64 + magnitude(r[PLACE]));
    else
        reached(101, r[KIND] * 64 + magnitude(r[VALUE]));
    reached(102, r[NUMCOMPS] < 16 ? r[NUMCOMPS] : 16);
    reached(103, r[PCLR_COLUMNS] < 16 ? r[PCLR_COLUMNS] : 16);
    reached(104, r[CDEF_COUNT] < 16 ? r[CDEF_COUNT] : 16);
}

// The file at each side of its room, and with a list for the reading of another length.
static void read_lent(const struct file *f, uint8_t choice)
{
    uint64_t expected[READING_NUMBERS];
    struct model_file m = {f->bytes, f->length};
    model_read(&m, expected);
    for (enum side side = 0; side < SIDES; side++) {
        struct lent file = lend(FILE_LIST, side, 1, f->bytes, f->length);
        m.bytes = file.list;
        check_read(&m, side, READING_NUMBERS, expected);
        check_read(&m, side, near(READING_NUMBERS, choice), expected);
    }
    note_reading(expected);
}

// A beginning of the file, in the same memory.
static void read_beginning(const struct file *f, uint32_t cut)
{
    struct lent file = lend(FILE_LIST, AT_START, 1, f->bytes, f->length);
    struct model_file m = {file.list, f->length};
    check_beginning(&m, cut % (f->length + 1));
}

// The file at the front of a list of about 4 GiB, with zeros behind it.
static void read_huge(const struct file *f, uint8_t choice, uint32_t less)
{
    uint64_t n = choice & 1 ? UINT32_MAX - (uint64_t)less % (UINT32_MAX - MOST_FILE) : UINT32_MAX + (uint64_t)(choice >> 1);
    uint64_t expected[READING_NUMBERS];
    struct model_file m = {huge_file(f->bytes, f->length), n};
    model_read(&m, expected);
    check_read(&m, AT_END, READING_NUMBERS, expected);
    note_reading(expected);
}

// A file of more than 4294967295 bytes is refused before any of them is looked at.
static void read_untouchable(uint8_t choice)
{
    uint64_t expected[READING_NUMBERS] = {REFUSED, 1, 0};
    struct model_file m = {untouchable(), (UINT64_C(1) << (32 + choice % 4)) + choice};
    check_read(&m, AT_START, READING_NUMBERS, expected);
}

void run_target(struct input in)
{
    uint8_t form = take_u8(&in), choice = take_u8(&in);
    uint32_t less = form & 64 ? take_u32(&in) >> (choice >> 3) : 0;
    struct file f = make_file(in, form % FORMS);
    if (form & 64) {
        read_huge(&f, choice, less);
    } else {
        read_lent(&f, choice);
        read_beginning(&f, (uint32_t)form << 8 | choice);
    }
    if (choice == 0)
        read_untouchable((uint8_t)in.left);
}
