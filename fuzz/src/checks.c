#include "checks.h"
#include "call.h"
#include "finding.h"

#include <inttypes.h>
#include <string.h>

static void compare_numbers(const struct lent *l, const uint64_t *expected, size_t count, const char *name)
{
    uint64_t given[READING_NUMBERS];
    memcpy(given, l->own, count * sizeof *given);
    for (size_t i = 0; i < count; i++)
        if (given[i] != expected[i])
            finding("%s: number %zu is %" PRIu64 ", and %" PRIu64 " is asked for", name, i, given[i], expected[i]);
}

static void check_number(uint64_t number, uint64_t lowest, uint64_t highest)
{
    if (number < lowest || number > highest)
        finding("the number %" PRIu64 " is none that this entry may answer", number);
}

static void check_returned(uint32_t returned, uint64_t expected)
{
    if (returned != expected)
        finding("returned %" PRIu32 ", and the answer says %" PRIu64, returned, expected);
}

void check_answer(const struct lent *answer, uint32_t returned, uint64_t lowest, uint64_t highest, const uint64_t expected[ANSWER_NUMBERS])
{
    if (answer->bytes < ANSWER_NUMBERS * sizeof(uint64_t)) {
        check_returned(returned, 30);
        check_holds(answer, NULL, 0, "answer");
        return;
    }
    uint64_t number = ((uint64_t *)answer->own)[ANSWER_NUMBER];
    check_returned(returned, number);
    if (number != 0)
        check_number(number, lowest, highest);
    compare_numbers(answer, expected, ANSWER_NUMBERS, "answer");
    check_holds(answer, expected, ANSWER_NUMBERS * sizeof(uint64_t), "answer");
}

static void check_list(const struct model_file *f, uint64_t place, uint64_t bytes, const char *name)
{
    if (bytes > 0 && (place > f->length || bytes > f->length - place))
        finding("the list %s does not lie in the file", name);
}

static void check_codestream(const struct model_file *f, uint64_t offset)
{
    if (offset > f->length || offset < 8)
        finding("the codestream's offset does not lie in the file");
    if (model_number(f, offset - 4, 4) != 0x6a703263 && model_number(f, offset - 12, 4) != 0x6a703263)
        finding("no header of a codestream stands before its offset");
}

static void check_refusal(const struct model_file *f, const uint64_t *r)
{
    check_number(r[VALUE], 1, 24);
    if (r[PLACE] != 0 && r[PLACE] >= f->length)
        finding("the place of a refusal does not lie in the file");
    for (int i = PLACE + 1; i < READING_NUMBERS; i++)
        if (r[i] != 0)
            finding("a refusal has a record");
}

static void check_reading(const struct model_file *f, const uint64_t r[READING_NUMBERS])
{
    if (r[KIND] == REFUSED)
        return check_refusal(f, r);
    if (r[KIND] > REFUSED)
        finding("the kind of a reading is none");
    if (r[KIND] == CODESTREAM)
        check_codestream(f, r[VALUE]);
    check_list(f, r[CL_PLACE], 4 * r[CL_COUNT], "cl");
    check_list(f, r[BPCC_PLACE], r[BPCC_COUNT], "bpcc");
    check_list(f, r[ICC_PLACE], r[ICC_COUNT], "icc profile");
    check_list(f, r[PCLR_PLACE], r[PCLR_COLUMNS] + r[PCLR_COLUMNS] * r[PCLR_ENTRIES], "palette");
    check_list(f, r[CMAP_PLACE], 4 * r[CMAP_COUNT], "cmap");
    check_list(f, r[CDEF_PLACE], 6 * r[CDEF_COUNT], "cdef");
}

// The numbers of a reading keep their rules, agree with what was returned, and are the model's.
static void check_given(const struct model_file *f, const struct lent *reading, uint32_t returned, const uint64_t *expected)
{
    uint64_t given[READING_NUMBERS];
    memcpy(given, reading->own, sizeof given);
    check_returned(returned, given[KIND] == REFUSED ? given[VALUE] : 0);
    check_reading(f, given);
    compare_numbers(reading, expected, READING_NUMBERS, "reading");
    check_holds(reading, expected, sizeof given, "reading");
}

void check_read(const struct model_file *f, enum side side, uint64_t reading_len, const uint64_t expected[READING_NUMBERS])
{
    struct lent reading = lend_blank(READING_LIST, side, sizeof(uint64_t), reading_len * sizeof(uint64_t));
    struct words w = {0};
    add_list(&w, f->bytes, f->length);
    add_list(&w, reading.list, reading_len);
    uint32_t returned = call(cuzhantir_read, &w);
    if (reading_len >= READING_NUMBERS)
        return check_given(f, &reading, returned, expected);
    check_returned(returned, 30);
    check_holds(&reading, NULL, 0, "reading");
}

// The numbers that cuzhantir_read gives, which keep their rules.
static void ask_reading(const struct model_file *f, uint64_t given[READING_NUMBERS])
{
    struct lent reading = lend_blank(READING_LIST, AT_END, sizeof *given, READING_NUMBERS * sizeof *given);
    struct words w = {0};
    add_list(&w, f->bytes, f->length);
    add_list(&w, reading.list, READING_NUMBERS);
    uint32_t returned = call(cuzhantir_read, &w);
    memcpy(given, reading.own, READING_NUMBERS * sizeof *given);
    check_returned(returned, given[KIND] == REFUSED ? given[VALUE] : 0);
    check_reading(f, given);
}

void check_beginning(const struct model_file *f, uint64_t length)
{
    uint64_t whole[READING_NUMBERS], part[READING_NUMBERS];
    ask_reading(f, whole);
    if (whole[KIND] != CODESTREAM)
        return;
    struct model_file beginning = {f->bytes, length};
    ask_reading(&beginning, part);
    int same = memcmp(whole, part, sizeof whole) == 0;
    if (same != (whole[VALUE] <= length))
        finding("a beginning of %" PRIu64 " bytes, and a codestream at %" PRIu64 ": the same numbers %d", length, whole[VALUE], same);
    if (!same && part[KIND] != ENDED && (part[KIND] != REFUSED || part[VALUE] != 4))
        finding("a beginning of %" PRIu64 " bytes gives kind %" PRIu64 " and %" PRIu64, length, part[KIND], part[VALUE]);
}
