// Stand-ins for the exports, each with one thing wrong, to see that the harness finds it. They call the right ones, which
// are linked under names that start with right_, and spoil what these give. WRONG says what is wrong; 0 is nothing.
// As the archive, they are compiled without sanitizers.
#define cuzhantir_picture declared_cuzhantir_picture
#include "exports.h"
#undef cuzhantir_picture

#include <string.h>

// The types of the two flags; where the upper half of a flag's word is taken too its type is another.
#ifndef FLAG
#define FLAG uint32_t
#endif
#ifndef EDITION
#define EDITION uint32_t
#endif

#define READ_PARAMETERS const uint8_t *file, size_t file_len, uint64_t *reading, size_t reading_len
#define PICTURE_PARAMETERS const uint32_t *comps, size_t comps_len, uint32_t count, const int32_t *samples, size_t samples_len, \
                           uint32_t *records, size_t records_len, int32_t *planes, size_t planes_len, \
                           uint64_t *answer, size_t answer_len
#define PICTURE_WORDS comps, comps_len, count, samples, samples_len, records, records_len, planes, planes_len, answer, answer_len
#define PICTURE_WITHOUT_ROOM comps, comps_len, count, samples, samples_len, NULL, 0, NULL, 0, answer, answer_len
#define WRITE_PARAMETERS const uint32_t *comps, size_t comps_len, uint32_t count, uint32_t x0, uint32_t y0, uint32_t x1, uint32_t y1, \
                         uint32_t space, const uint8_t *profile, size_t profile_len, uint64_t codestream, \
                         uint8_t *d, size_t d_len, uint64_t *answer, size_t answer_len

uint32_t right_cuzhantir_read(READ_PARAMETERS);
uint32_t right_cuzhantir_finish(const uint8_t *file, size_t file_len, const uint64_t *reading, size_t reading_len, uint32_t ignore, uint32_t edition2,
                                PICTURE_PARAMETERS);
uint32_t right_cuzhantir_picture(const uint8_t *file, size_t file_len, uint32_t ignore, uint32_t edition2, PICTURE_PARAMETERS);
uint32_t right_cuzhantir_write(WRITE_PARAMETERS);

// The list of what is wrong; fuzz/self-check has the same names.
enum {
    NOTHING, READ_PAST_END, READ_BEFORE_START, NUMBER_BEHIND, INVENTED_NUMBER, PLACE_FURTHER, HEIGHT_FOR_WIDTH, OTHER_RETURN,
    SHORT_LIST_WRITTEN, REGISTER_LOST, STACK_TOO_DEEP, LONG_FILE_TOUCHED, REMEMBERS, NEVER_RETURNS, TWELVE_COLUMNS,
    CUT_REFUSED_BY_CONTENT, CUT_CODESTREAM_LOST,
    RECORD_ON_REFUSAL, SAMPLE_BEHIND, PLANES_EXCHANGED, NEEDED_LESS, FLAG_FORGOTTEN, READING_TRUSTED, UPPER_HALF, SAMPLE_LENT_CHANGED,
    LAST_SAMPLE, SAMPLE_PAST_END, MARK_KEPT, FIVE_PLANES,
    OLD_PLACE_IN_2, OWN_CHANNEL_IN_1, EDITIONS_TURNED, CHANNEL_0_LEFT_OUT, CHANNEL_0_IN_1, CHANNEL_0_LATE, FIRST_DEFINITION,
    IGNORE_FOR_EDITION, FLAGS_EXCHANGED, EDITION_FORGOTTEN, EDITION_2_BY_1_ALONE, EDITION_UPPER_HALF, ORDER_LOSES_MARK, ORDER_REFUSED,
    OTHER_EDITION_MOVES,
    BYTE_PAST_END, BYTE_ON_REFUSAL, DEPTH_CHANGED, BYTES_NEEDED_LESS, INVENTED_WRITING, DIRECTION_LEFT, SIX_COMPONENTS
};

static volatile uint32_t sink;

static void take_stack(void)
{
    volatile uint8_t much[1 << 19];
    for (size_t i = sizeof much; i > 0; i -= 512)
        much[i - 1] = 1;
    sink = much[7];
}

static void spoil_call(READ_PARAMETERS)
{
    (void)reading;
    static unsigned calls;
    calls++;
    if (WRONG == READ_PAST_END && file_len < 1000)
        sink = ((const volatile uint8_t *)file)[file_len];
    if (WRONG == READ_BEFORE_START)
        sink = ((const volatile uint8_t *)file)[-1];
    if (WRONG == LONG_FILE_TOUCHED && file_len > UINT32_MAX)
        sink = ((const volatile uint8_t *)file)[0];
    if (WRONG == STACK_TOO_DEEP && file_len > 300)
        take_stack();
    if (WRONG == NEVER_RETURNS && file_len > 100)
        for (;;)
            sink = 1;
    if (WRONG == REMEMBERS && calls % 50 == 0 && reading_len > 43)
        reading[43] += 1;
}

static uint32_t spoil_reading(uint32_t returned, uint64_t *reading, size_t reading_len)
{
    if (WRONG == SHORT_LIST_WRITTEN && reading_len == 43)
        reading[0] = 0;
    if (reading_len < READING_NUMBERS)
        return returned;
    if (WRONG == NUMBER_BEHIND && reading_len > READING_NUMBERS)
        reading[READING_NUMBERS] = 0;
    if (WRONG == INVENTED_NUMBER && returned == 12)
        reading[VALUE] = returned = 40;
    if (WRONG == PLACE_FURTHER && returned == 12)
        reading[PLACE]++;
    if (WRONG == TWELVE_COLUMNS && reading[PCLR_COLUMNS] == 12)
        reading[PCLR_PLACE]++;
    if (WRONG == HEIGHT_FOR_WIDTH)
        reading[IMAGE_H] = reading[IMAGE_W];
    if (WRONG == OTHER_RETURN && reading[KIND] == ENDED)
        returned = 1;
    return returned;
}

// What the rules without a model are to find shows in their own calls alone. Compared with the first call for a picture, the file
// has other bytes with the same sum there, as with definitions in another order, or the edition is the other.
enum { SAME_CALL, OTHER_ORDER, OTHER_EDITION };
static struct {
    int known, second;
    uint64_t sum, hash;
} seen;

static int kind_of_call(const uint8_t *file, size_t file_len, uint32_t edition2)
{
    uint64_t sum = 0, hash = file_len;
    if (WRONG != ORDER_LOSES_MARK && WRONG != ORDER_REFUSED && WRONG != OTHER_EDITION_MOVES)
        return SAME_CALL;
    for (size_t i = 0; i < file_len; i++) {
        sum += file[i];
        hash = (hash ^ file[i]) * UINT64_C(1099511628211);
    }
    if (!seen.known) {
        seen.known = 1;
        seen.second = edition2 != 0;
        seen.sum = sum;
        seen.hash = hash;
    }
    if (seen.hash != hash)
        return seen.sum == sum ? OTHER_ORDER : SAME_CALL;
    return seen.second == (edition2 != 0) ? SAME_CALL : OTHER_EDITION;
}

// A beginning of the file of the call before, which reached its codestream: refused by a content, or ended behind the header.
static uint32_t spoil_beginning(uint32_t returned, READ_PARAMETERS)
{
    static const uint8_t *whole;
    static size_t whole_len;
    if (reading_len < READING_NUMBERS)
        return returned;
    int cut = file == whole && file_len < whole_len;
    whole = reading[KIND] == CODESTREAM ? file : NULL;
    whole_len = file_len;
    if (WRONG == CUT_REFUSED_BY_CONTENT && cut && returned == 4)
        reading[VALUE] = returned = 10;
    if (WRONG == CUT_CODESTREAM_LOST && cut && reading[KIND] == CODESTREAM) {
        reading[KIND] = ENDED;
        reading[VALUE] = 0;
    }
    return returned;
}

#ifdef LOSE
// r13 is one of the registers that a callee has to keep.
__attribute__((naked)) uint32_t cuzhantir_read(READ_PARAMETERS)
{
    __asm__("sub $8, %rsp\n call right_cuzhantir_read\n add $8, %rsp\n inc %r13\n ret");
}
#else
uint32_t cuzhantir_read(READ_PARAMETERS)
{
    seen.known = 0; // each picture is read first
    if (WRONG != REMEMBERS)
        spoil_call(file, file_len, reading, reading_len);
    uint32_t r = spoil_reading(right_cuzhantir_read(file, file_len, reading, reading_len), reading, reading_len);
    if (WRONG == REMEMBERS)
        spoil_call(file, file_len, reading, reading_len);
    return spoil_beginning(r, file, file_len, reading, reading_len);
}
#endif

static void exchange(uint32_t *a, uint32_t *b)
{
    uint32_t keep[COMPONENT_NUMBERS];
    memcpy(keep, a, sizeof keep);
    memcpy(a, b, sizeof keep);
    memcpy(b, keep, sizeof keep);
}

static void spoil_refused(uint32_t *records, size_t records_len, uint64_t *answer)
{
    if (WRONG == RECORD_ON_REFUSAL && records_len > 0)
        records[records_len - 1] = 0;
    if (WRONG == NEEDED_LESS && answer[ANSWER_NUMBER] == 30)
        answer[ANSWER_PLACE]--;
}

static void spoil_finished(uint32_t *records, int32_t *planes, size_t planes_len, uint64_t *answer)
{
    uint64_t n = answer[ANSWER_COUNT], taken = 0;
    for (uint64_t i = 0; i < n; i++)
        if (records[i * COMPONENT_NUMBERS + DATA] != NONE)
            taken += (uint64_t)records[i * COMPONENT_NUMBERS + W] * records[i * COMPONENT_NUMBERS + H];
    if (WRONG == PLANES_EXCHANGED && n == 3)
        exchange(records, records + 2 * COMPONENT_NUMBERS);
    if (WRONG == MARK_KEPT && n == 2)
        records[ALPHA] = 77;
    if (WRONG == FIVE_PLANES && n == 5 && records[DATA] != 0)
        exchange(records, records + COMPONENT_NUMBERS);
    if (WRONG == LAST_SAMPLE && taken > 7)
        planes[taken - 1]++;
    if (WRONG == SAMPLE_BEHIND && taken < planes_len)
        planes[taken] = 0;
    if (WRONG == SAMPLE_PAST_END && taken == planes_len)
        planes[taken] = 0;
}

static uint32_t spoil_picture(uint32_t returned, uint32_t *records, size_t records_len, int32_t *planes, size_t planes_len, uint64_t *answer, size_t answer_len)
{
    if (answer_len < ANSWER_NUMBERS)
        return returned;
    if (answer[ANSWER_KIND] == 0)
        spoil_finished(records, planes, planes_len, answer);
    else
        spoil_refused(records, records_len, answer);
    return returned;
}

#define FINISH_PARAMETERS const uint8_t *file, size_t file_len, const uint64_t *reading, size_t reading_len, uint32_t ignore
#define FINISH_WORDS file, file_len, reading, reading_len, ignore

// Finishing with a reading, or in one step where there is none.
static uint32_t right(FINISH_PARAMETERS, uint32_t edition2, PICTURE_PARAMETERS)
{
    if (reading == NULL)
        return right_cuzhantir_picture(file, file_len, ignore, edition2, PICTURE_WORDS);
    return right_cuzhantir_finish(FINISH_WORDS, edition2, PICTURE_WORDS);
}

// Where the record of each channel is once all definitions have moved theirs, and whose record is where.
static uint16_t place_of[MOST_COMPONENTS], channel_at[MOST_COMPONENTS];

static void follow_moves(const uint8_t *file, size_t file_len, const uint64_t *reading, uint64_t channels)
{
    struct cuzhantir_definition d;
    for (uint64_t c = 0; c < channels; c++)
        place_of[c] = channel_at[c] = (uint16_t)c;
    for (uint64_t n = 0; cuzhantir_definition_at(file, file_len, reading, n, &d); n++) {
        if (d.typ != 0 || d.asoc == 0 || d.asoc == 65535)
            continue;
        uint16_t from = place_of[d.channel], to = (uint16_t)(d.asoc - 1), moved = channel_at[to];
        place_of[d.channel] = to;
        place_of[moved] = from;
        channel_at[to] = (uint16_t)d.channel;
        channel_at[from] = moved;
    }
}

static void mark_by_first_definition(const uint8_t *file, size_t file_len, const uint64_t *reading, uint32_t *records, uint64_t channels)
{
    uint64_t own[READING_NUMBERS];
    struct cuzhantir_definition d;
    if (reading == NULL) {
        right_cuzhantir_read(file, file_len, own, READING_NUMBERS);
        reading = own;
    }
    follow_moves(file, file_len, reading, channels);
    for (uint64_t n = reading[CDEF_COUNT]; n > 0; n--) {
        cuzhantir_definition_at(file, file_len, reading, n - 1, &d);
        records[(size_t)place_of[d.channel] * COMPONENT_NUMBERS + ALPHA] = d.typ;
    }
}

static int refused_for_channel_0(const uint64_t *answer)
{
    return answer[ANSWER_KIND] == 1 && answer[ANSWER_NUMBER] == 26 && answer[ANSWER_PLACE] == 0;
}

// Edition 1, with one thing of edition 2.
static uint32_t wrong_first(FINISH_PARAMETERS, PICTURE_PARAMETERS)
{
    if (WRONG == CHANNEL_0_IN_1) {
        uint32_t second = right(FINISH_WORDS, 1, PICTURE_WITHOUT_ROOM);
        if (refused_for_channel_0(answer))
            return second;
    }
    if (WRONG == OWN_CHANNEL_IN_1) {
        right(FINISH_WORDS, 1, PICTURE_WITHOUT_ROOM);
        if (!refused_for_channel_0(answer))
            return right(FINISH_WORDS, 1, PICTURE_WORDS);
    }
    return right(FINISH_WORDS, 0, PICTURE_WORDS);
}

// Edition 2, with one thing of edition 1, or one that is its own done wrong.
static uint32_t wrong_second(FINISH_PARAMETERS, uint32_t edition2, PICTURE_PARAMETERS)
{
    uint32_t r = right(FINISH_WORDS, edition2, PICTURE_WORDS);
    if (WRONG == OLD_PLACE_IN_2 && r == 0)
        return right(FINISH_WORDS, 0, PICTURE_WORDS);
    if (WRONG == CHANNEL_0_LEFT_OUT && refused_for_channel_0(answer))
        return right(FINISH_WORDS, 0, PICTURE_WORDS);
    if (WRONG == CHANNEL_0_LATE && refused_for_channel_0(answer)) {
        uint32_t first = right(FINISH_WORDS, 0, PICTURE_WITHOUT_ROOM);
        return first == 27 || first == 28 ? first : right(FINISH_WORDS, edition2, PICTURE_WORDS);
    }
    if (WRONG == FIRST_DEFINITION && r == 0 && ignore == 0)
        mark_by_first_definition(file, file_len, reading, records, answer[ANSWER_COUNT]);
    return r;
}

static uint32_t wrong_flags(FINISH_PARAMETERS, uint32_t edition2, PICTURE_PARAMETERS)
{
    if (WRONG == EDITIONS_TURNED)
        edition2 = edition2 == 0;
    if (WRONG == EDITION_2_BY_1_ALONE)
        edition2 = edition2 == 1;
    if (WRONG == FLAGS_EXCHANGED)
        return right(file, file_len, reading, reading_len, edition2, ignore, PICTURE_WORDS);
    if (answer_len < ANSWER_NUMBERS)
        return right(FINISH_WORDS, edition2, PICTURE_WORDS);
    if (edition2 == 0)
        return wrong_first(FINISH_WORDS, PICTURE_WORDS);
    return wrong_second(FINISH_WORDS, edition2, PICTURE_WORDS);
}

static uint32_t spoil_rule(int kind, uint32_t returned, uint32_t edition2, uint32_t *records, uint64_t *answer)
{
    uint64_t n = answer[ANSWER_COUNT];
    if (WRONG == ORDER_LOSES_MARK && kind == OTHER_ORDER && edition2 != 0 && n > 0)
        records[ALPHA] ^= 1;
    if (WRONG == ORDER_REFUSED && kind == OTHER_ORDER && returned == 0) {
        answer[ANSWER_KIND] = 1;
        answer[ANSWER_NUMBER] = returned = 26;
        answer[ANSWER_COUNT] = 0;
    }
    if (WRONG == OTHER_EDITION_MOVES && kind == OTHER_EDITION && n > 1)
        exchange(records, records + COMPONENT_NUMBERS);
    return returned;
}

static uint32_t wrong_finish(FINISH_PARAMETERS, uint32_t edition2, PICTURE_PARAMETERS)
{
    int kind = kind_of_call(file, file_len, edition2);
    uint32_t r = wrong_flags(FINISH_WORDS, edition2, PICTURE_WORDS);
    if (answer_len < ANSWER_NUMBERS)
        return r;
    r = spoil_rule(kind, r, edition2, records, answer);
    return spoil_picture(r, records, records_len, planes, planes_len, answer, answer_len);
}

// The wrong one takes the whole word of a flag, where 32 bits count.
uint32_t cuzhantir_picture(const uint8_t *file, size_t file_len, FLAG ignore, EDITION edition2, PICTURE_PARAMETERS)
{
    uint32_t picked = WRONG == EDITION_UPPER_HALF ? edition2 != 0 : (uint32_t)edition2;
    if (WRONG == IGNORE_FOR_EDITION)
        picked = (uint32_t)ignore;
    uint32_t r = wrong_finish(file, file_len, NULL, 0, ignore != 0, picked, PICTURE_WORDS);
    if (WRONG == SAMPLE_LENT_CHANGED && samples_len > 0)
        ((int32_t *)samples)[samples_len - 1] = 0;
    return r;
}

uint32_t cuzhantir_finish(FINISH_PARAMETERS, uint32_t edition2, PICTURE_PARAMETERS)
{
    if (WRONG == READING_TRUSTED && reading_len >= READING_NUMBERS && reading[CDEF_COUNT] != 0)
        sink = ((const volatile uint8_t *)file)[reading[CDEF_PLACE]];
    if (WRONG == FLAG_FORGOTTEN)
        ignore = 0;
    if (WRONG == EDITION_FORGOTTEN)
        edition2 = 0;
    return wrong_finish(FINISH_WORDS, edition2, PICTURE_WORDS);
}

static uint32_t spoil_writing(uint32_t returned, uint8_t *d, size_t d_len, uint64_t *answer)
{
    if (WRONG == SIX_COMPONENTS && returned == 0 && d[56] == 0 && d[57] == 6)
        d[58] ^= 1;
    if (WRONG == BYTE_PAST_END && returned == 0 && answer[ANSWER_COUNT] == d_len)
        d[d_len] = 0;
    if (WRONG == BYTE_ON_REFUSAL && returned == 30 && d_len > 20)
        d[20] = 0;
    if (WRONG == DEPTH_CHANGED && returned == 0)
        d[58] ^= 1;
    if (WRONG == BYTES_NEEDED_LESS && returned == 30)
        answer[ANSWER_PLACE]--;
    if (WRONG == INVENTED_WRITING && returned == 34)
        answer[ANSWER_NUMBER] = returned = 35;
    return returned;
}

uint32_t cuzhantir_write(WRITE_PARAMETERS)
{
    uint32_t r = right_cuzhantir_write(comps, comps_len, count, x0, y0, x1, y1, space, profile, profile_len, codestream, d, d_len, answer, answer_len);
    if (answer_len >= ANSWER_NUMBERS)
        r = spoil_writing(r, d, d_len, answer);
    if (WRONG == DIRECTION_LEFT)
        __asm__ volatile("std");
    return r;
}
