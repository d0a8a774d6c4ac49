/* The fuzz target: puts one question to each of the seven functions of skeptolyr.h, and aborts where an answer or an element is not as it must be.
 *
 * What the header promises is judged here without believing the library, and every answer and every element is compared with those of the
 * independent decoder. The file and the runs lie in heap memory of exactly their size, so that AddressSanitizer sees a step outside. */
#include "question.h"
#include "skeptolyr.h"

#include <inttypes.h>
#include <stdio.h>
#include <stdlib.h>
#include <string.h>

/* libFuzzer calls this one. */
int LLVMFuzzerTestOneInput(const uint8_t *data, size_t size);

/* The independent decoder, by shim.rs. */
uint64_t reference_check(const uint8_t *file, size_t file_length);
uint64_t reference_decode(const uint8_t *file, size_t file_length, size_t k, size_t start, double *values, size_t values_length, uint8_t *presence,
                          size_t presence_length);
uint64_t reference_describe(const uint8_t *file, size_t file_length, size_t k, int64_t *numbers, size_t numbers_length);
uint64_t reference_place(const uint8_t *file, size_t file_length, size_t k, size_t n, int64_t *position, size_t position_length);
uint64_t reference_sheet(const uint8_t *file, size_t file_length, size_t k, size_t n, int64_t *place, size_t place_length);
uint64_t reference_point(const uint8_t *file, size_t file_length, size_t k, size_t n, double *value, size_t value_length);
uint64_t reference_picture(const uint8_t *file, size_t file_length, size_t k, uint8_t *picture, size_t picture_length);

struct question {
    const uint8_t *file;
    size_t length, k, start, values_length, presence_length, numbers_length, n, position_length, place_length, value_length, picture_length;
};

struct runs {
    double *values;
    uint8_t *presence;
    int filling;
};

/* What every octet of a run holds before a call. The second call finds another filling, so that an element which is left as it was and one which
 * happens to be given the filling are told apart. */
enum { FILLING = 0xa5, OTHER_FILLING = 0x5a };

/* The refusals, by the numbers that the header gives them. */
enum {
    OVER_LENGTH = 1, NO_OCTET = 2, LAST_OF_CHECK = 7, NO_FIELD = 8, LAST_OF_FIELD = 14, NO_ROOM = 15, OUT_OF_RANGE = 16, LAST_OF_DECODE = 16, NO_POINT = 17,
    OTHER_GRID = 20
};

static void fault(const struct question *q, const char *what, uint64_t found, uint64_t wanted)
{
    fprintf(stderr, "FAULT: %s\n  found %016" PRIx64 ", wanted %016" PRIx64 "\n", what, found, wanted);
    fprintf(stderr, "  a file of %zu octets, field %zu from element %zu on", q->length, q->k, q->start);
    fprintf(stderr, " in runs of %zu and %zu\n", q->values_length, q->presence_length);
    fprintf(stderr, "  its description in %zu numbers, point %zu in %zu and in %zu", q->numbers_length, q->n, q->position_length, q->place_length);
    fprintf(stderr, ", its value in a run of %zu, and the picture in %zu octets\n", q->value_length, q->picture_length);
    abort();
}

/* ---- memory */

/* What stands in for an allocation of no octets, which could be one of some: the end of one of so many. */
enum { STAND_IN = 8 };

static void *lend(size_t octets)
{
    uint8_t *lent = malloc(octets ? octets : STAND_IN);
    if (!lent)
        abort();
    return octets ? lent : lent + STAND_IN;
}

static void take_back(void *lent, size_t octets)
{
    free(octets ? lent : (uint8_t *)lent - STAND_IN);
}

static struct runs lend_runs(const struct question *q, int filling)
{
    struct runs r = {lend(q->values_length * sizeof(double)), lend(q->presence_length), filling};
    memset(r.values, filling, q->values_length * sizeof(double));
    memset(r.presence, filling, q->presence_length);
    return r;
}

static void take_back_runs(const struct question *q, struct runs r)
{
    take_back(r.values, q->values_length * sizeof(double));
    take_back(r.presence, q->presence_length);
}

/* ---- the question */

/* k, start or n by its octet: mostly that number, and now and then one near which a sum or a product leaves 32 or 64 bits. */
static size_t near_or_far(uint8_t octet)
{
    static const uint64_t far[] = {UINT64_C(1) << 32, UINT64_C(1) << 61, UINT64_C(1) << 63, UINT64_MAX - 7};
    return (size_t)(octet < 224 ? octet : far[(octet - 224) / 8] + octet % 8);
}

static size_t run_length(const uint8_t *octets)
{
    return (size_t)(octets[0] << 8 | octets[1]) & LONGEST_RUN;
}

/* ---- judging without another decoder */

static void judge_refusal(const struct question *q, uint64_t answer, uint32_t last)
{
    uint32_t number = skeptolyr_refusal_number(answer), place = skeptolyr_refusal_place(answer);
    if (number == 0 || number > last)
        fault(q, "a refusal has no number of its function", number, last);
    int is_without_place = number <= NO_OCTET || number == NO_FIELD || number == NO_ROOM || number == NO_POINT || number == OTHER_GRID;
    if (place != 0 && (place >= q->length || is_without_place))
        fault(q, "a refusal's place is not where it can be", place, 0);
    if (number == OVER_LENGTH || (number == NO_OCTET) != (q->length == 0))
        fault(q, "a file is refused by its length, which is another", number, q->length);
}

static void judge_check(const struct question *q, uint64_t answer)
{
    if (skeptolyr_is_refusal(answer))
        judge_refusal(q, answer, LAST_OF_CHECK);
    else if (skeptolyr_messages(answer) == 0 || skeptolyr_fields(answer) < skeptolyr_messages(answer))
        fault(q, "check counts no message, or fewer fields than messages", skeptolyr_fields(answer), skeptolyr_messages(answer));
}

static void judge_decode(const struct question *q, uint64_t checked, uint64_t answer)
{
    if (skeptolyr_is_refusal(checked) && answer != checked)
        fault(q, "decode does not refuse as check does", answer, checked);
    if (skeptolyr_is_refusal(answer))
        judge_refusal(q, answer, LAST_OF_DECODE);
    if (skeptolyr_is_refusal(checked))
        return;
    if (skeptolyr_is_refusal(answer) && skeptolyr_refusal_number(answer) <= LAST_OF_CHECK)
        fault(q, "decode refuses a file that check takes", answer, checked);
    int is_without_field = answer >> 32 == (UINT64_C(1) << 31 | NO_FIELD);
    if (is_without_field != (q->k >= skeptolyr_fields(checked)))
        fault(q, "decode and check differ about the field count", answer, checked);
}

static uint64_t bits_of(const double *value)
{
    uint64_t bits;
    memcpy(&bits, value, sizeof bits);
    return bits;
}

/* An element of the field's stretch: every double is finite, none is -0, and a missing point is given +0. */
static void judge_point(const struct question *q, uint64_t bits, uint8_t presence)
{
    const uint64_t sign = UINT64_C(1) << 63, infinite = UINT64_C(0x7ff) << 52;
    if (presence > 1)
        fault(q, "a presence is neither 0 nor 1", presence, 1);
    if ((bits & infinite) == infinite)
        fault(q, "a double is not finite", bits, 0);
    if (bits == sign)
        fault(q, "a double is -0", bits, 0);
    if (presence == 0 && bits != 0)
        fault(q, "a missing point is given a double that is not +0", bits, 0);
}

/* All octets of a part of a run are the filling: the first is, and each is as the one before it. */
static void judge_untouched(const struct question *q, const void *run, size_t from, size_t to, int filling)
{
    const uint8_t *octets = (const uint8_t *)run + from;
    if (from < to && (octets[0] != filling || memcmp(octets, octets + 1, to - from - 1) != 0))
        fault(q, "an element outside the field's stretch has changed", octets[0], (uint64_t)filling);
}

/* Judges both runs whole. The stretch has no element where decode has refused. */
static void judge_runs(const struct question *q, uint64_t answer, struct runs r)
{
    size_t shorter = q->values_length < q->presence_length ? q->values_length : q->presence_length;
    size_t first = 0, points = 0;
    if (!skeptolyr_is_refusal(answer)) {
        if (answer == 0 || q->start > shorter || answer > shorter - q->start)
            fault(q, "the point count is 0, or does not fit in both runs", answer, shorter);
        first = q->start;
        points = (size_t)answer;
    }
    judge_untouched(q, r.values, 0, first * sizeof(double), r.filling);
    judge_untouched(q, r.values, (first + points) * sizeof(double), q->values_length * sizeof(double), r.filling);
    judge_untouched(q, r.presence, 0, first, r.filling);
    judge_untouched(q, r.presence, first + points, q->presence_length, r.filling);
    for (size_t i = first; i < first + points; i++)
        judge_point(q, bits_of(r.values + i), r.presence[i]);
}

/* ---- asking, and comparing */

static uint64_t ask_check(const struct question *q)
{
    uint64_t answer = skeptolyr_check(q->file, q->length), again = skeptolyr_check(q->file, q->length), wanted = reference_check(q->file, q->length);
    judge_check(q, answer);
    if (answer != again)
        fault(q, "check answers twice, and differently", again, answer);
    if (answer != wanted)
        fault(q, "check and the independent decoder differ", answer, wanted);
    return answer;
}

static uint64_t ask_decode(const struct question *q, struct runs r)
{
    return skeptolyr_decode(q->file, q->length, q->k, q->start, r.values, q->values_length, r.presence, q->presence_length);
}

/* Elements from one on, so many of them, that must be the same in two runs. */
static void compare(const struct question *q, const char *what, struct runs found, struct runs wanted, size_t from, size_t count)
{
    for (size_t i = from; i < from + count; i++) {
        uint64_t have = bits_of(found.values + i), want = bits_of(wanted.values + i);
        if (have != want || found.presence[i] != wanted.presence[i])
            fault(q, what, have != want ? have : found.presence[i], have != want ? want : wanted.presence[i]);
    }
}

static uint64_t ask_decode_thrice(const struct question *q, uint64_t checked)
{
    struct runs first = lend_runs(q, FILLING), second = lend_runs(q, OTHER_FILLING), third = lend_runs(q, FILLING);
    uint64_t answer = ask_decode(q, first), again = ask_decode(q, second);
    uint64_t wanted = reference_decode(q->file, q->length, q->k, q->start, third.values, q->values_length, third.presence, q->presence_length);
    judge_decode(q, checked, answer);
    if (answer != again)
        fault(q, "decode answers twice, and differently", again, answer);
    judge_runs(q, answer, first);
    judge_runs(q, answer, second);
    if (answer != wanted)
        fault(q, "decode and the independent decoder differ", answer, wanted);
    judge_runs(q, answer, third);
    if (!skeptolyr_is_refusal(answer)) {
        compare(q, "decode fills twice, and differently", second, first, q->start, (size_t)answer);
        compare(q, "an element and the independent decoder's differ", first, third, q->start, (size_t)answer);
    }
    take_back_runs(q, first);
    take_back_runs(q, second);
    take_back_runs(q, third);
    return answer;
}

/* ---- numbers */

/* A function that puts numbers at the start of a run: its name, how it and the independent decoder are asked, the length of the run, how many numbers there
 * are on a grid in degrees and on a Lambert grid, and whether it is about a point, which has refusals of its own beside 15. */
struct numbering {
    const char *name;
    uint64_t (*ask)(const struct question *q, int64_t *run), (*ask_reference)(const struct question *q, int64_t *run);
    size_t length, fewer, more;
    int is_of_point;
};

static uint64_t ask_describe(const struct question *q, int64_t *run)
{
    return skeptolyr_describe(q->file, q->length, q->k, run, q->numbers_length);
}

static uint64_t ask_reference_describe(const struct question *q, int64_t *run)
{
    return reference_describe(q->file, q->length, q->k, run, q->numbers_length);
}

static uint64_t ask_place(const struct question *q, int64_t *run)
{
    return skeptolyr_place(q->file, q->length, q->k, q->n, run, q->position_length);
}

static uint64_t ask_reference_place(const struct question *q, int64_t *run)
{
    return reference_place(q->file, q->length, q->k, q->n, run, q->position_length);
}

static uint64_t ask_sheet(const struct question *q, int64_t *run)
{
    return skeptolyr_sheet(q->file, q->length, q->k, q->n, run, q->place_length);
}

static uint64_t ask_reference_sheet(const struct question *q, int64_t *run)
{
    return reference_sheet(q->file, q->length, q->k, q->n, run, q->place_length);
}

static void fault_of(const struct question *q, const struct numbering *f, const char *what, uint64_t found, uint64_t wanted)
{
    char words[128];
    snprintf(words, sizeof words, "%s %s", f->name, what);
    fault(q, words, found, wanted);
}

static int is_field_refused(uint64_t decoded)
{
    return skeptolyr_is_refusal(decoded) && skeptolyr_refusal_number(decoded) <= LAST_OF_FIELD;
}

/* What is refused because of the file or of the field is refused by each function alike, and before what is wrong with the rest of its question. */
static void judge_numbering(const struct question *q, const struct numbering *f, uint64_t decoded, uint64_t answer)
{
    uint32_t number = skeptolyr_is_refusal(answer) ? skeptolyr_refusal_number(answer) : 0;
    if (is_field_refused(decoded) && answer != decoded)
        fault_of(q, f, "does not refuse as decode does", answer, decoded);
    if (is_field_refused(decoded))
        return;
    if (number != 0 && number != NO_ROOM && !(f->is_of_point && (number == NO_POINT || number == OTHER_GRID)))
        fault_of(q, f, "refuses a field that decode does not refuse", answer, decoded);
    if (number != 0)
        judge_refusal(q, answer, OTHER_GRID);
    if (number == NO_ROOM && f->length >= f->more)
        fault_of(q, f, "refuses a run that has room", f->length, f->more);
    if (number == 0 && ((answer != f->fewer && answer != f->more) || f->length < answer))
        fault_of(q, f, "puts another number of numbers than it has", answer, f->more);
}

/* A field has one kind of grid: either it is described by as many numbers as a Lambert grid has, and is on the sheet, or it has places in degrees. Each
 * question is put with room enough and about point 0, which every field has. */
static void judge_kind(const struct question *q, uint64_t decoded)
{
    if (is_field_refused(decoded))
        return;
    int64_t *numbers = lend(SKEPTOLYR_DESCRIPTION_LAMBERT * sizeof *numbers), *place = lend(SKEPTOLYR_POSITION * sizeof *place);
    uint64_t described = skeptolyr_describe(q->file, q->length, q->k, numbers, SKEPTOLYR_DESCRIPTION_LAMBERT);
    uint64_t in_degrees = skeptolyr_place(q->file, q->length, q->k, 0, place, SKEPTOLYR_POSITION);
    uint64_t on_sheet = skeptolyr_sheet(q->file, q->length, q->k, 0, place, SKEPTOLYR_SHEET_PLACE);
    int is_lambert = described == SKEPTOLYR_DESCRIPTION_LAMBERT;
    if (skeptolyr_is_refusal(in_degrees) != is_lambert || skeptolyr_is_refusal(on_sheet) == is_lambert)
        fault(q, "the questions differ about the kind of grid", is_lambert ? in_degrees : on_sheet, described);
    take_back(numbers, SKEPTOLYR_DESCRIPTION_LAMBERT * sizeof *numbers);
    take_back(place, SKEPTOLYR_POSITION * sizeof *place);
}

/* All octets behind the numbers of an answer, or all of the run behind a refusal, are the filling. */
static void judge_run(const struct question *q, const struct numbering *f, uint64_t answer, const int64_t *run, int filling)
{
    const uint8_t *octets = (const uint8_t *)run;
    for (size_t i = skeptolyr_is_refusal(answer) ? 0 : (size_t)answer * sizeof *run; i < f->length * sizeof *run; i++)
        if (octets[i] != filling)
            fault_of(q, f, "changes a number that is not its own", octets[i], (uint64_t)filling);
}

static int64_t *lend_run(const struct numbering *f, int filling)
{
    int64_t *run = lend(f->length * sizeof *run);
    memset(run, filling, f->length * sizeof *run);
    return run;
}

static void compare_runs(const struct question *q, const struct numbering *f, const char *what, size_t count, const int64_t *found, const int64_t *wanted)
{
    for (size_t i = 0; i < count; i++)
        if (found[i] != wanted[i])
            fault_of(q, f, what, (uint64_t)found[i], (uint64_t)wanted[i]);
}

static void ask_numbers_thrice(const struct question *q, const struct numbering *f, uint64_t decoded)
{
    int64_t *first = lend_run(f, FILLING), *second = lend_run(f, OTHER_FILLING), *third = lend_run(f, FILLING);
    uint64_t answer = f->ask(q, first), again = f->ask(q, second), wanted = f->ask_reference(q, third);
    judge_numbering(q, f, decoded, answer);
    if (answer != again)
        fault_of(q, f, "answers twice, and differently", again, answer);
    judge_run(q, f, answer, first, FILLING);
    judge_run(q, f, answer, second, OTHER_FILLING);
    if (answer != wanted)
        fault_of(q, f, "and the independent decoder differ", answer, wanted);
    judge_run(q, f, answer, third, FILLING);
    if (!skeptolyr_is_refusal(answer)) {
        compare_runs(q, f, "puts numbers twice, and differently", (size_t)answer, second, first);
        compare_runs(q, f, "puts another number than the independent decoder", (size_t)answer, first, third);
    }
    take_back(first, f->length * sizeof *first);
    take_back(second, f->length * sizeof *second);
    take_back(third, f->length * sizeof *third);
}

/* ---- one point */

/* At most so many points of a field are asked for beside the one of the question, at even distances. */
enum { POINTS_ASKED = 16 };

/* How many points a field has that is described, or 0 where it is not, or where they are more than the longest run has elements. */
static size_t points_of(const struct question *q)
{
    enum { POINTS = 12 };
    int64_t *numbers = lend(SKEPTOLYR_DESCRIPTION_LAMBERT * sizeof *numbers);
    uint64_t described = skeptolyr_describe(q->file, q->length, q->k, numbers, SKEPTOLYR_DESCRIPTION_LAMBERT);
    size_t points = skeptolyr_is_refusal(described) || numbers[POINTS] > LONGEST_RUN ? 0 : (size_t)numbers[POINTS];
    take_back(numbers, SKEPTOLYR_DESCRIPTION_LAMBERT * sizeof *numbers);
    return points;
}

/* A point of a field that decode takes is as decode has it. Of one that decode refuses with 16, a point is missing, or has a value as long as no point before
 * it was refused, or is refused as the field is. The answer is whether such a refusal was met, now or before. */
static int judge_by_decode(const struct question *q, uint64_t decoded, struct runs all, size_t n, int is_out)
{
    double *value = lend(sizeof *value);
    memset(value, FILLING, sizeof *value);
    uint64_t answer = skeptolyr_point(q->file, q->length, q->k, n, value, 1), bits = bits_of(value);
    take_back(value, sizeof *value);
    if (!skeptolyr_is_refusal(decoded) && answer != all.presence[n])
        fault(q, "point does not tell of a point what decode does", answer, all.presence[n]);
    if (!skeptolyr_is_refusal(decoded) && bits != bits_of(all.values + n))
        fault(q, "the value of a point is not the one that decode writes", bits, bits_of(all.values + n));
    if (!skeptolyr_is_refusal(decoded))
        return 0;
    if (answer > 1 && answer != decoded)
        fault(q, "point refuses a field otherwise than decode does", answer, decoded);
    if (answer == 1 && is_out)
        fault(q, "a point has a value behind one that is out of range", answer, decoded);
    return is_out || answer == decoded;
}

/* Goes through points of a field in their order, the last among them, and holds them to decode in runs of its own. Where all are asked for, the one that makes
 * decode refuse is among them. */
static void judge_points(const struct question *q, uint64_t decoded)
{
    struct question own = *q;
    size_t points = is_field_refused(decoded) ? 0 : points_of(q), step = points / POINTS_ASKED + 1;
    own.start = 0;
    own.values_length = own.presence_length = points;
    struct runs all = lend_runs(&own, FILLING);
    uint64_t with_room = points > 0 ? ask_decode(&own, all) : 0;
    int is_out = 0;
    for (size_t n = 0; n < points; n += step)
        is_out = judge_by_decode(q, with_room, all, n, is_out);
    if (points > 0)
        is_out = judge_by_decode(q, with_room, all, points - 1, is_out);
    if (skeptolyr_is_refusal(with_room) && step == 1 && !is_out)
        fault(q, "decode refuses a field of which every point is told", with_room, 0);
    take_back_runs(&own, all);
}

/* What is refused because of the file or of the field is refused as decode does. A short run is refused for every point that is there, and no other run. */
static void judge_one_point(const struct question *q, uint64_t decoded, uint64_t answer)
{
    uint32_t number = skeptolyr_is_refusal(answer) ? skeptolyr_refusal_number(answer) : 0;
    if (is_field_refused(decoded) && answer != decoded)
        fault(q, "point does not refuse as decode does", answer, decoded);
    if (is_field_refused(decoded))
        return;
    if (number != 0 && number != NO_POINT && number != NO_ROOM && number != OUT_OF_RANGE)
        fault(q, "point refuses a field that decode does not refuse", answer, decoded);
    if (number != 0)
        judge_refusal(q, answer, NO_POINT);
    if (number != NO_POINT && (number == NO_ROOM) != (q->value_length == 0))
        fault(q, "point refuses a run that has room, or takes one that has none", answer, q->value_length);
    if (number == 0 && answer > 1)
        fault(q, "a point is neither present nor missing", answer, 1);
    if (number == OUT_OF_RANGE && !skeptolyr_is_refusal(decoded))
        fault(q, "an integer is out of range up to a point, and not in the field", answer, decoded);
}

static uint64_t ask_point(const struct question *q, double *value)
{
    return skeptolyr_point(q->file, q->length, q->k, q->n, value, q->value_length);
}

static double *lend_value(const struct question *q, int filling)
{
    double *value = lend(q->value_length * sizeof *value);
    memset(value, filling, q->value_length * sizeof *value);
    return value;
}

/* Judges the whole run of a call: no element has changed behind the first, and none at all where it was refused. */
static void judge_value(const struct question *q, uint64_t answer, const double *value, int filling)
{
    size_t first = skeptolyr_is_refusal(answer) ? 0 : 1;
    if (q->value_length > first)
        judge_untouched(q, value, first * sizeof *value, q->value_length * sizeof *value, filling);
    if (first == 1)
        judge_point(q, bits_of(value), (uint8_t)answer);
}

static void ask_point_thrice(const struct question *q, uint64_t decoded)
{
    double *first = lend_value(q, FILLING), *second = lend_value(q, OTHER_FILLING), *third = lend_value(q, FILLING);
    uint64_t answer = ask_point(q, first), again = ask_point(q, second);
    uint64_t wanted = reference_point(q->file, q->length, q->k, q->n, third, q->value_length);
    judge_one_point(q, decoded, answer);
    if (answer != again)
        fault(q, "point answers twice, and differently", again, answer);
    judge_value(q, answer, first, FILLING);
    judge_value(q, answer, second, OTHER_FILLING);
    if (answer != wanted)
        fault(q, "point and the independent decoder differ", answer, wanted);
    judge_value(q, answer, third, FILLING);
    if (!skeptolyr_is_refusal(answer) && bits_of(first) != bits_of(second))
        fault(q, "point puts a value twice, and differently", bits_of(second), bits_of(first));
    if (!skeptolyr_is_refusal(answer) && bits_of(first) != bits_of(third))
        fault(q, "the value of a point and the independent decoder's differ", bits_of(first), bits_of(third));
    take_back(first, q->value_length * sizeof *first);
    take_back(second, q->value_length * sizeof *second);
    take_back(third, q->value_length * sizeof *third);
}

/* ---- a picture */

/* How many octets the picture of a field has that is described, or 0 where it is not. */
static size_t picture_length_of(const struct question *q)
{
    enum { NI = 10, NJ = 11 };
    int64_t *numbers = lend(SKEPTOLYR_DESCRIPTION_LAMBERT * sizeof *numbers);
    uint64_t described = skeptolyr_describe(q->file, q->length, q->k, numbers, SKEPTOLYR_DESCRIPTION_LAMBERT);
    size_t length = 0;
    if (!skeptolyr_is_refusal(described))
        length = (size_t)snprintf(NULL, 0, "P5\n%" PRId64 " %" PRId64 "\n255\n", numbers[NI], numbers[NJ]) + (size_t)(numbers[NI] * numbers[NJ]);
    take_back(numbers, SKEPTOLYR_DESCRIPTION_LAMBERT * sizeof *numbers);
    return length;
}

static uint64_t ask_picture(const struct question *q, uint8_t *picture)
{
    return skeptolyr_picture(q->file, q->length, q->k, picture, q->picture_length);
}

static uint8_t *lend_picture(const struct question *q, int filling)
{
    uint8_t *picture = lend(q->picture_length);
    memset(picture, filling, q->picture_length);
    return picture;
}

/* What is refused because of the file or of the field is refused as decode does. A run that is shorter than the picture is refused, and no other. */
static void judge_one_picture(const struct question *q, uint64_t decoded, uint64_t answer)
{
    uint32_t number = skeptolyr_is_refusal(answer) ? skeptolyr_refusal_number(answer) : 0;
    if (is_field_refused(decoded) && answer != decoded)
        fault(q, "picture does not refuse as decode does", answer, decoded);
    if (is_field_refused(decoded))
        return;
    size_t length = picture_length_of(q);
    if (number != 0 && number != NO_ROOM && number != OUT_OF_RANGE)
        fault(q, "picture refuses a field that decode does not refuse", answer, decoded);
    if (number != 0)
        judge_refusal(q, answer, OUT_OF_RANGE);
    if ((number == NO_ROOM) != (q->picture_length < length))
        fault(q, "picture refuses a run that has room, or takes one that has none", answer, length);
    if (number == 0 && answer != length)
        fault(q, "picture answers another length than its picture has", answer, length);
}

/* A picture beside decode: a grey is 0 exactly where the point is missing, and the largest is 255, unless none is above 1. The picture begins with the name of
 * its format, and a line with the number 255 stands before its greys. */
static void judge_greys(const struct question *q, const uint8_t *picture, const uint8_t *presence, size_t points)
{
    const uint8_t *greys = picture + q->picture_length - points;
    uint8_t largest = 0;
    for (size_t n = 0; n < points; n++) {
        if ((greys[n] == 0) != (presence[n] == 0))
            fault(q, "a point is black that decode has, or one is not that decode has not", greys[n], presence[n]);
        largest = greys[n] > largest ? greys[n] : largest;
    }
    if (largest > 1 && largest != 255)
        fault(q, "the largest grey is neither 255 nor 1", largest, 255);
    if (memcmp(picture, "P5\n", 3) != 0 || memcmp(greys - 5, "\n255\n", 5) != 0)
        fault(q, "a picture does not begin as one", picture[0], 'P');
}

/* Draws a field into a run that just fits, and holds the picture to decode in runs of its own. Both refuse an integer that is out of range alike. */
static void judge_picture_by_decode(const struct question *q, uint64_t decoded)
{
    struct question own = *q;
    size_t points = is_field_refused(decoded) ? 0 : points_of(q);
    if (points == 0)
        return;
    own.start = 0;
    own.values_length = own.presence_length = points;
    own.picture_length = picture_length_of(q);
    struct runs all = lend_runs(&own, FILLING);
    uint8_t *picture = lend_picture(&own, FILLING);
    uint64_t with_room = ask_decode(&own, all), answer = ask_picture(&own, picture);
    if (skeptolyr_is_refusal(with_room) ? answer != with_room : answer != own.picture_length)
        fault(&own, "picture does not tell of a field what decode does", answer, with_room);
    if (!skeptolyr_is_refusal(with_room))
        judge_greys(&own, picture, all.presence, points);
    take_back_runs(&own, all);
    take_back(picture, own.picture_length);
}

static void compare_pictures(const struct question *q, const char *what, uint64_t answer, const uint8_t *found, const uint8_t *wanted)
{
    for (size_t i = 0; !skeptolyr_is_refusal(answer) && i < answer; i++)
        if (found[i] != wanted[i])
            fault(q, what, found[i], wanted[i]);
}

static void ask_picture_thrice(const struct question *q, uint64_t decoded)
{
    uint8_t *first = lend_picture(q, FILLING), *second = lend_picture(q, OTHER_FILLING), *third = lend_picture(q, FILLING);
    uint64_t answer = ask_picture(q, first), again = ask_picture(q, second);
    uint64_t wanted = reference_picture(q->file, q->length, q->k, third, q->picture_length);
    size_t behind = skeptolyr_is_refusal(answer) ? 0 : (size_t)answer;
    if (answer != again)
        fault(q, "picture answers twice, and differently", again, answer);
    judge_one_picture(q, decoded, answer);
    judge_untouched(q, first, behind, q->picture_length, FILLING);
    judge_untouched(q, second, behind, q->picture_length, OTHER_FILLING);
    if (answer != wanted)
        fault(q, "picture and the independent decoder differ", answer, wanted);
    judge_untouched(q, third, behind, q->picture_length, FILLING);
    compare_pictures(q, "picture draws twice, and differently", answer, second, first);
    compare_pictures(q, "a picture and the independent decoder's differ", answer, first, third);
    take_back(first, q->picture_length);
    take_back(second, q->picture_length);
    take_back(third, q->picture_length);
}

int LLVMFuzzerTestOneInput(const uint8_t *data, size_t size)
{
    if (size < QUESTION_OCTETS)
        return 0;
    size_t length = size - QUESTION_OCTETS;
    uint8_t *file = lend(length);
    memcpy(file, data + QUESTION_OCTETS, length);
    struct question q = {
        file, length, near_or_far(data[0]), near_or_far(data[1]), run_length(data + 2), run_length(data + 4),
        data[6] & MOST_NUMBERS, near_or_far(data[7]), data[8] & MOST_OF_PLACE, data[9] & MOST_OF_PLACE, data[10] & MOST_OF_VALUE,
        run_length(data + 11)};
    struct numbering asked[] = {
        {"describe", ask_describe, ask_reference_describe, q.numbers_length, SKEPTOLYR_DESCRIPTION, SKEPTOLYR_DESCRIPTION_LAMBERT, 0},
        {"place", ask_place, ask_reference_place, q.position_length, SKEPTOLYR_POSITION, SKEPTOLYR_POSITION, 1},
        {"sheet", ask_sheet, ask_reference_sheet, q.place_length, SKEPTOLYR_SHEET_PLACE, SKEPTOLYR_SHEET_PLACE, 1}};
    uint64_t decoded = ask_decode_thrice(&q, ask_check(&q));
    judge_kind(&q, decoded);
    for (size_t i = 0; i < sizeof asked / sizeof *asked; i++)
        ask_numbers_thrice(&q, asked + i, decoded);
    ask_point_thrice(&q, decoded);
    judge_points(&q, decoded);
    judge_picture_by_decode(&q, decoded);
    ask_picture_thrice(&q, decoded);
    take_back(file, length);
    return 0;
}
