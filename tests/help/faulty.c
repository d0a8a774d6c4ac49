/* Stands between a test program and the proved code, and puts in the fault whose number the environment's FAULT gives: none for 0.
 *
 * The test must find each, so that it is known to find what it looks for. The program is compiled to call these functions in the library's place. */
/* Here the library's functions are meant by their names, wherever the program's calls go. */
#undef skeptolyr_check
#undef skeptolyr_decode
#undef skeptolyr_describe
#undef skeptolyr_place
#undef skeptolyr_sheet
#undef skeptolyr_point
#undef skeptolyr_picture
#include "skeptolyr.h"

#include <stdio.h>
#include <stdlib.h>
#include <string.h>

uint64_t faulty_check(const uint8_t *file, size_t file_len);
uint64_t faulty_decode(const uint8_t *file, size_t file_len, size_t k, size_t start, double *values, size_t values_len, uint8_t *presence, size_t presence_len);
uint64_t faulty_describe(const uint8_t *file, size_t file_len, size_t k, int64_t *numbers, size_t numbers_len);
uint64_t faulty_place(const uint8_t *file, size_t file_len, size_t k, size_t n, int64_t *position, size_t position_len);
uint64_t faulty_sheet(const uint8_t *file, size_t file_len, size_t k, size_t n, int64_t *place, size_t place_len);
uint64_t faulty_point(const uint8_t *file, size_t file_len, size_t k, size_t n, double *value, size_t value_len);
uint64_t faulty_picture(const uint8_t *file, size_t file_len, size_t k, uint8_t *picture, size_t picture_len);

/* In the order of tests/help/faulty.py's table. */
enum {
    NONE,
    /* of check */
    COUNTS_MORE, COUNTS_NO_MESSAGE, COUNTS_EVERY_SECOND, REFUSES_THE_LENGTH,
    /* of how decode is asked */
    OTHER_FIELD, FILLS_BEHIND, READS_BEHIND, WRITES_NOTHING,
    /* of decode's answer */
    ANSWERS_MORE, ANSWERS_EVERY_SECOND, REFUSES_ALL, REFUSES_THE_FILE, FINDS_NO_FIELD,
    /* of decode's refusal */
    WRITES_AND_REFUSES, OTHER_NUMBER, NUMBER_PAST, PLACE_BESIDE, PLACE_OUTSIDE,
    /* of decode's elements */
    WRITES_BEHIND, WRITES_BESIDE, CHANGES_A_BIT, CHANGES_EVERY_SECOND, WRONG_PRESENCE, MISSING_GIVEN, MINUS_ZERO, NOT_FINITE,
    /* of describe */
    DESCRIBES_FIELD_0, NUMBER_MORE, NUMBER_EVERY_SECOND, NUMBERS_SWAPPED, SIGNS_LOST, NO_LEVEL_AS_ONES, DESCRIBE_ANSWERS_MORE, DESCRIBE_WRITES_BEHIND,
    DESCRIBE_WRITES_BESIDE, DESCRIBE_ROOM_FIRST, DESCRIBE_PUTS_WHAT_FITS, DESCRIBE_WRITES_AND_REFUSES,
    /* of place */
    PLACES_POINT_0, PLACE_SWAPPED, LATITUDE_SIGN_LOST, PLACES_BEHIND_LAST, PLACE_WRITES_BEHIND, PLACE_WRITES_BESIDE, PLACE_ROOM_FIRST, PLACE_ROOM_BEFORE_POINT,
    PLACE_PUTS_WHAT_FITS, PLACE_WRITES_AND_REFUSES, LONGITUDE_BY_STEPS, LONGITUDE_ROUNDED_DOWN, HALF_NORTHWARD,
    /* of describe, where there are two kinds of grid */
    LAMBERT_IN_53, ZEROS_NOT_PUT, DEGREES_IN_60, WANTS_60_ALWAYS, LENGTHS_SWAPPED, CUTTING_SWAPPED, ANGLES_SWAPPED, LAMBERT_SIGNS_LOST, TEMPLATE_IS_0,
    /* of place, on a Lambert grid, and of refusal 20 */
    PLACE_ON_LAMBERT, PLACE_REFUSES_AS_BAD, PLACE_POINT_BEFORE_GRID, PLACE_ROOM_BEFORE_GRID, OTHER_GRID_AT_SECTION_3,
    /* of sheet */
    SHEET_OF_POINT_0, SHEET_SWAPPED, DOWN_IS_UPWARD, DOWN_BY_DX, COLUMNS_BY_NJ, SHEET_IN_32_BITS, SHEET_IN_METRES, SHEET_BEHIND_LAST, SHEET_ON_DEGREES,
    SHEET_POINT_BEFORE_GRID, SHEET_ROOM_BEFORE_GRID, SHEET_WRITES_BEHIND, SHEET_WRITES_BESIDE, SHEET_ROOM_FIRST, SHEET_ROOM_BEFORE_POINT,
    SHEET_PUTS_WHAT_FITS, SHEET_WRITES_AND_REFUSES,
    /* of the value of a point */
    VALUE_OF_FIELD_0, VALUE_OF_POINT_0, RANK_THROUGH_POINT, VALUE_OF_NEXT, VALUE_CHANGES_A_BIT, VALUE_CHANGES_EVERY_SECOND,
    /* of a point that is missing */
    MISSING_IS_PRESENT, MISSING_MINUS_ZERO, MISSING_LEFT, MISSING_REFUSED, MISSING_WITHOUT_ROOM,
    /* of what is refused for a point */
    JUDGES_BEHIND, JUDGES_THE_SECOND, RANGE_WITHOUT_PLACE, VALUE_BEHIND_LAST, POINT_REFUSES_LAMBERT, POINT_ROOM_FIRST, POINT_ROOM_BEFORE_POINT,
    POINT_ROOM_AFTER_RANGE,
    /* of what point writes */
    POINT_WRITES_BEHIND, POINT_WRITES_BESIDE, POINT_WRITES_AND_REFUSES,
    /* of a picture's octets */
    DRAWS_FIELD_0, SIZES_SWAPPED, NEWLINE_LEFT_OUT, SPACE_FOR_NEWLINE, ROWS_UPWARD, DOWN_THE_COLUMNS, OTHER_GREY, OTHER_GREY_EVERY_SECOND, LAST_GREY_MORE,
    BRIGHTEST_IS_254, DARKEST_IS_BLACK, MISSING_IS_DRAWN, PRESENT_IS_BLACK, MISSING_NOT_DRAWN, DRAWS_NOTHING,
    /* of how a grey is worked out */
    TO_THE_NEAREST, BY_PRODUCT, LARGEST_BY_BITS,
    /* of picture's answer */
    PICTURE_ANSWERS_MORE, PICTURE_ANSWERS_EVERY_SECOND, PICTURE_ANSWERS_RUN, PICTURE_ANSWERS_POINTS,
    /* of what is refused for a picture */
    PICTURE_REFUSES_LAMBERT, PICTURE_REFUSES_FITTING, PICTURE_ROOM_FIRST, PICTURE_ROOM_AFTER_RANGE, PICTURE_ROOM_AT_SECTION_3, PICTURE_RANGE_WITHOUT_PLACE,
    PICTURE_PUTS_WHAT_FITS, PICTURE_FILLS_ONE_SHORT,
    /* of what picture writes */
    PICTURE_WRITES_BEHIND, PICTURE_WRITES_BESIDE, PICTURE_WRITES_AND_REFUSES, PICTURE_PUTS_AND_REFUSES
};

/* Where numbers of a description stand. */
enum {
    NI = 10, NJ = 11, POINTS = 12, FIRST_LATITUDE = 13, FIRST_LONGITUDE = 14, LAST_LATITUDE = 15, LAST_LONGITUDE = 16, DI = 17, DJ = 18, FACTOR = 24,
    SCALED = 25, START_OF_3 = 48, START_OF_7 = 52, GRID_TEMPLATE = 53, STATED = 54, UPRIGHT = 55, DX = 56, DY = 57, CUTTING = 58
};

/* The most octets before the greys of a picture, with the zero that ends a string; the fewest octets of a picture; and by how many a run is far too short. */
enum { HEAD_ROOM = 20, SHORTEST_PICTURE = 12, FAR_TOO_SHORT = 1 << 20 };

/* All the way round the earth, in millionths of a degree. */
enum { TURN = 360000000 };

static int fault(void)
{
    const char *number = getenv("FAULT");
    return number ? atoi(number) : NONE;
}

static uint64_t refusal(uint32_t number, uint32_t place)
{
    return UINT64_C(1) << 63 | (uint64_t)number << 32 | place;
}

uint64_t faulty_check(const uint8_t *file, size_t file_len)
{
    static unsigned int calls;
    unsigned int is_second = calls++ % 2;
    uint64_t answer = skeptolyr_check(file, file_len);
    if (skeptolyr_is_refusal(answer))
        return answer;
    switch (fault()) {
    case COUNTS_MORE:
        return answer + 1;
    case COUNTS_NO_MESSAGE:
        return skeptolyr_fields(answer);
    case COUNTS_EVERY_SECOND:
        return answer + is_second;
    case REFUSES_THE_LENGTH:
        return refusal(1, 0);
    default:
        return answer;
    }
}

/* Lends the proved code a file whose last octet cannot be read, and no run. */
static uint64_t decode_cut(const uint8_t *file, size_t file_len, size_t k)
{
    uint8_t *cut = malloc(file_len - 1);
    if (!cut)
        abort();
    memcpy(cut, file, file_len - 1);
    uint64_t answer = skeptolyr_decode(cut, file_len, k, 0, NULL, 0, NULL, 0);
    free(cut);
    return answer;
}

/* Decodes into other runs than were lent. */
static uint64_t decode_elsewhere(const uint8_t *file, size_t file_len, size_t k, size_t start, size_t values_len, size_t presence_len)
{
    double *values = malloc((values_len + 1) * sizeof(double));
    uint8_t *presence = malloc(presence_len + 1);
    if (!values || !presence)
        abort();
    uint64_t answer = skeptolyr_decode(file, file_len, k, start, values, values_len, presence, presence_len);
    free(values);
    free(presence);
    return answer;
}

static uint64_t change_answer(uint64_t answer, int is_second)
{
    switch (fault()) {
    case ANSWERS_MORE:
        return answer + 1;
    case ANSWERS_EVERY_SECOND:
        return answer + (uint64_t)is_second;
    case REFUSES_ALL:
        return refusal(15, 0);
    case REFUSES_THE_FILE:
        return refusal(7, 0);
    case FINDS_NO_FIELD:
        return refusal(8, 0);
    default:
        return answer;
    }
}

static uint64_t change_refusal(uint64_t answer, size_t file_len)
{
    uint32_t number = skeptolyr_refusal_number(answer), place = skeptolyr_refusal_place(answer);
    switch (fault()) {
    case OTHER_NUMBER:
        return refusal(number + 1, place);
    case NUMBER_PAST:
        return number > SKEPTOLYR_NO_SUCH_FIELD ? refusal(number + 8, place) : answer;
    case PLACE_BESIDE:
        return number > SKEPTOLYR_NO_SUCH_FIELD && place > 0 ? answer - 1 : answer;
    case PLACE_OUTSIDE:
        return number > SKEPTOLYR_NO_SUCH_FIELD && place > 0 ? refusal(number, (uint32_t)file_len) : answer;
    default:
        return answer;
    }
}

static void change_elements(size_t start, size_t points, double *values, size_t values_len, uint8_t *presence, int is_second)
{
    uint64_t bits = fault() == MINUS_ZERO ? UINT64_C(1) << 63 : UINT64_C(0x7ff) << 52;
    if (fault() == WRITES_BEHIND || (fault() == WRITES_BESIDE && start + points < values_len))
        values[fault() == WRITES_BEHIND ? values_len : start + points] = 0;
    if (presence[start] == 1 && (fault() == CHANGES_A_BIT || (fault() == CHANGES_EVERY_SECOND && is_second)))
        ((uint8_t *)(values + start))[0] ^= 1;
    if (fault() == WRONG_PRESENCE)
        presence[start] = 2;
    if (fault() == MISSING_GIVEN && presence[start] == 0)
        values[start] = 1;
    if (fault() == MINUS_ZERO || fault() == NOT_FINITE)
        memcpy(values + start, &bits, sizeof bits);
}

uint64_t faulty_decode(const uint8_t *file, size_t file_len, size_t k, size_t start, double *values, size_t values_len, uint8_t *presence, size_t presence_len)
{
    static unsigned int calls;
    int is_second = calls++ % 2;
    size_t more = fault() == FILLS_BEHIND;
    uint64_t answer;
    if (fault() == READS_BEHIND && file_len > 1)
        return decode_cut(file, file_len, k);
    if (fault() == WRITES_NOTHING || fault() == REFUSES_ALL)
        answer = decode_elsewhere(file, file_len, k, start, values_len, presence_len);
    else
        answer = skeptolyr_decode(file, file_len, fault() == OTHER_FIELD ? 0 : k, start + more, values, values_len + more, presence, presence_len + more);
    if (skeptolyr_is_refusal(answer)) {
        if (fault() == WRITES_AND_REFUSES && presence_len > 0)
            presence[presence_len - 1] = 0;
        return change_refusal(answer, file_len);
    }
    change_elements(start, (size_t)answer, values, values_len, presence, is_second);
    return change_answer(answer, is_second);
}

/* ---- numbers */

static int is_refused_by(uint64_t answer, uint32_t number)
{
    return skeptolyr_is_refusal(answer) && skeptolyr_refusal_number(answer) == number;
}

static void swap(int64_t *one, int64_t *other)
{
    int64_t kept = *one;
    *one = *other;
    *other = kept;
}

/* Writes the first numbers of those that were put, as many as a run has room for. The answer is how many they are. */
static uint64_t put_what_fits(const int64_t *put, int64_t *run, size_t run_len)
{
    memcpy(run, put, run_len * sizeof *run);
    return run_len;
}

/* Writes behind a run, or into it behind the numbers that were put. */
static void write_more(int64_t *run, size_t run_len, size_t put, int writes_behind, int writes_beside)
{
    if (writes_behind)
        run[run_len] = 0;
    if (writes_beside && run_len > put)
        run[put] = 0;
}

static void change_numbers(int64_t *numbers, int64_t count, int is_second)
{
    if (fault() == NUMBER_MORE || (fault() == NUMBER_EVERY_SECOND && is_second))
        numbers[START_OF_7]++;
    if (fault() == NUMBERS_SWAPPED)
        swap(numbers + NI, numbers + NJ);
    for (int64_t i = fault() == SIGNS_LOST ? 0 : fault() == LAMBERT_SIGNS_LOST ? GRID_TEMPLATE : count; i < count; i++)
        numbers[i] = numbers[i] < 0 ? -numbers[i] : numbers[i];
    if (fault() == NO_LEVEL_AS_ONES && numbers[FACTOR - 1] == 0) {
        numbers[FACTOR] = 255;
        numbers[SCALED] = UINT32_MAX;
    }
}

/* Changes what a Lambert grid has of its own. */
static void change_lambert(int64_t *numbers)
{
    switch (fault()) {
    case LENGTHS_SWAPPED:
        swap(numbers + DX, numbers + DY);
        break;
    case CUTTING_SWAPPED:
        swap(numbers + CUTTING, numbers + CUTTING + 1);
        break;
    case ANGLES_SWAPPED:
        swap(numbers + STATED, numbers + UPRIGHT);
        break;
    case TEMPLATE_IS_0:
        numbers[GRID_TEMPLATE] = 0;
        break;
    }
}

/* Describes as if the kinds of grid had other numbers than they have: 53 on a Lambert grid, no zeros there, 60 on a grid in degrees, or a run of 60 for
 * both. */
static uint64_t describe_other_kind(const uint8_t *file, size_t file_len, size_t k, int64_t *numbers, size_t numbers_len)
{
    int64_t own[SKEPTOLYR_DESCRIPTION_LAMBERT] = {0};
    uint64_t answer = skeptolyr_describe(file, file_len, k, own, numbers_len < SKEPTOLYR_DESCRIPTION_LAMBERT ? numbers_len : SKEPTOLYR_DESCRIPTION_LAMBERT);
    if (skeptolyr_is_refusal(answer))
        return answer;
    if (fault() == WANTS_60_ALWAYS && numbers_len < SKEPTOLYR_DESCRIPTION_LAMBERT)
        return refusal(SKEPTOLYR_NO_ROOM, 0);
    int leaves_zeros = fault() == ZEROS_NOT_PUT && answer == SKEPTOLYR_DESCRIPTION_LAMBERT;
    if (fault() == LAMBERT_IN_53)
        answer = SKEPTOLYR_DESCRIPTION;
    if (fault() == DEGREES_IN_60 && numbers_len >= SKEPTOLYR_DESCRIPTION_LAMBERT)
        answer = SKEPTOLYR_DESCRIPTION_LAMBERT;
    for (size_t i = 0; i < answer; i++)
        if (!leaves_zeros || i < LAST_LATITUDE || i > DJ)
            numbers[i] = own[i];
    return answer;
}

/* What a refused call to describe comes to. */
static uint64_t describe_refused(uint64_t answer, const uint8_t *file, size_t file_len, size_t k, int64_t *numbers, size_t numbers_len)
{
    int64_t own[SKEPTOLYR_DESCRIPTION_LAMBERT];
    if (fault() == DESCRIBE_PUTS_WHAT_FITS && is_refused_by(answer, SKEPTOLYR_NO_ROOM)) {
        skeptolyr_describe(file, file_len, k, own, SKEPTOLYR_DESCRIPTION_LAMBERT);
        return put_what_fits(own, numbers, numbers_len);
    }
    if (fault() == DESCRIBE_WRITES_AND_REFUSES && numbers_len > 0)
        numbers[numbers_len - 1] = 0;
    return answer;
}

uint64_t faulty_describe(const uint8_t *file, size_t file_len, size_t k, int64_t *numbers, size_t numbers_len)
{
    static unsigned int calls;
    int is_second = calls++ % 2;
    if (fault() == DESCRIBE_ROOM_FIRST && numbers_len < SKEPTOLYR_DESCRIPTION)
        return refusal(SKEPTOLYR_NO_ROOM, 0);
    if (fault() >= LAMBERT_IN_53 && fault() <= WANTS_60_ALWAYS)
        return describe_other_kind(file, file_len, k, numbers, numbers_len);
    uint64_t answer = skeptolyr_describe(file, file_len, fault() == DESCRIBES_FIELD_0 ? 0 : k, numbers, numbers_len);
    if (skeptolyr_is_refusal(answer))
        return describe_refused(answer, file, file_len, k, numbers, numbers_len);
    change_numbers(numbers, (int64_t)answer, is_second);
    if (answer == SKEPTOLYR_DESCRIPTION_LAMBERT)
        change_lambert(numbers);
    write_more(numbers, numbers_len, (size_t)answer, fault() == DESCRIBE_WRITES_BEHIND, fault() == DESCRIBE_WRITES_BESIDE);
    return answer + (fault() == DESCRIBE_ANSWERS_MORE);
}

/* The longitude of a column by the steps of section 3, or by both ends and rounded down. */
static int64_t other_longitude(const int64_t *numbers, int64_t column)
{
    int64_t gaps = numbers[NI] - 1, span = (numbers[LAST_LONGITUDE] - numbers[FIRST_LONGITUDE] + TURN) % TURN;
    int64_t east = fault() == LONGITUDE_BY_STEPS ? column * numbers[DI] : gaps ? column * span / gaps : 0;
    return (numbers[FIRST_LONGITUDE] + east) % TURN;
}

/* The latitude of a row by both ends, where a half of the distance goes northward. */
static int64_t other_latitude(const int64_t *numbers, int64_t row)
{
    int64_t gaps = numbers[NJ] - 1, span = numbers[FIRST_LATITUDE] - numbers[LAST_LATITUDE];
    return numbers[FIRST_LATITUDE] - (gaps ? (2 * row * span + gaps - 1) / (2 * gaps) : 0);
}

static void change_position(const uint8_t *file, size_t file_len, size_t k, size_t n, int64_t *position)
{
    int64_t own[SKEPTOLYR_DESCRIPTION];
    skeptolyr_describe(file, file_len, k, own, SKEPTOLYR_DESCRIPTION);
    switch (fault()) {
    case PLACE_SWAPPED:
        swap(position, position + 1);
        break;
    case LATITUDE_SIGN_LOST:
        position[0] = position[0] < 0 ? -position[0] : position[0];
        break;
    case LONGITUDE_BY_STEPS:
    case LONGITUDE_ROUNDED_DOWN:
        position[1] = other_longitude(own, (int64_t)n % own[NI]);
        break;
    case HALF_NORTHWARD:
        position[0] = other_latitude(own, (int64_t)n / own[NI]);
        break;
    }
}

/* The faults of place, or of sheet, where a grid of the other kind has to be refused. */
struct faults_of_kind {
    int answers, point_before_grid, room_before_grid;
};

/* What a call comes to that is refused because the grid is of the other kind. `run` has room for two numbers, or is too short. */
static uint64_t other_grid(struct faults_of_kind of, uint64_t answer, const uint8_t *file, size_t file_len, size_t k, size_t n, int64_t *run, size_t run_len)
{
    int64_t own[SKEPTOLYR_DESCRIPTION_LAMBERT];
    uint64_t count = skeptolyr_describe(file, file_len, k, own, SKEPTOLYR_DESCRIPTION_LAMBERT);
    int is_lambert = count == SKEPTOLYR_DESCRIPTION_LAMBERT;
    if (fault() == of.answers && n < (size_t)own[POINTS] && run_len >= 2) {
        run[0] = is_lambert ? own[FIRST_LATITUDE] : (int64_t)n % own[NI] * own[DI];
        run[1] = is_lambert ? own[FIRST_LONGITUDE] : (int64_t)n / own[NI] * own[DJ];
        return 2;
    }
    if (fault() == of.point_before_grid && n >= (size_t)own[POINTS])
        return refusal(SKEPTOLYR_NO_SUCH_POINT, 0);
    if (fault() == of.room_before_grid && run_len < 2)
        return refusal(SKEPTOLYR_NO_ROOM, 0);
    if (fault() == PLACE_REFUSES_AS_BAD && is_lambert)
        return refusal(SKEPTOLYR_BAD_GRID, (uint32_t)own[START_OF_3]);
    return fault() == OTHER_GRID_AT_SECTION_3 ? refusal(SKEPTOLYR_OTHER_GRID, (uint32_t)own[START_OF_3]) : answer;
}

/* What a refused call to place comes to. */
static uint64_t place_refused(uint64_t answer, const uint8_t *file, size_t file_len, size_t k, size_t n, int64_t *position, size_t position_len)
{
    int64_t own[SKEPTOLYR_POSITION];
    struct faults_of_kind of = {PLACE_ON_LAMBERT, PLACE_POINT_BEFORE_GRID, PLACE_ROOM_BEFORE_GRID};
    if (fault() == PLACE_ROOM_BEFORE_POINT && is_refused_by(answer, SKEPTOLYR_NO_SUCH_POINT) && position_len < SKEPTOLYR_POSITION)
        return refusal(SKEPTOLYR_NO_ROOM, 0);
    if (fault() == PLACE_PUTS_WHAT_FITS && is_refused_by(answer, SKEPTOLYR_NO_ROOM)) {
        skeptolyr_place(file, file_len, k, n, own, SKEPTOLYR_POSITION);
        return put_what_fits(own, position, position_len);
    }
    if (fault() == PLACES_BEHIND_LAST && is_refused_by(answer, SKEPTOLYR_NO_SUCH_POINT))
        return skeptolyr_place(file, file_len, k, n - 1, position, position_len);
    if (fault() == PLACE_WRITES_AND_REFUSES && position_len > 0)
        position[position_len - 1] = 0;
    return is_refused_by(answer, SKEPTOLYR_OTHER_GRID) ? other_grid(of, answer, file, file_len, k, n, position, position_len) : answer;
}

uint64_t faulty_place(const uint8_t *file, size_t file_len, size_t k, size_t n, int64_t *position, size_t position_len)
{
    if (fault() == PLACE_ROOM_FIRST && position_len < SKEPTOLYR_POSITION)
        return refusal(SKEPTOLYR_NO_ROOM, 0);
    uint64_t answer = skeptolyr_place(file, file_len, k, fault() == PLACES_POINT_0 ? 0 : n, position, position_len);
    if (skeptolyr_is_refusal(answer))
        return place_refused(answer, file, file_len, k, n, position, position_len);
    change_position(file, file_len, k, n, position);
    write_more(position, position_len, SKEPTOLYR_POSITION, fault() == PLACE_WRITES_BEHIND, fault() == PLACE_WRITES_BESIDE);
    return answer;
}

static void change_sheet_place(const uint8_t *file, size_t file_len, size_t k, size_t n, int64_t *place)
{
    int64_t own[SKEPTOLYR_DESCRIPTION_LAMBERT];
    skeptolyr_describe(file, file_len, k, own, SKEPTOLYR_DESCRIPTION_LAMBERT);
    switch (fault()) {
    case SHEET_SWAPPED:
        swap(place, place + 1);
        break;
    case DOWN_IS_UPWARD:
        place[1] = -place[1];
        break;
    case DOWN_BY_DX:
        place[1] = (int64_t)n / own[NI] * own[DX];
        break;
    case COLUMNS_BY_NJ:
        place[0] = (int64_t)n % own[NJ] * own[DX];
        place[1] = (int64_t)n / own[NJ] * own[DY];
        break;
    case SHEET_IN_32_BITS:
        place[0] &= UINT32_MAX;
        place[1] &= UINT32_MAX;
        break;
    case SHEET_IN_METRES:
        place[0] /= 1000;
        place[1] /= 1000;
        break;
    }
}

/* What a refused call to sheet comes to. */
static uint64_t sheet_refused(uint64_t answer, const uint8_t *file, size_t file_len, size_t k, size_t n, int64_t *place, size_t place_len)
{
    int64_t own[SKEPTOLYR_SHEET_PLACE];
    struct faults_of_kind of = {SHEET_ON_DEGREES, SHEET_POINT_BEFORE_GRID, SHEET_ROOM_BEFORE_GRID};
    if (fault() == SHEET_ROOM_BEFORE_POINT && is_refused_by(answer, SKEPTOLYR_NO_SUCH_POINT) && place_len < SKEPTOLYR_SHEET_PLACE)
        return refusal(SKEPTOLYR_NO_ROOM, 0);
    if (fault() == SHEET_PUTS_WHAT_FITS && is_refused_by(answer, SKEPTOLYR_NO_ROOM)) {
        skeptolyr_sheet(file, file_len, k, n, own, SKEPTOLYR_SHEET_PLACE);
        return put_what_fits(own, place, place_len);
    }
    if (fault() == SHEET_BEHIND_LAST && is_refused_by(answer, SKEPTOLYR_NO_SUCH_POINT))
        return skeptolyr_sheet(file, file_len, k, n - 1, place, place_len);
    if (fault() == SHEET_WRITES_AND_REFUSES && place_len > 0)
        place[place_len - 1] = 0;
    return is_refused_by(answer, SKEPTOLYR_OTHER_GRID) ? other_grid(of, answer, file, file_len, k, n, place, place_len) : answer;
}

uint64_t faulty_sheet(const uint8_t *file, size_t file_len, size_t k, size_t n, int64_t *place, size_t place_len)
{
    if (fault() == SHEET_ROOM_FIRST && place_len < SKEPTOLYR_SHEET_PLACE)
        return refusal(SKEPTOLYR_NO_ROOM, 0);
    uint64_t answer = skeptolyr_sheet(file, file_len, k, fault() == SHEET_OF_POINT_0 ? 0 : n, place, place_len);
    if (skeptolyr_is_refusal(answer))
        return sheet_refused(answer, file, file_len, k, n, place, place_len);
    change_sheet_place(file, file_len, k, n, place);
    write_more(place, place_len, SKEPTOLYR_SHEET_PLACE, fault() == SHEET_WRITES_BEHIND, fault() == SHEET_WRITES_BESIDE);
    return answer;
}

/* ---- a point */

/* A field and a point of it, as they are asked about. */
struct asked {
    const uint8_t *file;
    size_t file_len, k, n;
};

/* What the library answers of point `n` of the field, with a run of one element. */
static uint64_t point_of_field(const struct asked *q, size_t n, double *value)
{
    return skeptolyr_point(q->file, q->file_len, q->k, n, value, 1);
}

/* What decode answers of the field in runs that have room, so that it refuses nothing behind 14 but 16. */
static uint64_t decode_with_room(const struct asked *q)
{
    int64_t own[SKEPTOLYR_DESCRIPTION_LAMBERT];
    uint64_t described = skeptolyr_describe(q->file, q->file_len, q->k, own, SKEPTOLYR_DESCRIPTION_LAMBERT);
    if (skeptolyr_is_refusal(described))
        return described;
    return decode_elsewhere(q->file, q->file_len, q->k, 0, (size_t)own[POINTS], (size_t)own[POINTS]);
}

/* What the library answers of the first point behind `n` that is present, or 17 where there is none. */
static uint64_t next_present(const struct asked *q, size_t n, double *value)
{
    uint64_t answer = point_of_field(q, ++n, value);
    while (answer == 0)
        answer = point_of_field(q, ++n, value);
    return answer;
}

static int is_first_present(const struct asked *q)
{
    double value;
    size_t before = 0;
    while (before < q->n && point_of_field(q, before, &value) == 0)
        before++;
    return before == q->n;
}

static int is_on_cone(const struct asked *q)
{
    int64_t own[SKEPTOLYR_DESCRIPTION_LAMBERT];
    return skeptolyr_describe(q->file, q->file_len, q->k, own, SKEPTOLYR_DESCRIPTION_LAMBERT) == SKEPTOLYR_DESCRIPTION_LAMBERT;
}

/* What a call comes to that the library answers with a value. Where the fault refuses, the element has to be as it was. */
static uint64_t point_present(const struct asked *q, double *value, int is_second)
{
    double given, other = 0;
    uint64_t answer = point_of_field(q, q->n, &given), behind = 0;
    if (fault() == RANK_THROUGH_POINT || (fault() == JUDGES_THE_SECOND && is_first_present(q)))
        behind = next_present(q, q->n, &other);
    if (fault() == VALUE_OF_NEXT && point_of_field(q, q->n + 1, &other) == 1)
        given = other;
    if (fault() == RANK_THROUGH_POINT && behind == 1)
        given = other;
    if (fault() == JUDGES_BEHIND)
        behind = decode_with_room(q);
    if (is_refused_by(behind, SKEPTOLYR_VALUE_OUT_OF_RANGE))
        return behind;
    if (fault() == VALUE_CHANGES_A_BIT || (fault() == VALUE_CHANGES_EVERY_SECOND && is_second))
        ((uint8_t *)&given)[0] ^= 1;
    *value = given;
    return answer;
}

/* What a call comes to that the library answers as missing. */
static uint64_t point_missing(const struct asked *q, double *value)
{
    uint64_t decoded = fault() == MISSING_REFUSED ? decode_with_room(q) : 0;
    if (skeptolyr_is_refusal(decoded))
        return decoded;
    if (fault() != MISSING_LEFT)
        *value = fault() == MISSING_MINUS_ZERO ? -0.0 : 0.0;
    return fault() == MISSING_IS_PRESENT;
}

/* What a call comes to that the library refuses because the run has no element. */
static uint64_t point_without_room(const struct asked *q, uint64_t answer)
{
    double value;
    uint64_t with_room = point_of_field(q, q->n, &value);
    int is_missing = fault() == MISSING_WITHOUT_ROOM && with_room == 0;
    return is_missing || (fault() == POINT_ROOM_AFTER_RANGE && is_refused_by(with_room, SKEPTOLYR_VALUE_OUT_OF_RANGE)) ? with_room : answer;
}

/* What a refused call to point comes to. */
static uint64_t point_refused(const struct asked *q, uint64_t answer, double *value, size_t value_len)
{
    if (is_refused_by(answer, SKEPTOLYR_NO_ROOM))
        return point_without_room(q, answer);
    if (fault() == RANGE_WITHOUT_PLACE && is_refused_by(answer, SKEPTOLYR_VALUE_OUT_OF_RANGE))
        return refusal(SKEPTOLYR_VALUE_OUT_OF_RANGE, 0);
    if (fault() == POINT_ROOM_BEFORE_POINT && is_refused_by(answer, SKEPTOLYR_NO_SUCH_POINT) && value_len == 0)
        return refusal(SKEPTOLYR_NO_ROOM, 0);
    if (fault() == VALUE_BEHIND_LAST && is_refused_by(answer, SKEPTOLYR_NO_SUCH_POINT))
        return skeptolyr_point(q->file, q->file_len, q->k, q->n - 1, value, value_len);
    if (fault() == POINT_WRITES_AND_REFUSES && value_len > 0)
        value[value_len - 1] = 0;
    return answer;
}

uint64_t faulty_point(const uint8_t *file, size_t file_len, size_t k, size_t n, double *value, size_t value_len)
{
    static unsigned int calls;
    int is_second = calls++ % 2;
    struct asked q = {file, file_len, fault() == VALUE_OF_FIELD_0 ? 0 : k, fault() == VALUE_OF_POINT_0 ? 0 : n};
    double given;
    if (fault() == POINT_ROOM_FIRST && value_len == 0)
        return refusal(SKEPTOLYR_NO_ROOM, 0);
    if (fault() < VALUE_OF_FIELD_0)
        return skeptolyr_point(file, file_len, k, n, value, value_len);
    uint64_t answer = skeptolyr_point(file, file_len, q.k, q.n, &given, value_len > 0);
    if (fault() == POINT_REFUSES_LAMBERT && !skeptolyr_is_refusal(answer) && is_on_cone(&q))
        return refusal(SKEPTOLYR_OTHER_GRID, 0);
    if (skeptolyr_is_refusal(answer))
        return point_refused(&q, answer, value, value_len);
    answer = answer == 0 ? point_missing(&q, value) : point_present(&q, value, is_second);
    if (fault() == POINT_WRITES_BEHIND)
        value[value_len] = 0;
    if (fault() == POINT_WRITES_BESIDE && value_len > 1)
        value[1] = 0;
    return answer;
}

/* ---- a picture */

/* What the library answers of a picture in a run that has room for it, the octets of that run or none, how many of them stand before the greys, the sizes of
 * the grid, and what is described of the field. */
struct drawn {
    uint64_t answer;
    uint8_t *octets;
    size_t head, ni, nj;
    struct skeptolyr_field field;
};

static size_t length_of(const struct drawn *own)
{
    return own->head + own->ni * own->nj;
}

/* Draws a field for a run of so many octets. Where the run is far too short, the field is not drawn, and refused as the library does. */
static struct drawn draw(const uint8_t *file, size_t file_len, size_t k, size_t picture_len)
{
    char head[HEAD_ROOM];
    struct drawn own = {0};
    own.answer = skeptolyr_describe_field(file, file_len, k, &own.field);
    if (skeptolyr_is_refusal(own.answer))
        return own;
    own.ni = (size_t)own.field.ni;
    own.nj = (size_t)own.field.nj;
    own.head = (size_t)snprintf(head, HEAD_ROOM, "P5\n%u %u\n255\n", (unsigned int)own.ni, (unsigned int)own.nj);
    int is_far_too_short = length_of(&own) > picture_len + FAR_TOO_SHORT;
    own.octets = is_far_too_short ? NULL : malloc(length_of(&own));
    if (!own.octets && !is_far_too_short)
        abort();
    own.answer = skeptolyr_picture(file, file_len, k, own.octets, own.octets ? length_of(&own) : 0);
    return own;
}

/* Puts the greys into another order. */
static void change_order(struct drawn *own)
{
    uint8_t *greys = own->octets + own->head, *kept = malloc(own->ni * own->nj);
    if (!kept)
        abort();
    memcpy(kept, greys, own->ni * own->nj);
    for (size_t n = 0; n < own->ni * own->nj; n++) {
        size_t column = n % own->ni, row = n / own->ni;
        greys[n] = fault() == ROWS_UPWARD ? kept[(own->nj - 1 - row) * own->ni + column] : kept[column * own->nj + row];
    }
    free(kept);
}

/* The grey of X as a reader makes it that rounds to the nearest, that multiplies where it has to divide, or that takes the largest number of so many bits for
 * the largest X. */
static uint8_t other_grey(const struct drawn *own, uint64_t x, uint64_t largest)
{
    if (fault() == TO_THE_NEAREST)
        return (uint8_t)(1 + (254 * x + largest / 2) / largest);
    if (fault() == BY_PRODUCT)
        return (uint8_t)(1 + (x * (UINT64_C(0xfe00000000000000) / largest + 1) >> 56));
    return (uint8_t)(1 + 254 * x / (own->field.bits > 0 ? (UINT64_C(1) << own->field.bits) - 1 : largest));
}

/* Paints the points once more from their values, which are X itself where R, E and D are 0. */
static void paint_from_values(const struct asked *q, struct drawn *own)
{
    size_t points = own->ni * own->nj;
    double *values = malloc(points * sizeof *values), largest = 0;
    uint8_t *presence = malloc(points), *greys = own->octets + own->head;
    if (!values || !presence)
        abort();
    skeptolyr_decode(q->file, q->file_len, q->k, 0, values, points, presence, points);
    for (size_t n = 0; n < points; n++)
        largest = values[n] > largest ? values[n] : largest;
    for (size_t n = 0; n < points && largest > 0; n++)
        greys[n] = presence[n] ? other_grey(own, (uint64_t)values[n], (uint64_t)largest) : 0;
    free(values);
    free(presence);
}

/* Changes what stands before the greys. Without its last newline the picture is an octet shorter. */
static void change_head(struct drawn *own)
{
    char head[HEAD_ROOM];
    if (fault() == SIZES_SWAPPED) {
        snprintf(head, HEAD_ROOM, "P5\n%u %u\n255\n", (unsigned int)own->nj, (unsigned int)own->ni);
        memcpy(own->octets, head, own->head);
    }
    if (fault() == SPACE_FOR_NEWLINE)
        own->octets[own->head - 1] = ' ';
    if (fault() == NEWLINE_LEFT_OUT) {
        own->head--;
        own->answer--;
        memmove(own->octets + own->head, own->octets + own->head + 1, own->ni * own->nj);
    }
}

/* Gives another grey to every point that has this one. */
static void recolour(struct drawn *own, uint8_t old, uint8_t new)
{
    for (size_t i = own->head; i < length_of(own); i++)
        if (own->octets[i] == old)
            own->octets[i] = new;
}

static void change_greys(struct drawn *own, int is_second)
{
    uint8_t *first = own->octets + own->head, *last = own->octets + length_of(own) - 1;
    while (first < last && *first == 0)
        first++;
    if (fault() == BRIGHTEST_IS_254)
        recolour(own, 255, 254);
    if (fault() == DARKEST_IS_BLACK)
        recolour(own, 1, 0);
    if (fault() == MISSING_IS_DRAWN)
        recolour(own, 0, 1);
    if (fault() == PRESENT_IS_BLACK)
        *first = 0;
    if (fault() == LAST_GREY_MORE)
        ++*last;
    if (*first > 1 && (fault() == OTHER_GREY || (fault() == OTHER_GREY_EVERY_SECOND && is_second)))
        *first ^= 1;
}

/* What a call comes to that the library answers with a picture. */
static uint64_t put_picture(struct drawn *own, uint8_t *picture, size_t picture_len, int is_second)
{
    change_greys(own, is_second);
    change_head(own);
    if (fault() == ROWS_UPWARD || fault() == DOWN_THE_COLUMNS)
        change_order(own);
    for (size_t i = 0; i < length_of(own); i++)
        if (fault() != DRAWS_NOTHING && !(fault() == MISSING_NOT_DRAWN && i >= own->head && own->octets[i] == 0))
            picture[i] = own->octets[i];
    if (fault() == PICTURE_WRITES_BEHIND)
        picture[picture_len] = 0;
    if (fault() == PICTURE_WRITES_BESIDE && picture_len > length_of(own))
        picture[length_of(own)] = 0;
    if (fault() == PICTURE_ANSWERS_RUN)
        return picture_len;
    if (fault() == PICTURE_ANSWERS_POINTS)
        return own->answer - own->head;
    return own->answer + (fault() == PICTURE_ANSWERS_MORE || (fault() == PICTURE_ANSWERS_EVERY_SECOND && is_second));
}

/* What a call comes to whose field is drawn, in a run that may be too short. */
static uint64_t picture_of_field(struct drawn *own, uint8_t *picture, size_t picture_len, int is_second)
{
    int is_out = skeptolyr_is_refusal(own->answer), is_fitting = fault() == PICTURE_REFUSES_FITTING && picture_len == length_of(own);
    int is_short = picture_len < length_of(own) || is_fitting;
    int is_cut = fault() == PICTURE_PUTS_WHAT_FITS || (fault() == PICTURE_FILLS_ONE_SHORT && picture_len + 1 == length_of(own));
    if ((is_cut || fault() == PICTURE_PUTS_AND_REFUSES) && is_short && !is_out) {
        memcpy(picture, own->octets, picture_len);
        return is_cut ? picture_len : refusal(SKEPTOLYR_NO_ROOM, 0);
    }
    if (fault() == PICTURE_WRITES_AND_REFUSES && picture_len > 0 && (is_short || is_out))
        picture[picture_len - 1] = 0;
    if (is_short && !(fault() == PICTURE_ROOM_AFTER_RANGE && is_out))
        return refusal(SKEPTOLYR_NO_ROOM, fault() == PICTURE_ROOM_AT_SECTION_3 ? (uint32_t)own->field.starts.section_3 : 0);
    if (is_out)
        return fault() == PICTURE_RANGE_WITHOUT_PLACE ? refusal(SKEPTOLYR_VALUE_OUT_OF_RANGE, 0) : own->answer;
    return put_picture(own, picture, picture_len, is_second);
}

uint64_t faulty_picture(const uint8_t *file, size_t file_len, size_t k, uint8_t *picture, size_t picture_len)
{
    static unsigned int calls;
    int is_second = calls++ % 2;
    if (fault() < DRAWS_FIELD_0)
        return skeptolyr_picture(file, file_len, k, picture, picture_len);
    if (fault() == PICTURE_ROOM_FIRST && picture_len < SHORTEST_PICTURE)
        return refusal(SKEPTOLYR_NO_ROOM, 0);
    struct asked q = {file, file_len, fault() == DRAWS_FIELD_0 ? 0 : k, 0};
    struct drawn own = draw(file, file_len, q.k, picture_len);
    uint64_t answer = own.answer;
    int is_by_value = fault() == TO_THE_NEAREST || fault() == BY_PRODUCT || fault() == LARGEST_BY_BITS;
    if (is_by_value && own.octets && !skeptolyr_is_refusal(answer) && own.field.r == 0 && own.field.e == 0 && own.field.d == 0)
        paint_from_values(&q, &own);
    if (own.octets && fault() == PICTURE_REFUSES_LAMBERT && is_on_cone(&q))
        answer = refusal(SKEPTOLYR_OTHER_GRID, 0);
    else if (own.octets)
        answer = picture_of_field(&own, picture, picture_len, is_second);
    else if (fault() == PICTURE_WRITES_AND_REFUSES && picture_len > 0)
        picture[picture_len - 1] = 0;
    free(own.octets);
    return answer;
}
