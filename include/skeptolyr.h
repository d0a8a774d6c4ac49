/* Skeptolyr reads weather files in the format GRIB2 (FM 92 GRIB edition 2), as the Japan Meteorological Agency writes them. This is its manual.
 *
 * A file is an array of octets (bytes of 8 bits) in memory. It holds one message or several, a message holds one field or several, and a field is
 * one quantity, such as a temperature, at the points of a grid. There are seven questions:
 *   - skeptolyr_check asks whether a file is whole, and how many messages and fields it has.
 *   - skeptolyr_describe asks what one field is: its quantity, times, level, grid and packing, and how much room its values need.
 *   - skeptolyr_decode asks for the values of one field.
 *   - skeptolyr_point asks for the value of one point of a field, and makes no other.
 *   - skeptolyr_picture asks for a picture of one field in shades of grey.
 *   - skeptolyr_place asks where one point of a field lies, in degrees.
 *   - skeptolyr_sheet asks where one point of a field lies on the sheet of paper that a Lambert map is drawn on, in thousandths of a metre.
 *
 * Each of them returns one number of 64 bits, which is the full answer or a refusal. A refusal has a number, from 1 to 17 or 20, which says what is
 * wrong, and a place, which says where in the file. There is nothing between the two: a file or a field that breaks a rule is never read as if it were
 * good, and no part of a field is given. The inline functions of the header take an answer apart, and put a refusal into words:
 *
 *     uint64_t answer = skeptolyr_check(file, file_len);
 *     if (skeptolyr_is_refusal(answer))
 *         fprintf(stderr, "refused %u at %u. %s\n",
 *                 (unsigned)skeptolyr_refusal_number(answer),
 *                 (unsigned)skeptolyr_refusal_place(answer),
 *                 skeptolyr_refusal_text(skeptolyr_refusal_number(answer)));
 *
 * Three more inline functions give a description and a place by name, so that a program reads `field.ni`, `field.valid` and `field.level`:
 *
 *     struct skeptolyr_field field;
 *     uint64_t answer = skeptolyr_describe_field(file, file_len, k, &field);
 *     if (!skeptolyr_is_refusal(answer))
 *         values = malloc((size_t)field.points * sizeof *values);
 *
 * ---- What is read
 *
 * Files of centre 34, the Japan Meteorological Agency: grids of templates 3.0 (in degrees) and 3.30 (Lambert), products of templates 4.0 and 4.8, values
 * packed by templates 5.0 and 5.3, and the bitmap indicators 0, 254 and 255. A file has at most SKEPTOLYR_MOST_OCTETS octets, and a field at most
 * SKEPTOLYR_MOST_POINTS points. Not read yet, and refused: other centres, section 2, other templates, and missing values that are marked inside the
 * packing. In the source, docs/RULES.md has every rule.
 *
 * ---- What you must guarantee
 *
 * No proof covers the program that calls these functions, so you must guarantee this:
 *   - `file` points to `file_len` octets that can be read, and nothing changes them during the call. A file that is mapped into memory must not
 *     become shorter during the call.
 *   - `values`, `presence`, `value`, `picture`, `numbers`, `position` and `place` point to arrays with as many elements as their lengths say. They can be
 *     written, and nothing else reads or writes them during the call. `values` and `value` are aligned as doubles are, and `numbers`, `position` and `place`
 *     as int64_t is.
 *   - The file and the arrays do not overlap.
 *
 * A null pointer is allowed where its length is 0: nothing is read or written through it.
 *
 * ---- What no function does
 *
 * A function touches only the memory that you pass, and its own stack. It does not change the file, write into an array when it refuses, allocate
 * memory, keep anything from one call to the next, or print, and it always returns. Any number of threads may ask about one file at the same time,
 * each with arrays of its own.
 *
 * ---- What is proved
 *
 * Skeptolyr is written in Rattle, a language in which every function is proved to meet its contract, to touch only the memory that it is given, and
 * to end. Of the seven questions it is proved, for every file and every call, that
 *   - a question is answered in full, or refused by the first refusal that applies, and a refused call changes nothing;
 *   - a file is accepted exactly when messages fill it and sections fill each message as the standard says, and the counts, the descriptions, the
 *     missing points and the packed integers are the standard's;
 *   - each value is finite and within one part in 2^51 of the exact fraction, and is 0 where that is 0;
 *   - each octet of a picture is the one that the rule of pictures gives, from the packed integers and the missing points of its field.
 *
 * The inline functions of the header are C: they are tested, and not proved. In the source, docs/TRUST.md says what else is believed.
 *
 * ---- What the proofs leave out
 *
 * The proofs speak of the values in your arrays, and C knows more of memory than values. Three things are tested or measured, and not proved:
 *   - The sign and the payload of a NaN. In the proofs all NaNs are one value. If `values` has NaNs in elements that decode does not write, all 64
 *     bits of each stay as they were.
 *   - Memory that was never written. In the proofs every element has a value before the call. You may pass fresh memory from malloc all the same: no
 *     function reads an element of the arrays that it writes to, unless it has written that element in the same call. It writes the elements of its answer,
 *     and after a refusal none has been written.
 *   - The stack. When measured, the functions took at most 2,696 octets of it, as much for the largest file as for the smallest.
 *
 * ---- How to link
 *
 * Link with libskeptolyr.so, or with libskeptolyr.a, neither of which needs another library: `pkg-config --cflags --libs skeptolyr` prints the options, and
 * for CMake there is find_package(skeptolyr). Three programs that may be copied are installed with the manual, in share/doc/skeptolyr/examples: numbers.c
 * prints the values of a field, point.c prints the value under a pointer, and draw.c makes a picture of a field. The command `skeptolyr` answers the same
 * questions without a program.
 */
#ifndef SKEPTOLYR_H
#define SKEPTOLYR_H

#include <stddef.h>
#include <stdint.h>
#include <string.h>

#ifdef __cplusplus
extern "C" {
#endif

/* The version of this header, and of the archive that was installed with it. CHANGELOG.md says what each of its numbers stands for. */
#define SKEPTOLYR_VERSION "2.3.0"

/* The longest file that is read, in octets, and the most points that a field can have. */
#define SKEPTOLYR_MOST_OCTETS 268435456
#define SKEPTOLYR_MOST_POINTS 16777216

/* How many numbers describe a field: on a grid in degrees, and on a Lambert grid. And how many tell where a point lies, in degrees or on the sheet. */
#define SKEPTOLYR_DESCRIPTION 53
#define SKEPTOLYR_DESCRIPTION_LAMBERT 60
#define SKEPTOLYR_POSITION 2
#define SKEPTOLYR_SHEET_PLACE 2

/* How many octets have room for the picture of any field of so many points. */
#define SKEPTOLYR_PICTURE_ROOM(points) ((points) + 19)

/* ---- The seven questions */

/* Checks a file of one or more messages: do messages fill the file, and do sections fill each message, with no gap and in the order of the standard?
 *
 * In a file that is accepted every octet belongs to a message, and every message ends in 7777 where its length says. The sections of a message follow
 * one another as the standard allows: section 1, then one grid or more. A grid is section 3, then one field or more. A field is sections 4, 5, 6 and 7.
 * So a message that was cut, or that runs into the next one, is found.
 *
 * It does not look at what the sections say: a field of a file that is accepted can still be refused by the other questions. Two kinds of damage can be
 * seen by no reader. A file that was cut between two messages has whole messages only. And a number may have become another number that is allowed: GRIB
 * has no checksum.
 *
 * Takes    the file. It reads little more than the head of each message and of each section, so a large file takes no longer than a small one with as
 *          many of them.
 * Returns  messages x 2^32 + fields, from which skeptolyr_messages and skeptolyr_fields take the two counts; or a refusal from 1 to 7.
 * Never    accepts any other file.
 */
uint64_t skeptolyr_check(const uint8_t *file, size_t file_len);

/* Describes field `k`: what it is, when and where, and how its values are packed. Fields are counted from 0 over all messages of the file.
 *
 * The numbers become the members of struct skeptolyr_field, in their order: `numbers[0]` to `numbers[52]` for a field on a grid in degrees, and to
 * `numbers[59]` for one on a Lambert grid. So the answer tells the kind of grid, and `numbers[53]` does once more: it is 30. A program that knows only grids
 * in degrees passes 53 numbers, and never takes the numbers of a Lambert grid for others: it is given 15. skeptolyr_describe_field asks the same and gives
 * the numbers their names.
 *
 * Takes    the file, `k`, and an array. One of SKEPTOLYR_DESCRIPTION_LAMBERT numbers or more has room for any field. No check is needed before.
 * Returns  how many numbers it has put, which is SKEPTOLYR_DESCRIPTION for a grid in degrees and SKEPTOLYR_DESCRIPTION_LAMBERT for a Lambert grid; or a
 *          refusal from 1 to 15. 15 comes last: it is given where a field that is described has too short an array.
 * Never    changes a number after these, or any number at all when it refuses.
 */
uint64_t skeptolyr_describe(const uint8_t *file, size_t file_len, size_t k, int64_t *numbers, size_t numbers_len);

/* Decodes field `k` into two arrays, from element `start` of each on. Fields are counted from 0 over all messages of the file.
 *
 * For each point n of the field, `values[start + n]` becomes its value, and `presence[start + n]` becomes 1. Where the point is missing, both become 0.
 * Point 0 is the one in the north-west, on a Lambert grid the one in the upper left. The points of a row follow one another to the east, or to the right, and
 * the rows to the south, or downward: point n is in column n mod ni and row n div ni, with the ni of skeptolyr_describe.
 *
 * Each value is within one part in 2^51 of the exact fraction (R + X 2^E) / 10^D of the file's numbers, and is 0 where that is 0.
 *
 * Takes    the file, `k`, `start`, and the two arrays, each with its own length. No check is needed before: a file that skeptolyr_check refuses is
 *          refused here in the same way. The field needs as many elements as skeptolyr_describe tells by `points`, and arrays of
 *          SKEPTOLYR_MOST_POINTS elements have room for any field. An array that is too short for the field is no danger: it gives refusal 15.
 * Returns  the number of points of the field, missing ones too, which skeptolyr_points gives as 32 bits; or a refusal from 1 to 16.
 * Never    changes an element before `start` or after the field's last point, or any element at all when it refuses; never writes an infinity, a NaN
 *          or -0.
 */
uint64_t skeptolyr_decode(const uint8_t *file, size_t file_len, size_t k, size_t start,
                          double *values, size_t values_len, uint8_t *presence, size_t presence_len);

/* Tells the value of point `n` of field `k`, or that the point is missing. Points are counted from 0, along the rows of the grid.
 *
 * `value[0]` becomes the value, and the answer is 1. Where the point is missing, `value[0]` becomes 0 and the answer is 0. Where skeptolyr_decode answers,
 * these are the very numbers that it writes to `values[start + n]` and to `presence[start + n]`, for every n.
 *
 * It is for the value under a pointer: of a field in simple packing it reads one packed number, and of one in complex packing it works out the integers up
 * to the point's own, and none after it. So a damaged field can still tell a point: where skeptolyr_decode refuses with 16, a point is told if the integers
 * up to its own are in their range, and a missing point is missing in any case.
 *
 * Takes    the file, `k`, `n`, and an array of one element or more, as `&value, 1`. No check is needed before.
 * Returns  1, or 0 where the point is missing; or a refusal from 1 to 14, 17 where the field has no point `n`, 15 where the array has no element, or 16 where
 *          an integer up to the point's own is out of its range, which comes last.
 * Never    changes an element after the first, or any element at all when it refuses; never writes an infinity, a NaN or -0.
 */
uint64_t skeptolyr_point(const uint8_t *file, size_t file_len, size_t k, size_t n, double *value, size_t value_len);

/* Makes a picture of field `k` in shades of grey, in the format PGM. Fields are counted from 0 over all messages of the file.
 *
 * A picture is `P5`, a newline, ni in decimal digits, a space, nj in decimal digits, a newline, `255`, a newline, and then an octet for each point, its grey,
 * row by row in the order of skeptolyr_decode. So it has 9 octets, the digits of ni and of nj, and as many octets as there are points: at most 19 more
 * than the points, for which SKEPTOLYR_PICTURE_ROOM has room. On a grid in degrees north is on top.
 *
 * The grey of a missing point is 0, which is black. That of a point that is present is 1 + (254 X) div M, from 1 to 255, where X is its packed integer and M
 * is the largest X of the points that are present. Where M is 0 it is 1. So no larger value has a darker grey, and the largest value is white, unless M is 0.
 * Each field has an M of its own: greys of two pictures cannot be compared.
 *
 *     size_t room = SKEPTOLYR_PICTURE_ROOM((size_t)field.points);
 *     uint8_t *picture = malloc(room);
 *     uint64_t answer = skeptolyr_picture(file, file_len, k, picture, room);
 *     if (!skeptolyr_is_refusal(answer))
 *         fwrite(picture, 1, (size_t)answer, out);
 *
 * Takes    the file, `k`, and an array of octets. No check is needed before. The room that is needed is known once skeptolyr_describe has told `points`, ni
 *          and nj.
 * Returns  the length of the picture in octets, which is at the start of the array; or a refusal from 1 to 14, 15 where the array is shorter than the picture,
 *          or 16 where a packed integer of the field is out of its range, which comes last.
 * Never    changes an octet after the picture, or any octet at all when it refuses.
 */
uint64_t skeptolyr_picture(const uint8_t *file, size_t file_len, size_t k, uint8_t *picture, size_t picture_len);

/* Tells where point `n` of field `k` lies. Points are counted from 0, along the rows of the grid.
 *
 * `position[0]` becomes its latitude and `position[1]` its longitude, in millionths of a degree. The points are spread evenly between the first and the last
 * point that the file tells, and each number is the nearest whole one; the steps di and dj are not used. skeptolyr_place_point asks the same and gives them
 * their names.
 *
 * Takes    the file, `k`, `n`, and an array of SKEPTOLYR_POSITION numbers or more. No check is needed before.
 * Returns  how many numbers it has put, which is SKEPTOLYR_POSITION; or a refusal from 1 to 14, 20 where the field is on a Lambert grid, 17 where it has no
 *          point `n`, or 15 where the array is too short, which comes last.
 * Never    changes a number after these, or any number at all when it refuses.
 */
uint64_t skeptolyr_place(const uint8_t *file, size_t file_len, size_t k, size_t n, int64_t *position, size_t position_len);

/* Tells where point `n` of field `k` lies on the sheet of a Lambert map. Points are counted from 0, along the rows of the grid.
 *
 * `place[0]` becomes how far it lies to the right of the first point, and `place[1]` how far below it, in thousandths of a metre: column x dx and row x dy.
 * These are lengths on the sheet. They are lengths on the earth at the latitude for which dx and dy are stated. skeptolyr_sheet_point asks the same and
 * gives the numbers their names.
 *
 * Takes    the file, `k`, `n`, and an array of SKEPTOLYR_SHEET_PLACE numbers or more. No check is needed before.
 * Returns  how many numbers it has put, which is SKEPTOLYR_SHEET_PLACE; or a refusal from 1 to 14, 20 where the field is on a grid in degrees, 17 where it has
 *          no point `n`, or 15 where the array is too short, which comes last.
 * Never    changes a number after these, or any number at all when it refuses.
 */
uint64_t skeptolyr_sheet(const uint8_t *file, size_t file_len, size_t k, size_t n, int64_t *place, size_t place_len);

/* ---- What a field is, by name */

/* A time of the Gregorian calendar, in UTC. */
struct skeptolyr_time {
    int64_t year, month, day, hour, minute, second;
};

/* Where a point lies, in millionths of a degree: its latitude, which is below 0 in the south, and its longitude to the east, from 0 to 359,999,999. */
struct skeptolyr_position {
    int64_t latitude, longitude;
};

/* Where a point lies on the sheet of a Lambert map: to the right of the first point and below it, in thousandths of a metre. */
struct skeptolyr_sheet_place {
    int64_t right, down;
};

/* What a Lambert grid has of its own. Angles are in millionths of a degree, lengths in thousandths of a metre. */
struct skeptolyr_lambert {
    int64_t stated_latitude;               /* the latitude at which dx and dy are lengths on the earth */
    int64_t upright_meridian;              /* the longitude of the meridian that is upright on the sheet */
    int64_t dx;                            /* from a column to the next, to the right */
    int64_t dy;                            /* from a row to the next, downward */
    int64_t cutting_latitude_1;            /* the first latitude at which the cone cuts the earth (octets 66-69) */
    int64_t cutting_latitude_2;            /* the second (octets 70-73); the standard has the one nearer to the pole first, and no rule asks for it */
};

/* A level: is one given (1) or is there none (0)? If it is, it is scaled / 10^factor, in the unit of the surface. If not, both are 0. */
struct skeptolyr_level {
    int64_t is_given, factor, scaled;
};

/* Where the sections in force for a field start in the file, in octets from 0. */
struct skeptolyr_starts {
    int64_t section_1, section_3, section_4, section_5, section_6, section_7;
};

/* What a field is. The members are the numbers of skeptolyr_describe, in its order. WMO's code tables say what a number of a code means. */
struct skeptolyr_field {
    int64_t discipline;                    /* section 0: 0 is meteorology, 10 is the sea (code table 0.0) */
    int64_t status;                        /* section 1: 0 is operational, 1 is a trial */
    struct skeptolyr_time reference;       /* section 1: when the forecast starts */
    int64_t earth;                         /* section 3: the earth's shape, 1 or 6 (code table 3.2) */
    int64_t radius;                        /* its radius in metres */
    int64_t ni;                            /* the points in a row */
    int64_t nj;                            /* the rows */
    int64_t points;                        /* ni x nj: the room that skeptolyr_decode needs in each array */
    struct skeptolyr_position first;       /* point 0, in the north-west, on a Lambert grid in the upper left */
    struct skeptolyr_position last;        /* of a grid in degrees: the last point, in the south-east; of a Lambert grid 0 and 0 */
    int64_t di;                            /* of a grid in degrees: the step to the east, as the file tells it: i x di need not lead to point i; else 0 */
    int64_t dj;                            /* the step to the south, likewise */
    int64_t category;                      /* section 4: with discipline and parameter, what the values are (code tables 4.1 and 4.2) */
    int64_t parameter;
    int64_t process;                       /* the kind of process (code table 4.3) */
    int64_t surface;                       /* the surface that the values are about (code table 4.5) */
    struct skeptolyr_level level;          /* on that surface */
    int64_t product_template;              /* 0: an instant, 8: an interval */
    struct skeptolyr_time end;             /* the end of an interval; for an instant each number is 0 */
    int64_t kind;                          /* of an interval: 0 is a mean, 1 is a sum; for an instant 0 */
    struct skeptolyr_time valid;           /* the instant, or the start of an interval */
    int64_t present;                       /* section 5: N, how many points are present and have a value */
    int64_t r;                             /* R, as the 32 bits of a single-precision number */
    int64_t e;                             /* E and D: the value of a point with the packed integer X is (R + X 2^E) / 10^D */
    int64_t d;
    int64_t bits;                          /* the bits of a packed value, or of a group's reference */
    int64_t data_template;                 /* 0: simple packing (5.0), 3: complex packing (5.3) */
    int64_t indicator;                     /* section 6: 255: all points are present, 0: the field's own bitmap, 254: an earlier one */
    struct skeptolyr_starts starts;
    int64_t grid_template;                 /* section 3: 0: a grid in degrees (3.0), 30: a Lambert grid (3.30) */
    struct skeptolyr_lambert lambert;      /* of a Lambert grid; of a grid in degrees each number is 0 */
};

/* Describes field `k`, as skeptolyr_describe does, with a name for each number. A refused call does not change `field`. */
static inline uint64_t skeptolyr_describe_field(const uint8_t *file, size_t file_len, size_t k, struct skeptolyr_field *field)
{
    int64_t numbers[SKEPTOLYR_DESCRIPTION_LAMBERT] = {0};
    uint64_t answer = skeptolyr_describe(file, file_len, k, numbers, SKEPTOLYR_DESCRIPTION_LAMBERT);
    if ((answer >> 63) == 0)
        memcpy(field, numbers, sizeof *field);
    return answer;
}

/* Tells where point `n` of field `k` lies, as skeptolyr_place does, with a name for each number. A refused call does not change `position`. */
static inline uint64_t skeptolyr_place_point(const uint8_t *file, size_t file_len, size_t k, size_t n, struct skeptolyr_position *position)
{
    int64_t numbers[SKEPTOLYR_POSITION];
    uint64_t answer = skeptolyr_place(file, file_len, k, n, numbers, SKEPTOLYR_POSITION);
    if ((answer >> 63) == 0)
        memcpy(position, numbers, sizeof *position);
    return answer;
}

/* Tells where point `n` of field `k` lies on the sheet, as skeptolyr_sheet does, with a name for each number. A refused call does not change `place`. */
static inline uint64_t skeptolyr_sheet_point(const uint8_t *file, size_t file_len, size_t k, size_t n, struct skeptolyr_sheet_place *place)
{
    int64_t numbers[SKEPTOLYR_SHEET_PLACE];
    uint64_t answer = skeptolyr_sheet(file, file_len, k, n, numbers, SKEPTOLYR_SHEET_PLACE);
    if ((answer >> 63) == 0)
        memcpy(place, numbers, sizeof *place);
    return answer;
}

/* ---- Refusals */

/* A refusal says why a question is not answered, and skeptolyr_refusal_text puts it into words. Places are counted in octets from 0, the start of the
 * file. The place of a section or of a message is where it starts.
 *
 * Where several reasons apply, the first of them is given, in this order. First come 1 and 2, which are about the file's length. Then comes that of 3
 * to 7 which is met first in the file. Then come 8, and 9 to 14, which are about the sections of the field. The last are 20, 17, 15 and then 16.
 */
enum skeptolyr_refusal {
    /* The name                        number    the place */
    SKEPTOLYR_TOO_LONG =               1,     /* 0 */
    SKEPTOLYR_EMPTY =                  2,     /* 0 */
    SKEPTOLYR_CUT =                    3,     /* the message */
    SKEPTOLYR_NOT_GRIB2 =              4,     /* the message */
    SKEPTOLYR_BAD_LENGTH =             5,     /* the message or the section */
    SKEPTOLYR_OUT_OF_PLACE =           6,     /* the section or the closing 7777 */
    SKEPTOLYR_NO_END =                 7,     /* the message */
    SKEPTOLYR_NO_SUCH_FIELD =          8,     /* 0 */
    SKEPTOLYR_BAD_IDENTIFICATION =     9,     /* section 1 */
    SKEPTOLYR_BAD_GRID =               10,    /* section 3 */
    SKEPTOLYR_BAD_PRODUCT =            11,    /* section 4 */
    SKEPTOLYR_BAD_REPRESENTATION =     12,    /* section 5 */
    SKEPTOLYR_BAD_BITMAP =             13,    /* section 6 */
    SKEPTOLYR_BAD_PACKING =            14,    /* section 7 */
    SKEPTOLYR_NO_ROOM =                15,    /* 0 */
    SKEPTOLYR_VALUE_OUT_OF_RANGE =     16,    /* section 7 */
    SKEPTOLYR_NO_SUCH_POINT =          17,    /* 0 */
    SKEPTOLYR_OTHER_GRID =             20,    /* 0 */
    /* No function of this header gives these: 18 is given by the program skeptolyr-listing, and 19 by a question in Rattle. */
    SKEPTOLYR_INPUT_TOO_LONG =         18,    /* 65536 */
    SKEPTOLYR_NOT_REBUILDABLE =        19     /* 0 */
};

/* The refusal of this number in words: whether the file is damaged or only of a kind that is not read, what is wrong, and what to do next. There,
 * "here" is the refusal's place. A number that no refusal has gets a sentence that says so. The string lasts as long as the program; do not change or
 * free it.
 */
static inline const char *skeptolyr_refusal_text(uint32_t number)
{
    switch (number) {
    case SKEPTOLYR_TOO_LONG: return "The file is longer than 268,435,456 octets, the most that is read. Cut it between two messages, and ask about each part.";
    case SKEPTOLYR_EMPTY: return "The file is empty: nothing of it has arrived. Fetch it again.";
    case SKEPTOLYR_CUT: return "Damaged: the file ends inside the message that starts here, so part of it is missing. Fetch the file again.";
    case SKEPTOLYR_NOT_GRIB2: return "Damaged, or of a kind that is not read yet: a message of GRIB edition 2 should start here, and these octets do not "
        "start one. Fetch the file again. If it is refused again, use another reader.";
    case SKEPTOLYR_BAD_LENGTH: return "Damaged: the length that is written here, of a message or of a section, cannot be right. Fetch the file again.";
    case SKEPTOLYR_OUT_OF_PLACE: return "Damaged, or of a kind that is not read yet: a section 2 starts here, or a section that may not follow the one before "
        "it, or the message ends here with a field unfinished. Fetch the file again. If it is refused again, use another reader.";
    case SKEPTOLYR_NO_END: return "Damaged: the message that starts here does not end in 7777 where its length says, so part of it is missing or wrong. "
        "Fetch the file again.";
    case SKEPTOLYR_NO_SUCH_FIELD: return "The file has no field of this number. Fields are counted from 0, and skeptolyr_check tells how many there are.";
    case SKEPTOLYR_BAD_IDENTIFICATION: return "Damaged, or of a kind that is not read yet: section 1, which starts here, is not the Japan Meteorological "
        "Agency's, or has a time or a status that is not read. Fetch the file again. If it is refused again, use another reader.";
    case SKEPTOLYR_BAD_GRID: return "Damaged, or of a kind that is not read yet: section 3, which starts here, has a grid that is not read (templates "
        "3.0 and 3.30 are), or numbers that contradict one another. Fetch the file again. If it is refused again, use another reader.";
    case SKEPTOLYR_BAD_PRODUCT: return "Damaged, or of a kind that is not read yet: section 4, which starts here, has a product that is not read (templates "
        "4.0 and 4.8 are), or a level or a time that is not possible. Fetch the file again. If it is refused again, use another reader.";
    case SKEPTOLYR_BAD_REPRESENTATION: return "Damaged, or of a kind that is not read yet: section 5, which starts here, has a packing that is not read "
        "(templates 5.0 and 5.3 are), or a number outside its limits. Fetch the file again. If it is refused again, use another reader.";
    case SKEPTOLYR_BAD_BITMAP: return "Damaged, or of a kind that is not read yet: section 6, which starts here, has no bitmap for this grid, or its bitmap "
        "does not mark as many points as there are values. Fetch the file again. If it is refused again, use another reader.";
    case SKEPTOLYR_BAD_PACKING: return "Damaged, or written wrongly: section 7, which starts here, does not hold what section 5 says; its groups or its "
        "length are wrong. Fetch the file again. If it is refused again, tell those who wrote it.";
    case SKEPTOLYR_NO_ROOM: return "An array that was passed has no room for the answer: for the points of the field after the start position, for one value, "
        "for the picture, or for the numbers. Pass a longer one. A picture needs at most 19 octets more than there are points. "
        "skeptolyr_describe tells how many points there are, and needs 53 numbers itself, for a Lambert grid 60.";
    case SKEPTOLYR_VALUE_OUT_OF_RANGE: return "Damaged, or written wrongly: section 7, which starts here, unpacks to an integer below 0 or above "
        "2,147,483,647. Fetch the file again. If it is refused again, tell those who wrote it.";
    case SKEPTOLYR_NO_SUCH_POINT: return "The field has no point of this number. Points are counted from 0: ask for one below the number of points.";
    case SKEPTOLYR_OTHER_GRID: return "The grid is of the other kind. Ask skeptolyr_place about a grid in degrees, and skeptolyr_sheet about a Lambert grid: "
        "skeptolyr_describe tells which a field has.";
    case SKEPTOLYR_INPUT_TOO_LONG: return "The input is longer than 65,536 octets, the most that skeptolyr-listing reads. "
        "The command skeptolyr and the functions for C read longer files.";
    case SKEPTOLYR_NOT_REBUILDABLE: return "No value can be rebuilt: R is not a finite number, or E, D or X is outside its limits. Give numbers within them.";
    default: return "No refusal has this number.";
    }
}

/* ---- What an answer holds */

/* 1 where the answer is a refusal, and 0 where it is not. Ask this first: a part that the answer does not have is a number without a meaning. */
static inline int skeptolyr_is_refusal(uint64_t answer)
{
    return (answer >> 63) != 0;
}

/* A refusal's number, from 1 to 17 or 20. */
static inline uint32_t skeptolyr_refusal_number(uint64_t answer)
{
    return answer >> 32 & 0x7fffffff;
}

/* A refusal's place in the file, in octets from 0. */
static inline uint32_t skeptolyr_refusal_place(uint64_t answer)
{
    return answer & 0xffffffff;
}

/* How many messages the file has, of an answer of skeptolyr_check that is no refusal. */
static inline uint32_t skeptolyr_messages(uint64_t answer)
{
    return answer >> 32 & 0x7fffffff;
}

/* How many fields the file has, of an answer of skeptolyr_check that is no refusal. */
static inline uint32_t skeptolyr_fields(uint64_t answer)
{
    return answer & 0xffffffff;
}

/* How many points the field has, of an answer of skeptolyr_decode that is no refusal. */
static inline uint32_t skeptolyr_points(uint64_t answer)
{
    return answer & 0xffffffff;
}

#ifdef __cplusplus
}
#endif

#endif
