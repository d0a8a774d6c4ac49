/* skeptolyr point: one point of a field and its value. The point is asked for by its number, or as the one that is nearest to a place. */
#include "command.h"

#include <inttypes.h>
#include <math.h>
#include <string.h>

/* Angles are in millionths of a degree. */
enum { DECIMALS = 6, QUARTER_TURN = 90000000, HALF_TURN = 2 * QUARTER_TURN, TURN = 2 * HALF_TURN };

/* ---- What is asked for */

/* A point of a field: by its number, or by a place, whose longitude is from 0 to TURN - 1. */
struct request {
    const char *name;
    size_t k, n;
    int is_by_place;
    struct skeptolyr_position place;
};

/* Reads degrees such as 35.68 or -12 as millionths, digit by digit, since a double would change most decimals. What stands behind six decimals is rounded to
 * the nearest millionth, and a half away from 0. */
static int read_degrees(const char *word, int64_t *millionths)
{
    static const char digits[] = "0123456789";
    const char *whole = word + (*word == '-' || *word == '+');
    size_t before = strspn(whole, digits), has_point = whole[before] == '.';
    const char *decimals = whole + before + has_point;
    size_t behind = has_point ? strspn(decimals, digits) : 0;
    int64_t size = 0;
    if (before + behind == 0 || decimals[behind] != '\0')
        return 0;
    /* So many degrees are no place, whatever digits follow, and more digits would not fit into the number. */
    for (size_t i = 0; i < before && size <= TURN; i++)
        size = 10 * size + (whole[i] - '0');
    for (size_t i = 0; i < DECIMALS; i++)
        size = 10 * size + (i < behind ? decimals[i] - '0' : 0);
    if (behind > DECIMALS && decimals[DECIMALS] >= '5')
        size++;
    *millionths = *word == '-' ? -size : size;
    return 1;
}

static int64_t degrees_in_word(const char *word, int64_t least, int64_t most, const char *complaint)
{
    int64_t millionths = 0;
    if (!read_degrees(word, &millionths) || millionths < least || millionths > most)
        misuse(&point_command, complaint, word[0] != '\0' ? word : "an empty word");
    return millionths;
}

/* How far the second longitude lies east of the first, from 0 to TURN - 1. */
static int64_t eastward(int64_t longitude, int64_t other)
{
    return ((other - longitude) % TURN + TURN) % TURN;
}

static struct request read_request(int count, char **words)
{
    struct request request;
    memset(&request, 0, sizeof request);
    names_only(&point_command, 3, 4, &count, words);
    request.name = words[0];
    request.k = number_in_word(&point_command, words[1], "K is not the number of a field");
    request.is_by_place = count == 4;
    if (!request.is_by_place) {
        request.n = number_in_word(&point_command, words[2], "N is not the number of a point, and a place is two words, LATITUDE LONGITUDE");
        return request;
    }
    request.place.latitude =
        degrees_in_word(words[2], -QUARTER_TURN, QUARTER_TURN, "LATITUDE is not a number of degrees from -90 to 90, such as 35.68 or -12");
    request.place.longitude =
        eastward(0, degrees_in_word(words[3], -HALF_TURN, TURN, "LONGITUDE is not a number of degrees from -180 to 360, such as 139.77 or -70.5"));
    return request;
}

/* ---- The nearest point */

/* The request, and the field that it is about. */
struct asked {
    const struct request *request;
    struct octets file;
    struct skeptolyr_field field;
};

static int64_t larger(int64_t number, int64_t other)
{
    return number > other ? number : other;
}

/* Does the place lie in the area of the grid, or at most half a step outside it? The steps that a file tells may be up to a millionth too short, so that one
 * millionth more is allowed: a grid that goes around the earth then has no gap. */
static int is_in_area(const struct asked *asked)
{
    const struct skeptolyr_field *field = &asked->field;
    const struct skeptolyr_position *place = &asked->request->place;
    int64_t north = place->latitude - field->first.latitude, south = field->last.latitude - place->latitude;
    int64_t width = eastward(field->first.longitude, field->last.longitude), east = eastward(field->first.longitude, place->longitude);
    int64_t outside_east = east <= width ? 0 : east - width, outside_west = east <= width ? 0 : TURN - east;
    int64_t outside = outside_east < outside_west ? outside_east : outside_west;
    return 2 * larger(north, south) <= field->dj + 1 && 2 * outside <= field->di + 1;
}

/* Rows lie ever farther south of the first row, and columns ever farther east of the first column. */
enum lines { ROWS, COLUMNS };

static int64_t from_first(const struct asked *asked, enum lines lines, size_t line)
{
    const struct request *request = asked->request;
    size_t n = lines == ROWS ? line * (size_t)asked->field.ni : line;
    struct place place = place_of(request->name, asked->file, request->k, n, 0);
    return lines == ROWS ? asked->field.first.latitude - place.of_row : eastward(asked->field.first.longitude, place.of_column);
}

/* The first line that is at least so far from the first one, or their count where none is. Each question rules out half of the lines that are left. */
static size_t first_line_at(const struct asked *asked, enum lines lines, int64_t distance)
{
    size_t low = 0, high = (size_t)(lines == ROWS ? asked->field.nj : asked->field.ni);
    while (low < high) {
        size_t middle = low + (high - low) / 2;
        if (from_first(asked, lines, middle) < distance)
            low = middle + 1;
        else
            high = middle;
    }
    return low;
}

/* The lines that can be the nearest to a distance, from the lowest number on: the lines on either side of it and, since the earth is round, the first and the
 * last line. Of lines in one place the first is taken. */
enum { CANDIDATES = 4 };

static void find_candidates(const struct asked *asked, enum lines lines, int64_t distance, size_t *found)
{
    size_t count = (size_t)(lines == ROWS ? asked->field.nj : asked->field.ni);
    size_t last = first_line_at(asked, lines, from_first(asked, lines, count - 1)), behind = first_line_at(asked, lines, distance);
    found[0] = 0;
    found[1] = behind > 0 ? first_line_at(asked, lines, from_first(asked, lines, behind - 1)) : 0;
    found[2] = behind < count ? behind : last;
    found[3] = last;
}

static double radians(int64_t millionths)
{
    return (double)millionths * (3.14159265358979323846 / HALF_TURN);
}

/* How far apart two places are, by their latitudes and by what lies between their longitudes, as a haversine: the square of the sine of half the angle. */
static double haversine(int64_t latitude, int64_t other, int64_t between)
{
    double south = sin(radians(latitude - other) / 2), east = sin(radians(between) / 2);
    return south * south + cos(radians(latitude)) * cos(radians(other)) * east * east;
}

/* The column that is nearest in longitude. Along any row the distance on the sphere grows with what lies between the longitudes, so that the nearest point is
 * in this column. */
static size_t nearest_column(const struct asked *asked, int64_t *between)
{
    int64_t east = eastward(asked->field.first.longitude, asked->request->place.longitude);
    size_t candidates[CANDIDATES], nearest = 0;
    find_candidates(asked, COLUMNS, east, candidates);
    *between = TURN;
    for (int i = 0; i < CANDIDATES; i++) {
        int64_t around = eastward(east, from_first(asked, COLUMNS, candidates[i]));
        int64_t found = around < TURN - around ? around : TURN - around;
        if (found < *between) {
            *between = found;
            nearest = candidates[i];
        }
    }
    return nearest;
}

/* The row in which the point of that column is nearest on the sphere. It need not be the row that is nearest in latitude: the shortest way to a meridian ends
 * nearer to the pole than it begins. The latitude where it ends leads to the rows. */
static size_t nearest_row(const struct asked *asked, int64_t between, double *least)
{
    int64_t latitude = asked->request->place.latitude, first = asked->field.first.latitude;
    double foot = atan2(sin(radians(latitude)), cos(radians(latitude)) * cos(radians(between)));
    size_t candidates[CANDIDATES], nearest = 0;
    find_candidates(asked, ROWS, first - (int64_t)llround(foot / radians(1)), candidates);
    *least = 2;
    for (int i = 0; i < CANDIDATES; i++) {
        double found = haversine(latitude, first - from_first(asked, ROWS, candidates[i]), between);
        if (found < *least) {
            *least = found;
            nearest = candidates[i];
        }
    }
    return nearest;
}

/* The number of the nearest point, and how far away it is on a sphere of the field's radius. */
static size_t nearest_point(const struct asked *asked, double *kilometres)
{
    int64_t between = 0;
    double apart = 0;
    size_t column = nearest_column(asked, &between), row = nearest_row(asked, between, &apart);
    *kilometres = (double)asked->field.radius / 1000 * 2 * atan2(sqrt(apart), sqrt(fmax(0, 1 - apart)));
    return row * (size_t)asked->field.ni + column;
}

/* ---- What is said */

static void say_no_degrees(const struct asked *asked)
{
    const struct request *request = asked->request;
    fprintf(stderr, "skeptolyr: %s, field %zu: its grid is a Lambert grid, whose points are placed in metres, and not by latitude and longitude.\n",
            name_in_words(request->name), request->k);
    fprintf(stderr, "skeptolyr: Ask for a point by its number: skeptolyr point %s %zu N, where N is ",
            strcmp(request->name, "-") == 0 ? "FILE" : request->name, request->k);
    fprintf(stderr, "%" PRId64 " x row + column, counted from 0 in the upper left.\n", asked->field.ni);
}

static void say_outside(const struct asked *asked)
{
    const struct skeptolyr_field *field = &asked->field;
    char words[6][WORDS_ROOM];
    fprintf(stderr, "skeptolyr: %s, field %zu: no point is near latitude %s, longitude %s, which is outside the grid.\n", name_in_words(asked->request->name),
            asked->request->k, degrees_in_words(asked->request->place.latitude, words[0]), degrees_in_words(asked->request->place.longitude, words[1]));
    fprintf(stderr, "skeptolyr: It goes from %s south to %s, and from %s east to %s: name a place there, or at most half a step outside.\n",
            degrees_in_words(field->first.latitude, words[2]), degrees_in_words(field->last.latitude, words[3]),
            degrees_in_words(field->first.longitude, words[4]), degrees_in_words(field->last.longitude, words[5]));
}

/* One line of names and values in turns. The value is the eighth word on every kind of grid. */
static void print_point(const struct asked *asked, size_t n, int is_present, double value)
{
    int on_sheet = is_on_sheet(&asked->field);
    struct place place = place_of(asked->request->name, asked->file, asked->request->k, n, on_sheet);
    char of_row[WORDS_ROOM], of_column[WORDS_ROOM];
    (on_sheet ? metres_in_words : degrees_in_words)(place.of_row, of_row);
    (on_sheet ? metres_in_words : degrees_in_words)(place.of_column, of_column);
    if (on_sheet)
        printf("point %zu metres_right %s metres_down %s value ", n, of_column, of_row);
    else
        printf("point %zu latitude %s longitude %s value ", n, of_row, of_column);
    if (is_present)
        printf("%.17g", value);
    else
        printf("missing");
}

/* ---- The whole */

static int tell_point(const struct asked *asked)
{
    const struct request *request = asked->request;
    double value = 0, kilometres = 0;
    if (request->is_by_place && is_on_sheet(&asked->field)) {
        say_no_degrees(asked);
        return REFUSED;
    }
    if (request->is_by_place && !is_in_area(asked)) {
        say_outside(asked);
        return REFUSED;
    }
    size_t n = request->is_by_place ? nearest_point(asked, &kilometres) : request->n;
    uint64_t answer = skeptolyr_point(asked->file.first, asked->file.length, request->k, n, &value, 1);
    if (skeptolyr_is_refusal(answer)) {
        tell_refusal(request->name, asked->file, request->k, answer);
        return REFUSED;
    }
    print_point(asked, n, answer == 1, value);
    if (request->is_by_place)
        printf(" distance_km %.3f", kilometres);
    printf("\n");
    return ANSWERED;
}

static int point(int count, char **words)
{
    struct request request = read_request(count, words);
    struct asked asked;
    memset(&asked, 0, sizeof asked);
    asked.request = &request;
    asked.file = read_file(request.name);
    uint64_t answer = skeptolyr_describe_field(asked.file.first, asked.file.length, request.k, &asked.field);
    int ended = REFUSED;
    if (skeptolyr_is_refusal(answer))
        tell_refusal(request.name, asked.file, request.k, answer);
    else
        ended = tell_point(&asked);
    release(asked.file);
    finish_printing();
    return ended;
}

const struct subcommand point_command = {
    "point", "FILE K { N | LATITUDE LONGITUDE }", "value of one point of field K, or of the nearest one to a place",
    "Prints one line about one point of field K of FILE: its number, its place as `skeptolyr values` tells it, and its value in 17 digits, from which\n"
    "the very same double can be read, or the word `missing`. The eighth word of the line is the value. Fields and points are counted from 0, and points\n"
    "along the rows. The field is not unpacked as a whole, so that this is quick. A damaged field that `skeptolyr values` refuses with 16 can still tell\n"
    "the points before the damage.\n\n"
    "With LATITUDE and LONGITUDE it is the point that is nearest to that place, by the shortest way on a sphere of the field's radius. The line then also\n"
    "has the length of that way in kilometres. Of points that are equally near it is the nearest in longitude, and then the one with the lowest number.\n"
    "Both words are decimal degrees, rounded to millionths, which are 11 cm: a latitude from -90 to 90, which is below 0 in the south, and a longitude\n"
    "from -180 to 360, to the east. A place that is more than half a step outside the grid has no nearest point. A point of a Lambert grid is asked for\n"
    "by its number alone.",
    point};
