/* Times the question about one point on the first field of the file on standard input, in one thread. Lines of words:
 *
 *   describe MICROSECONDS
 *   decode MICROSECONDS
 *   WHICH N IS_PRESENT MICROSECONDS OF_DECODE [for ecCodes: ONE_NEAREST NEXT_NEAREST ONE_ELEMENT NEXT_ELEMENT] VERDICT
 *
 * There is such a line for the first, the middle and the last point that is present, and for one that is missing if one is. OF_DECODE is the time of the
 * point over that of decode. ecCodes is asked for the nearest point to the place of this one, and for this element of the values: once with a new handle, and
 * again with the same handle and grid, as a viewer does whose pointer moves. The verdict is whether the value is decode's, and that of ecCodes near it.
 *
 * Times are medians, of the processor's time for this thread, since a machine is seldom idle. What is timed together is timed in turns. */
#include "skeptolyr.h"

#include <inttypes.h>
#include <math.h>
#include <stdio.h>
#include <stdlib.h>
#include <string.h>
#include <time.h>
#ifdef ECCODES
#include <eccodes.h>
#endif

enum { ROUNDS = 41, CALLS = 10, PEER_ROUNDS = 5, KINDS = 4 };

/* The file, what its field is, its points, and the point that is asked for now. */
static uint8_t *file, *presence;
static size_t length, asked;
static double *values;
static struct skeptolyr_field field;
static volatile double found;

static void *room_for(size_t size)
{
    void *room = malloc(size);
    if (room == NULL) {
        perror("point: memory");
        exit(2);
    }
    return room;
}

/* ---- Skeptolyr */

static void describe(void)
{
    skeptolyr_describe_field(file, length, 0, &field);
}

static void decode(void)
{
    size_t points = (size_t)field.points;
    skeptolyr_decode(file, length, 0, 0, values, points, presence, points);
}

static void point(void)
{
    double value = 0;
    if (skeptolyr_point(file, length, 0, asked, &value, 1) != presence[asked]) {
        fprintf(stderr, "point: point %zu is answered otherwise than by decode\n", asked);
        exit(1);
    }
    found = value;
}

/* ---- ecCodes */

#ifdef ECCODES
static codes_handle *handle;
static codes_nearest *nearest;
static double place[2];
static int failed;

/* The value of the nearest of the four points that ecCodes finds around a place. */
static void find_nearest(unsigned long flags)
{
    double latitudes[4], longitudes[4], four[4], distances[4];
    int indexes[4], least = 0;
    size_t count = 4;
    failed |= codes_grib_nearest_find(nearest, handle, place[0], place[1], flags, latitudes, longitudes, four, distances, indexes, &count) != 0;
    for (int i = 1; i < 4; i++)
        least = distances[i] < distances[least] ? i : least;
    failed |= (size_t)indexes[least] != asked;
    found = four[least];
}

static void open_handle(void)
{
    int error = 0;
    handle = codes_handle_new_from_message(NULL, file, length);
    nearest = codes_grib_nearest_new(handle, &error);
    failed |= error != 0;
}

static void close_handle(void)
{
    codes_grib_nearest_delete(nearest);
    codes_handle_delete(handle);
}

static void one_nearest(void)
{
    open_handle();
    find_nearest(0);
    close_handle();
}

static void next_nearest(void)
{
    find_nearest(CODES_NEAREST_SAME_GRID | CODES_NEAREST_SAME_DATA);
}

static void next_element(void)
{
    double value = 0;
    failed |= codes_get_double_element(handle, "values", (int)asked, &value) != 0;
    found = value;
}

static void one_element(void)
{
    handle = codes_handle_new_from_message(NULL, file, length);
    next_element();
    codes_handle_delete(handle);
}
#endif

/* ---- Times */

static double now(void)
{
    struct timespec t;
    clock_gettime(CLOCK_THREAD_CPUTIME_ID, &t);
    return (double)t.tv_sec * 1e6 + (double)t.tv_nsec / 1e3;
}

static int by_size(const void *a, const void *b)
{
    double x = *(const double *)a, y = *(const double *)b;
    return (x > y) - (x < y);
}

static double median(double *of, size_t count)
{
    qsort(of, count, sizeof *of, by_size);
    return of[count / 2];
}

/* Microseconds of a call. What is called before the others is not timed, so that none pays for what another left in the caches. */
static double time_of(void (*call)(void), int calls)
{
    call();
    double start = now();
    for (int i = 0; i < calls; i++)
        call();
    return (now() - start) / calls;
}

/* Prints the time of the point and its part of decode's. */
static void time_point(const char *which)
{
    double took[ROUNDS], parts[ROUNDS];
    for (int round = 0; round < ROUNDS; round++) {
        double whole = time_of(decode, 1);
        took[round] = time_of(point, CALLS);
        parts[round] = took[round] / whole;
    }
    printf("%s %zu %d %.3f %.5f", which, asked, presence[asked], median(took, ROUNDS), median(parts, ROUNDS));
}

#ifdef ECCODES
static double peer_time(void (*call)(void))
{
    double took[PEER_ROUNDS];
    for (int round = 0; round < PEER_ROUNDS; round++)
        took[round] = time_of(call, 1);
    return median(took, PEER_ROUNDS);
}

/* A little nearer to the middle of the field than the point: ecCodes counts by steps that a file may have cut, and takes the last point to lie elsewhere. */
static void set_place(void)
{
    struct skeptolyr_position position = {0, 0};
    skeptolyr_place_point(file, length, 0, asked, &position);
    double middle[] = {(double)(field.first.latitude + field.last.latitude) / 2, (double)(field.first.longitude + field.last.longitude) / 2};
    place[0] = ((double)position.latitude + (middle[0] - (double)position.latitude) / 2000) / 1e6;
    place[1] = ((double)position.longitude + (middle[1] - (double)position.longitude) / 2000) / 1e6;
}

/* Is what was found last near decode's value? A missing point has a value of ecCodes' own. */
static int is_near(double range)
{
    return !presence[asked] || fabs(found - values[asked]) <= 1e-9 * range;
}

static int time_peers(double range)
{
    int is_good = 1;
    double took[4];
    failed = 0;
    set_place();
    took[0] = peer_time(one_nearest);
    open_handle();
    took[1] = peer_time(next_nearest);
    close_handle();
    is_good = is_good && is_near(range);
    took[2] = peer_time(one_element);
    open_handle();
    took[3] = peer_time(next_element);
    close_handle();
    is_good = is_good && is_near(range);
    printf(" %.3f %.3f %.3f %.3f", took[0], took[1], took[2], took[3]);
    return is_good && !failed;
}
#endif

/* ---- The whole */

/* The first point from n on whose presence is this, or the last before n, or the number of points. */
static size_t point_near(size_t n, int is_present)
{
    size_t points = (size_t)field.points, at = n;
    while (at < points && presence[at] != is_present)
        at++;
    if (at < points)
        return at;
    for (at = n; at > 0; at--)
        if (presence[at - 1] == is_present)
            return at - 1;
    return points;
}

static double range_of_values(void)
{
    double low = INFINITY, high = -INFINITY;
    for (int64_t n = 0; n < field.points; n++) {
        if (presence[n]) {
            low = fmin(low, values[n]);
            high = fmax(high, values[n]);
        }
    }
    return high - low;
}

static void time_all(void)
{
    size_t points = (size_t)field.points;
    const char *const names[KINDS] = {"first", "middle", "last", "missing"};
    const size_t numbers[KINDS] = {point_near(0, 1), point_near(points / 2, 1), point_near(points - 1, 1), point_near(points / 2, 0)};
    double range = range_of_values();
    for (int kind = 0; kind < KINDS; kind++) {
        asked = numbers[kind];
        if (asked == points)
            continue;
        time_point(names[kind]);
        int is_good = found == values[asked];
#ifdef ECCODES
        is_good = time_peers(range) && is_good;
#endif
        printf(" %s\n", is_good && range >= 0 ? "agrees" : "differs");
    }
}

int main(void)
{
    size_t room = ((size_t)1 << 28) + 1;
    double described[ROUNDS], decoded[ROUNDS];
    file = room_for(room);
    length = fread(file, 1, room, stdin);
    if (skeptolyr_is_refusal(skeptolyr_describe_field(file, length, 0, &field))) {
        fprintf(stderr, "point: the file on standard input is refused\n");
        return 2;
    }
    values = room_for((size_t)field.points * sizeof *values);
    presence = room_for((size_t)field.points);
    for (int round = 0; round < ROUNDS; round++) {
        decoded[round] = time_of(decode, 1);
        described[round] = time_of(describe, CALLS);
    }
    printf("describe %.3f\ndecode %.3f\n", median(described, ROUNDS), median(decoded, ROUNDS));
    time_all();
    return 0;
}
