/* Times pictures of all fields of the file on standard input, in one thread, by skeptolyr and by plain C in turns. A line each: the name, nanoseconds a
 * point, its time over skeptolyr's, and whether every octet agrees with skeptolyr's.
 *
 * Times are medians, of the processor's time for this thread, since a machine is seldom idle. */
#include "plain.h"
#include "skeptolyr.h"
#include "timing.h"

#include <inttypes.h>
#include <stdio.h>
#include <stdlib.h>
#include <string.h>

enum { ROUNDS = 41, LONGEST_PICTURE = SKEPTOLYR_PICTURE_ROOM(SKEPTOLYR_MOST_POINTS), PAINT = 0x55 };

typedef uint64_t picture_function(const uint8_t *, size_t, size_t, uint8_t *, size_t);

/* The file, how many fields and points it has, and where each picture starts behind those before it. */
static uint8_t *file;
static size_t length, fields, points, *starts;

static void *room_for(size_t size)
{
    void *room = malloc(size);
    if (room == NULL) {
        perror("picture: memory");
        exit(2);
    }
    return room;
}

/* Draws every field, each into a run that just fits. Answers whether each picture has its length. */
static int all_by(picture_function *picture, uint8_t *to)
{
    for (size_t k = 0; k < fields; k++) {
        size_t room = starts[k + 1] - starts[k];
        if (picture(file, length, k, to + starts[k], room) != room)
            return 0;
    }
    return 1;
}

static double median(double *of)
{
    qsort(of, ROUNDS, sizeof *of, by_size);
    return of[ROUNDS / 2];
}

/* The second of two runs is timed, so that none pays for what another left in the caches. */
static double time_of(picture_function *picture, uint8_t *to)
{
    all_by(picture, to);
    double start = now();
    all_by(picture, to);
    return now() - start;
}

/* Plain C is to give the very octets. */
static const char *verdict(uint8_t *found)
{
    uint8_t *ours = room_for(starts[fields]);
    memset(ours, PAINT, starts[fields]);
    memset(found, PAINT, starts[fields]);
    if (!all_by(skeptolyr_picture, ours) || !all_by(plain_picture, found))
        return "refuses";
    const char *said = memcmp(found, ours, starts[fields]) == 0 ? "agrees" : "differs";
    free(ours);
    return said;
}

/* Times both in turns, and each is first in every other round. */
static void compare_both(void)
{
    uint8_t *to = room_for(starts[fields]);
    double ours[ROUNDS], plain[ROUNDS], ratios[ROUNDS];
    const char *said = verdict(to);
    for (int round = 0; round < ROUNDS; round++) {
        if (round % 2 == 0)
            ours[round] = time_of(skeptolyr_picture, to);
        plain[round] = time_of(plain_picture, to);
        if (round % 2 == 1)
            ours[round] = time_of(skeptolyr_picture, to);
        ratios[round] = plain[round] / ours[round];
    }
    printf("skeptolyr %.3f 1 agrees\nplain %.3f %.3f %s\n", median(ours) / (double)points, median(plain) / (double)points, median(ratios), said);
}

/* Learns how long each picture is, by drawing it once. */
static void find_starts(void)
{
    uint8_t *to = room_for(LONGEST_PICTURE);
    size_t end = 0;
    starts = room_for((fields + 1) * sizeof *starts);
    for (size_t k = 0; k < fields; k++) {
        struct skeptolyr_field field = {0};
        uint64_t answer = skeptolyr_picture(file, length, k, to, LONGEST_PICTURE);
        if (skeptolyr_is_refusal(answer) || skeptolyr_is_refusal(skeptolyr_describe_field(file, length, k, &field))) {
            fprintf(stderr, "picture: skeptolyr refuses field %zu with %" PRIu32 "\n", k, skeptolyr_refusal_number(answer));
            exit(1);
        }
        starts[k] = end;
        end += (size_t)answer;
        points += (size_t)field.points;
    }
    starts[fields] = end;
    free(to);
}

int main(void)
{
    size_t room = (size_t)SKEPTOLYR_MOST_OCTETS + 1;
    file = room_for(room);
    length = fread(file, 1, room, stdin);
    uint64_t counts = skeptolyr_check(file, length);
    if (skeptolyr_is_refusal(counts)) {
        fprintf(stderr, "picture: the file on standard input is refused\n");
        return 2;
    }
    fields = skeptolyr_fields(counts);
    find_starts();
    compare_both();
    return 0;
}
