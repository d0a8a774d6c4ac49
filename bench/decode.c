/* Times decoders on the file on standard input, in one thread, each in turns with skeptolyr.
 *
 *   decode        all fields, by every decoder there is. A line each: its name, nanoseconds a point, its time over skeptolyr's, and whether
 *                 its values agree with skeptolyr's.
 *   decode last   the last field alone, by skeptolyr: its points, and the microseconds of a call.
 *
 * Times are medians, of the processor's time for this thread, since a machine is seldom idle. */
#include "plain.h"
#include "skeptolyr.h"
#include "timing.h"

#include <inttypes.h>
#include <math.h>
#include <stdio.h>
#include <stdlib.h>
#include <string.h>
#ifdef ECCODES
#include <eccodes.h>
#endif
#ifdef G2C
#include <grib2.h>
#endif

enum { ROUNDS = 41, MOST_POINTS = 16777216 };

typedef uint64_t decode_function(const uint8_t *, size_t, size_t, size_t, double *, size_t, uint8_t *, size_t);

/* The file, how many messages and fields it has, and where its fields begin among all its points. */
static uint8_t *file;
static size_t length, messages, fields, points, *starts;

/* Runs for all points of the file. */
struct runs {
    double *values;
    uint8_t *presence;
};

struct decoder {
    const char *name;
    /* Decodes every field, and answers 0 where it cannot. `keeps` asks for the values as doubles, where that costs time of its own. */
    int (*all)(struct runs to, int keeps);
    /* By how much its values may be off, as part of the field's range and of its largest value. */
    double of_range, of_largest;
    /* Its time in every round, and skeptolyr's. */
    double took[ROUNDS], skeptolyr_took[ROUNDS];
};

static void *room_for(size_t size)
{
    void *room = malloc(size);
    if (room == NULL) {
        perror("decode: memory");
        exit(2);
    }
    return room;
}

/* Puts something that no field holds into runs of so many elements, so that what is not written shows. */
static void paint(struct runs runs, size_t room)
{
    memset(runs.values, 0x55, room * sizeof *runs.values);
    memset(runs.presence, 0x55, room);
}

static struct runs new_runs(size_t room)
{
    struct runs runs = {room_for(room * sizeof *runs.values), room_for(room)};
    paint(runs, room);
    return runs;
}

static int all_by(decode_function *decode, struct runs to)
{
    for (size_t k = 0; k < fields; k++)
        if (decode(file, length, k, starts[k], to.values, points, to.presence, points) != starts[k + 1] - starts[k])
            return 0;
    return 1;
}

static int all_by_skeptolyr(struct runs to, int keeps)
{
    (void)keeps;
    return all_by(skeptolyr_decode, to);
}

static int all_by_plain(struct runs to, int keeps)
{
    (void)keeps;
    return all_by(plain_decode, to);
}

#if defined ECCODES || defined G2C
static size_t message_length(const uint8_t *message)
{
    size_t stated = 0;
    for (int i = 8; i < 16; i++)
        stated = stated << 8 | message[i];
    return stated;
}
#endif

#ifdef ECCODES
/* The next field, or NULL at the file's end. A message of one field is read where it lies, which is faster than the way for several. */
static codes_handle *next_handle(void **at, size_t *left)
{
    int error = 0;
    if (messages < fields)
        return codes_grib_handle_new_from_multi_message(NULL, at, left, &error);
    if (*left == 0)
        return NULL;
    size_t size = message_length(*at);
    codes_handle *handle = codes_handle_new_from_message(NULL, *at, size);
    *at = (uint8_t *)*at + size;
    *left -= size;
    return handle;
}

static int all_by_eccodes(struct runs to, int keeps)
{
    void *at = file;
    size_t left = length, k = 0;
    codes_handle *handle;
    (void)keeps;
    codes_grib_multi_support_on(NULL);
    while ((handle = next_handle(&at, &left)) != NULL) {
        size_t count = k < fields ? starts[k + 1] - starts[k] : 0, room = count;
        int error = codes_get_double_array(handle, "values", to.values + starts[k], &room);
        codes_handle_delete(handle);
        if (error || room != count)
            return 0;
        k++;
    }
    return k == fields;
}
#endif

#ifdef G2C
static int one_by_g2c(uint8_t *message, g2int field, size_t k, struct runs to, int keeps)
{
    gribfield *found = NULL;
    int good = g2_getfld(message, field, 1, 1, &found) == 0 && found->unpacked && found->expanded && (size_t)found->ngrdpts == starts[k + 1] - starts[k];
    for (size_t i = starts[k]; good && keeps && i < starts[k + 1]; i++)
        to.values[i] = (double)found->fld[i - starts[k]];
    if (found)
        g2_free(found);
    return good;
}

static int all_by_g2c(struct runs to, int keeps)
{
    size_t k = 0;
    for (uint8_t *message = file; message < file + length; message += message_length(message)) {
        g2int section0[3], section1[13], count, local;
        if (g2_info(message, section0, section1, &count, &local) != 0)
            return 0;
        for (g2int field = 1; field <= count; field++)
            if (k == fields || !one_by_g2c(message, field, k++, to, keeps))
                return 0;
    }
    return k == fields;
}
#endif

/* In g2c a value is a single, and so is what it is worked out from. */
static struct decoder decoders[] = {
    {.name = "skeptolyr", .all = all_by_skeptolyr},
    {.name = "plain", .all = all_by_plain},
#ifdef ECCODES
    {.name = "ecCodes", .all = all_by_eccodes, .of_range = 1e-9},
#endif
#ifdef G2C
    {.name = "g2c", .all = all_by_g2c, .of_range = 1e-9, .of_largest = 5e-7},
#endif
};
enum { DECODERS = sizeof decoders / sizeof *decoders };

/* Are the values of the present points of field k as near as the decoder promises? What is no number is not near. */
static int is_near(const struct decoder *decoder, struct runs found, struct runs ours, size_t k)
{
    double low = INFINITY, high = -INFINITY;
    for (size_t i = starts[k]; i < starts[k + 1]; i++) {
        if (ours.presence[i]) {
            low = fmin(low, ours.values[i]);
            high = fmax(high, ours.values[i]);
        }
    }
    double most = decoder->of_range * (high - low) + decoder->of_largest * fmax(fabs(low), fabs(high));
    for (size_t i = starts[k]; i < starts[k + 1]; i++)
        if (ours.presence[i] && !(fabs(found.values[i] - ours.values[i]) <= most))
            return 0;
    return 1;
}

/* Plain C is to give the very octets. The peers tell missing points each in their own way, so that only values are compared. */
static const char *verdict(const struct decoder *decoder, struct runs found, struct runs ours)
{
    paint(found, points);
    if (!decoder->all(found, 1))
        return "refuses";
    if (decoder->of_range == 0)
        return memcmp(found.values, ours.values, points * sizeof *ours.values) || memcmp(found.presence, ours.presence, points) ? "differs" : "agrees";
    for (size_t k = 0; k < fields; k++)
        if (!is_near(decoder, found, ours, k))
            return "differs";
    return "agrees";
}

static double median(const double *of)
{
    double sorted[ROUNDS];
    memcpy(sorted, of, sizeof sorted);
    qsort(sorted, ROUNDS, sizeof *sorted, by_size);
    return sorted[ROUNDS / 2];
}

/* The second of two runs is timed, so that none pays for what another left in the caches. */
static double time_of(const struct decoder *decoder, struct runs to)
{
    decoder->all(to, 0);
    double start = now();
    decoder->all(to, 0);
    return now() - start;
}

/* Times a decoder in turns with skeptolyr, and each is first in every other round. No third decoder runs between: what the peers do to memory
 * is felt longer than one run. */
static void time_pair(struct decoder *decoder, struct runs to)
{
    for (int round = 0; round < ROUNDS; round++) {
        if (round % 2 == 0)
            decoder->skeptolyr_took[round] = time_of(&decoders[0], to);
        decoder->took[round] = time_of(decoder, to);
        if (round % 2 == 1)
            decoder->skeptolyr_took[round] = time_of(&decoders[0], to);
    }
}

static void compare_all(void)
{
    struct runs ours = new_runs(points), found = new_runs(points);
    double ratios[ROUNDS];
    all_by_skeptolyr(ours, 1);
    for (size_t d = 1; d < DECODERS; d++) {
        struct decoder *decoder = &decoders[d];
        const char *said = verdict(decoder, found, ours);
        if (strcmp(said, "refuses") == 0) {
            printf("%s 0 0 %s\n", decoder->name, said);
            continue;
        }
        time_pair(decoder, found);
        for (int round = 0; round < ROUNDS; round++)
            ratios[round] = decoder->took[round] / decoder->skeptolyr_took[round];
        if (d == 1)
            printf("%s %.3f 1 agrees\n", decoders[0].name, median(decoder->skeptolyr_took) / (double)points);
        printf("%s %.3f %.3f %s\n", decoder->name, median(decoder->took) / (double)points, median(ratios), said);
    }
}

static int time_last(void)
{
    struct runs to = new_runs(MOST_POINTS);
    uint64_t answer = 0;
    double took[ROUNDS];
    for (int round = -1; round < ROUNDS; round++) {
        double start = now();
        answer = skeptolyr_decode(file, length, fields - 1, 0, to.values, MOST_POINTS, to.presence, MOST_POINTS);
        if (round >= 0)
            took[round] = now() - start;
    }
    printf("%" PRIu64 " %.3f\n", answer, median(took) / 1e3);
    return skeptolyr_is_refusal(answer);
}

/* Learns how many points each field has, by decoding it once. */
static void find_starts(void)
{
    struct runs to = new_runs(MOST_POINTS);
    starts = room_for((fields + 1) * sizeof *starts);
    for (size_t k = 0; k < fields; k++) {
        uint64_t answer = skeptolyr_decode(file, length, k, 0, to.values, MOST_POINTS, to.presence, MOST_POINTS);
        if (skeptolyr_is_refusal(answer)) {
            fprintf(stderr, "decode: skeptolyr refuses field %zu with %" PRIu32 " at %" PRIu32 "\n", k, skeptolyr_refusal_number(answer), skeptolyr_refusal_place(answer));
            exit(1);
        }
        starts[k] = points;
        points += answer;
    }
    starts[fields] = points;
    free(to.values);
    free(to.presence);
}

int main(int argc, char **argv)
{
    size_t room = ((size_t)1 << 28) + 1;
    file = room_for(room);
    length = fread(file, 1, room, stdin);
    uint64_t counts = skeptolyr_check(file, length);
    if (skeptolyr_is_refusal(counts)) {
        fprintf(stderr, "decode: the file on standard input is refused\n");
        return 2;
    }
    messages = skeptolyr_messages(counts);
    fields = skeptolyr_fields(counts);
    if (argc > 1 && strcmp(argv[1], "last") == 0)
        return time_last();
    find_starts();
    compare_all();
    return 0;
}
