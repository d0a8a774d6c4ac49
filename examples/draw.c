/* Makes a picture of one field of a file, in the format PPM, which is simple to write and which many programs can show:
 *
 *     draw FILE FIELD PICTURE.ppm
 *
 * Each point is one pixel, the first row is on top, low values are blue, high ones are yellow, and missing points are grey. On a grid in degrees the first
 * row is the northernmost one, and on a Lambert grid it is the upper edge of the map.
 *
 * It ends with 1 where the file or the field is refused, and with 2 where anything else is wrong. The command `skeptolyr draw` makes larger pictures, with
 * coordinates and a scale. */
#include <errno.h>
#include <inttypes.h>
#include <skeptolyr.h>
#include <stdio.h>
#include <stdlib.h>
#include <string.h>

/* Memory that is not touched costs nothing, so there is room for one octet more than the longest file: a longer one is then seen to be longer. */
enum { FILE_ROOM = SKEPTOLYR_MOST_OCTETS + 1 };

static int failed(const char *name, const char *what)
{
    fprintf(stderr, "draw: %s: %s\nusage: draw FILE FIELD PICTURE.ppm, with a field counted from 0\n", name, what);
    return 2;
}

static int refused(const char *name, uint64_t answer)
{
    uint32_t place = skeptolyr_refusal_place(answer), number = skeptolyr_refusal_number(answer);
    fprintf(stderr, "draw: %s: refused %" PRIu32 " at %" PRIu32 ". %s\n", name, number, place, skeptolyr_refusal_text(number));
    return 1;
}

/* Is the word a number in decimal digits alone? strtoul by itself would also take blanks, signs and an empty word. */
static int is_number(const char *word, size_t *number)
{
    char *end;
    errno = 0;
    *number = strtoul(word, &end, 10);
    return word[0] >= '0' && word[0] <= '9' && *end == '\0' && errno == 0;
}

/* Writes red, green and blue of each point. The values of a file lie so far from the largest double that their differences are finite. */
static void write_pixels(FILE *out, size_t points, const double *values, const uint8_t *presence)
{
    double lowest = 0, highest = 0;
    int any = 0;
    for (size_t n = 0; n < points; n++) {
        if (presence[n]) {
            lowest = any && lowest < values[n] ? lowest : values[n];
            highest = any && highest > values[n] ? highest : values[n];
            any = 1;
        }
    }
    for (size_t n = 0; n < points; n++) {
        uint8_t colour[3] = {128, 128, 128};
        if (presence[n]) {
            double share = highest > lowest ? (values[n] - lowest) / (highest - lowest) : 0.5;
            colour[0] = colour[1] = (uint8_t)(255 * share);
            colour[2] = (uint8_t)(255 - colour[0]);
        }
        fwrite(colour, 1, sizeof colour, out);
    }
}

static int write_picture(const char *name, const struct skeptolyr_field *field, const double *values, const uint8_t *presence)
{
    FILE *out = fopen(name, "wb");
    if (out == NULL)
        return failed(name, strerror(errno));
    fprintf(out, "P6\n%" PRId64 " %" PRId64 "\n255\n", field->ni, field->nj);
    write_pixels(out, (size_t)field->points, values, presence);
    int is_written = !ferror(out);
    if (fclose(out) != 0 || !is_written)
        return failed(name, "could not be written to its end");
    return 0;
}

/* The description tells how many points the field has, and so how long the arrays must be. */
static int draw_field(const uint8_t *file, size_t length, size_t k, char **words)
{
    struct skeptolyr_field field;
    uint64_t answer = skeptolyr_describe_field(file, length, k, &field);
    if (skeptolyr_is_refusal(answer))
        return refused(words[1], answer);
    size_t points = (size_t)field.points;
    double *values = malloc(points * sizeof *values);
    uint8_t *presence = malloc(points);
    if (values == NULL || presence == NULL)
        return failed(words[1], "there is no memory for the field");
    answer = skeptolyr_decode(file, length, k, 0, values, points, presence, points);
    int status = skeptolyr_is_refusal(answer) ? refused(words[1], answer) : write_picture(words[3], &field, values, presence);
    free(values);
    free(presence);
    return status;
}

int main(int argc, char **argv)
{
    size_t k = 0;
    if (argc != 4 || !is_number(argv[2], &k) || strcmp(argv[1], argv[3]) == 0)
        return failed("the command line", "three words are needed: two different names, and a number between them");
    FILE *in = fopen(argv[1], "rb");
    uint8_t *file = malloc(FILE_ROOM);
    if (in == NULL || file == NULL)
        return failed(argv[1], in == NULL ? strerror(errno) : "there is no memory for the file");
    size_t length = fread(file, 1, FILE_ROOM, in);
    if (ferror(in))
        return failed(argv[1], "cannot be read");
    fclose(in);
    int status = draw_field(file, length, k, argv);
    free(file);
    return status;
}
