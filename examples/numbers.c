/* Prints one field of a file: a line for each point, with its number, and its value or that it is missing.
 *
 *     numbers FILE FIELD
 *
 * It ends with 1 where the file or the field is refused, and with 2 where it could not ask or could not print. */
#include <errno.h>
#include <inttypes.h>
#include <skeptolyr.h>
#include <stdio.h>
#include <stdlib.h>

/* Memory that is not touched costs nothing, so there is room for one octet more than the longest file: a longer one is then seen to be longer. */
enum { FILE_ROOM = SKEPTOLYR_MOST_OCTETS + 1 };

static int failed(const char *what)
{
    fprintf(stderr, "numbers: %s\nusage: numbers FILE FIELD, with a file that can be read and a field counted from 0\n", what);
    return 2;
}

static int refused(uint64_t answer)
{
    uint32_t place = skeptolyr_refusal_place(answer), number = skeptolyr_refusal_number(answer);
    fprintf(stderr, "refused %" PRIu32 " at %" PRIu32 ". %s\n", number, place, skeptolyr_refusal_text(number));
    return 1;
}

/* Is the word a number in decimal digits alone? strtoul by itself would also take blanks, signs and an empty word. */
static int is_number(const char *word, size_t *number)
{
    char *end;
    errno = 0;
    *number = strtoul(word, &end, 10);
    return word[0] >= '0' && word[0] <= '9' && *end == '\0' && errno == 0;
}

static void print_field(uint32_t points, const double *values, const uint8_t *presence)
{
    for (uint32_t n = 0; n < points; n++) {
        if (presence[n])
            printf("%" PRIu32 " %.15g\n", n, values[n]);
        else
            printf("%" PRIu32 " missing\n", n);
    }
}

/* The description tells how many points the field has, and so how long the arrays must be. */
static int print_decoded(const uint8_t *file, size_t length, size_t k)
{
    struct skeptolyr_field field;
    uint64_t answer = skeptolyr_describe_field(file, length, k, &field);
    if (skeptolyr_is_refusal(answer))
        return refused(answer);
    size_t points = (size_t)field.points;
    double *values = malloc(points * sizeof *values);
    uint8_t *presence = malloc(points);
    if (values == NULL || presence == NULL)
        return failed("there is no memory for the field");
    answer = skeptolyr_decode(file, length, k, 0, values, points, presence, points);
    if (skeptolyr_is_refusal(answer))
        return refused(answer);
    print_field(skeptolyr_points(answer), values, presence);
    if (ferror(stdout) || fflush(stdout) != 0)
        return failed("not all could be printed");
    free(values);
    free(presence);
    return 0;
}

int main(int argc, char **argv)
{
    size_t k = 0;
    if (argc != 3 || !is_number(argv[2], &k))
        return failed("two words are needed, and the second must be a number");
    FILE *in = fopen(argv[1], "rb");
    if (in == NULL)
        return failed("the file cannot be opened");
    uint8_t *file = malloc(FILE_ROOM);
    if (file == NULL)
        return failed("there is no memory for the file");
    size_t length = fread(file, 1, FILE_ROOM, in);
    if (ferror(in))
        return failed("the file cannot be read");
    fclose(in);
    int status = print_decoded(file, length, k);
    free(file);
    return status;
}
