/* Prints the value under a pointer: that of the point in one column and one row of a field, both counted from 0 in the upper left.
 *
 *     point FILE FIELD COLUMN ROW
 *
 * It unpacks no more of the field than leads to this point. It ends with 1 where the file, the field or the point is refused, and with 2 where it could not
 * ask or could not print. */
#include <errno.h>
#include <inttypes.h>
#include <skeptolyr.h>
#include <stdio.h>
#include <stdlib.h>

/* Memory that is not touched costs nothing, so there is room for one octet more than the longest file: a longer one is then seen to be longer. */
static uint8_t file[SKEPTOLYR_MOST_OCTETS + 1];

/* Asks for the point of a column and a row. A column behind the last would be the first of the next row: then it asks for the number behind the last
 * point's, which is refused. */
static uint64_t ask(size_t length, size_t k, size_t column, size_t row, double *value)
{
    struct skeptolyr_field field;
    uint64_t answer = skeptolyr_describe_field(file, length, k, &field);
    if (skeptolyr_is_refusal(answer))
        return answer;
    int is_there = column < (size_t)field.ni && row < (size_t)field.nj;
    return skeptolyr_point(file, length, k, is_there ? row * (size_t)field.ni + column : (size_t)field.points, value, 1);
}

/* Is the word a number in decimal digits alone? strtoul by itself would also take blanks, signs and an empty word. */
static int is_number(const char *word, size_t *number)
{
    char *end;
    errno = 0;
    *number = strtoul(word, &end, 10);
    return word[0] >= '0' && word[0] <= '9' && *end == '\0' && errno == 0;
}

int main(int argc, char **argv)
{
    size_t k = 0, column = 0, row = 0;
    int is_asked = argc == 5 && is_number(argv[2], &k) && is_number(argv[3], &column) && is_number(argv[4], &row);
    FILE *in = is_asked ? fopen(argv[1], "rb") : NULL;
    size_t length = in != NULL ? fread(file, 1, sizeof file, in) : 0;
    if (in == NULL || ferror(in)) {
        fprintf(stderr, "usage: point FILE FIELD COLUMN ROW, with a file that can be read and numbers counted from 0\n");
        return 2;
    }
    fclose(in);
    double value = 0;
    uint64_t answer = ask(length, k, column, row, &value);
    if (skeptolyr_is_refusal(answer)) {
        uint32_t place = skeptolyr_refusal_place(answer), number = skeptolyr_refusal_number(answer);
        fprintf(stderr, "refused %" PRIu32 " at %" PRIu32 ". %s\n", number, place, skeptolyr_refusal_text(number));
        return 1;
    }
    if (answer == 1)
        printf("%.15g\n", value);
    else
        printf("missing\n");
    return fflush(stdout) != 0 ? 2 : 0;
}
