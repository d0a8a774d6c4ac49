/* Asks Skeptolyr for every field of each file of standard input (told.h): check, and where it accepts the file, describe and decode of every field. An error
 * is the answer of one of them, which holds the refusal's number and its place. The numbers of a field are those of its description, with zeros behind them
 * where its grid is in degrees. */
#include "told.h"

#include "skeptolyr.h"

/* No grid has more points. */
enum { MOST_POINTS = 16777216 };

static double *values;
static uint8_t *presence;

static void tell_field(struct file file, size_t k, struct told *told)
{
    int64_t numbers[SKEPTOLYR_DESCRIPTION_LAMBERT] = {0};
    uint64_t answer = skeptolyr_describe(file.octets, file.length, k, numbers, SKEPTOLYR_DESCRIPTION_LAMBERT);
    if (!skeptolyr_is_refusal(answer))
        answer = skeptolyr_decode(file.octets, file.length, k, 0, values, MOST_POINTS, presence, MOST_POINTS);
    begin(told);
    if (skeptolyr_is_refusal(answer)) {
        end(told, answer);
        return;
    }
    for (int i = 0; i < SKEPTOLYR_DESCRIPTION_LAMBERT; i++)
        tell_number(told, (uint64_t)numbers[i]);
    tell_number(told, answer);
    for (uint64_t i = 0; i < answer; i++)
        tell_double(told, values[i]);
    tell_octets(told, presence, (size_t)answer);
    end(told, 0);
}

static void tell_fields(struct file file, struct told *told)
{
    uint64_t answer = skeptolyr_check(file.octets, file.length);
    if (skeptolyr_is_refusal(answer))
        tell_error(told, answer);
    for (size_t k = 0; !skeptolyr_is_refusal(answer) && k < skeptolyr_fields(answer); k++)
        tell_field(file, k, told);
}

int main(int words, char **word)
{
    values = malloc(MOST_POINTS * sizeof *values);
    presence = malloc(MOST_POINTS);
    if (values == NULL || presence == NULL)
        give_up("skeptolyr: memory");
    return tell_files(words, word, tell_fields);
}
