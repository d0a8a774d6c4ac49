/* skeptolyr draw: a picture of one field. */
#include "picture.h"
#include "png.h"

#include <float.h>
#include <inttypes.h>
#include <stdlib.h>
#include <string.h>

/* ---- What is asked for */

struct request {
    const char *file, *picture;
    size_t k;
    int has_range;
    double low, high;
};

/* Is it a decimal number, such as -12, 0.5 or 1e-3? Library functions such as strtod would take blanks, words and hexadecimal digits too. */
static int is_decimal(const char *word)
{
    static const char digits[] = "0123456789";
    word += *word == '-' || *word == '+';
    size_t before = strspn(word, digits), behind = 0;
    word += before;
    if (*word == '.') {
        behind = strspn(word + 1, digits);
        word += 1 + behind;
    }
    if (before + behind == 0)
        return 0;
    if (*word == 'e' || *word == 'E') {
        word += 1;
        word += *word == '-' || *word == '+';
        if (strspn(word, digits) == 0)
            return 0;
        word += strspn(word, digits);
    }
    return *word == '\0';
}

static double decimal_in_word(const char *word)
{
    double number = is_decimal(word) ? strtod(word, NULL) : 0;
    if (!is_decimal(word) || number < -DBL_MAX || number > DBL_MAX)
        misuse(&draw_command, "after --range there must be two numbers, and this is none that can be used", word[0] != '\0' ? word : "an empty word");
    return number;
}

/* Takes `--range LOW HIGH` out of the words before `--`. */
static void take_range(struct request *request, int *count, char **words)
{
    int at = 0;
    while (at < *count && strcmp(words[at], "--") != 0) {
        if (strcmp(words[at], "--range") != 0) {
            at++;
            continue;
        }
        if (request->has_range)
            misuse(&draw_command, "this option is given twice", words[at]);
        if (*count - at < 3)
            misuse(&draw_command, "two numbers are needed after", words[at]);
        request->has_range = 1;
        request->low = decimal_in_word(words[at + 1]);
        request->high = decimal_in_word(words[at + 2]);
        if (request->low >= request->high)
            misuse(&draw_command, "the first number after --range must be below the second, which is", words[at + 2]);
        *count -= 3;
        memmove(words + at, words + at + 3, (size_t)(*count - at) * sizeof *words);
    }
}

static struct request read_request(int count, char **words)
{
    struct request request = {NULL, NULL, 0, 0, 0, 0};
    take_range(&request, &count, words);
    names_only(&draw_command, 3, 3, &count, words);
    request.file = words[0];
    request.k = number_in_word(&draw_command, words[1], "K must be the number of a field, and this is none");
    request.picture = name_of_picture(&draw_command, words[2], request.file);
    return request;
}

/* ---- What is drawn */

/* Counts the missing points, and finds the lowest and the highest value. Where no point is present, both are 0. */
static struct subject survey(const struct decoded *decoded)
{
    struct subject subject;
    memset(&subject, 0, sizeof subject);
    subject.decoded = decoded;
    double low = DBL_MAX, high = -DBL_MAX;
    for (int64_t n = 0; n < decoded->field.points; n++) {
        if (!decoded->presence[n]) {
            subject.missing++;
            continue;
        }
        if (decoded->values[n] < low)
            low = decoded->values[n];
        if (decoded->values[n] > high)
            high = decoded->values[n];
    }
    if (any_present(&subject)) {
        subject.scale.low = low;
        subject.scale.high = high;
    }
    return subject;
}

/* Puts the scale that was asked for in place of the field's own. */
static void set_scale(struct subject *subject, double low, double high)
{
    const struct decoded *decoded = subject->decoded;
    subject->scale = (struct scale){low, high, 1, 0, 0};
    for (int64_t n = 0; n < decoded->field.points; n++) {
        if (decoded->presence[n] && decoded->values[n] < low)
            subject->scale.below++;
        if (decoded->presence[n] && decoded->values[n] > high)
            subject->scale.above++;
    }
}

/* What stands above the field: what it is and where, when it is valid, and from when the forecast is. The third line is there for every field, so that the
 * pictures of one forecast have one size. */
static void put_into_words(struct subject *subject)
{
    const struct skeptolyr_field *field = &subject->decoded->field;
    char first[WORDS_ROOM], second[WORDS_ROOM];
    const char *unit = parameter_unit(field->discipline, field->category, field->parameter);
    snprintf(subject->lines[0], LINE_ROOM, "%.158s, %.158s", parameter_in_words(field, first), level_in_words(field, second));
    snprintf(subject->lines[1], LINE_ROOM, "%s (UTC)", times_in_words(field, first));
    snprintf(subject->lines[2], LINE_ROOM, "forecast from %s (UTC)", time_in_words(&field->reference, first));
    if (unit != NULL && unit[0] != '\0')
        snprintf(subject->unit, WORDS_ROOM, "in %s", unit);
}

/* ---- The whole */

static void save(const struct request *request, const struct picture *picture, const struct subject *subject)
{
    uint8_t palette[COLOURS][3];
    fill_palette(palette);
    struct made *made = start_file(request->picture);
    struct image image = {picture->width, picture->height, picture->pixels, COLOURS, (const uint8_t (*)[3])palette, subject->lines[0], subject->lines[1],
                          "Skeptolyr " SKEPTOLYR_VERSION};
    write_png(stream_of(made), &image);
    hide_progress();
    finish_file(made);
}

/* Says what the field has, and how the scale was chosen. */
static void tell_field(size_t k, const struct subject *subject, double lowest, double highest)
{
    const struct skeptolyr_field *field = &subject->decoded->field;
    const struct scale *scale = &subject->scale;
    struct labels values = label(lowest, highest), ends = label(scale->low, scale->high);
    printf("field %zu: %" PRId64 " x %" PRId64 " point%s, %zu missing, ", k, field->ni, field->nj, field->points == 1 ? "" : "s", subject->missing);
    if (!any_present(subject))
        printf("no values\n");
    else if (lowest == highest)
        printf("every value %s\n", values.middle);
    else
        printf("values from %s to %s\n", values.low, values.high);
    if (scale->is_asked_for)
        printf("scale from %s to %s: %zu value%s below, %zu above\n", ends.low, ends.high, scale->below, scale->below == 1 ? "" : "s", scale->above);
}

static int draw_decoded(const struct request *request, uint64_t checked, const struct decoded *decoded)
{
    struct subject subject = survey(decoded);
    double lowest = subject.scale.low, highest = subject.scale.high;
    if (request->has_range)
        set_scale(&subject, request->low, request->high);
    put_into_words(&subject);
    struct picture picture = draw_picture(&subject);
    save(request, &picture, &subject);
    if (strcmp(request->picture, "-") != 0) {
        print_counts(request->file, checked);
        tell_field(request->k, &subject, lowest, highest);
        printf("%s: %zu x %zu pixels\n", request->picture, picture.width, picture.height);
    }
    free(picture.pixels);
    finish_printing();
    return ANSWERED;
}

static int draw(int count, char **words)
{
    struct request request = read_request(count, words);
    struct octets file = read_file(request.file);
    uint64_t checked = skeptolyr_check(file.first, file.length);
    struct decoded decoded;
    memset(&decoded, 0, sizeof decoded);
    decoded.answer = checked;
    if (!skeptolyr_is_refusal(checked))
        decoded = decode_field(file, request.k);
    int ended = REFUSED;
    if (skeptolyr_is_refusal(decoded.answer))
        tell_refusal(request.file, file, request.k, decoded.answer);
    else
        ended = draw_decoded(&request, checked, &decoded);
    release_decoded(&decoded);
    release(file);
    return ended;
}

const struct subcommand draw_command = {
    "draw", "[--range LOW HIGH] FILE K PICTURE", "a picture of field K, in the format PNG",
    "Makes PICTURE, a PNG, of field K of FILE: each point in a colour, missing points in grey, north on top. It has what the field is, its times, latitudes\n"
    "and longitudes, and the scale of the colours with its unit. Fields are counted from 0, and `skeptolyr ls FILE` tells what each is. A point is a square\n"
    "of whole pixels. PICTURE may be -, which is standard output. A picture that is there already is replaced when the new one is whole.\n\n"
    "The picture of a Lambert grid is the sheet of the map: it has the sheet's shape, as Dx and Dy make it where neither is more than 8 times the other,\n"
    "and along its sides are the kilometres to the right of the first point and below it, in place of longitudes and latitudes.\n\n"
    "  --range LOW HIGH   the scale goes from LOW to HIGH, so that several pictures can be compared or become an animation; without it, from the lowest\n"
    "                     value of the field to the highest. Values outside get the colour of the nearer end, and < or > stands there.",
    draw};
