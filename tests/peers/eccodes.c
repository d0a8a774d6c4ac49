/* Asks ecCodes for every field of each file of standard input (told.h), as its documentation says: with multi-field support on, one handle after the
 * other from a file, and the values and the keys of each handle. The file is lent to it as a stream in memory. Every return code is looked at.
 *
 * A field has 43 numbers: discipline; reference time, from year to second; grid template; shape of the earth, its radius; Ni, Nj; first latitude and
 * longitude, in millionths of a degree; of a grid in degrees last latitude and longitude, Di, Dj; of a Lambert grid LaD, LoV, Dx, Dy, Latin1, Latin2; scanning
 * mode; category, parameter; first surface, its scale factor and scaled value, each 2^64 - 1 where it is missing; product template; validity time, from year to
 * minute, which is the end of an interval; N; whether there is a bitmap; data template; R as a double; E, D, octet 20 of section 5. What only another kind of
 * grid has is told as 2^64 - 1. */
#include "told.h"

#include <eccodes.h>

/* What stands in for a missing point. No field that can be packed holds it. */
#define MISSING -1.5e308

/* Keys that are whole numbers, each with whether it may be missing. What is missing is told as 2^64 - 1. */
struct key {
    const char *name;
    int may_miss;
};

static const struct key keys_before_grid[] = {
    {"discipline", 0}, {"year", 0}, {"month", 0}, {"day", 0}, {"hour", 0}, {"minute", 0}, {"second", 0}, {"gridDefinitionTemplateNumber", 0}, {NULL, 0}};
static const struct key keys_of_any_grid[] = {
    {"shapeOfTheEarth", 0}, {"radius", 0}, {"Ni", 0}, {"Nj", 0}, {"latitudeOfFirstGridPoint", 0}, {"longitudeOfFirstGridPoint", 0}, {NULL, 0}};
static const struct key keys_of_degrees[] = {
    {"latitudeOfLastGridPoint", 0}, {"longitudeOfLastGridPoint", 0}, {"iDirectionIncrement", 0}, {"jDirectionIncrement", 0}, {NULL, 0}};
static const struct key keys_of_lambert[] = {{"LaD", 0}, {"LoV", 0}, {"Dx", 0}, {"Dy", 0}, {"Latin1", 0}, {"Latin2", 0}, {NULL, 0}};
static const struct key keys_before_validity[] = {
    {"scanningMode", 0}, {"parameterCategory", 0}, {"parameterNumber", 0}, {"typeOfFirstFixedSurface", 0},
    {"scaleFactorOfFirstFixedSurface", 1}, {"scaledValueOfFirstFixedSurface", 1}, {"productDefinitionTemplateNumber", 0}, {NULL, 0}};
static const struct key keys_before_reference[] = {{"numberOfValues", 0}, {"bitmapPresent", 0}, {"dataRepresentationTemplateNumber", 0}, {NULL, 0}};
static const struct key keys_after_reference[] = {{"binaryScaleFactor", 0}, {"decimalScaleFactor", 0}, {"bitsPerValue", 0}, {NULL, 0}};

static int tell_keys(codes_handle *handle, const struct key *keys, struct told *told)
{
    int error = CODES_SUCCESS;
    for (; keys->name != NULL && error == CODES_SUCCESS; keys++) {
        long value = -1;
        int is_missing = keys->may_miss && codes_is_missing(handle, keys->name, &error);
        if (error == CODES_SUCCESS && !is_missing)
            error = codes_get_long(handle, keys->name, &value);
        tell_number(told, (uint64_t)value);
    }
    return error;
}

/* The keys of the kinds of grid that this one is not. */
static void tell_none(const struct key *keys, struct told *told)
{
    for (; keys->name != NULL; keys++)
        tell_number(told, UINT64_MAX);
}

/* All that stands before the validity time: of the grid, what any has and what one of its kind has. */
static int tell_grid(codes_handle *handle, struct told *told)
{
    char kind[32] = "";
    size_t length = sizeof kind;
    int error = tell_keys(handle, keys_before_grid, told), is_lambert;
    if (error == CODES_SUCCESS)
        error = codes_get_string(handle, "gridType", kind, &length);
    if (error == CODES_SUCCESS)
        error = tell_keys(handle, keys_of_any_grid, told);
    if (error != CODES_SUCCESS)
        return error;
    is_lambert = strcmp(kind, "lambert") == 0;
    if (is_lambert)
        tell_none(keys_of_degrees, told);
    error = tell_keys(handle, is_lambert ? keys_of_lambert : keys_of_degrees, told);
    if (!is_lambert)
        tell_none(keys_of_lambert, told);
    return error == CODES_SUCCESS ? tell_keys(handle, keys_before_validity, told) : error;
}

/* The validity time: year, month, day, hour, minute. */
static int tell_validity(codes_handle *handle, struct told *told)
{
    long date = 0, time = 0;
    int error = codes_get_long(handle, "validityDate", &date);
    if (error == CODES_SUCCESS)
        error = codes_get_long(handle, "validityTime", &time);
    tell_number(told, (uint64_t)(date / 10000));
    tell_number(told, (uint64_t)(date / 100 % 100));
    tell_number(told, (uint64_t)(date % 100));
    tell_number(told, (uint64_t)(time / 100));
    tell_number(told, (uint64_t)(time % 100));
    return error;
}

static int tell_reference(codes_handle *handle, struct told *told)
{
    double reference = 0;
    int error = codes_get_double(handle, "referenceValue", &reference);
    tell_double(told, reference);
    return error;
}

/* The point count, every double and every presence. */
static int tell_values(codes_handle *handle, struct told *told)
{
    size_t count = 0, room;
    double *values;
    int error = codes_set_double(handle, "missingValue", MISSING);
    if (error == CODES_SUCCESS)
        error = codes_get_size(handle, "values", &count);
    if (error != CODES_SUCCESS)
        return error;
    values = calloc(count + 1, sizeof *values);
    if (values == NULL)
        return ERROR_OF_MEMORY;
    room = count;
    error = codes_get_double_array(handle, "values", values, &room);
    if (error == CODES_SUCCESS && room != count)
        error = ERROR_OF_LENGTH;
    tell_number(told, count);
    for (size_t i = 0; i < count && error == CODES_SUCCESS; i++)
        tell_double(told, values[i] == MISSING ? 0.0 : values[i]);
    for (size_t i = 0; i < count && error == CODES_SUCCESS; i++)
        tell_octets(told, values[i] == MISSING ? "\0" : "\1", 1);
    free(values);
    return error;
}

static int tell_field(codes_handle *handle, struct told *told)
{
    int error = tell_grid(handle, told);
    if (error == CODES_SUCCESS)
        error = tell_validity(handle, told);
    if (error == CODES_SUCCESS)
        error = tell_keys(handle, keys_before_reference, told);
    if (error == CODES_SUCCESS)
        error = tell_reference(handle, told);
    if (error == CODES_SUCCESS)
        error = tell_keys(handle, keys_after_reference, told);
    if (error == CODES_SUCCESS)
        error = tell_values(handle, told);
    return error;
}

/* The first error ends the file. A handle with an error is not deleted: it may share memory with the next one. */
static void tell_fields(struct file file, struct told *told)
{
    codes_handle *handle = NULL;
    int error = CODES_SUCCESS;
    FILE *stream = fmemopen(file.octets, file.length, "rb");
    if (stream == NULL)
        give_up("eccodes: stream");
    codes_grib_multi_support_on(NULL);
    while (told->error == 0 && (handle = codes_grib_handle_new_from_file(NULL, stream, &error)) != NULL) {
        begin(told);
        end(told, (uint64_t)(error == CODES_SUCCESS ? tell_field(handle, told) : error));
        if (told->error == 0)
            codes_handle_delete(handle);
    }
    if (handle == NULL && error != CODES_SUCCESS && error != CODES_END_OF_FILE)
        tell_error(told, (uint64_t)error);
    codes_grib_multi_support_reset_file(NULL, stream);
    fclose(stream);
}

int main(int words, char **word)
{
    return tell_files(words, word, tell_fields);
}
