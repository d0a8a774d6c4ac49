/* skeptolyr show: all that a description says of one field, in words. */
#include "command.h"

#include <inttypes.h>
#include <string.h>

enum { NAME_COLUMNS = 22, NUMBER_COLUMNS = 14 };

/* Prints a line: the name of a number, the number, and what it means. */
static void print_line(const char *name, const char *number, const char *meaning)
{
    if (meaning[0] == '\0')
        printf("  %-*s%s\n", NAME_COLUMNS, name, number);
    else
        printf("  %-*s%-*s%s\n", NAME_COLUMNS, name, NUMBER_COLUMNS, number, meaning);
}

static void print_number(const char *name, int64_t number, const char *meaning)
{
    char digits[24];
    snprintf(digits, sizeof digits, "%" PRId64, number);
    print_line(name, digits, meaning != NULL ? meaning : "no name for it is known here");
}

static void print_section(int number, int64_t start)
{
    printf("\nsection %d, at octet %" PRId64 "\n", number, start);
}

static void print_degrees(const char *name, int64_t millionths, const char *meaning)
{
    char text[WORDS_ROOM];
    print_line(name, degrees_in_words(millionths, text), meaning);
}

static void print_metres(const char *name, int64_t thousandths, const char *meaning)
{
    char text[WORDS_ROOM];
    print_line(name, metres_in_words(thousandths, text), meaning);
}

static void show_identification(const struct skeptolyr_field *field)
{
    char text[WORDS_ROOM];
    printf("\nsection 0\n");
    print_number("discipline", field->discipline, discipline_name(field->discipline));
    print_section(1, field->starts.section_1);
    print_number("status", field->status, field->status == 0 ? "operational" : "a trial");
    print_line("reference time", time_in_words(&field->reference, text), " UTC, when the forecast starts");
}

static void show_degrees(const struct skeptolyr_field *field)
{
    print_degrees("last latitude", field->last.latitude, "degrees");
    print_degrees("last longitude", field->last.longitude, "degrees");
    print_degrees("step east Di", field->di, "degrees");
    print_degrees("step south Dj", field->dj, "degrees");
}

/* The standard's own short names stand there too, because other readers have them. */
static void show_lambert(const struct skeptolyr_lambert *lambert)
{
    print_degrees("stated latitude", lambert->stated_latitude, "degrees, LaD: where Dx and Dy are lengths on the earth");
    print_degrees("upright meridian", lambert->upright_meridian, "degrees, LoV");
    print_metres("step right Dx", lambert->dx, "m");
    print_metres("step down Dy", lambert->dy, "m");
    print_degrees("cutting latitude 1", lambert->cutting_latitude_1, "degrees, Latin 1");
    print_degrees("cutting latitude 2", lambert->cutting_latitude_2, "degrees, Latin 2");
}

static void show_grid(const struct skeptolyr_field *field)
{
    print_section(3, field->starts.section_3);
    print_number("grid template", field->grid_template, is_on_sheet(field) ? "a Lambert grid" : "a grid in degrees");
    print_number("earth's shape", field->earth, field->earth == 1 ? "a sphere of the radius that is given" : "a sphere of the standard's radius");
    print_number("radius", field->radius, "m");
    print_number("columns Ni", field->ni, "points in a row");
    print_number("rows Nj", field->nj, "");
    print_number("points", field->points, "Ni x Nj");
    print_degrees("first latitude", field->first.latitude, "degrees");
    print_degrees("first longitude", field->first.longitude, "degrees");
    if (is_on_sheet(field))
        show_lambert(&field->lambert);
    else
        show_degrees(field);
}

static void show_level(const struct skeptolyr_field *field)
{
    char text[WORDS_ROOM];
    if (!field->level.is_given) {
        print_line("level", "none", "");
        return;
    }
    print_number("level's factor", field->level.factor, "the level is the scaled level / 10^factor");
    print_number("scaled level", field->level.scaled, level_in_words(field, text));
}

static void show_product(const struct skeptolyr_field *field)
{
    char text[WORDS_ROOM], unit[WORDS_ROOM] = "no name for it is known here";
    if (surface_name(field->surface) != NULL)
        snprintf(unit, sizeof unit, surface_unit(field->surface)[0] != '\0' ? "%s [%s]" : "%s%s", surface_name(field->surface), surface_unit(field->surface));
    print_section(4, field->starts.section_4);
    print_number("product template", field->product_template, field->product_template == 0 ? "an instant" : "an interval");
    print_number("category", field->category, category_name(field->discipline, field->category));
    print_number("parameter", field->parameter, parameter_in_words(field, text));
    print_number("kind of process", field->process, process_name(field->process));
    print_number("surface", field->surface, unit);
    show_level(field);
    if (field->product_template == 0)
        print_line("valid time", time_in_words(&field->valid, text), " UTC");
    else {
        print_line("start", time_in_words(&field->valid, text), " UTC");
        print_line("end", time_in_words(&field->end, text), " UTC");
        print_number("kind of interval", field->kind, field->kind == 0 ? "a mean" : "a sum");
    }
}

/* R as a number: nine digits tell every single-precision number from all others. */
static void show_reference_value(const struct skeptolyr_field *field)
{
    char digits[40];
    uint32_t bits = (uint32_t)field->r;
    float value;
    memcpy(&value, &bits, sizeof value);
    snprintf(digits, sizeof digits, "0x%08" PRIX32, bits);
    char meaning[WORDS_ROOM];
    snprintf(meaning, sizeof meaning, "%.9g: a value is (R + X 2^E) / 10^D, with the packed integer X", (double)value);
    print_line("R", digits, meaning);
}

static void show_packing(const struct skeptolyr_field *field)
{
    const char *presence = field->indicator == 255 ? "all points are present" : field->indicator == 0 ? "a bitmap of its own" : "an earlier bitmap";
    char missing[WORDS_ROOM];
    snprintf(missing, sizeof missing, "points are present, and %" PRId64 " missing", field->points - field->present);
    print_section(5, field->starts.section_5);
    print_number("data template", field->data_template, field->data_template == 0 ? "simple packing" : "complex packing with differences of the second order");
    print_number("N", field->present, missing);
    show_reference_value(field);
    print_number("E", field->e, "");
    print_number("D", field->d, "");
    print_number("bits", field->bits, field->data_template == 0 ? "of each packed value" : "of the reference of each group");
    print_section(6, field->starts.section_6);
    print_number("bitmap indicator", field->indicator, presence);
    printf("\nsection 7, at octet %" PRId64 ": the packed values\n", field->starts.section_7);
}

static int show(int count, char **words)
{
    struct skeptolyr_field field;
    char what[WORDS_ROOM], level[WORDS_ROOM], times[WORDS_ROOM];
    names_only(&show_command, 2, 2, &count, words);
    size_t k = number_in_word(&show_command, words[1], "K is not the number of a field");
    struct octets file = read_file(words[0]);
    uint64_t answer = skeptolyr_describe_field(file.first, file.length, k, &field);
    if (skeptolyr_is_refusal(answer)) {
        tell_refusal(words[0], file, k, answer);
        release(file);
        return REFUSED;
    }
    parameter_in_words(&field, what);
    printf("%s, field %zu: %s, %s, %s\n", name_in_words(words[0]), k, what, level_in_words(&field, level), times_in_words(&field, times));
    show_identification(&field);
    show_grid(&field);
    show_product(&field);
    show_packing(&field);
    release(file);
    finish_printing();
    return ANSWERED;
}

const struct subcommand show_command = {
    "show", "FILE K", "all numbers of the description of field K, in words",
    "Prints all that the description of field K of FILE says, section by section: each number, and what it means. Fields are counted from 0.\n"
    "Octets are counted from 0, the start of FILE.",
    show};
