/* skeptolyr values: the points of one field, each with its place and its value. The place is in degrees or, on a Lambert grid, in metres on the sheet. */
#include "command.h"

#include <stdlib.h>
#include <unistd.h>

/* The place of each row and of each column, as the library tells it of the first point in each. */
struct places {
    int64_t *rows, *columns;
};

/* Each question judges the whole field again, so one is asked for a row and one for a column, and not one for a point. */
static struct places ask_places(const char *name, struct octets file, size_t k, const struct skeptolyr_field *field)
{
    size_t columns = (size_t)field->ni, rows = (size_t)field->nj;
    struct places places = {malloc(rows * sizeof *places.rows), malloc(columns * sizeof *places.columns)};
    if (places.rows == NULL || places.columns == NULL)
        give_up(name_in_words(name), "there is no memory for its places", 0, "Close other programs, or take a machine with more memory");
    for (size_t column = 0; column < columns; column++) {
        places.columns[column] = place_of(name, file, k, column, is_on_sheet(field)).of_column;
        show_progress("places asked", column, columns + rows);
    }
    for (size_t row = 0; row < rows; row++) {
        places.rows[row] = place_of(name, file, k, row * columns, is_on_sheet(field)).of_row;
        show_progress("places asked", columns + row, columns + rows);
    }
    return places;
}

/* Prints the points of a row. A latitude stands before the longitude, but the way to the right before the way down. */
static void print_row(const struct decoded *decoded, const struct places *places, size_t row)
{
    size_t columns = (size_t)decoded->field.ni;
    int on_sheet = is_on_sheet(&decoded->field);
    char of_row[WORDS_ROOM], of_column[WORDS_ROOM];
    (on_sheet ? metres_in_words : degrees_in_words)(places->rows[row], of_row);
    for (size_t column = 0; column < columns; column++) {
        size_t n = row * columns + column;
        (on_sheet ? metres_in_words : degrees_in_words)(places->columns[column], of_column);
        printf("%s %s ", on_sheet ? of_column : of_row, on_sheet ? of_row : of_column);
        if (decoded->presence[n])
            printf("%.17g\n", decoded->values[n]);
        else
            printf("missing\n");
    }
}

static void print_points(const struct decoded *decoded, const struct places *places)
{
    /* On a terminal the lines themselves show how far it is. */
    int shows_progress = !isatty(STDOUT_FILENO);
    size_t rows = (size_t)decoded->field.nj;
    hide_progress();
    printf("%s value\n", is_on_sheet(&decoded->field) ? "metres_right metres_down" : "latitude longitude");
    for (size_t row = 0; row < rows; row++) {
        print_row(decoded, places, row);
        keep_printing();
        if (shows_progress)
            show_progress("rows printed", row, rows);
    }
    hide_progress();
}

static int values(int count, char **words)
{
    names_only(&values_command, 2, 2, &count, words);
    size_t k = number_in_word(&values_command, words[1], "K is not the number of a field");
    struct octets file = read_file(words[0]);
    struct decoded decoded = decode_field(file, k);
    int refused = skeptolyr_is_refusal(decoded.answer);
    if (refused)
        tell_refusal(words[0], file, k, decoded.answer);
    else {
        struct places places = ask_places(words[0], file, k, &decoded.field);
        print_points(&decoded, &places);
        free(places.rows);
        free(places.columns);
    }
    release_decoded(&decoded);
    release(file);
    finish_printing();
    return refused ? REFUSED : ANSWERED;
}

const struct subcommand values_command = {
    "values", "FILE K", "place and value of each point of field K",
    "Prints a line for each point of field K of FILE, below a head: its latitude and its longitude in degrees, and its value in 17 digits, from which\n"
    "the very same double can be read; or the word `missing`. The first point is the one in the north-west. The points of a row follow one another to\n"
    "the east, and the rows to the south. Latitudes are below 0 in the south, and longitudes go from 0 to 360 to the east.\n\n"
    "On a Lambert grid a point is placed on the sheet of the map: how many metres it lies to the right of the first point, and how many below it. There\n"
    "the first point is the one in the upper left, and the points of a row follow one another to the right, and the rows downward.\n\n"
    "Fields are counted from 0, and `skeptolyr ls FILE` tells what each is, its unit, and whether its grid is a Lambert grid.",
    values};
