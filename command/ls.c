/* skeptolyr ls: a line for each field of each file, as a table or as JSON. */
#include "command.h"

#include <inttypes.h>
#include <limits.h>
#include <stdlib.h>
#include <string.h>

/* A field of the list: its description, or the refusal as `answer`. */
struct listed {
    uint64_t answer;
    struct skeptolyr_field field;
};

/* A message that stands at the start of these octets, of a file that was accepted: its length is octets 9-16. */
static size_t message_length(const uint8_t *message)
{
    size_t length = 0;
    for (int octet = 9; octet <= 16; octet++)
        length = length << 8 | message[octet - 1];
    return length;
}

/* Adds to every place of a description, or of a refusal, where its message starts in the file. */
static void move_places(struct listed *listed, size_t start)
{
    struct skeptolyr_starts *starts = &listed->field.starts;
    int64_t *const places[] = {&starts->section_1, &starts->section_3, &starts->section_4, &starts->section_5, &starts->section_6, &starts->section_7};
    if (skeptolyr_is_refusal(listed->answer))
        listed->answer += start;
    else {
        for (size_t i = 0; i < sizeof places / sizeof *places; i++)
            *places[i] += (int64_t)start;
    }
}

/* Describes the fields of a file that was accepted, of which there are so many. Each question walks all sections before its field, so a message is asked about
 * as a file of its own: it is described in the same way there, and a file of many messages takes no longer than its messages do. */
static struct listed *describe_all(struct octets file, uint32_t count)
{
    struct listed *list = calloc(count, sizeof *list);
    uint32_t k = 0;
    if (list == NULL)
        give_up("the list", "there is no memory for its fields", 0, "Close other programs, or take a machine with more memory");
    for (size_t start = 0, length; start < file.length; start += length) {
        const uint8_t *message = file.first + start;
        length = message_length(message);
        uint32_t fields = skeptolyr_fields(skeptolyr_check(message, length));
        for (uint32_t i = 0; i < fields && k < count; i++, k++) {
            show_progress("fields listed", k, count);
            list[k].answer = skeptolyr_describe_field(message, length, i, &list[k].field);
            move_places(&list[k], start);
        }
    }
    hide_progress();
    return list;
}

/* Tells of each refusal once, by the first field that has it, and says whether there is one. A file of another centre would fill the screen otherwise. */
static int tell_refused_fields(const char *name, struct octets file, const struct listed *list, uint32_t count)
{
    uint32_t told = 0;
    for (uint32_t k = 0; k < count; k++) {
        uint32_t bit = UINT32_C(1) << (skeptolyr_refusal_number(list[k].answer) & 31);
        if (!skeptolyr_is_refusal(list[k].answer) || (told & bit) != 0)
            continue;
        tell_refusal(name, file, k, list[k].answer);
        told |= bit;
    }
    return told != 0;
}

/* ---- The table */

enum { NUMBER, WHAT, NUMBERS, LEVEL, REFERENCE, VALID, GRID, PRESENT, PACKING, COLUMNS };

static const char *const head[COLUMNS] = {"field", "what it is", "numbers", "level", "reference (UTC)", "valid (UTC)", "grid", "points present", "packing"};

struct line {
    char cells[COLUMNS][WORDS_ROOM];
};

static void fill_line(struct line *line, uint32_t k, const struct listed *listed)
{
    const struct skeptolyr_field *field = &listed->field;
    memset(line, 0, sizeof *line);
    snprintf(line->cells[NUMBER], WORDS_ROOM, "%" PRIu32, k);
    if (skeptolyr_is_refusal(listed->answer)) {
        snprintf(line->cells[WHAT], WORDS_ROOM, "refused %" PRIu32 " at %" PRIu32, skeptolyr_refusal_number(listed->answer),
                 skeptolyr_refusal_place(listed->answer));
        return;
    }
    parameter_in_words(field, line->cells[WHAT]);
    snprintf(line->cells[NUMBERS], WORDS_ROOM, "%" PRId64 ".%" PRId64 ".%" PRId64, field->discipline, field->category, field->parameter);
    level_in_words(field, line->cells[LEVEL]);
    time_in_words(&field->reference, line->cells[REFERENCE]);
    times_in_words(field, line->cells[VALID]);
    grid_in_words(field, line->cells[GRID]);
    snprintf(line->cells[PRESENT], WORDS_ROOM, "%" PRId64 " of %" PRId64, field->present, field->points);
    packing_in_words(field, line->cells[PACKING]);
}

/* Prints a line with as much room for each cell as the widest one of its column has. No blank stands at the end. */
static void print_line(const struct line *line, const size_t *widths)
{
    int last = COLUMNS - 1;
    while (last > 0 && line->cells[last][0] == '\0')
        last--;
    printf("%*s", (int)widths[NUMBER], line->cells[NUMBER]);
    for (int column = 1; column <= last; column++)
        printf("  %-*s", column < last ? (int)widths[column] : 0, line->cells[column]);
    printf("\n");
}

static void print_table(const struct listed *list, uint32_t count)
{
    size_t widths[COLUMNS];
    struct line line;
    for (int column = 0; column < COLUMNS; column++)
        widths[column] = strlen(head[column]);
    for (uint32_t k = 0; k < count; k++) {
        fill_line(&line, k, &list[k]);
        for (int column = 0; column < COLUMNS; column++) {
            size_t width = strlen(line.cells[column]);
            widths[column] = width > widths[column] ? width : widths[column];
        }
    }
    for (int column = 0; column < COLUMNS; column++)
        strcpy(line.cells[column], head[column]);
    print_line(&line, widths);
    for (uint32_t k = 0; k < count; k++) {
        fill_line(&line, k, &list[k]);
        print_line(&line, widths);
        keep_printing();
    }
}

/* ---- JSON */

/* How many octets the character that starts here has in UTF-8, or 0 where none does. */
static size_t character_length(const unsigned char *text)
{
    unsigned first = text[0];
    size_t length = first < 0x80 ? 1 : first >= 0xc2 && first < 0xe0 ? 2 : first >= 0xe0 && first < 0xf0 ? 3 : first >= 0xf0 && first < 0xf5 ? 4 : 0;
    for (size_t i = 1; i < length; i++) {
        if ((text[i] & 0xc0) != 0x80)
            return 0;
    }
    /* Too long a form of a smaller number, half of a pair of UTF-16, or a number past the last character. */
    if ((first == 0xe0 && text[1] < 0xa0) || (first == 0xed && text[1] >= 0xa0) || (first == 0xf0 && text[1] < 0x90) || (first == 0xf4 && text[1] >= 0x90))
        return 0;
    return length;
}

/* A text between quotation marks. What is no character, as the name of a file may have it, becomes the one that stands for such. NULL is null. */
static void print_text(const char *text)
{
    const unsigned char *at = (const unsigned char *)text;
    if (text == NULL) {
        printf("null");
        return;
    }
    printf("\"");
    while (*at != '\0') {
        size_t length = character_length(at);
        if (length == 0)
            printf("\\ufffd");
        else if (*at < 0x20 || *at == '"' || *at == '\\' || *at == 0x7f)
            printf("\\u%04x", *at);
        else
            printf("%.*s", (int)length, (const char *)at);
        at += length == 0 ? 1 : length;
    }
    printf("\"");
}

static void print_member(const char *name, int64_t number)
{
    printf(", \"%s\": %" PRId64, name, number);
}

static void print_member_text(const char *name, const char *text)
{
    printf(", \"%s\": ", name);
    print_text(text);
}

static void print_time(const char *name, const struct skeptolyr_time *time)
{
    printf(", \"%s\": {\"year\": %" PRId64 ", \"month\": %" PRId64 ", \"day\": %" PRId64 ", ", name, time->year, time->month, time->day);
    printf("\"hour\": %" PRId64 ", \"minute\": %" PRId64 ", \"second\": %" PRId64 "}", time->hour, time->minute, time->second);
}

static void print_position(const char *name, const struct skeptolyr_position *position)
{
    printf(", \"%s\": {\"latitude\": %" PRId64 ", \"longitude\": %" PRId64 "}", name, position->latitude, position->longitude);
}

static void print_refusal(uint64_t answer)
{
    uint32_t number = skeptolyr_refusal_number(answer);
    printf(", \"refused\": {\"number\": %" PRIu32 ", \"place\": %" PRIu32, number, skeptolyr_refusal_place(answer));
    print_member_text("text", skeptolyr_refusal_text(number));
    printf("}");
}

static void print_lambert(const struct skeptolyr_lambert *lambert)
{
    printf(", \"lambert\": {\"stated_latitude\": %" PRId64, lambert->stated_latitude);
    print_member("upright_meridian", lambert->upright_meridian);
    print_member("dx", lambert->dx);
    print_member("dy", lambert->dy);
    print_member("cutting_latitude_1", lambert->cutting_latitude_1);
    print_member("cutting_latitude_2", lambert->cutting_latitude_2);
    printf("}");
}

/* What one kind of grid has alone is null where the grid is of the other kind: a script that knows that kind only must not take 0 for a place or a step. */
static void print_members_of_kind(const struct skeptolyr_field *field)
{
    print_member("grid_template", field->grid_template);
    if (is_on_sheet(field)) {
        printf(", \"last\": null, \"di\": null, \"dj\": null");
        print_lambert(&field->lambert);
    } else {
        print_position("last", &field->last);
        print_member("di", field->di);
        print_member("dj", field->dj);
        printf(", \"lambert\": null");
    }
}

/* Sections 0 to 3. */
static void print_grid_members(const struct skeptolyr_field *field)
{
    print_member("discipline", field->discipline);
    print_member("status", field->status);
    print_time("reference", &field->reference);
    print_member("earth", field->earth);
    print_member("radius", field->radius);
    print_member("ni", field->ni);
    print_member("nj", field->nj);
    print_member("points", field->points);
    print_position("first", &field->first);
    print_members_of_kind(field);
}

/* Section 4. */
static void print_product_members(const struct skeptolyr_field *field)
{
    print_member("category", field->category);
    print_member("parameter", field->parameter);
    print_member("process", field->process);
    print_member("surface", field->surface);
    printf(", \"level\": {\"is_given\": %" PRId64 ", \"factor\": %" PRId64 ", \"scaled\": %" PRId64 "}", field->level.is_given, field->level.factor,
           field->level.scaled);
    print_member("product_template", field->product_template);
    print_time("end", &field->end);
    print_member("kind", field->kind);
    print_time("valid", &field->valid);
}

/* Sections 5 and 6, and where all sections start. */
static void print_packing_members(const struct skeptolyr_field *field)
{
    const struct skeptolyr_starts *starts = &field->starts;
    print_member("present", field->present);
    print_member("r", field->r);
    print_member("e", field->e);
    print_member("d", field->d);
    print_member("bits", field->bits);
    print_member("data_template", field->data_template);
    print_member("indicator", field->indicator);
    printf(", \"starts\": {\"section_1\": %" PRId64 ", \"section_3\": %" PRId64 ", \"section_4\": %" PRId64 ", ", starts->section_1, starts->section_3,
           starts->section_4);
    printf("\"section_5\": %" PRId64 ", \"section_6\": %" PRId64 ", \"section_7\": %" PRId64 "}", starts->section_5, starts->section_6, starts->section_7);
}

static void print_words(const struct skeptolyr_field *field)
{
    char text[WORDS_ROOM];
    printf(", \"words\": {\"parameter\": ");
    print_text(parameter_name(field->discipline, field->category, field->parameter));
    print_member_text("unit", parameter_unit(field->discipline, field->category, field->parameter));
    print_member_text("surface", surface_name(field->surface));
    print_member_text("level", level_in_words(field, text));
    print_member_text("reference", time_in_words(&field->reference, text));
    print_member_text("valid", times_in_words(field, text));
    print_member_text("grid", grid_in_words(field, text));
    print_member_text("packing", packing_in_words(field, text));
    printf("}");
}

static void print_fields(const struct listed *list, uint32_t count)
{
    printf(", \"fields\": [");
    for (uint32_t k = 0; k < count; k++) {
        printf("%s\n  {\"field\": %" PRIu32, k == 0 ? "" : ",", k);
        if (skeptolyr_is_refusal(list[k].answer))
            print_refusal(list[k].answer);
        else {
            print_grid_members(&list[k].field);
            print_product_members(&list[k].field);
            print_packing_members(&list[k].field);
            print_words(&list[k].field);
        }
        printf("}");
        keep_printing();
    }
    printf("]");
}

/* ---- The whole */

/* Lists a file, with this text behind its table, and says whether the file or a field of it is refused. */
static int list_file(const char *name, int as_json, const char *behind)
{
    struct octets file = read_file(name);
    struct listed *list = NULL;
    uint64_t answer = skeptolyr_check(file.first, file.length);
    uint32_t count = skeptolyr_is_refusal(answer) ? 0 : skeptolyr_fields(answer);
    int refused = skeptolyr_is_refusal(answer);
    if (as_json) {
        printf("{\"file\": ");
        print_text(name);
    }
    if (refused) {
        tell_refusal(name, file, 0, answer);
        if (as_json)
            print_refusal(answer);
    } else {
        list = describe_all(file, count);
        if (as_json) {
            print_member("messages", skeptolyr_messages(answer));
            print_fields(list, count);
        } else {
            print_counts(name, answer);
            print_table(list, count);
            printf("%s", behind);
        }
        refused = tell_refused_fields(name, file, list, count);
    }
    if (as_json)
        printf("}");
    free(list);
    release(file);
    return refused;
}

static int ls(int count, char **words)
{
    int ended = ANSWERED, as_json = take_option("--json", &count, words);
    names_only(&ls_command, 1, INT_MAX, &count, words);
    if (as_json)
        printf("[");
    for (int i = 0; i < count; i++) {
        if (i > 0 && as_json)
            printf(",\n");
        if (list_file(words[i], as_json, i + 1 < count ? "\n" : ""))
            ended = REFUSED;
        keep_printing();
    }
    if (as_json)
        printf("]\n");
    finish_printing();
    return ended;
}

const struct subcommand ls_command = {
    "ls", "[--json] FILE...", "a line for each field: what it is, its level, times, grid and packing",
    "Prints a table for each FILE, with a line for each field: its number; what it is, in words with its unit, and as the three numbers of discipline,\n"
    "category and parameter; its level; its reference time, and the time or the interval for which it is valid; its grid, as columns x rows, and that it\n"
    "is a Lambert grid where it is one; how many of its points are present; and how it is packed. A parameter that has no name here is told by its three\n"
    "numbers. A field that is refused has a line with the refusal's number and place.\n\n"
    "  --json  print JSON for scripts: an array with an object for each FILE. A field has all numbers of its description, by the names that the header\n"
    "          skeptolyr.h gives them, and `words`. `grid_template` is 0 for a grid in degrees and 30 for a Lambert grid, and what the other kind alone\n"
    "          has is null. A refused file or field has `refused`, with the refusal's number, place and text.\n\n"
    "It exits with 1 if a file or a field is refused. Whether the values of a field can be unpacked is told by `skeptolyr values`.",
    ls};
