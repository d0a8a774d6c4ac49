/* Every rule of RULES, "Tiling a file" and "Sections in force", as one table, `table`. A row says which octets it is about, what they are called, how they
 * are shown, and what they are held to. Most rules are limits of one number. Where a rule is about more, the row has a function that judges. */
#include "judge.h"

#include <string.h>

/* ---- The table */

#define NO_LIMIT 1, 0
#define BETWEEN(least, most) least, most
#define EXACTLY(number) number, number
/* Which of several numbers that stand one after the other, from 0 on; they have no limit. */
#define NTH(i) (i) + 1, i

#define ROW(section, first, last, name, form, when, limits, remark) {section, first, last, name, form, when, limits, remark, NULL, NULL}
#define FREE(section, first, last, name, form, when) ROW(section, first, last, name, form, when, NO_LIMIT, "not judged")
#define JUDGED(section, first, last, name, form, when, limits, remark, judge) {section, first, last, name, form, when, limits, remark, NULL, judge}
#define TOGETHER(section, first, last, octets, name, when, rule, judge) {section, first, last, name, NUMBER, when, NO_LIMIT, rule, octets, judge}
#define TIME_OF(section, first, when, whose) \
    ROW(section, first, first + 1, whose ": year", NUMBER, when, BETWEEN(FIRST_YEAR, LAST_YEAR), ""), \
    ROW(section, first + 2, first + 2, whose ": month", NUMBER, when, BETWEEN(1, 12), ""), \
    ROW(section, first + 3, first + 3, whose ": day", NUMBER, when, BETWEEN(1, 31), ""), \
    ROW(section, first + 4, first + 4, whose ": hour", NUMBER, when, BETWEEN(0, 23), ""), \
    ROW(section, first + 5, first + 5, whose ": minute", NUMBER, when, BETWEEN(0, 59), ""), \
    ROW(section, first + 6, first + 6, whose ": second", NUMBER, when, BETWEEN(0, 59), "")

static const struct row table[] = {
    JUDGED(WHOLE_FILE, 0, 0, "length of the file", NUMBER, ALWAYS, BETWEEN(1, SKEPTOLYR_MOST_OCTETS), " octets", judge_file_length),

    ROW(0, 1, 4, "start of a message", LETTERS, ALWAYS, EXACTLY(0x47524942), ""),
    FREE(0, 5, 6, "reserved", NUMBER, ALWAYS),
    FREE(0, 7, 7, "discipline", NUMBER, ALWAYS),
    ROW(0, 8, 8, "edition of GRIB", NUMBER, ALWAYS, EXACTLY(2), ""),
    JUDGED(0, 9, 16, "length of the message", NUMBER, ALWAYS, NO_LIMIT, "", judge_message_length),

    JUDGED(NEXT, 1, 4, "length of the section", NUMBER, ALWAYS, NO_LIMIT, "", judge_next_length),
    JUDGED(NEXT, 5, 5, "number of the section", NUMBER, ALWAYS, NO_LIMIT, "", judge_next_number),

    ROW(1, 1, 4, "length of the section", NUMBER, ALWAYS, EXACTLY(21), ""),
    ROW(1, 5, 5, "number of the section", NUMBER, ALWAYS, EXACTLY(1), ""),
    ROW(1, 6, 7, "centre", NUMBER, ALWAYS, EXACTLY(34), ", the Agency"),
    FREE(1, 8, 9, "subcentre", NUMBER, ALWAYS),
    FREE(1, 10, 10, "version of the master tables", NUMBER, ALWAYS),
    FREE(1, 11, 11, "version of the local tables", NUMBER, ALWAYS),
    ROW(1, 12, 12, "meaning of the reference time", NUMBER, ALWAYS, EXACTLY(1), ", the start of the forecast"),
    TIME_OF(1, 13, ALWAYS, "reference time"),
    ROW(1, 20, 20, "status", NUMBER, ALWAYS, BETWEEN(0, 1), ""),
    FREE(1, 21, 21, "type of data", NUMBER, ALWAYS),
    TOGETHER(1, 13, 19, "13-19", "reference time", ALWAYS, "a day that the month has", judge_calendar),

    JUDGED(3, 1, 4, "length of the section", NUMBER, ALWAYS, BETWEEN(72, 81), "", judge_either),
    ROW(3, 5, 5, "number of the section", NUMBER, ALWAYS, EXACTLY(3), ""),
    ROW(3, 6, 6, "source of the grid definition", NUMBER, ALWAYS, EXACTLY(0), ""),
    ROW(3, 7, 10, "point count", NUMBER, ALWAYS, BETWEEN(0, SKEPTOLYR_MOST_POINTS), ""),
    ROW(3, 11, 11, "octets of the list of row lengths", NUMBER, ALWAYS, EXACTLY(0), ""),
    ROW(3, 12, 12, "meaning of that list", NUMBER, ALWAYS, EXACTLY(0), ""),
    JUDGED(3, 13, 14, "template of the grid", NUMBER, ALWAYS, BETWEEN(0, 30), ", in degrees or Lambert", judge_either),
    TOGETHER(3, 13, 14, "1-4, 13-14", "length and template", ALWAYS, "72 and 0, or 81 and 30", judge_length_and_template),
    JUDGED(3, 15, 15, "earth code", NUMBER, GRID, BETWEEN(1, 6), "", judge_either),
    ROW(3, 16, 16, "factor of the radius", NUMBER, OWN_RADIUS, EXACTLY(0), ""),
    ROW(3, 17, 20, "radius of the earth in metres", NUMBER, OWN_RADIUS, BETWEEN(1, 4294967294), ""),
    FREE(3, 16, 16, "factor of the radius", NUMBER, OTHER_RADIUS),
    FREE(3, 17, 20, "scaled radius of the earth", NUMBER, OTHER_RADIUS),
    FREE(3, 21, 21, "factor of the longer axis", NUMBER, GRID),
    FREE(3, 22, 25, "scaled longer axis of the earth", NUMBER, GRID),
    FREE(3, 26, 26, "factor of the shorter axis", NUMBER, GRID),
    FREE(3, 27, 30, "scaled shorter axis of the earth", NUMBER, GRID),
    ROW(3, 31, 34, "Ni, the points in a row", NUMBER, GRID, BETWEEN(1, 65535), ""),
    ROW(3, 35, 38, "Nj, the rows", NUMBER, GRID, BETWEEN(1, 65535), ""),
    ROW(3, 39, 42, "basic angle", NUMBER, DEGREES, EXACTLY(0), ""),
    ROW(3, 43, 46, "subdivisions of the basic angle", NUMBER, DEGREES, EXACTLY(UINT32_MAX), ": millionths of a degree"),
    ROW(3, 47, 50, "latitude of the first point", SIGNED, DEGREES, BETWEEN(-90000000, 90000000), ""),
    ROW(3, 51, 54, "longitude of the first point", NUMBER, DEGREES, BETWEEN(0, 359999999), ""),
    ROW(3, 55, 55, "resolution and component flags", HEXADECIMAL, DEGREES, EXACTLY(0x30), ""),
    ROW(3, 56, 59, "latitude of the last point", SIGNED, DEGREES, BETWEEN(-90000000, 90000000), ""),
    ROW(3, 60, 63, "longitude of the last point", NUMBER, DEGREES, BETWEEN(0, 359999999), ""),
    ROW(3, 64, 67, "Di, the step east", NUMBER, DEGREES, NO_LIMIT, "judged below"),
    ROW(3, 68, 71, "Dj, the step south", NUMBER, DEGREES, NO_LIMIT, "judged below"),
    ROW(3, 72, 72, "scanning mode", HEXADECIMAL, DEGREES, EXACTLY(0), ": eastward, then southward"),
    ROW(3, 39, 42, "latitude of the first point", SIGNED, LAMBERT, BETWEEN(-90000000, 90000000), ""),
    ROW(3, 43, 46, "longitude of the first point", NUMBER, LAMBERT, BETWEEN(0, 359999999), ""),
    ROW(3, 47, 47, "resolution and component flags", HEXADECIMAL, LAMBERT, EXACTLY(0x08), ""),
    ROW(3, 48, 51, "LaD, latitude of stated lengths", SIGNED, LAMBERT, BETWEEN(-90000000, 90000000), ""),
    ROW(3, 52, 55, "LoV, the upright meridian", NUMBER, LAMBERT, BETWEEN(0, 359999999), ""),
    ROW(3, 56, 59, "Dx, thousandths of a metre right", NUMBER, LAMBERT, BETWEEN(1, INT32_MAX), ""),
    ROW(3, 60, 63, "Dy, thousandths of a metre down", NUMBER, LAMBERT, BETWEEN(1, INT32_MAX), ""),
    ROW(3, 64, 64, "projection centre", HEXADECIMAL, LAMBERT, EXACTLY(0), ""),
    ROW(3, 65, 65, "scanning mode", HEXADECIMAL, LAMBERT, EXACTLY(0), ": rightward, then downward"),
    ROW(3, 66, 69, "Latin 1, first cutting latitude", SIGNED, LAMBERT, BETWEEN(-90000000, 90000000), ""),
    ROW(3, 70, 73, "Latin 2, second cutting latitude", SIGNED, LAMBERT, BETWEEN(-90000000, 90000000), ""),
    FREE(3, 74, 77, "latitude of the southern pole", SIGNED, LAMBERT),
    FREE(3, 78, 81, "longitude of the southern pole", NUMBER, LAMBERT),
    TOGETHER(3, 7, 38, "7-10, 31-38", "point count and Ni x Nj", GRID, "equal", judge_point_count),
    TOGETHER(3, 47, 59, "47-50, 56-59", "first latitude and last latitude", DEGREES, "from north to south, or equal", judge_latitudes),
    TOGETHER(3, 31, 67, "31-34, 51-54, 60-67", "span east, (Ni - 1) x Di", DEGREES, "", judge_span_east),
    TOGETHER(3, 35, 71, "35-38, 47-50, 56-59, 68-71", "span south, (Nj - 1) x Dj", DEGREES, "", judge_span_south),

    JUDGED(4, 1, 4, "length of the section", NUMBER, ALWAYS, BETWEEN(34, 58), "", judge_either),
    ROW(4, 5, 5, "number of the section", NUMBER, ALWAYS, EXACTLY(4), ""),
    ROW(4, 6, 7, "coordinates after the template", NUMBER, ALWAYS, EXACTLY(0), ""),
    JUDGED(4, 8, 9, "template of the product", NUMBER, ALWAYS, BETWEEN(0, 8), ", an instant or an interval", judge_either),
    FREE(4, 10, 10, "category", NUMBER, PRODUCT),
    JUDGED(4, 11, 11, "parameter", NUMBER, PRODUCT, NO_LIMIT, "not judged", judge_parameter),
    FREE(4, 12, 12, "kind of process", NUMBER, PRODUCT),
    FREE(4, 13, 13, "background process", NUMBER, PRODUCT),
    FREE(4, 14, 14, "process of analysis or forecast", NUMBER, PRODUCT),
    FREE(4, 15, 16, "data cut-off, hours", NUMBER, PRODUCT),
    FREE(4, 17, 17, "data cut-off, minutes", NUMBER, PRODUCT),
    ROW(4, 18, 18, "unit of the forecast time", NUMBER, PRODUCT, BETWEEN(0, 2), ": minute, hour, day"),
    ROW(4, 19, 22, "forecast time", NUMBER, PRODUCT, BETWEEN(0, INT32_MAX), ""),
    JUDGED(4, 23, 23, "type of the first surface", NUMBER, PRODUCT, BETWEEN(0, 254), "", judge_surface),
    JUDGED(4, 24, 24, "factor of the level", SIGNED, PRODUCT, NO_LIMIT, "judged below", judge_factor),
    JUDGED(4, 25, 28, "scaled level", NUMBER, PRODUCT, NO_LIMIT, "at most 2,147,483,647, or all ones", judge_scaled_level),
    ROW(4, 29, 29, "type of the second surface", NUMBER, PRODUCT, EXACTLY(255), ", all ones"),
    ROW(4, 30, 30, "factor of the second level", NUMBER, PRODUCT, EXACTLY(255), ", all ones"),
    ROW(4, 31, 34, "scaled second level", NUMBER, PRODUCT, EXACTLY(UINT32_MAX), ""),
    TIME_OF(4, 35, INTERVAL, "end of the interval"),
    ROW(4, 42, 42, "number of intervals", NUMBER, INTERVAL, EXACTLY(1), ""),
    FREE(4, 43, 46, "values missing in the interval", NUMBER, INTERVAL),
    ROW(4, 47, 47, "kind of the interval", NUMBER, INTERVAL, BETWEEN(0, 1), ", a mean or a sum"),
    FREE(4, 48, 48, "type of time increment", NUMBER, INTERVAL),
    ROW(4, 49, 49, "unit of the interval's length", NUMBER, INTERVAL, BETWEEN(0, 2), ": minute, hour, day"),
    ROW(4, 50, 53, "length of the interval", NUMBER, INTERVAL, NO_LIMIT, "judged below"),
    FREE(4, 54, 54, "unit of the time increment", NUMBER, INTERVAL),
    FREE(4, 55, 58, "time increment", NUMBER, INTERVAL),
    TOGETHER(4, 8, 9, "1-4, 8-9", "length and template", ALWAYS, "34 and 0, or 58 and 8", judge_length_and_template),
    TOGETHER(4, 24, 28, "24, 25-28", "factor and scaled level", PRODUCT, "both all ones, or neither", judge_level),
    TOGETHER(4, 18, 22, "18, 19-22", "valid time", PRODUCT, "not later than 2399", judge_valid_time),
    TOGETHER(4, 35, 41, "35-41", "end of the interval", INTERVAL, "a day that the month has", judge_calendar),
    TOGETHER(4, 18, 53, "18-22, 35-41, 49-53", "valid time + length, and the end", INTERVAL, "equal", judge_interval),

    JUDGED(5, 1, 4, "length of the section", NUMBER, ALWAYS, BETWEEN(21, 49), "", judge_either),
    ROW(5, 5, 5, "number of the section", NUMBER, ALWAYS, EXACTLY(5), ""),
    ROW(5, 6, 9, "N, the number of packed values", NUMBER, SIMPLE, NO_LIMIT, "judged with section 6"),
    ROW(5, 6, 9, "N, the number of packed values", NUMBER, COMPLEX, BETWEEN(2, UINT32_MAX), ""),
    JUDGED(5, 10, 11, "template of the packing", NUMBER, ALWAYS, BETWEEN(0, 3), ", simple or complex", judge_either),
    JUDGED(5, 12, 15, "R, the reference value", SINGLE, PACKING, NO_LIMIT, "a finite number", judge_finite),
    ROW(5, 16, 17, "E, the binary scale factor", SIGNED, PACKING, BETWEEN(-127, 127), ""),
    ROW(5, 18, 19, "D, the decimal scale factor", SIGNED, PACKING, BETWEEN(-22, 22), ""),
    ROW(5, 20, 20, "bits of a packed value", NUMBER, SIMPLE, BETWEEN(0, 31), ""),
    ROW(5, 20, 20, "bits of a group's reference", NUMBER, COMPLEX, BETWEEN(0, 31), ""),
    ROW(5, 21, 21, "type of the original values", NUMBER, PACKING, EXACTLY(0), ""),
    ROW(5, 22, 22, "group splitting method", NUMBER, COMPLEX, EXACTLY(1), ""),
    ROW(5, 23, 23, "missing value management", NUMBER, COMPLEX, EXACTLY(0), ", none"),
    FREE(5, 24, 27, "substitute for a missing value", NUMBER, COMPLEX),
    FREE(5, 28, 31, "second substitute", NUMBER, COMPLEX),
    JUDGED(5, 32, 35, "NG, the number of groups", NUMBER, COMPLEX, NO_LIMIT, "", judge_group_count),
    ROW(5, 36, 36, "reference for widths", NUMBER, COMPLEX, BETWEEN(0, 31), ""),
    ROW(5, 37, 37, "bits of a stored width", NUMBER, COMPLEX, BETWEEN(0, 31), ""),
    FREE(5, 38, 41, "reference for lengths", NUMBER, COMPLEX),
    FREE(5, 42, 42, "increment for lengths", NUMBER, COMPLEX),
    ROW(5, 43, 46, "length of the last group", NUMBER, COMPLEX, NO_LIMIT, "judged with section 7"),
    ROW(5, 47, 47, "bits of a stored length", NUMBER, COMPLEX, BETWEEN(0, 31), ""),
    ROW(5, 48, 48, "order of the differences", NUMBER, COMPLEX, EXACTLY(2), ""),
    ROW(5, 49, 49, "w, octets of each number to Zmin", NUMBER, COMPLEX, BETWEEN(1, 4), ""),
    TOGETHER(5, 10, 11, "1-4, 10-11", "length and template", ALWAYS, "21 and 0, or 49 and 3", judge_length_and_template),

    ROW(6, 1, 4, "length of the section", NUMBER, ALWAYS, BETWEEN(6, UINT32_MAX), ""),
    ROW(6, 5, 5, "number of the section", NUMBER, ALWAYS, EXACTLY(6), ""),
    JUDGED(6, 6, 6, "indicator", NUMBER, ALWAYS, NO_LIMIT, "0, 254 or 255", judge_indicator),
    JUDGED(6, 0, 0, "bitmap", NUMBER, ALWAYS, NO_LIMIT, "judged below", judge_bitmap),
    TOGETHER(6, 1, 6, "1-4, 6", "length and indicator", ALWAYS, "", judge_bitmap_length),
    TOGETHER(6, 6, 6, "6", "bitmap that 254 uses again", ALWAYS, "on this grid", judge_earlier_bitmap),
    TOGETHER(6, 6, 6, "6", "points present, N of section 5", ALWAYS, "equal", judge_present),

    JUDGED(7, 1, 4, "length of the section", NUMBER, ALWAYS, NO_LIMIT, "", judge_data_length),
    ROW(7, 5, 5, "number of the section", NUMBER, ALWAYS, EXACTLY(7), ""),
    JUDGED(7, 0, 0, "packed values", NUMBER, SIMPLE, NO_LIMIT, "not judged", judge_packed),
    JUDGED(7, 0, 0, "first value, X(1)", NUMBER, COMPLEX, NTH(0), "judged below, with all X", judge_start),
    JUDGED(7, 0, 0, "second value, X(2)", NUMBER, COMPLEX, NTH(1), "judged below, with all X", judge_start),
    JUDGED(7, 0, 0, "Zmin", SIGNED, COMPLEX, NTH(2), "not judged", judge_start),
    JUDGED(7, 0, 0, "references", NUMBER, COMPLEX, NO_LIMIT, "not judged", judge_references),
    JUDGED(7, 0, 0, "widths", NUMBER, COMPLEX, NO_LIMIT, "judged below", judge_widths),
    JUDGED(7, 0, 0, "scaled lengths", NUMBER, COMPLEX, NO_LIMIT, "judged below", judge_lengths),
    JUDGED(7, 0, 0, "packed values", NUMBER, COMPLEX, NO_LIMIT, "not judged", judge_packed_groups),
    JUDGED(7, 0, 0, "widths of the groups", NUMBER, COMPLEX, NO_LIMIT, "at most 31 in each", judge_group_widths),
    JUDGED(7, 0, 0, "lengths of the groups", NUMBER, COMPLEX, NO_LIMIT, "at least 1 in each", judge_group_lengths),
    JUDGED(7, 0, 0, "sum of the lengths", NUMBER, COMPLEX, NO_LIMIT, ", which is N", judge_sum_of_lengths),
    JUDGED(7, 0, 0, "integers X", NUMBER, COMPLEX, BETWEEN(0, INT32_MAX), "", judge_integers),

    ROW(END, 1, 4, "end of a message", LETTERS, ALWAYS, EXACTLY(0x37373737), ""),
    TOGETHER(END, 1, 4, "1-4", "the section before", ALWAYS, "section 7, which ends a field", judge_end),
};

enum { ROWS = sizeof table / sizeof *table };

/* ---- Lines */

int is_packing_known(const struct sections *sections)
{
    return is_kept(sections, 5) && number_at(sections, 5, 6, 9) <= SKEPTOLYR_MOST_POINTS;
}

static int is_about(const struct row *row, const struct sections *sections)
{
    uint64_t grid = number_at(sections, 3, 13, 14), earth = octet_at(sections, 3, 15), product = number_at(sections, 4, 8, 9);
    uint64_t packing = number_at(sections, 5, 10, 11);
    int is_grid = grid == 0 || grid == 30;
    switch (row->when) {
    case GRID: return is_grid;
    case OWN_RADIUS: return is_grid && earth == 1;
    case OTHER_RADIUS: return is_grid && earth != 1;
    case DEGREES: return grid == 0;
    case LAMBERT: return grid == 30;
    case PRODUCT: return product == 0 || product == 8;
    case INTERVAL: return product == 8;
    case PACKING: return packing == 0 || packing == 3;
    case SIMPLE: return packing == 0 && (row->section == 5 || is_packing_known(sections));
    case COMPLEX: return packing == 3 && (row->section == 5 || is_packing_known(sections));
    default: return 1;
    }
}

const char *section_name(int section)
{
    static const char *const names[KINDS] = {
        "the start of a message", "the identification", "for local use", "the grid", "the product", "how the values are packed", "which points are present",
        "the packed values", "the end of the message", "not a section that can be here", "the file"};
    return names[section];
}

/* What a field is refused with where a rule of the section is broken. */
static uint32_t refusal_of(int section)
{
    static const uint32_t refusals[KINDS] = {
        [1] = SKEPTOLYR_BAD_IDENTIFICATION, [3] = SKEPTOLYR_BAD_GRID, [4] = SKEPTOLYR_BAD_PRODUCT, [5] = SKEPTOLYR_BAD_REPRESENTATION,
        [6] = SKEPTOLYR_BAD_BITMAP, [7] = SKEPTOLYR_BAD_PACKING};
    return refusals[section];
}

/* Writes which octets a line is about, and shows them where they are few. Of more than four the first three are shown. */
static void show_octets(const struct sections *sections, struct line *line)
{
    size_t count = line->last < line->first ? 0 : line->last - line->first + 1, shown = count <= 4 ? count : 3;
    write_octets(line, line->first, line->last);
    for (size_t i = 0; i < shown; i++)
        snprintf(line->shown + 3 * i, LINE_ROOM - 3 * i, "%02x%s", octet_at(sections, line->section, line->first + i), i + 1 < count ? " " : "");
    if (count > shown)
        snprintf(line->shown + 3 * shown, LINE_ROOM - 3 * shown, "..");
}

static struct line line_of(const struct row *row, const struct sections *sections)
{
    int is_part = row->octets == NULL;
    struct line line = {UNJUDGED, row->section, is_part && row->last > 0, refusal_of(row->section), row->first, row->last, "", "", "", "", ""};
    if (!is_about(row, sections)) {
        line.verdict = ABSENT;
        return line;
    }
    if (row->last > sections->at[row->section].length) {
        line.verdict = NOT_THERE;
        return line;
    }
    snprintf(line.octets, LINE_ROOM, "%s", is_part ? "" : row->octets);
    snprintf(line.name, LINE_ROOM, "%s", row->name);
    (row->judge == NULL ? judge_limits : row->judge)(row, sections, &line);
    if (is_part && line.verdict != NOT_THERE && line.verdict != ABSENT && row->section != WHOLE_FILE)
        show_octets(sections, &line);
    /* Where the file ends inside section 0, that is its only fault. */
    if (row->section == 0 && sections->at[0].length < 16)
        line.verdict = UNJUDGED;
    return line;
}

int is_kept(const struct sections *sections, int section)
{
    for (size_t i = 0; i < ROWS; i++) {
        if (table[i].section != section)
            continue;
        enum verdict verdict = line_of(&table[i], sections).verdict;
        if (verdict == BROKEN || verdict == NOT_THERE)
            return 0;
    }
    return sections->at[section].length > 0;
}

struct lines lines_of(const struct sections *sections, int section)
{
    struct lines lines = {sections, section, 0, 0, 0, 0};
    return lines;
}

/* The line for octets that rows are about and that the section does not have. */
static void tell_missing(struct lines *lines, struct line *line)
{
    memset(line, 0, sizeof *line);
    line->verdict = BROKEN;
    line->section = lines->section;
    line->is_one_number = 1;
    line->refusal = refusal_of(lines->section);
    line->first = lines->first_missing;
    line->last = lines->last_missing;
    show_octets(lines->sections, line);
    line->shown[0] = '\0';
    snprintf(line->name, LINE_ROOM, "the %s ends before them", lines->section == 0 || lines->section == NEXT ? "message" : "section");
    snprintf(line->value, LINE_ROOM, "not there");
    snprintf(line->rule, LINE_ROOM, "there");
    lines->first_missing = 0;
}

/* The line for octets that come after those which rows are about. */
static void tell_unnamed(struct lines *lines, struct line *line)
{
    memset(line, 0, sizeof *line);
    line->verdict = UNJUDGED;
    line->section = lines->section;
    line->first = lines->covered + 1;
    line->last = lines->covered = lines->sections->at[lines->section].length;
    show_octets(lines->sections, line);
    snprintf(line->name, LINE_ROOM, "octets that are not read");
    snprintf(line->rule, LINE_ROOM, "not judged");
    if (lines->section == 7 && !is_kept(lines->sections, 5))
        say_refused(line, 5);
}

int next_line(struct lines *lines, struct line *line)
{
    while (lines->row < ROWS) {
        const struct row *row = &table[lines->row++];
        if (row->section != lines->section)
            continue;
        *line = line_of(row, lines->sections);
        if (line->verdict == NOT_THERE && row->octets == NULL) {
            lines->first_missing = lines->first_missing == 0 ? line->first : lines->first_missing;
            lines->last_missing = line->last;
        }
        if (line->verdict == NOT_THERE || line->verdict == ABSENT)
            continue;
        if (row->octets == NULL && line->last > lines->covered)
            lines->covered = line->last;
        return 1;
    }
    if (lines->first_missing > 0)
        tell_missing(lines, line);
    else if (lines->section < NEXT && lines->covered < lines->sections->at[lines->section].length)
        tell_unnamed(lines, line);
    else
        return 0;
    return 1;
}

/* The first line of a section that is broken: is there one? */
static int find_broken(const struct sections *sections, int section, struct line *line)
{
    struct lines lines = lines_of(sections, section);
    while (next_line(&lines, line))
        if (line->verdict == BROKEN)
            return 1;
    return 0;
}

uint64_t refusal_by_table(const struct sections *sections)
{
    struct line line;
    for (int section = 1; section <= 7; section++)
        if (section != 2 && find_broken(sections, section, &line))
            return refusal_at(line.refusal, sections->at[section].place);
    return 0;
}

/* ---- Refusals in words */

/* The section of a field that a refusal is about, or 0 where it is about none. */
static int section_of_refusal(uint32_t number)
{
    for (int section = 1; section <= 7; section++)
        if (refusal_of(section) == number)
            return section;
    return number == SKEPTOLYR_VALUE_OUT_OF_RANGE ? 7 : 0;
}

/* One number that is wrong is told with its octets first, and more than one with what they are called. */
static void write_fault(const struct sections *sections, const struct line *line, char *text)
{
    const char *many = strpbrk(line->octets, "-,") != NULL ? "s" : "";
    char where[LINE_ROOM];
    snprintf(where, sizeof where, "section %d", line->section);
    if (line->section == NEXT)
        snprintf(where, sizeof where, "the section at %zu", sections->at[NEXT].place);
    if (line->is_one_number)
        snprintf(text, FAULT_ROOM, "%.40s, octet%s %.60s %s %.80s: %s must be %.80s (%.80s)", where, many, line->octets, *many ? "are" : "is", line->value,
                 *many ? "they" : "it", line->rule, line->name);
    else
        snprintf(text, FAULT_ROOM, "%.40s, octet%s %.60s: %.80s: %.80s; %s must be %.80s", where, many, line->octets, line->name, line->value,
                 strstr(line->value, " and ") != NULL ? "they" : "it", line->rule);
}

char *fault_in_words(struct octets file, size_t k, uint64_t answer, char *text)
{
    struct walk walk = start_walk(file);
    uint32_t number = skeptolyr_refusal_number(answer);
    int section = section_of_refusal(number), is_tiling = number >= SKEPTOLYR_CUT && number <= SKEPTOLYR_NO_END;
    struct line line;
    text[0] = '\0';
    if (!skeptolyr_is_refusal(answer) || (section == 0 && !is_tiling))
        return text;
    int is_met = walk_to_field(&walk, is_tiling ? SIZE_MAX : k);
    if (is_tiling ? walk.fault == answer : is_met)
        if (find_broken(&walk.sections, is_tiling ? walk.section : section, &line))
            write_fault(&walk.sections, &line, text);
    return text;
}
