/* The functions that judge the rows of the table of rules.c, and write what a line says, but for those of section 7. */
#include "judge.h"

#include <inttypes.h>
#include <string.h>

static const uint32_t ALL_ONES = UINT32_MAX;
static const int64_t LARGEST = INT32_MAX, TURN = 360000000;

/* ---- Times */

static const int64_t SECONDS_OF_DAY = 86400;

static int is_leap(int64_t year)
{
    return year % 4 == 0 && (year % 100 != 0 || year % 400 == 0);
}

static int64_t days_of_month(int64_t year, int64_t month)
{
    static const int64_t days[] = {31, 28, 31, 30, 31, 30, 31, 31, 30, 31, 30, 31};
    return month == 2 && is_leap(year) ? 29 : days[month - 1];
}

/* The time in seven octets of a section, whatever they hold. */
static struct skeptolyr_time time_at(const struct sections *sections, int section, size_t first)
{
    struct skeptolyr_time time = {0, 0, 0, 0, 0, 0};
    time.year = (int64_t)number_at(sections, section, first, first + 1);
    time.month = octet_at(sections, section, first + 2);
    time.day = octet_at(sections, section, first + 3);
    time.hour = octet_at(sections, section, first + 4);
    time.minute = octet_at(sections, section, first + 5);
    time.second = octet_at(sections, section, first + 6);
    return time;
}

/* Is each number within the limits that it has for itself? */
static int has_numbers_of_time(const struct skeptolyr_time *time)
{
    return time->year >= FIRST_YEAR && time->year <= LAST_YEAR && time->month >= 1 && time->month <= 12 && time->day >= 1 && time->day <= 31
        && time->hour < 24 && time->minute < 60 && time->second < 60;
}

static int is_time(const struct skeptolyr_time *time)
{
    return has_numbers_of_time(time) && time->day <= days_of_month(time->year, time->month);
}

/* The seconds from the start of the year 1900 to a time. */
static int64_t seconds_to(const struct skeptolyr_time *time)
{
    int64_t days = time->day - 1;
    for (int64_t year = FIRST_YEAR; year < time->year; year++)
        days += is_leap(year) ? 366 : 365;
    for (int64_t month = 1; month < time->month; month++)
        days += days_of_month(time->year, month);
    return days * SECONDS_OF_DAY + time->hour * 3600 + time->minute * 60 + time->second;
}

/* The time so many seconds after the start of the year 1900. */
static struct skeptolyr_time time_after(int64_t seconds)
{
    struct skeptolyr_time time = {FIRST_YEAR, 1, 1, 0, 0, seconds % SECONDS_OF_DAY};
    int64_t days = seconds / SECONDS_OF_DAY;
    for (; days >= (is_leap(time.year) ? 366 : 365); time.year++)
        days -= is_leap(time.year) ? 366 : 365;
    for (; days >= days_of_month(time.year, time.month); time.month++)
        days -= days_of_month(time.year, time.month);
    time.day += days;
    time.hour = time.second / 3600;
    time.minute = time.second / 60 % 60;
    time.second %= 60;
    return time;
}

/* Are so many seconds after the start of the year 1900 before the year 2400? */
static int is_before_2400(int64_t seconds)
{
    static const struct skeptolyr_time last = {LAST_YEAR, 12, 31, 23, 59, 59};
    return seconds <= seconds_to(&last);
}

static void write_time(const struct skeptolyr_time *time, char *text)
{
    snprintf(text, LINE_ROOM, "%04" PRId64 "-%02" PRId64 "-%02" PRId64 " %02" PRId64 ":%02" PRId64 ":%02" PRId64,
             time->year, time->month, time->day, time->hour, time->minute, time->second);
}

static void write_seconds(int64_t seconds, char *text)
{
    struct skeptolyr_time time = time_after(is_before_2400(seconds) ? seconds : 0);
    if (is_before_2400(seconds))
        write_time(&time, text);
    else
        snprintf(text, LINE_ROOM, "later than %d", LAST_YEAR);
}

/* The seconds of a unit of time, which is a minute, an hour or a day. */
static int64_t seconds_of_unit(uint64_t unit)
{
    static const int64_t seconds[] = {60, 3600, 86400};
    return unit < 3 ? seconds[unit] : 0;
}

/* ---- How values and rules are shown */

int64_t value_of(const struct row *row, const struct sections *sections)
{
    if (row->form == SIGNED)
        return signed_at(sections, row->section, row->first, row->last);
    return (int64_t)number_at(sections, row->section, row->first, row->last);
}

void write_with_commas(int64_t number, char *text)
{
    char digits[32];
    size_t length = (size_t)snprintf(digits, sizeof digits, "%" PRId64, number < 0 ? -number : number), at = 0;
    if (number < 0)
        text[at++] = '-';
    for (size_t i = 0; i < length; i++) {
        if (i > 0 && (length - i) % 3 == 0)
            text[at++] = ',';
        text[at++] = digits[i];
    }
    text[at] = '\0';
}

/* Writes octets as letters, or in hexadecimal where one of them is no letter. */
static void write_letters(uint64_t number, size_t count, char *text)
{
    int are_letters = 1;
    for (size_t i = 0; i < count; i++) {
        int letter = (int)(number >> 8 * (count - 1 - i) & 255);
        text[i] = (char)letter;
        are_letters = are_letters && letter > ' ' && letter <= '~';
    }
    text[count] = '\0';
    if (!are_letters)
        snprintf(text, LINE_ROOM, "0x%08" PRIx64, number);
}

static void write_single(uint64_t bits, char *text)
{
    uint32_t of_32_bits = (uint32_t)bits;
    float number;
    memcpy(&number, &of_32_bits, sizeof number);
    snprintf(text, LINE_ROOM, "%.9g", (double)number);
}

/* Writes a number in the form of its row. Limits have commas, and values have none, so that they can be searched for. */
static void write_number(const struct row *row, int64_t number, int is_limit, char *text)
{
    size_t count = row->last - row->first + 1;
    if (row->form == LETTERS)
        write_letters((uint64_t)number, count, text);
    else if (row->form == HEXADECIMAL)
        snprintf(text, LINE_ROOM, "0x%02x", (unsigned)number);
    else if (row->form == SINGLE)
        write_single((uint64_t)number, text);
    else if (count == 4 && (number == ALL_ONES || (row->form == SIGNED && number == -LARGEST)))
        snprintf(text, LINE_ROOM, "all ones");
    else if (is_limit && (number > 9999 || number < -9999))
        write_with_commas(number, text);
    else
        snprintf(text, LINE_ROOM, "%" PRId64, number);
}

void write_limits(const struct row *row, char *text)
{
    char least[LINE_ROOM], most[LINE_ROOM];
    write_number(row, row->least, 1, least);
    write_number(row, row->most, 1, most);
    if (row->least == row->most)
        snprintf(text, LINE_ROOM, "%.40s%.60s", least, row->remark);
    else if (row->most - row->least == 1)
        snprintf(text, LINE_ROOM, "%.40s or %.40s%.30s", least, most, row->remark);
    else if (row->most == ALL_ONES)
        snprintf(text, LINE_ROOM, "at least %.40s%.60s", least, row->remark);
    else
        snprintf(text, LINE_ROOM, "from %.20s to %.20s%.60s", least, most, row->remark);
}

void judge_limits(const struct row *row, const struct sections *sections, struct line *line)
{
    int64_t number = value_of(row, sections);
    write_number(row, number, 0, line->value);
    if (row->least > row->most) {
        snprintf(line->rule, LINE_ROOM, "%s", row->remark);
        return;
    }
    write_limits(row, line->rule);
    line->verdict = number >= row->least && number <= row->most ? KEPT : BROKEN;
}

/* The number must be one of two, which are the limits of the row. */
void judge_either(const struct row *row, const struct sections *sections, struct line *line)
{
    int64_t number = value_of(row, sections);
    write_number(row, number, 0, line->value);
    snprintf(line->rule, LINE_ROOM, "%" PRId64 " or %" PRId64 "%s", row->least, row->most, row->remark);
    line->verdict = number == row->least || number == row->most ? KEPT : BROKEN;
}

void say_refused(struct line *line, int section)
{
    snprintf(line->rule, LINE_ROOM, "not judged: section %d is refused", section);
}

/* Says that a line is not judged, because a number that it speaks of is marked in a line of its own. */
static void say_wrong_number(struct line *line)
{
    snprintf(line->value, LINE_ROOM, "-");
    snprintf(line->rule, LINE_ROOM, "not judged: a number of it is wrong");
}

enum verdict verdict_of(int is_rule_kept)
{
    return is_rule_kept ? KEPT : BROKEN;
}

void write_octets(struct line *line, size_t first, size_t last)
{
    if (last < first)
        snprintf(line->octets, LINE_ROOM, "-");
    else if (last == first)
        snprintf(line->octets, LINE_ROOM, "%zu", first);
    else
        snprintf(line->octets, LINE_ROOM, "%zu-%zu", first, last);
}

/* Adds in brackets what a number means, where the line still has room for it. */
static void add_meaning(struct line *line, const char *meaning)
{
    enum { RULE_COLUMNS = 36 };
    size_t length = strlen(line->rule);
    if (meaning != NULL && length + strlen(meaning) + 3 <= RULE_COLUMNS)
        snprintf(line->rule + length, LINE_ROOM - length, " (%s)", meaning);
}

/* ---- Sections 0 and 1 */

/* A length that must not pass what is left: of the file, or of the message. */
static void judge_length(struct line *line, uint64_t length, uint64_t least, uint64_t left)
{
    char most[LINE_ROOM];
    write_with_commas((int64_t)left, most);
    snprintf(line->value, LINE_ROOM, "%" PRIu64, length);
    snprintf(line->rule, LINE_ROOM, left < least ? "at least %" PRIu64 "; %.20s are left" : "from %" PRIu64 " to %.20s, what is left", least, most);
    line->verdict = verdict_of(length >= least && length <= left);
}

void judge_message_length(const struct row *row, const struct sections *sections, struct line *line)
{
    judge_length(line, number_at(sections, 0, row->first, row->last), 20, sections->file.length - sections->at[0].place);
}

/* The day must be one that its month has. Where a number is wrong by itself, this is not asked. */
void judge_calendar(const struct row *row, const struct sections *sections, struct line *line)
{
    struct skeptolyr_time time = time_at(sections, row->section, row->first);
    if (!has_numbers_of_time(&time)) {
        say_wrong_number(line);
        return;
    }
    write_time(&time, line->value);
    snprintf(line->rule, LINE_ROOM, "%s", row->remark);
    line->verdict = verdict_of(is_time(&time));
}

/* ---- Section 3 */

/* Two numbers that a rule compares. */
static void write_two(struct line *line, int64_t one, int64_t other)
{
    snprintf(line->value, LINE_ROOM, "%" PRId64 " and %" PRId64, one, other);
}

/* The length of section 3, 4 or 5 must be that of its template: of template 0, or of the other one that is read. Where length or template is wrong by itself,
 * this is not asked. */
void judge_length_and_template(const struct row *row, const struct sections *sections, struct line *line)
{
    static const struct {
        uint64_t of_0, of_other, other;
    } lengths[] = {[3] = {72, 81, 30}, [4] = {34, 58, 8}, [5] = {21, 49, 3}};
    uint64_t length = number_at(sections, row->section, 1, 4), template_number = number_at(sections, row->section, row->first, row->last);
    uint64_t of_0 = lengths[row->section].of_0, of_other = lengths[row->section].of_other, other = lengths[row->section].other;
    int is_known = (length == of_0 || length == of_other) && (template_number == 0 || template_number == other);
    write_two(line, (int64_t)length, (int64_t)template_number);
    snprintf(line->rule, LINE_ROOM, "%s", is_known ? row->remark : "not judged: one of them is wrong");
    if (is_known)
        line->verdict = verdict_of((length == of_0) == (template_number == 0));
}

/* What a grid in degrees tells of its points. A Lambert grid has the same point count, Ni and Nj. */
struct grid {
    int64_t points, ni, nj, first_latitude, first_longitude, last_latitude, last_longitude, di, dj;
    int are_numbers_good;
};

static int is_latitude(int64_t latitude)
{
    return latitude >= -TURN / 4 && latitude <= TURN / 4;
}

static struct grid grid_of(const struct sections *sections)
{
    struct grid grid = {0};
    grid.points = (int64_t)number_at(sections, 3, 7, 10);
    grid.ni = (int64_t)number_at(sections, 3, 31, 34);
    grid.nj = (int64_t)number_at(sections, 3, 35, 38);
    grid.first_latitude = signed_at(sections, 3, 47, 50);
    grid.first_longitude = (int64_t)number_at(sections, 3, 51, 54);
    grid.last_latitude = signed_at(sections, 3, 56, 59);
    grid.last_longitude = (int64_t)number_at(sections, 3, 60, 63);
    grid.di = (int64_t)number_at(sections, 3, 64, 67);
    grid.dj = (int64_t)number_at(sections, 3, 68, 71);
    grid.are_numbers_good = grid.ni >= 1 && grid.ni <= 65535 && grid.nj >= 1 && grid.nj <= 65535
        && grid.first_longitude < TURN && grid.last_longitude < TURN && is_latitude(grid.first_latitude) && is_latitude(grid.last_latitude);
    return grid;
}

void judge_point_count(const struct row *row, const struct sections *sections, struct line *line)
{
    struct grid grid = grid_of(sections);
    if (grid.ni > 65535 || grid.nj > 65535) {
        say_wrong_number(line);
        return;
    }
    write_two(line, grid.points, grid.ni * grid.nj);
    snprintf(line->rule, LINE_ROOM, "%s", row->remark);
    line->verdict = verdict_of(grid.points == grid.ni * grid.nj);
}

void judge_latitudes(const struct row *row, const struct sections *sections, struct line *line)
{
    struct grid grid = grid_of(sections);
    write_two(line, grid.first_latitude, grid.last_latitude);
    snprintf(line->rule, LINE_ROOM, "%s", row->remark);
    line->verdict = verdict_of(grid.first_latitude >= grid.last_latitude);
}

/* The span and what the steps make of it, when so many steps of this length lead from the first point to the last. */
static void judge_span(struct line *line, const struct grid *grid, int64_t span, int64_t steps, int64_t step)
{
    char most[LINE_ROOM];
    if (!grid->are_numbers_good) {
        say_wrong_number(line);
        return;
    }
    write_with_commas(steps, most);
    write_two(line, span, steps * step);
    snprintf(line->rule, LINE_ROOM, "at most %.20s apart", most);
    line->verdict = verdict_of(span - steps * step <= steps && steps * step - span <= steps);
}

void judge_span_east(const struct row *row, const struct sections *sections, struct line *line)
{
    struct grid grid = grid_of(sections);
    int64_t span = grid.last_longitude - grid.first_longitude;
    (void)row;
    judge_span(line, &grid, span < 0 ? span + TURN : span, grid.ni - 1, grid.di);
}

void judge_span_south(const struct row *row, const struct sections *sections, struct line *line)
{
    struct grid grid = grid_of(sections);
    (void)row;
    judge_span(line, &grid, grid.first_latitude - grid.last_latitude, grid.nj - 1, grid.dj);
}

/* ---- Sections 4 and 5 */

void judge_parameter(const struct row *row, const struct sections *sections, struct line *line)
{
    judge_limits(row, sections, line);
    add_meaning(line, parameter_name(octet_at(sections, 0, 7), octet_at(sections, 4, 10), octet_at(sections, 4, 11)));
}

void judge_surface(const struct row *row, const struct sections *sections, struct line *line)
{
    judge_limits(row, sections, line);
    add_meaning(line, surface_name(octet_at(sections, 4, 23)));
}

void judge_factor(const struct row *row, const struct sections *sections, struct line *line)
{
    judge_limits(row, sections, line);
    if (octet_at(sections, 4, 24) == 255)
        snprintf(line->value, LINE_ROOM, "all ones");
}

void judge_scaled_level(const struct row *row, const struct sections *sections, struct line *line)
{
    int64_t scaled = value_of(row, sections);
    write_number(row, scaled, 0, line->value);
    snprintf(line->rule, LINE_ROOM, "%s", row->remark);
    line->verdict = verdict_of(scaled <= LARGEST || scaled == ALL_ONES);
}

void judge_level(const struct row *row, const struct sections *sections, struct line *line)
{
    int has_no_factor = octet_at(sections, 4, 24) == 255, has_no_level = number_at(sections, 4, 25, 28) == ALL_ONES;
    write_two(line, signed_at(sections, 4, 24, 24), (int64_t)number_at(sections, 4, 25, 28));
    if (has_no_factor || has_no_level)
        snprintf(line->value, LINE_ROOM, has_no_factor && has_no_level ? "both all ones" : "one all ones");
    snprintf(line->rule, LINE_ROOM, "%s", row->remark);
    line->verdict = verdict_of(has_no_factor == has_no_level);
}

/* The seconds from the start of the year 1900 to the valid time, or -1 where it cannot be told. */
static int64_t valid_seconds(const struct sections *sections)
{
    struct skeptolyr_time reference = time_at(sections, 1, 13);
    uint64_t unit = octet_at(sections, 4, 18), count = number_at(sections, 4, 19, 22);
    if (!is_kept(sections, 1) || unit > 2 || count > (uint64_t)LARGEST)
        return -1;
    return seconds_to(&reference) + (int64_t)count * seconds_of_unit(unit);
}

static void say_unknown_time(const struct sections *sections, struct line *line)
{
    say_wrong_number(line);
    if (!is_kept(sections, 1))
        say_refused(line, 1);
}

void judge_valid_time(const struct row *row, const struct sections *sections, struct line *line)
{
    int64_t seconds = valid_seconds(sections);
    if (seconds < 0) {
        say_unknown_time(sections, line);
        return;
    }
    write_seconds(seconds, line->value);
    snprintf(line->rule, LINE_ROOM, "%s", row->remark);
    line->verdict = verdict_of(is_before_2400(seconds));
}

/* The valid time and the length of the interval must lead to its end. */
void judge_interval(const struct row *row, const struct sections *sections, struct line *line)
{
    struct skeptolyr_time end = time_at(sections, 4, 35);
    int64_t start = valid_seconds(sections), unit = octet_at(sections, 4, 49), sum = 0;
    char reached[LINE_ROOM], told[LINE_ROOM];
    if (start < 0 || unit > 2 || !is_time(&end)) {
        say_unknown_time(sections, line);
        return;
    }
    sum = start + (int64_t)number_at(sections, 4, 50, 53) * seconds_of_unit((uint64_t)unit);
    write_seconds(sum, reached);
    write_time(&end, told);
    snprintf(line->value, LINE_ROOM, "%.40s and %.40s", reached, told);
    snprintf(line->rule, LINE_ROOM, "%s", row->remark);
    line->verdict = verdict_of(sum == seconds_to(&end));
}

void judge_finite(const struct row *row, const struct sections *sections, struct line *line)
{
    enum { EXPONENT_OF_NO_NUMBER = 255 };
    uint64_t bits = (uint64_t)value_of(row, sections);
    write_single(bits, line->value);
    snprintf(line->rule, LINE_ROOM, "%s", row->remark);
    line->verdict = verdict_of((bits >> 23 & 255) != EXPONENT_OF_NO_NUMBER);
}

void judge_group_count(const struct row *row, const struct sections *sections, struct line *line)
{
    uint64_t groups = (uint64_t)value_of(row, sections), n = number_at(sections, 5, 6, 9);
    write_number(row, (int64_t)groups, 0, line->value);
    snprintf(line->rule, LINE_ROOM, "from 1 to N, which is %" PRIu64, n);
    line->verdict = verdict_of(groups >= 1 && groups <= n);
}

/* ---- Section 6 */

enum { OWN_BITMAP = 0, EARLIER_BITMAP = 254, ALL_PRESENT = 255, BEFORE_BITMAP = 6 };

/* How long a section 6 with a bitmap for the grid is. */
static uint64_t length_with_bitmap(const struct sections *sections)
{
    return BEFORE_BITMAP + octets_for(number_at(sections, 3, 7, 10));
}

static int is_indicator(unsigned indicator)
{
    return indicator == OWN_BITMAP || indicator == EARLIER_BITMAP || indicator == ALL_PRESENT;
}

void judge_indicator(const struct row *row, const struct sections *sections, struct line *line)
{
    unsigned indicator = octet_at(sections, 6, 6);
    snprintf(line->value, LINE_ROOM, "%u", indicator);
    snprintf(line->rule, LINE_ROOM, "%s", row->remark);
    line->verdict = verdict_of(is_indicator(indicator));
}

void judge_bitmap_length(const struct row *row, const struct sections *sections, struct line *line)
{
    unsigned indicator = octet_at(sections, 6, 6);
    uint64_t wanted = indicator == OWN_BITMAP ? length_with_bitmap(sections) : BEFORE_BITMAP;
    (void)row;
    write_two(line, (int64_t)number_at(sections, 6, 1, 4), indicator);
    if (!is_indicator(indicator))
        snprintf(line->rule, LINE_ROOM, "not judged: the indicator is wrong");
    else if (indicator == OWN_BITMAP && !is_kept(sections, 3))
        say_refused(line, 3);
    else {
        snprintf(line->rule, LINE_ROOM, "%" PRIu64 " with %u", wanted, indicator);
        if (indicator == OWN_BITMAP)
            snprintf(line->rule, LINE_ROOM, "%" PRIu64 " with 0, for %" PRIu64 " points", wanted, number_at(sections, 3, 7, 10));
        line->verdict = verdict_of(number_at(sections, 6, 1, 4) == wanted);
    }
}

/* The bitmap itself: its first bits are shown. How many of them count is judged in a row of its own. */
void judge_bitmap(const struct row *row, const struct sections *sections, struct line *line)
{
    enum { BITS_SHOWN = 16 };
    size_t length = sections->at[6].length, bits = 8 * (length - BEFORE_BITMAP), shown = bits < BITS_SHOWN ? bits : BITS_SHOWN;
    if (octet_at(sections, 6, 6) != OWN_BITMAP || length <= BEFORE_BITMAP) {
        line->verdict = ABSENT;
        return;
    }
    line->first = BEFORE_BITMAP + 1;
    line->last = length;
    for (size_t i = 0; i < shown; i++)
        line->value[i] = (char)('0' + packed_at(sections, 6, BEFORE_BITMAP, i, 1));
    snprintf(line->value + shown, LINE_ROOM - shown, "%s", bits > shown ? ".." : "");
    snprintf(line->rule, LINE_ROOM, "%s", row->remark);
}

void judge_earlier_bitmap(const struct row *row, const struct sections *sections, struct line *line)
{
    const struct stretch *bitmap = &sections->bitmap;
    if (octet_at(sections, 6, 6) != EARLIER_BITMAP) {
        line->verdict = ABSENT;
        return;
    }
    snprintf(line->value, LINE_ROOM, "not there");
    snprintf(line->rule, LINE_ROOM, "%s", row->remark);
    if (bitmap->length > 0)
        snprintf(line->value, LINE_ROOM, "at %zu, %zu octets", bitmap->place, bitmap->length);
    if (bitmap->length > 0 && !is_kept(sections, 3))
        say_refused(line, 3);
    else {
        if (is_kept(sections, 3))
            snprintf(line->rule, LINE_ROOM, "%s, of %" PRIu64 " octets", row->remark, length_with_bitmap(sections));
        line->verdict = verdict_of(bitmap->length > 0 && bitmap->length == length_with_bitmap(sections));
    }
}

/* The points that a bitmap of the right length marks as present. */
static uint64_t count_present(const struct sections *sections, const struct stretch *bitmap)
{
    const uint8_t *bits = sections->file.first + bitmap->place + BEFORE_BITMAP;
    uint64_t points = number_at(sections, 3, 7, 10), present = 0;
    for (uint64_t n = 0; n < points; n++)
        present += bits[n / 8] >> (7 - n % 8) & 1;
    return present;
}

/* Is there a bitmap, of its own or an earlier one, which has a bit for each point of the grid? */
static int has_bitmap(const struct sections *sections)
{
    unsigned indicator = octet_at(sections, 6, 6);
    const struct stretch *bitmap = indicator == OWN_BITMAP ? &sections->at[6] : &sections->bitmap;
    return (indicator == OWN_BITMAP || indicator == EARLIER_BITMAP) && bitmap->length == length_with_bitmap(sections);
}

void judge_present(const struct row *row, const struct sections *sections, struct line *line)
{
    unsigned indicator = octet_at(sections, 6, 6);
    uint64_t n = number_at(sections, 5, 6, 9), present = number_at(sections, 3, 7, 10);
    snprintf(line->value, LINE_ROOM, "-");
    if (indicator == OWN_BITMAP && sections->at[6].length > BEFORE_BITMAP)
        write_octets(line, BEFORE_BITMAP + 1, sections->at[6].length);
    if (!is_kept(sections, 3) || !is_kept(sections, 5)) {
        say_refused(line, is_kept(sections, 3) ? 5 : 3);
        return;
    }
    if (indicator != ALL_PRESENT && !has_bitmap(sections)) {
        snprintf(line->rule, LINE_ROOM, "not judged: there is no bitmap");
        return;
    }
    if (indicator != ALL_PRESENT)
        present = count_present(sections, indicator == OWN_BITMAP ? &sections->at[6] : &sections->bitmap);
    write_two(line, (int64_t)present, (int64_t)n);
    snprintf(line->rule, LINE_ROOM, "%s", row->remark);
    line->verdict = verdict_of(present == n);
}

/* ---- Tiling */

void judge_next_length(const struct row *row, const struct sections *sections, struct line *line)
{
    judge_length(line, (uint64_t)value_of(row, sections), 5, sections->at[NEXT].length);
}

void judge_next_number(const struct row *row, const struct sections *sections, struct line *line)
{
    int number = (int)value_of(row, sections), before = sections->before;
    snprintf(line->value, LINE_ROOM, "%d", number);
    snprintf(line->rule, LINE_ROOM, "%s, after section %d", before == 7 ? "3 or 4" : before == 0 ? "1" : before == 1 ? "3" : "", before);
    if (before >= 3 && before <= 6)
        snprintf(line->rule, LINE_ROOM, "%d, after section %d", before + 1, before);
    line->verdict = verdict_of(may_follow(number, before));
}

/* The section before 7777 must be a 7. Where the sections could not be followed to 7777, it is not known. */
void judge_end(const struct row *row, const struct sections *sections, struct line *line)
{
    if (sections->at[NEXT].length > 0) {
        line->verdict = ABSENT;
        return;
    }
    snprintf(line->value, LINE_ROOM, "section %d", sections->before);
    snprintf(line->rule, LINE_ROOM, "%s", row->remark);
    line->verdict = verdict_of(sections->before == 7);
}

void judge_file_length(const struct row *row, const struct sections *sections, struct line *line)
{
    size_t length = sections->file.length;
    snprintf(line->value, LINE_ROOM, length > SKEPTOLYR_MOST_OCTETS ? "more" : "%zu", length);
    write_limits(row, line->rule);
    line->verdict = verdict_of(length >= 1 && length <= SKEPTOLYR_MOST_OCTETS);
}
