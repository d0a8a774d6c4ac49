/* A picture of a field. All but the field is measured in dots, of which letters consist. */
#include "picture.h"

#include "font.h"

#include <float.h>
#include <inttypes.h>
#include <stdlib.h>
#include <string.h>

/* ---- Colours */

/* The colours that the scale leads through, in even steps of lightness (CIE L* from 12 to 97), so that it can be read in black and white too. */
static const uint8_t anchors[][3] = {{24, 22, 80}, {42, 54, 129}, {34, 98, 151}, {37, 144, 144}, {106, 184, 115}, {211, 211, 99}, {255, 247, 205}};
static const uint8_t no_values[][3] = {{160, 160, 160}, {255, 255, 255}, {40, 40, 40}};

enum { STRETCHES = sizeof anchors / sizeof *anchors - 1 };

/* A colour of the scale is a mixture of the two anchors that it lies between. */
void fill_palette(uint8_t palette[COLOURS][3])
{
    for (int colour = 0; colour < SCALE_COLOURS; colour++) {
        int stretch = colour * STRETCHES / SCALE_COLOURS, share = colour * STRETCHES - stretch * (SCALE_COLOURS - 1);
        for (int i = 0; i < 3; i++)
            palette[colour][i] = (uint8_t)(anchors[stretch][i] + (anchors[stretch + 1][i] - anchors[stretch][i]) * share / (SCALE_COLOURS - 1));
    }
    memcpy(palette[MISSING], no_values, sizeof no_values);
}

int any_present(const struct subject *subject)
{
    return subject->missing < (size_t)subject->decoded->field.points;
}

/* What to multiply values with before they are subtracted: of two large ones with unlike signs the difference itself is no finite double. */
static double taming(double low, double high)
{
    return high / 2 - low / 2 > DBL_MAX / 2 ? 0.5 : 1;
}

/* The colour of a value. Where the scale's ends are equal it is the middle one. */
static int colour_of(const struct scale *scale, double value)
{
    double factor = taming(scale->low, scale->high), low = scale->low * factor, span = scale->high * factor - low;
    if (scale->low == scale->high)
        return SCALE_COLOURS / 2;
    if (value <= scale->low)
        return 0;
    if (value >= scale->high)
        return SCALE_COLOURS - 1;
    int colour = (int)((value * factor - low) / span * SCALE_COLOURS);
    return colour < SCALE_COLOURS ? colour : SCALE_COLOURS - 1;
}

struct labels label(double low, double high)
{
    enum { FEWEST_DIGITS = 6, MOST_DIGITS = 17 };
    struct labels labels;
    double factor = taming(low, high), middle = (low * factor + (high * factor - low * factor) / 2) / factor;
    for (int digits = FEWEST_DIGITS; digits <= MOST_DIGITS; digits++) {
        snprintf(labels.low, LABEL_ROOM, "%.*g", digits, low);
        snprintf(labels.middle, LABEL_ROOM, "%.*g", digits, middle);
        snprintf(labels.high, LABEL_ROOM, "%.*g", digits, high);
        if (low == high || (strcmp(labels.low, labels.middle) != 0 && strcmp(labels.middle, labels.high) != 0))
            break;
    }
    return labels;
}

/* ---- Coordinates */

/* Degrees are counted in millionths, and so are kilometres, which have a million thousandths of a metre. */
enum { MOST_TICKS = 16, TICK_ROOM = 32, WHOLE = 1000000, DEGREE = WHOLE, TURN = 360 * DEGREE, POLE = 90 * DEGREE };

/* A mark at a side of the field, so many pixels from its left or from its top, and the degrees or kilometres that are written there. */
struct tick {
    size_t at;
    char text[TICK_ROOM];
};

struct ruler {
    size_t count;
    struct tick ticks[MOST_TICKS];
};

/* What is marked at a side: degrees from south to north or from west to east, or kilometres from the first point on. */
enum marks { LATITUDES, LONGITUDES, LENGTHS };

/* A side of the field: the coordinate of its first point, and the span from there to its last, both in millionths of a degree or of a kilometre; the points,
 * and the pixels of all of them. The step from point to point need not be a whole number: it is `step` / `steps`. */
struct side {
    enum marks marks;
    int is_upright;
    int64_t first, span, step, steps, points;
    int64_t pixels;
};

/* One point alone has no step: a side of one point is never ruled. */
static struct side side_in_degrees(enum marks marks, int64_t first, int64_t span, int64_t points, size_t pixels)
{
    struct side side = {marks, marks == LATITUDES, first, span, span, points - 1, points, (int64_t)pixels};
    return side;
}

static struct side side_of_sheet(int is_upright, int64_t step, int64_t points, size_t pixels)
{
    struct side side = {LENGTHS, is_upright, 0, (points - 1) * step, step, 1, points, (int64_t)pixels};
    return side;
}

/* The side from the top down. */
static struct side upright_side(const struct skeptolyr_field *field, size_t pixels)
{
    if (is_on_sheet(field))
        return side_of_sheet(1, field->lambert.dy, field->nj, pixels);
    return side_in_degrees(LATITUDES, field->first.latitude, field->first.latitude - field->last.latitude, field->nj, pixels);
}

/* The side from left to right. A field over the zero meridian has the smaller longitude last. */
static struct side level_side(const struct skeptolyr_field *field, size_t pixels)
{
    int64_t span = field->last.longitude - field->first.longitude;
    if (is_on_sheet(field))
        return side_of_sheet(0, field->lambert.dx, field->ni, pixels);
    return side_in_degrees(LONGITUDES, field->first.longitude, span < 0 ? span + TURN : span, field->ni, pixels);
}

/* Writes a number of millionths with no more decimals than it needs: how long is it? What follows in the text is not part of it. */
static int write_millionths(int64_t millionths, char *text)
{
    int length = snprintf(text, TICK_ROOM, "%" PRId64 ".%06" PRId64, millionths / WHOLE, millionths % WHOLE);
    while (text[length - 1] == '0')
        length--;
    return text[length - 1] == '.' ? length - 1 : length;
}

/* East of 180 degrees they are counted to the west. */
static void write_degrees(int64_t millionths, int is_latitude, char *text)
{
    int64_t east = ((millionths % TURN) + TURN) % TURN, turned = east > TURN / 2 ? east - TURN : east, number = is_latitude ? millionths : turned;
    const char *directions = is_latitude ? "SN" : "WE";
    int has_direction = number != 0 && (is_latitude || number != TURN / 2), length = write_millionths(number < 0 ? -number : number, text);
    snprintf(text + length, TICK_ROOM - (size_t)length, "%s%.*s", DEGREE_SIGN, has_direction, directions + (number > 0));
}

static void write_coordinate(const struct side *side, int64_t coordinate, char *text)
{
    if (side->marks != LENGTHS)
        write_degrees(coordinate, side->marks == LATITUDES, text);
    else {
        int length = write_millionths(coordinate, text);
        snprintf(text + length, TICK_ROOM - (size_t)length, " km");
    }
}

/* How many pixels a length takes, and so many halves of a point with it, cut to a whole number. The length is taken apart into steps and a rest, because
 * the product of a length and of all pixels can be more than an int64_t holds. It lies at most half a step below 0. */
static int64_t pixels_of(const struct side *side, int64_t length, int64_t halves)
{
    int64_t in_steps = length * side->steps, rest = in_steps % side->step, whole = in_steps / side->step;
    if (rest < 0) {
        rest += side->step;
        whole--;
    }
    return ((2 * whole + halves) * side->pixels + 2 * rest * side->pixels / side->step) / (2 * side->points);
}

static void add_tick(struct ruler *ruler, const struct side *side, int64_t coordinate)
{
    struct tick *tick = &ruler->ticks[ruler->count++];
    int64_t from_first = side->marks == LATITUDES ? side->first - coordinate : coordinate - side->first;
    /* A point lies in the middle of its pixels. */
    tick->at = (size_t)(from_first != 0 ? pixels_of(side, from_first, 1) : side->pixels / (2 * side->points));
    write_coordinate(side, coordinate, tick->text);
}

static int64_t smaller_number(int64_t a, int64_t b)
{
    return a < b ? a : b;
}

/* The multiples of a round step along the side, from half a step before its first point to half a step behind its last. No latitude lies past a pole, and
 * lengths are counted from the first point. */
static struct ruler rule(const struct side *side, int64_t round)
{
    struct ruler ruler = {0, {{0, ""}}};
    int64_t half = side->step / (2 * side->steps), low = side->marks == LATITUDES ? side->first - side->span : side->first;
    int64_t from = side->marks == LENGTHS ? 0 : low - half, to = low + side->span + half;
    if (side->marks == LATITUDES) {
        from = -smaller_number(-from, POLE);
        to = smaller_number(to, POLE);
    }
    /* Division cuts towards 0, which is up for numbers below 0. */
    int64_t first = from / round * round + (from > 0 && from % round != 0 ? round : 0);
    for (int64_t coordinate = first; coordinate <= to && ruler.count < MOST_TICKS; coordinate += round)
        add_tick(&ruler, side, coordinate);
    return ruler;
}

/* The width of a text in dots: no gap follows its last letter. */
static size_t text_width(const char *text)
{
    return text[0] == '\0' ? 0 : strlen(text) * GLYPH_PITCH - (GLYPH_PITCH - GLYPH_COLUMNS);
}

static size_t larger(size_t a, size_t b)
{
    return a > b ? a : b;
}

static size_t smaller(size_t a, size_t b)
{
    return a < b ? a : b;
}

static size_t widest(const struct ruler *ruler)
{
    size_t found = 0;
    for (size_t i = 0; i < ruler->count; i++)
        found = larger(found, text_width(ruler->ticks[i].text));
    return found;
}

enum { MARGIN = 8, GAP = 8, SCALE_HEIGHT = 8, LABEL_GAP = 4, BOX = 7, TICK = 3, FEWEST_LETTERS = 40 };

/* The round step of this number: 1, 2, 5, 10 and so on, as far as a grid reaches. Above 20 degrees they are those that divide a half turn. 0 comes behind the
 * last. */
static int64_t round_step(enum marks marks, size_t i)
{
    static const int64_t digits[] = {1, 2, 5}, large_angles[] = {30 * DEGREE, 45 * DEGREE, 90 * DEGREE, 180 * DEGREE, 0};
    enum { FIRST_LARGE_ANGLE = 23, LENGTHS_END = 45 };
    int64_t unit = 1;
    if (marks != LENGTHS && i >= FIRST_LARGE_ANGLE)
        return large_angles[i - FIRST_LARGE_ANGLE];
    for (size_t power = 0; power < i / 3; power++)
        unit = 10 * unit;
    return i < LENGTHS_END ? digits[i % 3] * unit : 0;
}

/* The ticks of a side: as many as leave room for what is written, and not more than nine. Where no round number lies on the side, its first point is told. */
static struct ruler make_ruler(const struct side *side, size_t dot)
{
    enum { MOST_SPACES = 8 };
    struct ruler ruler = {0, {{0, ""}}};
    int can_be_ruled = side->points > 1 && side->span > 0;
    for (size_t i = 0; can_be_ruled && round_step(side->marks, i) > 0; i++) {
        int64_t round = round_step(side->marks, i), distance = pixels_of(side, round, 0);
        if (distance * MOST_SPACES < side->pixels)
            continue;
        ruler = rule(side, round);
        if ((size_t)distance >= (side->is_upright ? LINE_PITCH : widest(&ruler) + GAP) * dot)
            break;
    }
    if (ruler.count == 0)
        add_tick(&ruler, side, side->first);
    return ruler;
}

/* ---- Layout */

/* Where things are, in pixels from the left and from the top. `dot` is how many pixels a dot is wide and high. The scale begins where the field does, and
 * `scale_width` is how wide it is. `beside` is marked at the left side of the field, and `below` at its foot. */
struct layout {
    size_t dot, width, height;
    size_t field_left, field_top, field_width, field_height;
    size_t scale_width, scale_top, label_top, legend_top;
    struct ruler beside, below;
    struct labels labels;
};

static int has_scale(const struct subject *subject)
{
    return any_present(subject) || subject->scale.is_asked_for;
}

/* Pictures of one scale are to have one size, so that they can follow one another: with such a scale there is always room for a legend. */
static int has_legend(const struct subject *subject)
{
    return subject->missing > 0 || subject->unit[0] != '\0' || subject->scale.is_asked_for;
}

/* How many letters of the text go into a line: up to the last blank that has room, or as many as have room where a word is longer than a line. */
static size_t line_length(const char *text, size_t room)
{
    size_t length = strlen(text), at = room;
    if (length <= room)
        return length;
    while (at > 0 && text[at] != ' ')
        at--;
    return at > 0 ? at : room;
}

/* The next line begins behind the blank. */
static const char *next_line(const char *text, size_t room)
{
    text += line_length(text, room);
    return text + (*text == ' ');
}

/* The words above have room from margin to margin. */
static size_t letters_in_line(const struct layout *at)
{
    return (at->width - 2 * MARGIN * at->dot) / (GLYPH_PITCH * at->dot);
}

static size_t count_lines(const struct subject *subject, size_t room)
{
    size_t count = 0;
    for (int line = 0; line < LINES; line++) {
        for (const char *text = subject->lines[line]; *text != '\0'; text = next_line(text, room))
            count++;
    }
    return count;
}

/* What the numbers beneath the scale are. Those that would say nothing new are empty. The ends say if there are values past them. */
static struct labels label_scale(const struct subject *subject)
{
    const struct scale *scale = &subject->scale;
    struct labels ends = label(scale->low, scale->high), labels = {"", "", ""};
    if (!has_scale(subject))
        return labels;
    memcpy(labels.middle, ends.middle, LABEL_ROOM);
    if (scale->low == scale->high)
        return labels;
    snprintf(labels.low, LABEL_ROOM, "%s%.30s", scale->below > 0 ? "<" : "", ends.low);
    snprintf(labels.high, LABEL_ROOM, "%s%.30s", scale->above > 0 ? ">" : "", ends.high);
    return labels;
}

/* How wide scale and legend must be at least, in dots, so that a line of words is not too short either. A scale that is asked for has room for the marks at
 * its ends, also where it has none. */
static size_t least_width(const struct subject *subject, const struct labels *labels)
{
    size_t end = larger(text_width(labels->low), text_width(labels->high)) + (subject->scale.is_asked_for ? GLYPH_PITCH : 0);
    size_t scale = 2 * end + 2 * GAP + text_width(labels->middle);
    size_t legend = BOX + LABEL_GAP + text_width("missing") + GAP + text_width(subject->unit);
    return larger(larger(scale, legend), FEWEST_LETTERS * GLYPH_PITCH);
}

/* From left to right. There is room for half of what is written at the first tick below the field, and at the last. */
static void lay_out_columns(struct layout *at, const struct subject *subject)
{
    const struct tick *first = &at->below.ticks[0], *last = &at->below.ticks[at->below.count - 1];
    size_t beside = (widest(&at->beside) + LABEL_GAP + TICK + MARGIN) * at->dot, before = (text_width(first->text) / 2 + MARGIN) * at->dot;
    at->field_left = larger(beside, before > first->at ? before - first->at : 0);
    at->scale_width = larger(at->field_width, least_width(subject, &at->labels) * at->dot);
    at->width = at->field_left + larger(at->scale_width, last->at + (text_width(last->text) / 2 + 1) * at->dot) + MARGIN * at->dot;
}

/* From the top down. */
static void lay_out_rows(struct layout *at, const struct subject *subject)
{
    size_t dot = at->dot;
    at->field_top = (MARGIN + count_lines(subject, letters_in_line(at)) * LINE_PITCH + GAP) * dot;
    at->height = at->field_top + at->field_height + (TICK + LABEL_GAP + DIGIT_HEIGHT) * dot;
    if (has_scale(subject)) {
        at->scale_top = at->height + GAP * dot;
        at->label_top = at->scale_top + (SCALE_HEIGHT + LABEL_GAP) * dot;
        at->height = at->label_top + DIGIT_HEIGHT * dot;
    }
    if (has_legend(subject)) {
        at->legend_top = at->height + GAP * dot;
        at->height = at->legend_top + GLYPH_ROWS * dot;
    }
    at->height += MARGIN * dot;
}

/* The longer side of a small field gets about so many pixels. */
enum { AIM = 512 };

static size_t rounded(size_t dividend, size_t divisor)
{
    return (dividend + divisor / 2) / divisor;
}

/* A point of a grid in degrees is a square of whole pixels. A Lambert grid gets the shape that it has on the sheet: along the shorter of its steps each point
 * has the same number of whole pixels, and along the longer one it has as many more as the step is longer, up to a limit that keeps the picture small. */
static void size_field(struct layout *at, const struct skeptolyr_field *field)
{
    enum { LARGEST_SIDE = 64, MOST_STRETCHED = 8 };
    size_t columns = (size_t)field->ni, rows = (size_t)field->nj;
    size_t dx = is_on_sheet(field) ? (size_t)field->lambert.dx : 1, dy = is_on_sheet(field) ? (size_t)field->lambert.dy : 1, step = smaller(dx, dy);
    dx = smaller(dx, MOST_STRETCHED * step);
    dy = smaller(dy, MOST_STRETCHED * step);
    size_t longer = larger(rounded(columns * dx, step), rounded(rows * dy, step));
    size_t side = smaller(larger(rounded(AIM, longer), 1), LARGEST_SIDE);
    at->field_width = rounded(columns * side * dx, step);
    at->field_height = rounded(rows * side * dy, step);
}

/* Large fields get large dots, so that words can still be read when such a picture is looked at as a whole. */
static struct layout lay_out(const struct subject *subject)
{
    const struct skeptolyr_field *field = &subject->decoded->field;
    struct layout at;
    memset(&at, 0, sizeof at);
    size_field(&at, field);
    at.dot = 2 * larger(smaller(at.field_width, at.field_height) / AIM, 1);
    struct side upright = upright_side(field, at.field_height), level = level_side(field, at.field_width);
    at.beside = make_ruler(&upright, at.dot);
    at.below = make_ruler(&level, at.dot);
    at.labels = label_scale(subject);
    lay_out_columns(&at, subject);
    lay_out_rows(&at, subject);
    return at;
}

/* ---- Drawing */

static void fill(struct picture *picture, size_t left, size_t top, size_t width, size_t height, int colour)
{
    for (size_t y = top; y < top + height; y++)
        memset(picture->pixels + y * picture->width + left, colour, width);
}

/* Fills a rectangle, with a thin line around it. */
static void fill_framed(struct picture *picture, size_t left, size_t top, size_t width, size_t height, size_t line, int colour)
{
    fill(picture, left - line, top - line, width + 2 * line, height + 2 * line, INK);
    fill(picture, left, top, width, height, colour);
}

static void draw_letters(struct picture *picture, size_t left, size_t top, size_t dot, const char *text, size_t count)
{
    for (size_t i = 0; i < count * GLYPH_ROWS * GLYPH_COLUMNS; i++) {
        size_t letter = i / (GLYPH_ROWS * GLYPH_COLUMNS), row = i / GLYPH_COLUMNS % GLYPH_ROWS, column = i % GLYPH_COLUMNS;
        if (has_dot(text[letter], row, column))
            fill(picture, left + (letter * GLYPH_PITCH + column) * dot, top + row * dot, dot, dot, INK);
    }
}

static void draw_text(struct picture *picture, size_t left, size_t top, size_t dot, const char *text)
{
    draw_letters(picture, left, top, dot, text, strlen(text));
}

/* The lines above the field. The title is drawn twice, half a dot apart, which makes it bold. */
static void draw_words(struct picture *picture, const struct layout *at, const struct subject *subject)
{
    size_t left = MARGIN * at->dot, top = left, room = letters_in_line(at);
    for (int line = 0; line < LINES; line++) {
        for (const char *text = subject->lines[line]; *text != '\0'; text = next_line(text, room)) {
            draw_letters(picture, left, top, at->dot, text, line_length(text, room));
            if (line == 0)
                draw_letters(picture, left + at->dot / 2, top, at->dot, text, line_length(text, room));
            top += LINE_PITCH * at->dot;
        }
    }
}

/* Point 0 is in the upper left, which is the north-west of a grid in degrees, and the rows follow downward. Where a point cannot have a whole number of
 * pixels, some have one more than others. */
static void draw_field(struct picture *picture, const struct layout *at, const struct subject *subject)
{
    const struct decoded *decoded = subject->decoded;
    size_t columns = (size_t)decoded->field.ni, rows = (size_t)decoded->field.nj;
    fill_framed(picture, at->field_left, at->field_top, at->field_width, at->field_height, at->dot / 2, BACKGROUND);
    for (size_t row = 0, top = 0, bottom; row < rows; row++, top = bottom) {
        uint8_t *pixels = picture->pixels + (at->field_top + top) * picture->width + at->field_left;
        bottom = (row + 1) * at->field_height / rows;
        show_progress("drawing the field", row, rows);
        for (size_t column = 0, left = 0, right; column < columns; column++, left = right) {
            size_t n = row * columns + column;
            right = (column + 1) * at->field_width / columns;
            memset(pixels + left, decoded->presence[n] ? colour_of(&subject->scale, decoded->values[n]) : MISSING, right - left);
        }
        for (size_t line = 1; line < bottom - top; line++)
            memcpy(pixels + line * picture->width, pixels, at->field_width);
    }
}

static void draw_coordinates(struct picture *picture, const struct layout *at)
{
    size_t dot = at->dot, line = dot / 2, bottom = at->field_top + at->field_height;
    for (size_t i = 0; i < at->below.count; i++) {
        const struct tick *tick = &at->below.ticks[i];
        size_t x = at->field_left + tick->at, width = text_width(tick->text) * dot;
        fill(picture, x - line / 2, bottom + line, line, TICK * dot, INK);
        draw_text(picture, x - width / 2, bottom + (TICK + LABEL_GAP) * dot, dot, tick->text);
    }
    for (size_t i = 0; i < at->beside.count; i++) {
        const struct tick *tick = &at->beside.ticks[i];
        size_t y = at->field_top + tick->at, right = at->field_left - (TICK + LABEL_GAP) * dot;
        fill(picture, at->field_left - TICK * dot - line, y - line / 2, TICK * dot, line, INK);
        draw_text(picture, right - text_width(tick->text) * dot, y - DIGIT_HEIGHT * dot / 2, dot, tick->text);
    }
}

/* The colours from that of the scale's low end to that of its high end, over the numbers. */
static void draw_scale(struct picture *picture, const struct layout *at, const struct scale *scale)
{
    size_t dot = at->dot, height = SCALE_HEIGHT * dot, left = at->field_left, width = at->scale_width;
    fill_framed(picture, left, at->scale_top, width, height, dot / 2, SCALE_COLOURS / 2);
    for (size_t x = 0; x < width && scale->low < scale->high; x++)
        fill(picture, left + x, at->scale_top, 1, height, (int)(x * SCALE_COLOURS / width));
    draw_text(picture, left, at->label_top, dot, at->labels.low);
    draw_text(picture, left + (width - text_width(at->labels.middle) * dot) / 2, at->label_top, dot, at->labels.middle);
    draw_text(picture, left + width - text_width(at->labels.high) * dot, at->label_top, dot, at->labels.high);
}

/* What a missing point looks like, where there are any, and the unit. */
static void draw_legend(struct picture *picture, const struct layout *at, const struct subject *subject)
{
    size_t dot = at->dot, right = at->field_left + at->scale_width;
    if (subject->missing > 0) {
        fill_framed(picture, at->field_left, at->legend_top, BOX * dot, BOX * dot, dot / 2, MISSING);
        draw_text(picture, at->field_left + (BOX + LABEL_GAP) * dot, at->legend_top, dot, "missing");
    }
    draw_text(picture, right - text_width(subject->unit) * dot, at->legend_top, dot, subject->unit);
}

struct picture draw_picture(const struct subject *subject)
{
    struct layout at = lay_out(subject);
    struct picture picture = {at.width, at.height, malloc(at.height * at.width)};
    if (picture.pixels == NULL)
        give_up("the picture", "there is no memory for it", 0, "Close other programs, or take a machine with more memory");
    fill(&picture, 0, 0, at.width, at.height, BACKGROUND);
    draw_words(&picture, &at, subject);
    draw_field(&picture, &at, subject);
    draw_coordinates(&picture, &at);
    if (has_scale(subject))
        draw_scale(&picture, &at, &subject->scale);
    if (has_legend(subject))
        draw_legend(&picture, &at, subject);
    return picture;
}
