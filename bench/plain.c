/* Decode and picture in plain C, under the same contracts as skeptolyr_decode and skeptolyr_picture: the yardsticks for their speed. Octets of a section are
 * numbered from 1, as in docs/RULES.md. A walk answers 0 where there is nothing to refuse; what judges a section answers whether it is taken. */
#include "plain.h"

#include <string.h>

/* The loops are to be compiled with their constants in place, which the compiler does not always choose by itself. */
#define INLINE static inline __attribute__((always_inline))

static const uint32_t MOST = 0x7fffffff, ALL_ONES = 0xffffffff;

/* The starts of a field's sections, and of the section 6 whose bitmap is in force, or 0. */
struct field {
    size_t one, three, four, five, six, seven, bitmap;
};

struct groups {
    const uint8_t *section;
    uint64_t length, references, widths, lengths, packed;
    uint64_t first, second, zmin;
    uint32_t count, width_base, length_base, length_step, last_length;
    unsigned reference_bits, width_bits, length_bits;
};

struct packing {
    double r, two, ten;
};

/* The field's stretch of both runs. */
struct stretch {
    double *restrict values;
    uint8_t *restrict presence;
    uint32_t points;
};

static uint64_t refusal(uint64_t why, size_t place)
{
    return (uint64_t)1 << 63 | why << 32 | place;
}

INLINE uint32_t number(const uint8_t *section, size_t octet, size_t count)
{
    uint32_t n = 0;
    for (size_t i = 0; i < count; i++)
        n = n << 8 | section[octet - 1 + i];
    return n;
}

/* A number whose top bit is its sign. */
INLINE int64_t signed_number(const uint8_t *section, size_t octet, size_t count)
{
    int64_t n = number(section, octet, count), sign = (int64_t)1 << (8 * count - 1);
    return n < sign ? n : sign - n;
}

INLINE uint32_t length_of(const uint8_t *section)
{
    return number(section, 1, 4);
}

/* --- Tiling --- */

static int follows(unsigned before, unsigned kind)
{
    switch (kind) {
    case 1: return before == 0;
    case 3: return before == 1 || before == 7;
    case 4: return before == 3 || before == 7;
    case 5: case 6: case 7: return before == kind - 1;
    default: return 0;
    }
}

static void note(struct field *field, const uint8_t *file, size_t at, uint32_t length)
{
    switch (file[at + 4]) {
    case 1: field->one = at; break;
    case 3: field->three = at; field->bitmap = 0; break;
    case 4: field->four = at; break;
    case 5: field->five = at; break;
    case 6:
        field->six = at;
        if (length > 5 && file[at + 5] == 0)
            field->bitmap = at;
        break;
    default: field->seven = at;
    }
}

/* Walks the sections of a message up to its closing octets, and keeps field k when it comes by. */
static uint64_t walk_message(const uint8_t *file, size_t at, size_t end, size_t k, size_t *fields, struct field *wanted)
{
    struct field field = {0};
    unsigned before = 0;
    while (at < end) {
        if (end - at < 5)
            return refusal(5, at);
        uint32_t length = length_of(file + at);
        unsigned kind = file[at + 4];
        if (length < 5 || length > end - at)
            return refusal(5, at);
        if (!follows(before, kind))
            return refusal(6, at);
        note(&field, file, at, length);
        if (kind == 7 && (*fields)++ == k)
            *wanted = field;
        before = kind;
        at += length;
    }
    return before == 7 ? 0 : refusal(6, end);
}

static uint64_t walk_file(const uint8_t *file, size_t length, size_t k, struct field *wanted)
{
    size_t fields = 0;
    if (length > 268435456)
        return refusal(1, 0);
    if (length == 0)
        return refusal(2, 0);
    for (size_t p = 0; p < length;) {
        if (length - p < 16)
            return refusal(3, p);
        if (memcmp(file + p, "GRIB", 4) != 0 || file[p + 7] != 2)
            return refusal(4, p);
        uint64_t stated = (uint64_t)number(file + p, 9, 4) << 32 | number(file + p, 13, 4);
        if (stated < 20)
            return refusal(5, p);
        if (stated > length - p)
            return refusal(3, p);
        size_t end = p + stated - 4;
        if (memcmp(file + end, "7777", 4) != 0)
            return refusal(7, p);
        uint64_t fault = walk_message(file, p + 16, end, k, &fields, wanted);
        if (fault)
            return fault;
        p = end + 4;
    }
    return k < fields ? 0 : refusal(8, 0);
}

/* --- Sections 1, 3, 4 and 5 --- */

/* The days from a fixed day to a date. Years begin in March here, so that a leap day is the last of its year. */
static int64_t days_until(int64_t year, int64_t month, int64_t day)
{
    int64_t years = month > 2 ? year : year - 1, months = (month + 9) % 12;
    return 365 * years + years / 4 - years / 100 + years / 400 + (153 * months + 2) / 5 + day;
}

/* The seconds from a fixed day to the time in seven octets, or -1 where they hold no time. */
static int64_t seconds_at(const uint8_t *section, size_t octet)
{
    static const uint8_t days[] = {31, 28, 31, 30, 31, 30, 31, 31, 30, 31, 30, 31};
    const uint8_t *rest = section + octet + 1;
    unsigned year = number(section, octet, 2), month = rest[0], day = rest[1];
    if (year < 1900 || year > 2399 || month < 1 || month > 12)
        return -1;
    unsigned leap = month == 2 && year % 4 == 0 && (year % 100 != 0 || year % 400 == 0);
    if (day < 1 || day > days[month - 1] + leap || rest[2] > 23 || rest[3] > 59 || rest[4] > 59)
        return -1;
    return days_until(year, month, day) * 86400 + rest[2] * 3600 + rest[3] * 60 + rest[4];
}

static int judge_1(const uint8_t *one)
{
    return length_of(one) == 21 && number(one, 6, 2) == 34 && one[11] == 1 && seconds_at(one, 13) >= 0 && one[19] <= 1;
}

/* Do so many steps differ from a span by at most one millionth a step? */
static int spans(int64_t span, int64_t steps, int64_t step)
{
    int64_t over = span - steps * step;
    return -steps <= over && over <= steps;
}

static int is_latitude(const uint8_t *three, size_t octet)
{
    int64_t angle = signed_number(three, octet, 4);
    return -90000000 <= angle && angle <= 90000000;
}

static int is_longitude(const uint8_t *three, size_t octet)
{
    return number(three, octet, 4) <= 359999999;
}

static int is_length(const uint8_t *three, size_t octet)
{
    uint32_t length = number(three, octet, 4);
    return length >= 1 && length <= MOST;
}

static int judge_places(const uint8_t *three, uint32_t ni, uint32_t nj)
{
    if (!is_latitude(three, 47) || !is_longitude(three, 51) || !is_latitude(three, 56) || !is_longitude(three, 60))
        return 0;
    int64_t north = signed_number(three, 47, 4), south = signed_number(three, 56, 4);
    int64_t west = number(three, 51, 4), east = number(three, 60, 4);
    return north >= south && spans(east - west + (east < west ? 360000000 : 0), ni - 1, number(three, 64, 4))
        && spans(north - south, nj - 1, number(three, 68, 4));
}

/* What template 3.0 has of its own. */
static int judge_degrees(const uint8_t *three, uint32_t ni, uint32_t nj)
{
    return number(three, 39, 4) == 0 && number(three, 43, 4) == ALL_ONES && three[54] == 0x30 && three[71] == 0 && judge_places(three, ni, nj);
}

/* What template 3.30 has of its own. */
static int judge_lambert(const uint8_t *three)
{
    if (three[46] != 0x08 || three[63] || three[64] || !is_length(three, 56) || !is_length(three, 60))
        return 0;
    return is_latitude(three, 39) && is_longitude(three, 43) && is_latitude(three, 48) && is_longitude(three, 52) && is_latitude(three, 66)
        && is_latitude(three, 70);
}

static int judge_3(const uint8_t *three)
{
    uint32_t length = length_of(three);
    if (!(length == 72 && number(three, 13, 2) == 0) && !(length == 81 && number(three, 13, 2) == 30))
        return 0;
    if (three[5] || three[10] || three[11])
        return 0;
    uint32_t radius = number(three, 17, 4), ni = number(three, 31, 4), nj = number(three, 35, 4);
    if (three[14] != 6 && !(three[14] == 1 && three[15] == 0 && radius != 0 && radius != ALL_ONES))
        return 0;
    if (ni < 1 || ni > 65535 || nj < 1 || nj > 65535 || ni * nj > 16777216 || number(three, 7, 4) != ni * nj)
        return 0;
    return length == 72 ? judge_degrees(three, ni, nj) : judge_lambert(three);
}

static int judge_interval(const uint8_t *four, int64_t start, const int64_t *unit)
{
    if (four[41] != 1 || four[46] > 1 || four[48] > 2)
        return 0;
    return seconds_at(four, 35) == start + number(four, 50, 4) * unit[four[48]];
}

static int judge_4(const uint8_t *four, const uint8_t *one)
{
    static const int64_t unit[] = {60, 3600, 86400};
    uint32_t length = length_of(four);
    if (!(length == 34 && number(four, 8, 2) == 0) && !(length == 58 && number(four, 8, 2) == 8))
        return 0;
    uint32_t forecast = number(four, 19, 4), level = number(four, 25, 4);
    if (number(four, 6, 2) || four[17] > 2 || forecast > MOST || four[22] == 255)
        return 0;
    if (four[23] == 255 ? level != ALL_ONES : level > MOST)
        return 0;
    if (number(four, 29, 4) != ALL_ONES || number(four, 33, 2) != 0xffff)
        return 0;
    int64_t valid = seconds_at(one, 13) + forecast * unit[four[17]];
    return valid < days_until(2400, 1, 1) * 86400 && (length == 34 || judge_interval(four, valid, unit));
}

static int judge_5(const uint8_t *five)
{
    uint32_t length = length_of(five), n = number(five, 6, 4);
    if (!(length == 21 && number(five, 10, 2) == 0) && !(length == 49 && number(five, 10, 2) == 3))
        return 0;
    int64_t e = signed_number(five, 16, 2), d = signed_number(five, 18, 2);
    if ((number(five, 12, 2) & 0x7f80) == 0x7f80 || e < -127 || e > 127 || d < -22 || d > 22 || five[19] > 31 || five[20])
        return 0;
    if (length == 21)
        return 1;
    uint32_t count = number(five, 32, 4);
    if (five[21] != 1 || five[22] != 0 || five[35] > 31 || five[36] > 31 || five[46] > 31 || five[47] != 2)
        return 0;
    return five[48] >= 1 && five[48] <= 4 && n >= 2 && count >= 1 && count <= n;
}

/* --- Bits --- */

/* The eight octets at a place, the first counting most. */
INLINE uint64_t window(const uint8_t *at)
{
    return (uint64_t)at[0] << 56 | (uint64_t)at[1] << 48 | (uint64_t)at[2] << 40 | (uint64_t)at[3] << 32
        | (uint64_t)at[4] << 24 | (uint64_t)at[5] << 16 | (uint64_t)at[6] << 8 | at[7];
}

/* Up to 31 bits at a bit place of a section that holds them. */
INLINE uint64_t bits_at(const uint8_t *section, uint64_t length, uint64_t place, unsigned count)
{
    uint64_t octet = place / 8, octets = 0;
    if (octet + 8 <= length)
        return window(section + octet) << place % 8 >> 1 >> (63 - count);
    for (uint64_t i = 0; i < 8; i++)
        octets = octets << 8 | (octet + i < length ? section[octet + i] : 0);
    return octets << place % 8 >> 1 >> (63 - count);
}

INLINE int is_present(const uint8_t *bitmap, uint32_t point)
{
    return bitmap[point / 8] >> (7 - point % 8) & 1;
}

/* --- Sections 6 and 7 --- */

static uint32_t count_present(const uint8_t *bitmap, uint32_t points)
{
    uint32_t count = 0, whole = points / 64 * 64;
    for (uint32_t point = 0; point < whole; point += 64)
        count += (uint32_t)__builtin_popcountll(window(bitmap + point / 8));
    for (uint32_t point = whole; point < points; point++)
        count += (uint32_t)is_present(bitmap, point);
    return count;
}

/* Judges section 6, and finds the bitmap in force; it stays NULL where all points are present. */
static int judge_6(const uint8_t *file, const struct field *field, uint32_t points, uint32_t n, const uint8_t **bitmap)
{
    const uint8_t *six = file + field->six, *marks = file + field->bitmap;
    uint32_t length = length_of(six);
    if (length == 6 && six[5] == 255)
        return n == points;
    if (length < 6 || (six[5] != 0 && !(length == 6 && six[5] == 254 && field->bitmap)))
        return 0;
    if (length_of(marks) != 6 + (points + 7) / 8)
        return 0;
    *bitmap = marks + 6;
    return count_present(marks + 6, points) == n;
}

static uint64_t whole_octets(uint64_t bits)
{
    return (bits + 7) / 8 * 8;
}

static struct groups groups_of(const uint8_t *five, const uint8_t *seven)
{
    unsigned extra = five[48];
    struct groups g = {.section = seven, .length = length_of(seven), .count = number(five, 32, 4)};
    g.reference_bits = five[19], g.width_bits = five[36], g.length_bits = five[46];
    g.width_base = five[35], g.length_base = number(five, 38, 4), g.length_step = five[41], g.last_length = number(five, 43, 4);
    g.references = 8 * (5 + 3 * (uint64_t)extra);
    g.widths = g.references + whole_octets((uint64_t)g.count * g.reference_bits);
    g.lengths = g.widths + whole_octets((uint64_t)g.count * g.width_bits);
    g.packed = g.lengths + whole_octets((uint64_t)g.count * g.length_bits);
    if (g.packed / 8 <= g.length) {
        g.first = number(seven, 6, extra);
        g.second = number(seven, 6 + extra, extra);
        g.zmin = (uint64_t)signed_number(seven, 6 + 2 * extra, extra);
    }
    return g;
}

INLINE uint64_t reference_of(const struct groups *g, uint32_t group)
{
    return bits_at(g->section, g->length, g->references + (uint64_t)group * g->reference_bits, g->reference_bits);
}

INLINE uint32_t width_of(const struct groups *g, uint32_t group)
{
    return g->width_base + (uint32_t)bits_at(g->section, g->length, g->widths + (uint64_t)group * g->width_bits, g->width_bits);
}

INLINE uint64_t group_length(const struct groups *g, uint32_t group)
{
    if (group == g->count - 1)
        return g->last_length;
    return g->length_base + g->length_step * bits_at(g->section, g->length, g->lengths + (uint64_t)group * g->length_bits, g->length_bits);
}

/* Do the groups hold n values, and does the section end with the octet of the last bit? */
static int judge_groups(const struct groups *g, uint32_t n)
{
    uint64_t values = 0, bits = 0;
    if (g->packed / 8 > g->length)
        return 0;
    for (uint32_t group = 0; group < g->count; group++) {
        uint64_t length = group_length(g, group), width = width_of(g, group);
        values += length;
        bits += length * width;
        if (width > 31 || length == 0 || values > n)
            return 0;
    }
    return values == n && (g->packed + whole_octets(bits)) / 8 == g->length;
}

static int judge_7(const uint8_t *five, const uint8_t *seven)
{
    uint64_t n = number(five, 6, 4);
    if (length_of(five) == 21)
        return length_of(seven) == 5 + whole_octets(n * five[19]) / 8;
    struct groups g = groups_of(five, seven);
    return judge_groups(&g, (uint32_t)n);
}

/* --- Values --- */

static struct packing packing_of(const uint8_t *five)
{
    static const double tens[] = {1e0, 1e1, 1e2, 1e3, 1e4, 1e5, 1e6, 1e7, 1e8, 1e9, 1e10, 1e11, 1e12, 1e13, 1e14, 1e15, 1e16, 1e17, 1e18, 1e19, 1e20, 1e21, 1e22};
    int64_t e = signed_number(five, 16, 2), d = signed_number(five, 18, 2);
    uint32_t r_bits = number(five, 12, 4);
    uint64_t two_bits = (uint64_t)(1023 + e) << 52;
    struct packing packing = {.ten = tens[d < 0 ? -d : d]};
    float r;
    memcpy(&r, &r_bits, sizeof r);
    memcpy(&packing.two, &two_bits, sizeof two_bits);
    packing.r = r;
    return packing;
}

/* Whether it divides is handed on as a constant, so that no loop asks for it. */
INLINE double value_of(const struct packing *packing, int divides, uint64_t x)
{
    double sum = packing->r + (double)(int64_t)x * packing->two;
    return divides ? sum / packing->ten : sum * packing->ten;
}

INLINE void put(struct stretch to, uint32_t point, double value, uint8_t present)
{
    to.values[point] = value;
    to.presence[point] = present;
}

/* Puts the value of the next present point, and those of the missing points before it. Answers the point behind. */
INLINE uint32_t put_next(struct stretch to, const uint8_t *bitmap, uint32_t point, double value)
{
    while (bitmap != NULL && !is_present(bitmap, point))
        put(to, point++, 0.0, 0);
    put(to, point, value, 1);
    return point + 1;
}

INLINE void fill_simple(const uint8_t *seven, unsigned bits, const struct packing *packing, int divides, const uint8_t *bitmap, struct stretch to)
{
    const uint64_t length = length_of(seven);
    uint64_t place = 40;
    for (uint32_t point = 0; point < to.points; point++) {
        if (bitmap == NULL || is_present(bitmap, point)) {
            put(to, point, value_of(packing, divides, bits_at(seven, length, place, bits)), 1);
            place += bits;
        } else {
            put(to, point, 0.0, 0);
        }
    }
}

/* The numbers of a group that are used, and what each adds to the step: of the field's first two numbers, `unused` are still to be passed over. */
struct used {
    uint64_t count, base;
    unsigned width;
};

INLINE struct used next_group(const struct groups *g, uint32_t group, uint64_t *place, uint64_t *unused)
{
    const uint64_t length = group_length(g, group), passed = *unused < length ? *unused : length;
    const struct used used = {length - passed, reference_of(g, group) + g->zmin, width_of(g, group)};
    *unused -= passed;
    *place += passed * used.width;
    return used;
}

/* Is every X in its range? Sums wrap only behind an X that is not, and `seen` keeps that one's bits. */
static int is_in_range(const struct groups *g)
{
    uint64_t x = g->second, step = g->second - g->first, seen = g->first | g->second, place = g->packed, unused = 2;
    for (uint32_t group = 0; group < g->count && seen <= MOST; group++) {
        const struct used used = next_group(g, group, &place, &unused);
        for (uint64_t i = 0; i < used.count; i++, place += used.width) {
            step += bits_at(g->section, g->length, place, used.width) + used.base;
            x += step;
            seen |= x;
        }
    }
    return seen <= MOST;
}

INLINE void fill_groups(const struct groups *g, const struct packing *packing, int divides, const uint8_t *bitmap, struct stretch to)
{
    uint64_t x = g->second, step = g->second - g->first, place = g->packed, unused = 2;
    uint32_t point = put_next(to, bitmap, 0, value_of(packing, divides, g->first));
    point = put_next(to, bitmap, point, value_of(packing, divides, g->second));
    for (uint32_t group = 0; group < g->count; group++) {
        const struct used used = next_group(g, group, &place, &unused);
        for (uint64_t i = 0; i < used.count; i++, place += used.width) {
            step += bits_at(g->section, g->length, place, used.width) + used.base;
            x += step;
            point = put_next(to, bitmap, point, value_of(packing, divides, x));
        }
    }
    for (; point < to.points; point++)
        put(to, point, 0.0, 0);
}

INLINE void fill_as(const uint8_t *five, const uint8_t *seven, int divides, const uint8_t *bitmap, struct stretch to)
{
    const struct packing packing = packing_of(five);
    if (length_of(five) == 21) {
        fill_simple(seven, five[19], &packing, divides, bitmap, to);
    } else {
        const struct groups g = groups_of(five, seven);
        fill_groups(&g, &packing, divides, bitmap, to);
    }
}

/* Each case has loops of its own, which test nothing that stays the same in them. */
static void fill(const uint8_t *five, const uint8_t *seven, const uint8_t *bitmap, struct stretch to)
{
    int divides = signed_number(five, 18, 2) >= 0;
    if (divides && bitmap)
        fill_as(five, seven, 1, bitmap, to);
    else if (divides)
        fill_as(five, seven, 1, NULL, to);
    else if (bitmap)
        fill_as(five, seven, 0, bitmap, to);
    else
        fill_as(five, seven, 0, NULL, to);
}

/* Judges a file and its field k up to refusal 14, and finds the field's sections and its bitmap. */
static uint64_t judge_field(const uint8_t *file, size_t file_len, size_t k, struct field *field, const uint8_t **bitmap)
{
    uint64_t fault = walk_file(file, file_len, k, field);
    if (fault)
        return fault;
    const uint8_t *one = file + field->one, *three = file + field->three, *five = file + field->five;
    if (!judge_1(one))
        return refusal(9, field->one);
    if (!judge_3(three))
        return refusal(10, field->three);
    if (!judge_4(file + field->four, one))
        return refusal(11, field->four);
    if (!judge_5(five))
        return refusal(12, field->five);
    if (!judge_6(file, field, number(three, 7, 4), number(five, 6, 4), bitmap))
        return refusal(13, field->six);
    return judge_7(five, file + field->seven) ? 0 : refusal(14, field->seven);
}

uint64_t plain_decode(const uint8_t *file, size_t file_len, size_t k, size_t start, double *values, size_t values_len, uint8_t *presence, size_t presence_len)
{
    struct field field = {0};
    const uint8_t *bitmap = NULL;
    uint64_t fault = judge_field(file, file_len, k, &field, &bitmap);
    if (fault)
        return fault;
    const uint8_t *five = file + field.five, *seven = file + field.seven;
    uint32_t points = number(file + field.three, 7, 4);
    if (start > values_len || points > values_len - start || start > presence_len || points > presence_len - start)
        return refusal(15, 0);
    if (length_of(five) != 21) {
        const struct groups g = groups_of(five, seven);
        if (!is_in_range(&g))
            return refusal(16, field.seven);
    }
    fill(five, seven, bitmap, (struct stretch){values + start, presence + start, points});
    return points;
}

/* --- Pictures --- */

static uint64_t largest_of_simple(const uint8_t *seven, unsigned bits, uint32_t count)
{
    const uint64_t length = length_of(seven);
    uint64_t largest = 0, place = 40;
    for (uint32_t i = 0; i < count; i++, place += bits) {
        uint64_t x = bits_at(seven, length, place, bits);
        largest = x > largest ? x : largest;
    }
    return largest;
}

/* The largest X, or a number above the range where one is not in it: an X below 0 is a very large number here. */
static uint64_t largest_of_groups(const struct groups *g)
{
    uint64_t x = g->second, step = g->second - g->first, place = g->packed, unused = 2, largest = g->first > x ? g->first : x;
    for (uint32_t group = 0; group < g->count && largest <= MOST; group++) {
        const struct used used = next_group(g, group, &place, &unused);
        for (uint64_t i = 0; i < used.count; i++, place += used.width) {
            step += bits_at(g->section, g->length, place, used.width) + used.base;
            x += step;
            largest = x > largest ? x : largest;
        }
    }
    return largest;
}

/* The greys of a field, one octet a point. */
struct greys {
    uint8_t *restrict octets;
    uint32_t points;
    /* The largest X, or 1 where that is 0. */
    uint64_t largest;
};

INLINE uint8_t grey_of(struct greys to, uint64_t x)
{
    return (uint8_t)(1 + 254 * x / to.largest);
}

INLINE void paint_simple(const uint8_t *seven, unsigned bits, const uint8_t *bitmap, struct greys to)
{
    const uint64_t length = length_of(seven);
    uint64_t place = 40;
    for (uint32_t point = 0; point < to.points; point++) {
        if (bitmap == NULL || is_present(bitmap, point)) {
            to.octets[point] = grey_of(to, bits_at(seven, length, place, bits));
            place += bits;
        } else {
            to.octets[point] = 0;
        }
    }
}

/* Paints the next present point, and the missing points before it. Answers the point behind. */
INLINE uint32_t paint_next(struct greys to, const uint8_t *bitmap, uint32_t point, uint64_t x)
{
    while (bitmap != NULL && !is_present(bitmap, point))
        to.octets[point++] = 0;
    to.octets[point] = grey_of(to, x);
    return point + 1;
}

INLINE void paint_groups(const struct groups *g, const uint8_t *bitmap, struct greys to)
{
    uint64_t x = g->second, step = g->second - g->first, place = g->packed, unused = 2;
    uint32_t point = paint_next(to, bitmap, paint_next(to, bitmap, 0, g->first), g->second);
    for (uint32_t group = 0; group < g->count; group++) {
        const struct used used = next_group(g, group, &place, &unused);
        for (uint64_t i = 0; i < used.count; i++, place += used.width) {
            step += bits_at(g->section, g->length, place, used.width) + used.base;
            x += step;
            point = paint_next(to, bitmap, point, x);
        }
    }
    memset(to.octets + point, 0, to.points - point);
}

INLINE void paint_as(const uint8_t *five, const uint8_t *seven, const uint8_t *bitmap, struct greys to)
{
    if (length_of(five) == 21) {
        paint_simple(seven, five[19], bitmap, to);
    } else {
        const struct groups g = groups_of(five, seven);
        paint_groups(&g, bitmap, to);
    }
}

/* Puts a number in decimal digits at a place of a text that has room for it. Answers the place behind. */
static size_t put_decimal(char *text, size_t at, uint32_t number)
{
    if (number >= 10)
        at = put_decimal(text, at, number / 10);
    text[at] = (char)('0' + number % 10);
    return at + 1;
}

/* What stands before the greys: the two sizes between words of the format. Answers its length. */
static size_t put_head(char *head, uint32_t ni, uint32_t nj)
{
    memcpy(head, "P5\n", 3);
    size_t at = put_decimal(head, 3, ni);
    head[at++] = ' ';
    at = put_decimal(head, at, nj);
    memcpy(head + at, "\n255\n", 5);
    return at + 5;
}

/* One pass finds the largest X and judges them all, and another paints. */
uint64_t plain_picture(const uint8_t *file, size_t file_len, size_t k, uint8_t *picture, size_t picture_len)
{
    struct field field = {0};
    const uint8_t *bitmap = NULL;
    char head[20];
    uint64_t fault = judge_field(file, file_len, k, &field, &bitmap);
    if (fault)
        return fault;
    const uint8_t *three = file + field.three, *five = file + field.five, *seven = file + field.seven;
    size_t before = put_head(head, number(three, 31, 4), number(three, 35, 4));
    uint32_t points = number(three, 7, 4);
    if (picture_len < before + points)
        return refusal(15, 0);
    const struct groups g = length_of(five) == 21 ? (struct groups){0} : groups_of(five, seven);
    uint64_t largest = g.count > 0 ? largest_of_groups(&g) : largest_of_simple(seven, five[19], number(five, 6, 4));
    if (largest > MOST)
        return refusal(16, field.seven);
    const struct greys to = {picture + before, points, largest > 0 ? largest : 1};
    memcpy(picture, head, before);
    if (bitmap)
        paint_as(five, seven, bitmap, to);
    else
        paint_as(five, seven, NULL, to);
    return before + points;
}
