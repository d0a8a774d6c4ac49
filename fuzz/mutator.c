/* The fuzzer's mutations, made to keep a file's tiling.
 *
 * libFuzzer changes octets anywhere, and one octet more inside a section leaves a file that no longer tiles. So most mutations here change the
 * body of one section, and put its length and its message's length right; most of these then put right what of its field follows from the rest,
 * so that the field may still be decoded. Some close a file that does not tile. A few repeat sections, make a grid one of the other kind or change the
 * question; and a few are libFuzzer's own, which damage anything. */
#include "question.h"

#include <stddef.h>
#include <stdint.h>
#include <string.h>

/* libFuzzer's own mutation, and the one that it calls in its place. */
size_t LLVMFuzzerMutate(uint8_t *data, size_t size, size_t max_size);
size_t LLVMFuzzerCustomMutator(uint8_t *data, size_t size, size_t max_size, unsigned int seed);

enum { MOST_SECTIONS = 128, SECTION_HEAD = 5, FIRST_SECTION = 16, CLOSING = 4, MOST_OCTETS = 65536, MOST_GROUPS = 1024 };

/* The length of section 3, and where the first point stands in it: on a grid in degrees, and on a Lambert grid. */
enum { DEGREES_LENGTH = 72, DEGREES_FIRST = 46, LAMBERT_LENGTH = 81, LAMBERT_FIRST = 38, OCTETS_OF_POINT = 8 };

/* A section that was found: where its message starts, and where it starts and ends. */
struct section {
    size_t message, start, end;
};

/* The sections of an input, as far as they tile. */
struct sections {
    struct section found[MOST_SECTIONS];
    size_t count;
};

static uint64_t get_number(const uint8_t *octets, int count)
{
    uint64_t number = 0;
    for (int i = 0; i < count; i++)
        number = number << 8 | octets[i];
    return number;
}

static void put_number(uint8_t *octets, int count, uint64_t number)
{
    for (int i = 0; i < count; i++)
        octets[i] = (uint8_t)(number >> 8 * (count - 1 - i));
}

/* Where the sections of a message end, or 0 where there is no message. */
static size_t end_of_sections(const uint8_t *data, size_t size, size_t message)
{
    if (size - message < FIRST_SECTION + CLOSING)
        return 0;
    uint64_t length = get_number(data + message + 8, 8);
    return length < FIRST_SECTION + CLOSING || length > size - message ? 0 : message + (size_t)length - CLOSING;
}

static void find_in_message(const uint8_t *data, size_t message, size_t end, struct sections *all)
{
    size_t start = message + FIRST_SECTION;
    while (all->count < MOST_SECTIONS && end - start >= SECTION_HEAD) {
        uint64_t length = get_number(data + start, 4);
        if (length < SECTION_HEAD || length > end - start)
            return;
        struct section s = {message, start, start + (size_t)length};
        all->found[all->count++] = s;
        start = s.end;
    }
}

static void find(const uint8_t *data, size_t size, struct sections *all)
{
    size_t end, message = QUESTION_OCTETS;
    all->count = 0;
    while (message < size && (end = end_of_sections(data, size, message)) != 0) {
        find_in_message(data, message, end, all);
        message = end + CLOSING;
    }
}

/* Makes a section's body so many octets long, without saying which, and puts both lengths right. Gives the input's new size. */
static size_t resize(uint8_t *data, size_t size, struct section s, size_t body)
{
    size_t before = s.end - s.start, now = SECTION_HEAD + body;
    memmove(data + s.start + now, data + s.end, size - s.end);
    put_number(data + s.start, 4, now);
    put_number(data + s.message + 8, 8, get_number(data + s.message + 8, 8) - before + now);
    return size - before + now;
}

static size_t change_body(uint8_t *data, size_t size, size_t max_size, struct section s)
{
    static uint8_t body[MOST_OCTETS];
    size_t length = s.end - s.start - SECTION_HEAD, most = length + (max_size - size);
    if (most == 0 || most > MOST_OCTETS)
        return LLVMFuzzerMutate(data, size, max_size);
    memcpy(body, data + s.start + SECTION_HEAD, length);
    size_t now = LLVMFuzzerMutate(body, length, most);
    size = resize(data, size, s, now);
    memcpy(data + s.start + SECTION_HEAD, body, now);
    return size;
}

/* The sections from this one to the end of its message stand there twice: one field more, or one grid. */
static size_t repeat(uint8_t *data, size_t size, size_t max_size, struct section s)
{
    size_t end = end_of_sections(data, size, s.message), length = end - s.start;
    if (length > max_size - size)
        return LLVMFuzzerMutate(data, size, max_size);
    memmove(data + end + length, data + end, size - end);
    memcpy(data + end, data + s.start, length);
    put_number(data + s.message + 8, 8, get_number(data + s.message + 8, 8) + length);
    return size + length;
}

/* ---- what of a field follows from the rest of it */

static int number_of(const uint8_t *data, struct section s)
{
    return data[s.start + 4];
}

/* So many bits from a bit place on; those behind the octets are 0. */
static uint64_t get_bits(const uint8_t *octets, size_t length, uint64_t place, int bits)
{
    uint64_t found = 0;
    for (uint64_t i = place; i < place + (uint64_t)bits; i++)
        found = found << 1 | (i / 8 < length ? octets[i / 8] >> (7 - i % 8) & 1 : 0);
    return found;
}

/* The section 3 in force for a section. */
static struct section grid_of(const uint8_t *data, const struct sections *all, size_t chosen)
{
    while (chosen > 0 && number_of(data, all->found[chosen]) != 3)
        chosen--;
    return all->found[chosen];
}

/* N, from the grid in force and from section 6, where that is not 254. */
static void put_count(uint8_t *data, const struct sections *all, size_t seven)
{
    struct section three = grid_of(data, all, seven), five = all->found[seven - 2], six = all->found[seven - 1];
    const uint8_t *bitmap = data + six.start + 6;
    size_t length = six.end - six.start;
    if (three.end - three.start < 10 || length < 6 || bitmap[-1] == 254)
        return;
    uint64_t points = get_number(data + three.start + 6, 4), present = bitmap[-1] == 0 ? 0 : points;
    for (uint64_t i = 0; bitmap[-1] == 0 && i < points && i / 8 < length - 6; i++)
        present += get_bits(bitmap, length - 6, i, 1);
    put_number(data + five.start + 5, 4, present);
}

static uint64_t octets_for(uint64_t count, int bits)
{
    return (count * (uint64_t)bits + 7) / 8;
}

/* The octets of section 7's body by template 5.3. The last group's length, in section 5, is made what the others leave of N. */
static uint64_t fit_groups(uint8_t *five, const uint8_t *body, size_t length)
{
    uint64_t groups = get_number(five + 31, 4), left = get_number(five + 5, 4), bits = 0;
    uint64_t widths = 3 * (uint64_t)five[48] + octets_for(groups, five[19]), lengths = widths + octets_for(groups, five[36]);
    for (uint64_t i = 0; i < groups && i < MOST_GROUPS; i++) {
        uint64_t width = five[35] + get_bits(body, length, 8 * widths + i * five[36], five[36] % 32);
        uint64_t count = get_number(five + 37, 4) + five[41] * get_bits(body, length, 8 * lengths + i * five[46], five[46] % 32);
        if (i + 1 == groups) {
            count = left;
            put_number(five + 42, 4, left);
        }
        bits += width * count;
        left -= count;
    }
    return lengths + octets_for(groups, five[46]) + octets_for(bits, 1);
}

/* Puts right N, the last group's length and the length of section 7, in the first field whose section 7 is not before the one chosen. */
static size_t fit(uint8_t *data, size_t size, size_t max_size, const struct sections *all, size_t chosen)
{
    size_t seven = chosen;
    while (seven + 1 < all->count && number_of(data, all->found[seven]) != 7)
        seven++;
    if (seven < 2 || seven >= all->count || number_of(data, all->found[seven]) != 7 || number_of(data, all->found[seven - 2]) != 5)
        return size;
    struct section s = all->found[seven];
    uint8_t *five = data + all->found[seven - 2].start;
    size_t body = s.end - s.start - SECTION_HEAD, length = all->found[seven - 2].end - all->found[seven - 2].start;
    if (length != 21 && length != 49)
        return size;
    put_count(data, all, seven);
    uint64_t wanted = length == 21 ? octets_for(get_number(five + 5, 4), five[19]) : fit_groups(five, data + s.start + SECTION_HEAD, body);
    if (wanted > body + (max_size - size))
        return size;
    size = resize(data, size, s, (size_t)wanted);
    if (wanted > body)
        memset(data + s.end, 0x5a, (size_t)wanted - body);
    return size;
}

/* ---- the kind of a grid */

/* Section 3 from its template on, as a grid in degrees of any size may have it: all of its points lie at the first, with steps of 0. */
static void put_degrees(uint8_t *three, const uint8_t *first)
{
    put_number(three + 12, 2, 0);
    put_number(three + 38, 4, 0);
    put_number(three + 42, 4, UINT32_MAX);
    memcpy(three + DEGREES_FIRST, first, OCTETS_OF_POINT);
    three[54] = 0x30;
    memcpy(three + 55, first, OCTETS_OF_POINT);
    put_number(three + 63, 8, 0);
    three[71] = 0;
}

/* The same of a Lambert grid, on the Agency's cone. */
static void put_lambert(uint8_t *three, const uint8_t *first)
{
    put_number(three + 12, 2, 30);
    memcpy(three + LAMBERT_FIRST, first, OCTETS_OF_POINT);
    three[46] = 0x08;
    put_number(three + 47, 4, 30000000);
    put_number(three + 51, 4, 140000000);
    put_number(three + 55, 4, 5000000);
    put_number(three + 59, 4, 5000000);
    put_number(three + 63, 2, 0);
    put_number(three + 65, 4, 60000000);
    put_number(three + 69, 4, 30000000);
    put_number(three + 73, 8, UINT64_MAX);
}

/* Makes the grid in force for a section one of the other kind. The earth, Ni, Nj and the first point stay. */
static size_t change_kind(uint8_t *data, size_t size, size_t max_size, struct section s)
{
    uint8_t first[OCTETS_OF_POINT];
    size_t length = s.end - s.start;
    if ((length != DEGREES_LENGTH && length != LAMBERT_LENGTH) || LAMBERT_LENGTH - DEGREES_LENGTH > max_size - size)
        return LLVMFuzzerMutate(data, size, max_size);
    memcpy(first, data + s.start + (length == DEGREES_LENGTH ? DEGREES_FIRST : LAMBERT_FIRST), OCTETS_OF_POINT);
    size = resize(data, size, s, (length == DEGREES_LENGTH ? LAMBERT_LENGTH : DEGREES_LENGTH) - SECTION_HEAD);
    if (length == DEGREES_LENGTH)
        put_lambert(data + s.start, first);
    else
        put_degrees(data + s.start, first);
    return size;
}

/* ---- one mutation */

static size_t change_question(uint8_t *data, size_t size)
{
    uint8_t question[QUESTION_OCTETS];
    memcpy(question, data, QUESTION_OCTETS);
    memcpy(data, question, LLVMFuzzerMutate(question, QUESTION_OCTETS, QUESTION_OCTETS));
    return size;
}

/* Closes the last message that was found behind its last section that was found, and leaves out the rest of the file. */
static size_t close_message(uint8_t *data, size_t size, size_t max_size, const struct sections *all)
{
    struct section last = all->found[all->count - 1];
    if (last.end > max_size - CLOSING)
        return size;
    memcpy(data + last.message, "GRIB", 4);
    data[last.message + 7] = 2;
    put_number(data + last.message + 8, 8, last.end + CLOSING - last.message);
    memcpy(data + last.end, "7777", CLOSING);
    return last.end + CLOSING;
}

/* One of the sections, or the first from there on that is a 5, 6 or 7: most of what is worked out is in those. */
static size_t choose(const uint8_t *data, const struct sections *all, size_t chosen, int is_late)
{
    while (is_late && chosen + 1 < all->count && number_of(data, all->found[chosen]) < 5)
        chosen++;
    return chosen;
}

size_t LLVMFuzzerCustomMutator(uint8_t *data, size_t size, size_t max_size, unsigned int seed)
{
    static struct sections all;
    unsigned int way = seed % 16, is_closed = seed / 16 % 2, is_late = seed / 32 % 2, is_fitted = seed / 64 % 4 > 0;
    find(data, size, &all);
    if (all.count == 0 || way == 0)
        return LLVMFuzzerMutate(data, size, max_size);
    if (way == 1)
        return change_question(data, size);
    if (is_closed)
        size = close_message(data, size, max_size, &all);
    size_t chosen = choose(data, &all, seed / 256 % all.count, (int)is_late);
    if (way == 2)
        return repeat(data, size, max_size, all.found[chosen]);
    if (way == 3)
        return change_kind(data, size, max_size, grid_of(data, &all, chosen));
    size = change_body(data, size, max_size, all.found[chosen]);
    find(data, size, &all);
    return is_fitted ? fit(data, size, max_size, &all, chosen) : size;
}
