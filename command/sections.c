/* The numbers in the octets of a section, and the way through a file from section to section (RULES, "Tiling a file"). Nothing here reads outside the
 * section, or outside the file, whatever the octets are. */
#include "rules.h"

#include <string.h>

/* ---- Numbers of a section */

uint8_t octet_at(const struct sections *sections, int section, size_t octet)
{
    const struct stretch *at = &sections->at[section];
    return octet >= 1 && octet <= at->length ? sections->file.first[at->place + octet - 1] : 0;
}

uint64_t number_at(const struct sections *sections, int section, size_t first, size_t last)
{
    uint64_t number = 0;
    for (size_t octet = first; octet <= last; octet++)
        number = number << 8 | octet_at(sections, section, octet);
    return number;
}

int64_t signed_at(const struct sections *sections, int section, size_t first, size_t last)
{
    uint64_t number = number_at(sections, section, first, last), top = UINT64_C(1) << (8 * (last - first) + 7);
    return number & top ? -(int64_t)(number ^ top) : (int64_t)number;
}

uint64_t packed_at(const struct sections *sections, int section, size_t after, uint64_t first_bit, unsigned bits)
{
    size_t octet = after + first_bit / 8 + 1, last = after + (first_bit + bits + 7) / 8;
    if (bits == 0)
        return 0;
    uint64_t number = number_at(sections, section, octet, last) >> (8 * (last - octet + 1) - first_bit % 8 - bits);
    return number & ((UINT64_C(1) << bits) - 1);
}

uint64_t octets_for(uint64_t bits)
{
    return (bits + 7) / 8;
}

/* ---- The way through a file */

uint64_t refusal_at(uint32_t number, size_t place)
{
    return UINT64_C(1) << 63 | (uint64_t)number << 32 | place;
}

int may_follow(int number, int before)
{
    return before == 7 ? number == 3 || number == 4 : number == (before == 0 ? 1 : before == 1 ? 3 : before + 1);
}

static void stop_walk(struct walk *walk, uint32_t number, size_t place, int section, const char *step)
{
    walk->fault = refusal_at(number, place);
    walk->section = section;
    walk->step = step;
}

struct walk start_walk(struct octets file)
{
    struct walk walk;
    memset(&walk, 0, sizeof walk);
    walk.sections.file = file;
    walk.sections.at[WHOLE_FILE].length = file.length;
    if (file.length > SKEPTOLYR_MOST_OCTETS)
        stop_walk(&walk, SKEPTOLYR_TOO_LONG, 0, WHOLE_FILE, "the file is too long");
    else if (file.length == 0)
        stop_walk(&walk, SKEPTOLYR_EMPTY, 0, WHOLE_FILE, "the file is empty");
    return walk;
}

enum { HEAD_OF_MESSAGE = 16, SHORTEST_MESSAGE = 20, LENGTH_OF_END = 4, HEAD_OF_SECTION = 5 };

/* Steps a to e of the tiling, in this order. */
static void judge_message(struct walk *walk, size_t place, size_t left)
{
    const struct sections *sections = &walk->sections;
    uint64_t length = number_at(sections, 0, 9, 16);
    if (left < HEAD_OF_MESSAGE) {
        stop_walk(walk, SKEPTOLYR_CUT, place, 0, "step a: the file has fewer than 16 octets from here on");
    } else if (memcmp(sections->file.first + place, "GRIB", 4) != 0 || octet_at(sections, 0, 8) != 2) {
        stop_walk(walk, SKEPTOLYR_NOT_GRIB2, place, 0, "step b: a message starts with GRIB, and its edition is 2");
    } else if (length < SHORTEST_MESSAGE) {
        stop_walk(walk, SKEPTOLYR_BAD_LENGTH, place, 0, "step c: a message has at least 20 octets");
    } else if (length > left) {
        stop_walk(walk, SKEPTOLYR_CUT, place, 0, "step d: the file ends before the message does");
        walk->end = sections->file.length;
    } else {
        walk->end = place + length - LENGTH_OF_END;
        walk->sections.at[END].place = walk->end;
        walk->sections.at[END].length = LENGTH_OF_END;
        if (memcmp(sections->file.first + walk->end, "7777", LENGTH_OF_END) != 0)
            stop_walk(walk, SKEPTOLYR_NO_END, place, END, "step e: a message ends in 7777 where its length says");
    }
}

int next_message(struct walk *walk)
{
    struct sections *sections = &walk->sections;
    struct octets file = sections->file;
    size_t place = sections->at[END].place + sections->at[END].length, left = file.length - place;
    if (walk->fault != 0 || left == 0)
        return 0;
    memset(sections, 0, sizeof *sections);
    sections->file = file;
    sections->at[WHOLE_FILE].length = file.length;
    sections->at[0].place = place;
    sections->at[0].length = left < HEAD_OF_MESSAGE ? left : HEAD_OF_MESSAGE;
    walk->next = walk->end = place + sections->at[0].length;
    judge_message(walk, place, left);
    walk->messages++;
    return 1;
}

/* Takes a section that may stand where it stands. It ends what was in force of the sections that come after it in a field, and a grid ends the bitmap. */
static void enter_section(struct sections *sections, int number, size_t place, size_t length)
{
    const struct stretch entered = {place, length}, nothing = {0, 0};
    for (int later = number + 1; later <= 7; later++)
        sections->at[later] = nothing;
    if (number == 3)
        sections->bitmap = nothing;
    sections->at[number] = entered;
    if (number == 6 && length > HEAD_OF_SECTION && octet_at(sections, 6, 6) == 0)
        sections->bitmap = entered;
    sections->before = number;
}

int next_section(struct walk *walk)
{
    struct sections *sections = &walk->sections;
    size_t left = walk->end - walk->next;
    uint64_t length;
    int number;
    sections->at[NEXT].place = walk->next;
    sections->at[NEXT].length = left;
    length = number_at(sections, NEXT, 1, 4);
    number = octet_at(sections, NEXT, 5);
    if (left > 0 && left >= HEAD_OF_SECTION && length >= HEAD_OF_SECTION && length <= left && may_follow(number, sections->before)) {
        enter_section(sections, number, walk->next, length);
        walk->next += length;
        walk->fields += number == 7;
        return number;
    }
    if (walk->fault != 0)
        return 0;
    if (left == 0 && sections->before != 7)
        stop_walk(walk, SKEPTOLYR_OUT_OF_PLACE, walk->next, END, "case f2: a message ends after a section 7");
    else if (left > 0 && (left < HEAD_OF_SECTION || length < HEAD_OF_SECTION || length > left))
        stop_walk(walk, SKEPTOLYR_BAD_LENGTH, walk->next, NEXT, "case f3: a section has at least 5 octets and ends before 7777");
    else if (left > 0)
        stop_walk(walk, SKEPTOLYR_OUT_OF_PLACE, walk->next, NEXT, "case f4: this section may not follow the one before it");
    return 0;
}

int walk_to_field(struct walk *walk, size_t k)
{
    while (next_message(walk))
        while (next_section(walk) != 0)
            if (walk->sections.before == 7 && walk->fields == k + 1)
                return 1;
    return 0;
}
