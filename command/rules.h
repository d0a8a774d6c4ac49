/* The table of the octets of each section and of the rules that they are held to (RULES, "Tiling a file" and "Sections in force"), as lines that can be
 * printed, and the way through a file that finds the sections. `dump` prints the lines. Nothing here reads outside the file, whatever its octets are. */
#ifndef RULES_H
#define RULES_H

#include "command.h"

/* What has rows in the table: sections 0 to 7; the end of a message, 7777; what stands where a section should start; and the file as a whole. */
enum { END = 8, NEXT = 9, WHOLE_FILE = 10, KINDS = 11 };

/* A part of the file. */
struct stretch {
    size_t place, length;
};

/* The sections in force at one place of a file, by their numbers. One that is not there has the length 0. */
struct sections {
    struct octets file;
    struct stretch at[KINDS];
    struct stretch bitmap; /* the section 6 whose bitmap an indicator 254 uses again */
    int before;            /* the number of the section before the place */
};

/* ---- sections.c: numbers of a section, and the way through a file */

/* The octet of a section, counted from 1; 0 where the section ends before it. */
uint8_t octet_at(const struct sections *sections, int section, size_t octet);

/* The number in some octets of a section, the first counting most; and the number whose top bit is its sign, and whose other bits are its size. */
uint64_t number_at(const struct sections *sections, int section, size_t first, size_t last);
int64_t signed_at(const struct sections *sections, int section, size_t first, size_t last);

/* The number of so many bits, at most 31, from one bit on of a packed run that starts after so many octets of a section. The top bit of an octet comes
 * first, and a number of 0 bits is 0. */
uint64_t packed_at(const struct sections *sections, int section, size_t after, uint64_t first_bit, unsigned bits);

/* How many octets so many bits take. */
uint64_t octets_for(uint64_t bits);

/* Is a section of this number allowed after the one before? */
int may_follow(int number, int before);

/* A refusal, as the library gives it. */
uint64_t refusal_at(uint32_t number, size_t place);

/* The way through a file, from section to section. */
struct walk {
    struct sections sections;
    size_t messages, fields; /* how many were met; a field is met where its section 7 is */
    size_t next, end;        /* where the next section starts, and where sections must end */
    uint64_t fault;          /* the refusal from 1 to 7 that ends the way, or 0 */
    int section;             /* the section that it is about */
    const char *step;        /* the rule of the tiling that is broken */
};

struct walk start_walk(struct octets file);

/* Goes on to the next message: is there one? Where it has a fault, what can be followed of it follows all the same. */
int next_message(struct walk *walk);

/* Goes on to the next section of the message: its number, or 0 where none follows. */
int next_section(struct walk *walk);

/* Goes on until field k has been met, or to the fault: was the field met? */
int walk_to_field(struct walk *walk, size_t k);

/* ---- rules.c: the lines of a section */

enum verdict {
    KEPT,      /* the octets keep their rule */
    UNJUDGED,  /* they have no rule, or one that speaks of numbers which are wrong themselves */
    BROKEN,    /* they break it */
    NOT_THERE, /* the section ends before them */
    ABSENT     /* the row is about another kind of section than this one */
};

enum { LINE_ROOM = 120 };

/* A row of the table for the octets of one section. */
struct line {
    enum verdict verdict;
    int section;
    int is_one_number;  /* and not a rule over several numbers, or a run */
    uint32_t refusal;   /* what a field is refused with where the rule is broken */
    size_t first, last; /* the octets, counted from 1; there is none where the last is less than the first */
    char octets[LINE_ROOM], shown[LINE_ROOM], name[LINE_ROOM], value[LINE_ROOM], rule[LINE_ROOM];
};

/* All lines of a section, one after the other, also for octets that are missing and for octets that no rule names. */
struct lines {
    const struct sections *sections;
    int section;
    size_t row, covered, first_missing, last_missing;
};

struct lines lines_of(const struct sections *sections, int section);
int next_line(struct lines *lines, struct line *line);

/* What the section is about. */
const char *section_name(int section);

/* The refusal that the table gives for a field, when `sections` are those in force for it; or 0 where it takes the field. */
uint64_t refusal_by_table(const struct sections *sections);

#endif
