/* The rows of the table of rules.c, and what judges them. */
#ifndef JUDGE_H
#define JUDGE_H

#include "rules.h"

/* The years that a time can have. */
enum { FIRST_YEAR = 1900, LAST_YEAR = 2399 };

/* How a value is shown. */
enum form { NUMBER, SIGNED, HEXADECIMAL, LETTERS, SINGLE };

/* Which sections a row is about. */
enum when {
    ALWAYS,
    GRID,         /* a section 3 of template 3.0 or 3.30 */
    OWN_RADIUS,   /* with earth code 1 */
    OTHER_RADIUS, /* with another earth code */
    DEGREES,      /* of template 3.0 */
    LAMBERT,      /* of template 3.30 */
    PRODUCT,      /* a section 4 of template 4.0 or 4.8 */
    INTERVAL,     /* of template 4.8 */
    PACKING,      /* a section 5 of template 5.0 or 5.3 */
    SIMPLE,       /* of template 5.0, and a section 7 that comes after a section 5 of it which is good */
    COMPLEX       /* of template 5.3, in the same way */
};

/* Judges a row of the table for these sections: it writes the value and the rule of the line, and the verdict where there is one. */
struct row;
typedef void judge_row(const struct row *row, const struct sections *sections, struct line *line);

/* A row of the table. A row whose octets are 0 to 0 is about a part of section 6 or 7, and `judge` finds out where that is. */
struct row {
    int section;
    size_t first, last;
    const char *name;
    enum form form;
    enum when when;
    int64_t least, most; /* the limits of the number; there are none where the least is more than the most */
    const char *remark;  /* what is said after the limits, or the whole rule where there are none */
    const char *octets;  /* the octets of a rule that is about several numbers */
    judge_row *judge;    /* or NULL, where the limits are all that is judged */
};

/* ---- judge.c */

judge_row judge_limits, judge_either, judge_message_length, judge_calendar, judge_point_count, judge_latitudes, judge_span_east, judge_span_south,
          judge_length_and_template, judge_parameter, judge_surface, judge_factor, judge_scaled_level, judge_level, judge_valid_time, judge_interval,
          judge_finite, judge_group_count, judge_indicator, judge_bitmap_length, judge_bitmap, judge_earlier_bitmap, judge_present,
          judge_next_length, judge_next_number, judge_end, judge_file_length;

/* The number of a row, with its sign where the row's form says that it has one. It has at most four octets: only the length of a message has more. */
int64_t value_of(const struct row *row, const struct sections *sections);

/* Writes the limits of a row in words: "34", "0 or 1", "from 1 to 65,535", "at least 6". The text has LINE_ROOM octets, here and below. */
void write_limits(const struct row *row, char *text);

/* Writes a number with a comma before every three digits, as in RULES. */
void write_with_commas(int64_t number, char *text);

/* Writes which octets a line is about, from one to another. */
void write_octets(struct line *line, size_t first, size_t last);

/* Says that a line is not judged, because it speaks of numbers of a section that is refused. */
void say_refused(struct line *line, int section);

enum verdict verdict_of(int is_rule_kept);

/* ---- groups.c */

judge_row judge_data_length, judge_packed, judge_start, judge_references, judge_widths, judge_lengths, judge_group_widths, judge_group_lengths,
          judge_sum_of_lengths, judge_packed_groups, judge_integers;

/* ---- rules.c */

/* Is the section there, and does it keep every rule? */
int is_kept(const struct sections *sections, int section);

/* Is section 5 good, so that section 7 can be judged by it? More values than any grid has points are refused with section 6, and are not followed. */
int is_packing_known(const struct sections *sections);

#endif
