/* The functions that judge the rows of section 7: the parts of it, the groups, and the integers X (RULES, "Section 7"). */
#include "judge.h"

#include <inttypes.h>
#include <string.h>

enum { BEFORE_DATA = 5, WIDEST = 31 };

/* What section 5 says of the groups, and after how many octets of section 7 each part of it starts. */
struct plan {
    uint64_t n, groups, width, length, increment, last;
    unsigned bits, width_bits, length_bits, extra;
    uint64_t references, widths, lengths, values;
};

static struct plan plan_of(const struct sections *sections)
{
    struct plan plan = {0};
    plan.n = number_at(sections, 5, 6, 9);
    plan.bits = octet_at(sections, 5, 20);
    plan.groups = number_at(sections, 5, 32, 35);
    plan.width = octet_at(sections, 5, 36);
    plan.width_bits = octet_at(sections, 5, 37);
    plan.length = number_at(sections, 5, 38, 41);
    plan.increment = octet_at(sections, 5, 42);
    plan.last = number_at(sections, 5, 43, 46);
    plan.length_bits = octet_at(sections, 5, 47);
    plan.extra = octet_at(sections, 5, 49);
    plan.references = BEFORE_DATA + 3 * plan.extra;
    plan.widths = plan.references + octets_for(plan.groups * plan.bits);
    plan.lengths = plan.widths + octets_for(plan.groups * plan.width_bits);
    plan.values = plan.lengths + octets_for(plan.groups * plan.length_bits);
    return plan;
}

static uint64_t width_of(const struct sections *sections, const struct plan *plan, uint64_t group)
{
    return plan->width + packed_at(sections, 7, plan->widths, group * plan->width_bits, plan->width_bits);
}

/* The length that is stored for the last group is not used. */
static uint64_t length_of(const struct sections *sections, const struct plan *plan, uint64_t group)
{
    uint64_t scaled = packed_at(sections, 7, plan->lengths, group * plan->length_bits, plan->length_bits);
    return group + 1 == plan->groups ? plan->last : plan->length + plan->increment * scaled;
}

/* The first group whose width is too large; or the number of groups, where there is none. */
static uint64_t first_too_wide(const struct sections *sections, const struct plan *plan)
{
    uint64_t group = 0;
    while (group < plan->groups && width_of(sections, plan, group) <= WIDEST)
        group++;
    return group;
}

/* The first group that has no value; or the number of groups, where there is none. */
static uint64_t first_empty(const struct sections *sections, const struct plan *plan)
{
    uint64_t group = 0;
    while (group < plan->groups && length_of(sections, plan, group) > 0)
        group++;
    return group;
}

/* At most 2^24 groups are followed, each shorter than 2^40, so that the sum has room in 64 bits. */
static uint64_t sum_of_lengths(const struct sections *sections, const struct plan *plan)
{
    uint64_t sum = 0;
    for (uint64_t group = 0; group < plan->groups; group++)
        sum += length_of(sections, plan, group);
    return sum;
}

/* Are the parts before the packed values there, and do they describe groups? */
static int are_groups_good(const struct sections *sections, const struct plan *plan)
{
    return plan->values <= sections->at[7].length && first_too_wide(sections, plan) == plan->groups && first_empty(sections, plan) == plan->groups
        && sum_of_lengths(sections, plan) == plan->n;
}

/* The length of section 7 that fits groups which are good. */
static uint64_t length_for_groups(const struct sections *sections, const struct plan *plan)
{
    uint64_t bits = 0;
    for (uint64_t group = 0; group < plan->groups; group++)
        bits += length_of(sections, plan, group) * width_of(sections, plan, group);
    return plan->values + octets_for(bits);
}

/* The length that section 7 must have, or 0 where that cannot be told. */
static uint64_t length_by_packing(const struct sections *sections)
{
    struct plan plan = plan_of(sections);
    if (number_at(sections, 5, 10, 11) == 0)
        return BEFORE_DATA + octets_for(plan.n * plan.bits);
    return are_groups_good(sections, &plan) ? length_for_groups(sections, &plan) : 0;
}

void judge_data_length(const struct row *row, const struct sections *sections, struct line *line)
{
    uint64_t length = (uint64_t)value_of(row, sections), wanted = 0;
    snprintf(line->value, LINE_ROOM, "%" PRIu64, length);
    if (!is_kept(sections, 5)) {
        say_refused(line, 5);
        return;
    }
    if (is_packing_known(sections))
        wanted = length_by_packing(sections);
    if (wanted == 0) {
        snprintf(line->rule, LINE_ROOM, "not judged: a part is wrong");
        return;
    }
    char text[LINE_ROOM];
    write_with_commas((int64_t)wanted, text);
    snprintf(line->rule, LINE_ROOM, "%.20s, as its parts take", text);
    line->verdict = verdict_of(length == wanted);
}

/* Adds a number to those that are shown of a run: is there room for more? Where there is none, two points say so. */
static int add_to_run(struct line *line, int64_t number)
{
    enum { RUN_COLUMNS = 16 };
    char text[LINE_ROOM];
    size_t length = strlen(line->value);
    int added = snprintf(text, sizeof text, "%s%" PRId64, length > 0 ? " " : "", number);
    int has_room = length + (size_t)added + 3 <= RUN_COLUMNS;
    snprintf(line->value + length, LINE_ROOM - length, "%.30s", has_room ? text : length > 0 ? " .." : "..");
    return has_room;
}

/* A part of so many numbers, each of so many bits, that starts after so many octets. Where the section ends before it does, nothing is shown. */
static void show_part(const struct row *row, const struct sections *sections, struct line *line, uint64_t after, uint64_t count, unsigned bits)
{
    line->first = after + 1;
    line->last = after + octets_for(count * bits);
    snprintf(line->name, LINE_ROOM, "%s, %" PRIu64 " of %u bit%s", row->name, count, bits, bits == 1 ? "" : "s");
    snprintf(line->rule, LINE_ROOM, "%s", row->remark);
    line->verdict = row->least > row->most ? UNJUDGED : KEPT;
    if (line->last > sections->at[7].length) {
        line->verdict = NOT_THERE;
        return;
    }
    for (uint64_t i = 0; i < count; i++)
        if (!add_to_run(line, (int64_t)packed_at(sections, 7, after, i * bits, bits)))
            break;
}

void judge_packed(const struct row *row, const struct sections *sections, struct line *line)
{
    struct plan plan = plan_of(sections);
    show_part(row, sections, line, BEFORE_DATA, plan.n, plan.bits);
}

/* The first value, the second, and Zmin: the row says which of them, from 0 on. */
void judge_start(const struct row *row, const struct sections *sections, struct line *line)
{
    struct plan plan = plan_of(sections);
    line->first = BEFORE_DATA + (size_t)row->most * plan.extra + 1;
    line->last = line->first + plan.extra - 1;
    int64_t number = row->form == SIGNED ? signed_at(sections, 7, line->first, line->last) : (int64_t)number_at(sections, 7, line->first, line->last);
    snprintf(line->value, LINE_ROOM, "%" PRId64, number);
    snprintf(line->rule, LINE_ROOM, "%s", row->remark);
    if (line->last > sections->at[7].length)
        line->verdict = NOT_THERE;
}

void judge_references(const struct row *row, const struct sections *sections, struct line *line)
{
    struct plan plan = plan_of(sections);
    show_part(row, sections, line, plan.references, plan.groups, plan.bits);
}

void judge_widths(const struct row *row, const struct sections *sections, struct line *line)
{
    struct plan plan = plan_of(sections);
    show_part(row, sections, line, plan.widths, plan.groups, plan.width_bits);
}

void judge_lengths(const struct row *row, const struct sections *sections, struct line *line)
{
    struct plan plan = plan_of(sections);
    show_part(row, sections, line, plan.lengths, plan.groups, plan.length_bits);
}

/* A number of each group, which section 5 and what is stored give together. The first group whose number is wrong is shown, where there is one. */
static void show_groups(const struct row *row, const struct sections *sections, struct line *line, const struct plan *plan, uint64_t wrong,
                        uint64_t (*number_of)(const struct sections *sections, const struct plan *plan, uint64_t group))
{
    snprintf(line->rule, LINE_ROOM, "%s", row->remark);
    line->verdict = verdict_of(wrong == plan->groups);
    for (uint64_t group = 0; group < plan->groups; group++)
        if (!add_to_run(line, (int64_t)number_of(sections, plan, group)))
            break;
    if (wrong < plan->groups)
        snprintf(line->value, LINE_ROOM, "%" PRIu64 " in group %" PRIu64, number_of(sections, plan, wrong), wrong + 1);
}

void judge_group_widths(const struct row *row, const struct sections *sections, struct line *line)
{
    struct plan plan = plan_of(sections);
    line->first = plan.widths + 1;
    line->last = plan.lengths;
    if (plan.lengths > sections->at[7].length)
        line->verdict = ABSENT;
    else
        show_groups(row, sections, line, &plan, first_too_wide(sections, &plan), width_of);
}

void judge_group_lengths(const struct row *row, const struct sections *sections, struct line *line)
{
    struct plan plan = plan_of(sections);
    line->first = plan.lengths + 1;
    line->last = plan.values;
    if (plan.values > sections->at[7].length)
        line->verdict = ABSENT;
    else
        show_groups(row, sections, line, &plan, first_empty(sections, &plan), length_of);
}

void judge_sum_of_lengths(const struct row *row, const struct sections *sections, struct line *line)
{
    struct plan plan = plan_of(sections);
    char n[LINE_ROOM];
    if (plan.values > sections->at[7].length) {
        line->verdict = ABSENT;
        return;
    }
    uint64_t sum = sum_of_lengths(sections, &plan);
    write_with_commas((int64_t)plan.n, n);
    line->first = plan.lengths + 1;
    line->last = plan.values;
    snprintf(line->value, LINE_ROOM, "%" PRIu64, sum);
    snprintf(line->rule, LINE_ROOM, "%.20s%s", n, row->remark);
    line->verdict = verdict_of(sum == plan.n);
}

/* The packed values of groups that are good, one after the other. */
struct unpacking {
    uint64_t group, left, bit;
    unsigned width;
};

static int64_t next_packed(const struct sections *sections, const struct plan *plan, struct unpacking *at)
{
    while (at->left == 0) {
        at->left = length_of(sections, plan, at->group);
        at->width = (unsigned)width_of(sections, plan, at->group);
        at->group++;
    }
    uint64_t number = packed_at(sections, 7, plan->values, at->bit, at->width);
    at->left--;
    at->bit += at->width;
    return (int64_t)number;
}

static int are_values_there(const struct sections *sections, const struct plan *plan)
{
    return are_groups_good(sections, plan) && length_for_groups(sections, plan) <= sections->at[7].length;
}

void judge_packed_groups(const struct row *row, const struct sections *sections, struct line *line)
{
    struct plan plan = plan_of(sections);
    struct unpacking at = {0, 0, 0, 0};
    if (!are_groups_good(sections, &plan)) {
        line->verdict = ABSENT;
        return;
    }
    line->first = plan.values + 1;
    line->last = length_for_groups(sections, &plan);
    snprintf(line->name, LINE_ROOM, "%s, %" PRIu64 " in groups", row->name, plan.n);
    snprintf(line->rule, LINE_ROOM, "%s", row->remark);
    if (!are_values_there(sections, &plan)) {
        line->verdict = NOT_THERE;
        return;
    }
    for (uint64_t i = 0; i < plan.n; i++)
        if (!add_to_run(line, next_packed(sections, &plan, &at)))
            break;
}

/* The integers X, from the first on, up to one that is out of range: what would come after that one is not made, so that no sum is too large. */
void judge_integers(const struct row *row, const struct sections *sections, struct line *line)
{
    struct plan plan = plan_of(sections);
    struct unpacking at = {0, 0, 0, 0};
    int is_shown = 1;
    if (!are_values_there(sections, &plan) || length_for_groups(sections, &plan) != sections->at[7].length) {
        line->verdict = ABSENT;
        return;
    }
    size_t w = plan.extra, start = BEFORE_DATA + 1;
    int64_t x = 0, zmin = signed_at(sections, 7, start + 2 * w, start + 3 * w - 1), before = 0, before_that = 0;
    line->first = start;
    line->last = sections->at[7].length;
    write_limits(row, line->rule);
    line->verdict = KEPT;
    for (uint64_t n = 1; n <= plan.n; n++, before_that = before, before = x) {
        int64_t packed = next_packed(sections, &plan, &at);
        x = packed + (int64_t)packed_at(sections, 7, plan.references, (at.group - 1) * plan.bits, plan.bits) + zmin + 2 * before - before_that;
        if (n <= 2)
            x = (int64_t)number_at(sections, 7, start + (n - 1) * w, start + n * w - 1);
        is_shown = is_shown && add_to_run(line, x);
        if (x < row->least || x > row->most) {
            snprintf(line->value, LINE_ROOM, "%" PRId64 " for X(%" PRIu64 ")", x, n);
            line->verdict = BROKEN;
            line->refusal = SKEPTOLYR_VALUE_OUT_OF_RANGE;
            return;
        }
    }
}
