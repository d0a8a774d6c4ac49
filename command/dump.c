/* Shows the octets of a file section by section, each with its number, its name, its value and the rule that it is held to, and marks those that break
 * their rule. The rows are those of rules.c. What is refused is the library's answer, which the marks must agree with. */
#include "rules.h"

#include <inttypes.h>
#include <string.h>

/* ---- Lines on the screen */

/* The columns where the parts of a line start, and the octets that are shown where a file cannot be followed. */
enum { OCTETS_COLUMN = 5, SHOWN_COLUMN = 13, NAME_COLUMN = 26, VALUE_COLUMN = 61, RULE_COLUMN = 84, OCTETS_SHOWN = 16 };

/* Prints a text from a column on, or after two blanks where the line has come further: where does it end? */
static int print_at(int column, int at, const char *text)
{
    if (text[0] == '\0')
        return at;
    int start = at + 2 > column ? at + 2 : column;
    return start + printf("%*s%s", start - at, "", text) - (start - at);
}

/* Where the numbers of the octets are long, the octets themselves are not shown, so that the names stand below one another. */
static void print_line(const struct line *line)
{
    char section[2] = {(char)(line->section <= END ? '0' + line->section : line->section == NEXT ? '?' : '-'), '\0'};
    int at = printf("%c %s", line->verdict == BROKEN ? '!' : ' ', section);
    at = print_at(OCTETS_COLUMN, at, line->octets);
    if (at + 2 <= SHOWN_COLUMN)
        at = print_at(SHOWN_COLUMN, at, line->shown);
    at = print_at(NAME_COLUMN, at, line->name);
    at = print_at(VALUE_COLUMN, at, line->value);
    print_at(RULE_COLUMN, at, line->rule);
    printf("\n");
}

/* Prints all lines of a section, if it is there, under its heading. */
static void print_section(const struct sections *sections, int section)
{
    struct lines lines = lines_of(sections, section);
    const struct stretch *at = &sections->at[section];
    struct line line;
    if (at->length == 0 && section != WHOLE_FILE)
        return;
    if (section == WHOLE_FILE)
        printf("\nthe file\n");
    else if (section == NEXT)
        printf("\nat %zu, where a section should start\n", at->place);
    else
        printf("\nsection %d at %zu, %zu octet%s: %s\n", section, at->place, at->length, at->length == 1 ? "" : "s", section_name(section));
    while (next_line(&lines, &line))
        print_line(&line);
    keep_printing();
}

/* ---- What is refused */

/* Prints the octets at a place, as far as the file has them. */
static void print_octets(struct octets file, size_t place)
{
    printf("! octets from %zu on:", place);
    for (size_t i = place; i < file.length && i < place + OCTETS_SHOWN; i++)
        printf(" %02x", file.first[i]);
    printf("%s\n", file.length > place + OCTETS_SHOWN ? " .." : file.length > place ? "" : " none, the file ends here");
}

/* Prints where a file can be followed no further, and which rule is broken. */
static void print_fault(const struct walk *walk)
{
    const struct sections *sections = &walk->sections;
    uint32_t number = skeptolyr_refusal_number(walk->fault), place = skeptolyr_refusal_place(walk->fault);
    if (walk->section == WHOLE_FILE)
        print_section(sections, WHOLE_FILE);
    else if (walk->section != END || sections->at[NEXT].length > 0)
        print_section(sections, NEXT);
    if (walk->section == END)
        print_section(sections, END);
    printf("\n");
    if (walk->section != WHOLE_FILE)
        print_octets(sections->file, walk->section == END ? sections->at[END].place : walk->section == NEXT ? sections->at[NEXT].place : place);
    printf("the file is refused with %" PRIu32 " at %" PRIu32 ": %s\n", number, place, walk->step);
}

/* Ends the program where the table and the library do not say the same, which is a fault of the table. */
static void compare(const char *name, uint64_t by_table, uint64_t by_library)
{
    if (by_table == by_library)
        return;
    printf("the table and the library differ, and the library is right: %" PRIu64 " and %" PRIu64 "\n", by_table, by_library);
    give_up(name, "the table of the rules and the library differ about it, and the library is right", 0, "Do not trust the marks, and report it");
}

/* What a dump has found so far. */
struct findings {
    const char *name;
    uint64_t refusal; /* the first, or 0 */
    size_t field;     /* whose it is */
    size_t refused;
};

/* Asks the library for the field whose sections have been shown, and prints its refusal. */
static void judge_field(struct findings *findings, const struct walk *walk, size_t k)
{
    struct decoded decoded = decode_field(walk->sections.file, k);
    uint64_t answer = skeptolyr_is_refusal(decoded.answer) ? decoded.answer : 0;
    release_decoded(&decoded);
    hide_progress();
    compare(findings->name, refusal_by_table(&walk->sections), answer);
    if (answer == 0)
        return;
    printf("\nfield %zu is refused with %" PRIu32 " at %" PRIu32 "\n", k, skeptolyr_refusal_number(answer), skeptolyr_refusal_place(answer));
    if (findings->refused++ == 0) {
        findings->refusal = answer;
        findings->field = k;
    }
}

/* ---- The file, or one field of it */

static void print_message(const struct walk *walk)
{
    const struct stretch *head = &walk->sections.at[0];
    printf("%smessage %zu at %zu\n", walk->messages > 1 ? "\n" : "", walk->messages - 1, head->place);
    print_section(&walk->sections, 0);
}

/* Prints every section of the file in its order, as far as it can be followed. */
static struct walk dump_file(struct findings *findings, struct octets file, int is_sound)
{
    struct walk walk = start_walk(file);
    while (next_message(&walk)) {
        int section;
        print_message(&walk);
        while ((section = next_section(&walk)) != 0) {
            if (section == 4)
                printf("\nfield %zu\n", walk.fields);
            print_section(&walk.sections, section);
            if (section == 7 && is_sound)
                judge_field(findings, &walk, walk.fields - 1);
        }
        if (walk.fault == 0)
            print_section(&walk.sections, END);
    }
    return walk;
}

/* Prints the sections in force for field k. Where the file is refused and the field is not met before that, those in force there are printed. */
static struct walk dump_field(struct findings *findings, struct octets file, size_t k, int is_sound)
{
    struct walk walk = start_walk(file);
    int is_met = walk_to_field(&walk, k);
    const struct walk met = walk;
    if (walk.sections.at[0].length > 0)
        printf("message %zu at %zu%s\n", walk.messages - 1, walk.sections.at[0].place, is_met ? "" : ", where the file is refused");
    for (int section = 0; section <= 7; section++) {
        if (section == 4 && met.sections.at[4].length > 0)
            printf("\nfield %zu\n", is_met ? k : met.fields);
        print_section(&met.sections, section);
    }
    if (is_sound) {
        print_section(&met.sections, END);
        judge_field(findings, &met, k);
    }
    while (is_met && (next_section(&walk) != 0 || next_message(&walk)))
        continue;
    if (walk.messages > met.messages && !is_sound)
        print_message(&walk);
    return walk;
}

static void print_outcome(const struct findings *findings, uint64_t checked, int is_whole)
{
    uint32_t messages = skeptolyr_messages(checked), fields = skeptolyr_fields(checked);
    if (is_whole)
        printf("\n%" PRIu32 " message%s, %" PRIu32 " field%s, %zu refused\n", messages, messages == 1 ? "" : "s", fields, fields == 1 ? "" : "s",
               findings->refused);
    else if (findings->refused == 0)
        printf("\nthe field is taken\n");
}

static int dump(const char *name, struct octets file, int is_whole, size_t k)
{
    uint64_t checked = skeptolyr_check(file.first, file.length);
    struct findings findings = {name, 0, 0, 0};
    int is_sound = !skeptolyr_is_refusal(checked);
    if (is_sound && !is_whole && k >= skeptolyr_fields(checked)) {
        findings.refusal = refusal_at(SKEPTOLYR_NO_SUCH_FIELD, 0);
        findings.field = k;
        printf("field %zu is refused with %d at 0: the file has %" PRIu32 " of them\n", k, SKEPTOLYR_NO_SUCH_FIELD, skeptolyr_fields(checked));
    } else {
        struct walk walk = is_whole ? dump_file(&findings, file, is_sound) : dump_field(&findings, file, k, is_sound);
        compare(name, walk.fault != 0 ? walk.fault : (uint64_t)walk.messages << 32 | walk.fields, checked);
        if (!is_sound) {
            findings.refusal = checked;
            print_fault(&walk);
        } else
            print_outcome(&findings, checked, is_whole);
    }
    if (findings.refusal != 0)
        tell_refusal(name, file, findings.field, findings.refusal);
    return findings.refusal != 0 ? REFUSED : ANSWERED;
}

static int run(int count, char **words)
{
    names_only(&dump_command, 1, 2, &count, words);
    size_t k = count == 2 ? number_in_word(&dump_command, words[1], "K is not the number of a field") : 0;
    struct octets file = read_file(words[0]);
    int outcome = dump(words[0], file, count == 1, k);
    release(file);
    finish_printing();
    return outcome;
}

const struct subcommand dump_command = {
    "dump", "FILE [K]", "every octet with its name, its value and the rule that it is held to",
    "Prints the sections of FILE, line by line: the number of the section; the octets, counted from 1; what they hold; their name; their value; and the\n"
    "rule that they are held to. A line starts with `!` where octets break their rule, so that `grep '^!'` finds them. Where FILE cannot be followed to\n"
    "its end, what comes before the fault is printed, and then the fault. With K, the sections in force for field K are printed, and no others. Fields\n"
    "are counted from 0.",
    run};
