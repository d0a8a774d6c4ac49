/* What the subcommands of the program `skeptolyr` share. Each subcommand is a file of its own, which asks the library through its installed header alone.
 * `main.c` has the list of them. */
#ifndef COMMAND_H
#define COMMAND_H

#include <skeptolyr.h>
#include <stdio.h>

/* How the program ends: all was answered; a file or a field was refused; the command line is wrong; the machine has failed, as where a file cannot be
 * read or a disk is full. */
enum { ANSWERED = 0, REFUSED = 1, MISUSED = 2, FAILED = 3 };

#if defined __GNUC__
#define NEVER_RETURNS __attribute__((noreturn))
#else
#define NEVER_RETURNS
#endif

/* ---- main.c: subcommands */

/* A subcommand: its name, its arguments as one types them, what it is for in one line, its help, and what it does. `run` is given what stands after the
 * subcommand's name, and answers how the program ends. It is never given `--help` or `--version`: those are answered for all subcommands in one place. */
struct subcommand {
    const char *name, *arguments, *purpose, *help;
    int (*run)(int count, char **words);
};

extern const struct subcommand check_command, ls_command, show_command, values_command, point_command, dump_command, draw_command, pgm_command;

/* ---- report.c: what is said while the program works, and when it ends */

/* Ends with MISUSED: what is wrong with the command line, the word that is meant or "", and how the subcommand is called. It says "what: word". Without a
 * subcommand (NULL) it says how the program is called. */
NEVER_RETURNS void misuse(const struct subcommand *subcommand, const char *what, const char *word);

/* Ends with FAILED: where something failed, what it was, the system's reason (an error number, or 0), and what to do. */
NEVER_RETURNS void give_up(const char *where, const char *what, int reason, const char *advice);

/* As give_up, without a reason, from the handler of a signal: there little may be called but write and _exit. */
NEVER_RETURNS void give_up_in_handler(const char *where, const char *what, const char *advice);

/* Ends quietly: whoever was to read what is written has closed the pipe. */
NEVER_RETURNS void end_unread(void);

/* Shows on a terminal how far long work is, at most ten times a second, and takes that away again. Where standard error is no terminal, nothing is shown.
 * Where nobody knows how much there is to do, `all` is 0, and only what is done is shown. */
void show_progress(const char *what, uint64_t done, uint64_t all);
void hide_progress(void);

/* Ends with FAILED unless all that was printed on standard output has arrived there. Every subcommand calls it last. */
void finish_printing(void);

/* Ends, as finish_printing does, if something could not be printed. To be called now and then where much is printed. */
void keep_printing(void);

/* Takes the option of this name, such as "--json", out of the words before `--`, and says whether it was there. */
int take_option(const char *name, int *count, char **words);

/* Takes `--` out of the words, which are names then, of which there must be so many. A word that still looks like an option is a misuse. A minus before a
 * digit or a decimal point begins a number, and no option. */
void names_only(const struct subcommand *subcommand, int least, int most, int *count, char **words);

/* The number that is written in decimal digits and in nothing else, or a misuse. */
size_t number_in_word(const struct subcommand *subcommand, const char *word, const char *complaint);

/* ---- input.c: files */

struct octets {
    const uint8_t *first;
    size_t length;
};

/* All octets of the file of this name, of standard input where it is "-", or of a pipe; or it gives up. A file that is longer than any that is read is taken
 * to one octet past SKEPTOLYR_MOST_OCTETS, so that the library refuses it in its own words. */
struct octets read_file(const char *name);
void release(struct octets file);

/* The name of a file, where "-" is called standard input. */
const char *name_in_words(const char *name);

/* The field k of the file, its values and its presence in memory of its own, or the refusal as `answer`. */
struct decoded {
    uint64_t answer;
    struct skeptolyr_field field;
    double *values;
    uint8_t *presence;
};
struct decoded decode_field(struct octets file, size_t k);
void release_decoded(struct decoded *decoded);

/* What places a row and what places a column: its latitude and its longitude, in millionths of a degree; or, on a Lambert grid, how far it lies below the
 * first point and to the right of it, in thousandths of a metre. */
struct place {
    int64_t of_row, of_column;
};

/* Where point n of field k lies. The library has described the field, and the field has the point, so that it cannot be refused. */
struct place place_of(const char *name, struct octets file, size_t k, size_t n, int on_sheet);

/* Says on standard error that the file, or its field k, is refused: number, place, the library's sentence, which octets break which rule, and what to do. */
void tell_refusal(const char *name, struct octets file, size_t k, uint64_t answer);

/* Prints how many messages and fields a file has, of an answer of skeptolyr_check that is no refusal: "NAME: 1 message, 2 fields". */
void print_counts(const char *name, uint64_t answer);

/* ---- rules.c: the table of the octets of each section and of the rules that they are held to. `dump` prints it, and refusals are explained by it. */

enum { FAULT_ROOM = 400 };

/* Writes into `text`, which has FAULT_ROOM octets, which octets break which rule where this refusal was given for the file, or for its field k, and returns
 * it. It is empty where no octet is at fault. */
char *fault_in_words(struct octets file, size_t k, uint64_t answer, char *text);

/* ---- output.c: files that are made. A file that was there before is kept until the new one is whole, and a part of a file is never left behind. One
 * file is made at a time. "-" stands for standard output. What is no regular file, such as a pipe or a device, is written directly. */

struct made;
struct made *start_file(const char *name);
FILE *stream_of(struct made *made);
void finish_file(struct made *made);

/* Removes what was made of a file that is not finished. It may be called from the handler of a signal. */
void remove_unfinished(void);

/* The name of a file to be made, or a misuse: it must not be empty, nor lead to the GRIB file, whose place the new file would take. */
const char *name_of_picture(const struct subcommand *subcommand, const char *word, const char *file);

/* ---- words.c: what numbers of code tables mean. A number that is not in the table has no name: NULL. The unit of what is counted or is without a unit
 * is empty. */

const char *parameter_name(int64_t discipline, int64_t category, int64_t parameter);
const char *parameter_unit(int64_t discipline, int64_t category, int64_t parameter);
const char *surface_name(int64_t surface);
const char *surface_unit(int64_t surface);
const char *discipline_name(int64_t discipline);
const char *category_name(int64_t discipline, int64_t category);
const char *process_name(int64_t process);

/* Is the field on a Lambert grid? If not, it is on a grid in degrees. */
int is_on_sheet(const struct skeptolyr_field *field);

enum { WORDS_ROOM = 160 };

/* Each writes its words into `text`, which has WORDS_ROOM octets, and returns it. */
char *parameter_in_words(const struct skeptolyr_field *field, char *text);
char *level_in_words(const struct skeptolyr_field *field, char *text);
char *time_in_words(const struct skeptolyr_time *time, char *text);
char *times_in_words(const struct skeptolyr_field *field, char *text);
char *degrees_in_words(int64_t millionths, char *text);
char *metres_in_words(int64_t thousandths, char *text);
char *grid_in_words(const struct skeptolyr_field *field, char *text);
char *packing_in_words(const struct skeptolyr_field *field, char *text);

#endif
