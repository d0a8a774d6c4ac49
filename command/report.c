/* What is said while the program works and when it ends, and what is common to all command lines. */
#include "command.h"

#include <errno.h>
#include <inttypes.h>
#include <signal.h>
#include <stdlib.h>
#include <string.h>
#include <time.h>
#include <unistd.h>

/* ---- Progress */

enum { PROGRESS_COLUMNS = 60, TENTH_OF_A_SECOND = 100000000 };

/* What is shown now on the terminal, and since when, in nanoseconds. The handler of a signal asks for the first. */
static volatile sig_atomic_t progress_is_shown;
static uint64_t shown_since;

static uint64_t nanoseconds(void)
{
    struct timespec now = {0, 0};
    clock_gettime(CLOCK_MONOTONIC, &now);
    return (uint64_t)now.tv_sec * 1000000000 + (uint64_t)now.tv_nsec;
}

void show_progress(const char *what, uint64_t done, uint64_t all)
{
    char text[PROGRESS_COLUMNS + 1];
    uint64_t now = nanoseconds();
    if ((progress_is_shown && now - shown_since < TENTH_OF_A_SECOND) || !isatty(STDERR_FILENO))
        return;
    if (all > 0)
        snprintf(text, sizeof text, "%s: %" PRIu64 "%%", what, done * 100 / all);
    else
        snprintf(text, sizeof text, "%s: %" PRIu64, what, done);
    fprintf(stderr, "\r%-*s", PROGRESS_COLUMNS, text);
    fflush(stderr);
    progress_is_shown = 1;
    shown_since = now;
}

void hide_progress(void)
{
    if (progress_is_shown)
        fprintf(stderr, "\r%*s\r", PROGRESS_COLUMNS, "");
    progress_is_shown = 0;
}

/* ---- Ends */

void misuse(const struct subcommand *subcommand, const char *what, const char *word)
{
    const char *name = subcommand != NULL ? subcommand->name : "", *space = subcommand != NULL ? " " : "";
    hide_progress();
    fprintf(stderr, "skeptolyr%s%s: %s%s%s\n", space, name, what, word[0] != '\0' ? ": " : "", word);
    fprintf(stderr, "usage: skeptolyr%s%s %s\n", space, name, subcommand != NULL ? subcommand->arguments : "SUBCOMMAND ...");
    fprintf(stderr, "`skeptolyr%s%s --help` tells more.\n", space, name);
    exit(MISUSED);
}

void give_up(const char *where, const char *what, int reason, const char *advice)
{
    hide_progress();
    fprintf(stderr, "skeptolyr: %s: %s%s%s. %s.\n", where, what, reason ? ": " : "", reason ? strerror(reason) : "", advice);
    exit(FAILED);
}

void give_up_in_handler(const char *where, const char *what, const char *advice)
{
    const char *parts[] = {progress_is_shown ? "\r" : "", "skeptolyr: ", where, ": ", what, ". ", advice, ".\n"};
    for (size_t i = 0; i < sizeof parts / sizeof *parts; i++) {
        /* Where even this cannot be written, nothing is left to be done but to end. */
        if (write(STDERR_FILENO, parts[i], strlen(parts[i])) < 0)
            break;
    }
    remove_unfinished();
    _exit(FAILED);
}

void end_unread(void)
{
    hide_progress();
    exit(FAILED);
}

/* ---- Printing */

NEVER_RETURNS static void could_not_print(int reason)
{
    if (reason == EPIPE)
        end_unread();
    give_up("standard output", "could not be written to", reason, "Make room there, or print to another place");
}

void keep_printing(void)
{
    if (ferror(stdout))
        could_not_print(errno);
}

void finish_printing(void)
{
    errno = 0;
    if (fflush(stdout) != 0 || ferror(stdout))
        could_not_print(errno);
    /* Some file systems say only when a file is closed that there was no room for it. A second descriptor is closed, so that the first stays open. */
    int second = dup(STDOUT_FILENO);
    if (second >= 0 && close(second) != 0)
        could_not_print(errno);
}

/* ---- Command lines */

int take_option(const char *name, int *count, char **words)
{
    int kept = 0, is_there = 0, names_begin = 0;
    for (int i = 0; i < *count; i++) {
        names_begin = names_begin || strcmp(words[i], "--") == 0;
        if (!names_begin && strcmp(words[i], name) == 0)
            is_there = 1;
        else
            words[kept++] = words[i];
    }
    *count = kept;
    return is_there;
}

static int is_option(const char *word)
{
    return word[0] == '-' && word[1] != '\0' && word[1] != '.' && (word[1] < '0' || word[1] > '9') && strcmp(word, "--") != 0;
}

void names_only(const struct subcommand *subcommand, int least, int most, int *count, char **words)
{
    int kept = 0, names_begin = 0;
    for (int i = 0; i < *count; i++) {
        if (!names_begin && is_option(words[i]))
            misuse(subcommand, "there is no such option", words[i]);
        if (!names_begin && strcmp(words[i], "--") == 0)
            names_begin = 1;
        else
            words[kept++] = words[i];
    }
    *count = kept;
    if (kept < least)
        misuse(subcommand, kept == 0 ? "no file is named" : "something is missing after", kept == 0 ? "" : words[kept - 1]);
    if (kept > most)
        misuse(subcommand, "there is a word too many", words[most]);
}

/* Library functions such as strtoul would take blanks and a minus too. */
size_t number_in_word(const struct subcommand *subcommand, const char *word, const char *complaint)
{
    size_t number = 0, length = strlen(word);
    for (size_t i = 0; i < length; i++) {
        size_t digit = (size_t)(unsigned char)word[i] - '0';
        if (digit > 9 || number > SIZE_MAX / 10 || 10 * number > SIZE_MAX - digit)
            misuse(subcommand, complaint, word);
        number = 10 * number + digit;
    }
    if (length == 0)
        misuse(subcommand, complaint, "an empty word");
    return number;
}
