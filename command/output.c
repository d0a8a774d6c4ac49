/* Files that are made. The new file has another name, in the same folder, until it is whole, and then takes the old one's place at once. */
#include "command.h"

#include <errno.h>
#include <limits.h>
#include <signal.h>
#include <stdlib.h>
#include <string.h>
#include <sys/stat.h>
#include <unistd.h>

/* A file that is being made: its name as it was given, the path that it gets when it is whole, and the path that it has until then. Both paths are NULL
 * where it is written directly. */
struct made {
    const char *name;
    char *path, *unfinished;
    FILE *stream;
};

static const char *const other_place = "Name a file in a folder that you may write to";

/* ---- What is left when the program ends early */

/* The path of the file that is not whole yet, or NULL. It stays in memory as long as it stands here. */
static char *volatile unfinished_path;

void remove_unfinished(void)
{
    if (unfinished_path != NULL)
        unlink(unfinished_path);
}

/* The signals by which others end the program, as Ctrl-C does. */
static const int ending_signals[] = {SIGINT, SIGTERM, SIGHUP, SIGQUIT, SIGPIPE};
enum { ENDING_SIGNALS = sizeof ending_signals / sizeof *ending_signals };

/* Removes the part that was made, and dies by the signal, so that whoever started the program sees that. */
static void end_by_signal(int signal_number)
{
    remove_unfinished();
    signal(signal_number, SIG_DFL);
    raise(signal_number);
}

/* Watches the signals but those that are ignored, as they are for a program that is to live on after its terminal is closed. */
static void watch_signals(void)
{
    struct sigaction action, before;
    memset(&action, 0, sizeof action);
    sigemptyset(&action.sa_mask);
    action.sa_handler = end_by_signal;
    for (int i = 0; i < ENDING_SIGNALS; i++) {
        if (sigaction(ending_signals[i], NULL, &before) == 0 && before.sa_handler == SIG_DFL)
            sigaction(ending_signals[i], &action, NULL);
    }
}

/* ---- Names */

/* Do both names lead to one file? The name "-" is standard input or output. */
static int are_one_file(const char *read, const char *made)
{
    struct stat one, two;
    int is_there = strcmp(read, "-") == 0 ? fstat(STDIN_FILENO, &one) : stat(read, &one);
    int other_is_there = strcmp(made, "-") == 0 ? fstat(STDOUT_FILENO, &two) : stat(made, &two);
    return is_there == 0 && other_is_there == 0 && S_ISREG(one.st_mode) && one.st_dev == two.st_dev && one.st_ino == two.st_ino;
}

const char *name_of_picture(const struct subcommand *subcommand, const char *word, const char *file)
{
    if (word[0] == '\0')
        misuse(subcommand, "the name of the picture is empty", "");
    if (are_one_file(file, word))
        misuse(subcommand, "the picture is the GRIB file itself; name another", word);
    return word;
}

/* ---- Making a file */

static char *copy_of(const char *text, size_t length, const char *end)
{
    char *copy = malloc(length + strlen(end) + 1);
    if (copy == NULL)
        give_up("the file to be made", "there is no memory for its name", 0, "Close other programs");
    memcpy(copy, text, length);
    strcpy(copy + length, end);
    return copy;
}

/* The path of the file that the name leads to, through symbolic links too, or of the one that it will lead to. */
static char *path_behind(const char *name)
{
    struct stat link;
    char *path = realpath(name, NULL);
    if (path != NULL)
        return path;
    if (lstat(name, &link) == 0 && S_ISLNK(link.st_mode))
        give_up(name, "is a link that leads to no file", 0, "Remove it, or name another file");
    return copy_of(name, strlen(name), "");
}

/* Opens a file beside the one that is wanted, and notes its path so that it is removed if the program ends early. No signal comes between the two. */
static int open_beside(struct made *made)
{
    static int are_watched;
    const char *slash = strrchr(made->path, '/');
    sigset_t all, before;
    if (!are_watched) {
        watch_signals();
        atexit(remove_unfinished);
        are_watched = 1;
    }
    made->unfinished = copy_of(made->path, slash == NULL ? 0 : (size_t)(slash - made->path) + 1, ".skeptolyr-XXXXXX");
    sigfillset(&all);
    sigprocmask(SIG_SETMASK, &all, &before);
    int file = mkstemp(made->unfinished), reason = errno;
    if (file >= 0)
        unfinished_path = made->unfinished;
    sigprocmask(SIG_SETMASK, &before, NULL);
    errno = reason;
    return file;
}

/* The rights of the file that is replaced, or those that a new file gets here. */
static mode_t rights(int is_there, const struct stat *status)
{
    mode_t taken_away = umask(0);
    umask(taken_away);
    return is_there ? status->st_mode & 07777 : 0666 & ~taken_away;
}

struct made *start_file(const char *name)
{
    struct stat status;
    struct made *made = calloc(1, sizeof *made);
    if (made == NULL)
        give_up(name, "there is no memory to make it", 0, "Close other programs");
    made->name = name;
    if (strcmp(name, "-") == 0) {
        made->stream = stdout;
        return made;
    }
    int is_there = stat(name, &status) == 0;
    if (is_there && !S_ISREG(status.st_mode)) {
        made->stream = fopen(name, "wb");
        if (made->stream == NULL)
            give_up(name, "cannot be written", errno, other_place);
        return made;
    }
    /* Only the folder is asked whether a file may be replaced. A file that is marked as not to be written stays all the same. */
    if (is_there && access(name, W_OK) != 0)
        give_up(name, "cannot be written", errno, "Name another file");
    made->path = path_behind(name);
    int file = open_beside(made);
    made->stream = file < 0 ? NULL : fdopen(file, "wb");
    if (made->stream == NULL || fchmod(file, rights(is_there, &status)) != 0)
        give_up(name, "cannot be written", errno, other_place);
    return made;
}

FILE *stream_of(struct made *made)
{
    return made->stream;
}

NEVER_RETURNS static void could_not_finish(const struct made *made, int reason)
{
    if (reason == EPIPE)
        end_unread();
    give_up(made->name, "could not be written to its end", reason,
            made->path != NULL ? "Nothing of it was kept: make room, or name another place" : "Name a file");
}

/* Is all that was written on the disk? Then the old file can go: if the machine stops now, one of the two is there and whole. */
static int is_stored(FILE *stream)
{
    return fflush(stream) == 0 && !ferror(stream) && (fsync(fileno(stream)) == 0 || errno == EINVAL || errno == EROFS);
}

void finish_file(struct made *made)
{
    if (made->stream == stdout)
        finish_printing();
    else if (made->path == NULL) {
        int failed = fflush(made->stream) != 0 || ferror(made->stream);
        if (failed || fclose(made->stream) != 0)
            could_not_finish(made, errno);
    } else {
        if (!is_stored(made->stream) || fclose(made->stream) != 0 || rename(made->unfinished, made->path) != 0)
            could_not_finish(made, errno);
        unfinished_path = NULL;
    }
    free(made->path);
    free(made->unfinished);
    free(made);
}
