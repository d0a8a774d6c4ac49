/* skeptolyr check: is each file whole? */
#include "command.h"

#include <inttypes.h>
#include <limits.h>

static int check_file(const char *name)
{
    struct octets file = read_file(name);
    uint64_t answer = skeptolyr_check(file.first, file.length);
    int refused = skeptolyr_is_refusal(answer);
    if (refused)
        tell_refusal(name, file, 0, answer);
    else
        print_counts(name, answer);
    release(file);
    return refused;
}

static int check(int count, char **words)
{
    int ended = ANSWERED;
    names_only(&check_command, 1, INT_MAX, &count, words);
    for (int i = 0; i < count; i++) {
        if (check_file(words[i]))
            ended = REFUSED;
        keep_printing();
    }
    finish_printing();
    return ended;
}

const struct subcommand check_command = {
    "check", "FILE...", "is a file whole, and how many messages and fields has it?",
    "Says of each FILE how many messages and fields it has, or that it is refused: at which octet, why, and what to do. It looks at how messages and\n"
    "sections fill the file. Whether each field can be read is told by `skeptolyr ls`.",
    check};
