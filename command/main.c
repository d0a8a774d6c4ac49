/* The program `skeptolyr`: its subcommands, and which of them is asked for. A new subcommand is a file of its own and a name in the list below. */
#include "command.h"

#include <fcntl.h>
#include <signal.h>
#include <string.h>
#include <unistd.h>

static const struct subcommand *const subcommands[] = {
    &check_command, &ls_command, &show_command, &values_command, &point_command, &dump_command, &draw_command, &pgm_command};
enum { SUBCOMMANDS = sizeof subcommands / sizeof *subcommands };

static const struct subcommand *subcommand_of(const char *name)
{
    for (int i = 0; i < SUBCOMMANDS; i++) {
        if (strcmp(subcommands[i]->name, name) == 0)
            return subcommands[i];
    }
    misuse(NULL, "there is no such subcommand", name);
}

static int print_version(void)
{
    printf("skeptolyr %s\n", SKEPTOLYR_VERSION);
    finish_printing();
    return ANSWERED;
}

static int print_help(void)
{
    printf("usage: skeptolyr SUBCOMMAND ...\n\n"
           "Reads weather files in the format GRIB2, as the Japan Meteorological Agency writes them. What is not in order is refused, and never guessed.\n\n");
    for (int i = 0; i < SUBCOMMANDS; i++)
        printf("  %-7s %s\n", subcommands[i]->name, subcommands[i]->purpose);
    printf("\n`skeptolyr SUBCOMMAND --help` tells more of each. `skeptolyr --version` prints the version.\n"
           "FILE may be -, which is standard input, or a pipe. After the word -- no word is an option.\n\n"
           "It exits with %d when all was answered, %d when a file or a field was refused, %d when it was called wrongly, and %d when the machine failed.\n",
           ANSWERED, REFUSED, MISUSED, FAILED);
    finish_printing();
    return ANSWERED;
}

static int print_help_of(const struct subcommand *subcommand)
{
    printf("usage: skeptolyr %s %s\n\n%s\n", subcommand->name, subcommand->arguments, subcommand->help);
    finish_printing();
    return ANSWERED;
}

static int is_help(const char *word)
{
    return strcmp(word, "--help") == 0 || strcmp(word, "-h") == 0;
}

/* What is asked after the word `help`: all subcommands, or one. */
static int help(int count, char **words)
{
    if (count > 1)
        misuse(NULL, "there is a word too many", words[1]);
    return count == 0 || is_help(words[0]) ? print_help() : print_help_of(subcommand_of(words[0]));
}

/* Opens what the caller has closed of standard input, output and error. A file that is opened later would take its place, and be written to as if it were
 * standard output. Each is opened the wrong way round, so that its use fails as that of a closed one does. */
static void open_standard_streams(void)
{
    for (int file = STDIN_FILENO; file <= STDERR_FILENO; file++) {
        if (fcntl(file, F_GETFD) < 0 && open("/dev/null", file == STDIN_FILENO ? O_WRONLY : O_RDONLY) < 0)
            _exit(FAILED);
    }
}

int main(int argc, char **argv)
{
    open_standard_streams();
    /* A file that grows past a limit is then an error like a full disk, which can be told. */
    signal(SIGXFSZ, SIG_IGN);
    if (argc < 2)
        misuse(NULL, "no subcommand is named", "");
    if (is_help(argv[1]))
        return print_help();
    if (strcmp(argv[1], "--version") == 0)
        return print_version();
    if (strcmp(argv[1], "help") == 0)
        return help(argc - 2, argv + 2);
    const struct subcommand *subcommand = subcommand_of(argv[1]);
    int count = argc - 2;
    if (take_option("--help", &count, argv + 2) || take_option("-h", &count, argv + 2))
        return print_help_of(subcommand);
    if (take_option("--version", &count, argv + 2))
        return print_version();
    return subcommand->run(count, argv + 2);
}
