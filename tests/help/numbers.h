/* What the programs that read questions or files from standard input share: the numbers there, and how to give up. */
#include <stdint.h>
#include <stdio.h>
#include <stdlib.h>

static void give_up(const char *what)
{
    perror(what);
    exit(2);
}

/* The next number, of eight octets, the first counting most. */
static int get_number(uint64_t *number)
{
    uint8_t octets[8];
    if (fread(octets, 1, sizeof octets, stdin) != sizeof octets)
        return 0;
    *number = 0;
    for (size_t i = 0; i < sizeof octets; i++)
        *number = *number * 256 + octets[i];
    return 1;
}
