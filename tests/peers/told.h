/* What the programs that call a reader share: files from standard input, and what the reader told of each, to standard output.
 *
 * A file is its length and its octets. All numbers have eight octets, the first counting most; a number below 0 is in two's complement, and a
 * double is given by its bits. What is told of a file is how many fields the reader gave out, and each of them; or 2^64 - 1 and the first error.
 *
 * With the word `partly` to the program, what is told of a file is how many things the reader was asked for, and for each of them 0 and the field, or
 * its error. So one sees what came out beside an error.
 *
 * A field is its numbers, which the program lists, its point count, the double of each point, and the presence of each point in one octet.
 *
 * Some readers print what they notice. That goes to standard error, wherever they print it. */
#include "../help/numbers.h"

#include <string.h>
#include <unistd.h>

/* Errors of our own, beside those that a reader has. */
enum { ERROR_OF_MEMORY = 1001, ERROR_OF_LENGTH = 1002, ERROR_OF_UNPACKING = 1003 };

struct file {
    uint8_t *octets;
    size_t length;
};

/* What was told of a file so far: octets to be written, where the last thing's octets start, how many things there are, and the first error. */
struct told {
    uint8_t *octets;
    size_t length, room, thing;
    uint64_t things, error;
    int partly;
};

static void tell_octets(struct told *told, const void *octets, size_t count)
{
    if (count > told->room - told->length) {
        told->room = 2 * (told->length + count);
        told->octets = realloc(told->octets, told->room);
        if (told->octets == NULL)
            give_up("told: memory");
    }
    if (count > 0)
        memcpy(told->octets + told->length, octets, count);
    told->length += count;
}

static void tell_number(struct told *told, uint64_t number)
{
    uint8_t octets[8];
    for (int i = 0; i < 8; i++)
        octets[i] = (uint8_t)(number >> (56 - 8 * i));
    tell_octets(told, octets, sizeof octets);
}

static void tell_double(struct told *told, double value)
{
    uint64_t bits;
    memcpy(&bits, &value, sizeof bits);
    tell_number(told, bits);
}

/* Opens the next thing that a reader is asked for. */
static void begin(struct told *told)
{
    told->thing = told->length;
    if (told->partly)
        tell_number(told, 0);
}

/* Closes it, with its error or 0. A thing with an error is no field, and what was told of it is dropped. */
static void end(struct told *told, uint64_t error)
{
    told->things++;
    if (error == 0)
        return;
    told->length = told->thing;
    if (told->partly)
        tell_number(told, error);
    if (told->error == 0)
        told->error = error;
}

/* Tells a file's error that belongs to no field. */
static void tell_error(struct told *told, uint64_t error)
{
    begin(told);
    end(told, error);
}

/* The next file of standard input. One octet more than the file has is allocated, since a file may have none. */
static int get_file(struct file *file)
{
    uint64_t length;
    if (!get_number(&length))
        return 0;
    free(file->octets);
    file->length = (size_t)length;
    file->octets = malloc(file->length + 1);
    if (file->octets == NULL || fread(file->octets, 1, file->length, stdin) != file->length)
        give_up("told: input");
    return 1;
}

/* Writes what was told of a file, and begins anew. */
static void put_told(struct told *told, FILE *out)
{
    struct told head = {.partly = told->partly};
    int whole = told->partly || told->error == 0;
    tell_number(&head, whole ? told->things : UINT64_MAX);
    if (!whole)
        tell_number(&head, told->error);
    if (fwrite(head.octets, 1, head.length, out) != head.length || (whole && fwrite(told->octets, 1, told->length, out) != told->length) || fflush(out) != 0)
        give_up("told: output");
    free(head.octets);
    told->length = 0;
    told->things = told->error = 0;
}

/* Standard output under another number, so that what readers print cannot come between. */
static FILE *own_output(void)
{
    FILE *out = fdopen(dup(STDOUT_FILENO), "wb");
    if (out == NULL || dup2(STDERR_FILENO, STDOUT_FILENO) < 0)
        give_up("told: output");
    return out;
}

/* Asks a reader about every file. */
static int tell_files(int words, char **word, void (*tell_fields)(struct file, struct told *))
{
    struct file file = {NULL, 0};
    struct told told = {.partly = words > 1 && strcmp(word[1], "partly") == 0};
    FILE *out = own_output();
    while (get_file(&file)) {
        tell_fields(file, &told);
        put_told(&told, out);
    }
    fclose(out);
    free(file.octets);
    free(told.octets);
    return 0;
}
