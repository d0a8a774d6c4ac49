/* Asks g2c for every field of each file of standard input (told.h), as its documentation says: seekgb finds the next message, g2_info counts its
 * fields, and g2_getfld unpacks and expands each. The file is lent to it as a stream in memory. Every return code is looked at; seekgb has none, and
 * finds no message where it finds no more.
 *
 * The numbers of a field are those of the templates 3.0, 3.30 and 4.0 that `tell_numbers` and `tell_grid` list; those of another template are told as
 * 2^64 - 1. */
#include "told.h"

#include <grib2.h>

/* How far seekgb looks for a message, as in its documentation's example. */
enum { FAR = 32000 };

static void tell_entry(struct told *told, const g2int *template, g2int length, int entry)
{
    tell_number(told, entry < length ? (uint64_t)template[entry] : UINT64_MAX);
}

/* Ni, Nj, first place and scanning mode; then of a grid in degrees last place, Di, Dj, and of a Lambert grid LaD, LoV, Dx, Dy, Latin1, Latin2. */
static void tell_grid(const gribfield *field, struct told *told)
{
    enum { NUMBERS = 11, NONE = 1000 };
    static const int degrees[NUMBERS] = {7, 8, 11, 12, 18, 14, 15, 16, 17, NONE, NONE}, lambert[NUMBERS] = {7, 8, 9, 10, 17, 12, 13, 14, 15, 18, 19};
    int is_read = field->igdtnum == 0 || field->igdtnum == 30;
    tell_number(told, (uint64_t)field->igdtnum);
    for (int i = 0; i < NUMBERS; i++)
        tell_entry(told, field->igdtmpl, is_read ? field->igdtlen : 0, field->igdtnum == 30 ? lambert[i] : degrees[i]);
}

/* Discipline; reference time; grid; category, parameter, unit, forecast, surface, level. */
static void tell_numbers(const gribfield *field, struct told *told)
{
    static const int product[] = {0, 1, 7, 8, 9, 10, 11};
    tell_number(told, (uint64_t)field->discipline);
    for (int i = 5; i < 11; i++)
        tell_entry(told, field->idsect, field->idsectlen, i);
    tell_grid(field, told);
    tell_number(told, (uint64_t)field->ipdtnum);
    for (size_t i = 0; i < sizeof product / sizeof *product; i++)
        tell_entry(told, field->ipdtmpl, field->ipdtnum == 0 ? field->ipdtlen : 0, product[i]);
}

/* The point count, every value as a double, and every presence. Where there is no bitmap, all points are present. */
static void tell_values(const gribfield *field, struct told *told)
{
    int has_bitmap = field->ibmap != 255 && field->bmap != NULL;
    tell_number(told, (uint64_t)field->ngrdpts);
    for (g2int i = 0; i < field->ngrdpts; i++)
        tell_double(told, has_bitmap && !field->bmap[i] ? 0.0 : (double)field->fld[i]);
    for (g2int i = 0; i < field->ngrdpts; i++)
        tell_octets(told, has_bitmap && !field->bmap[i] ? "\0" : "\1", 1);
}

/* After an error the field is not freed, since g2_getfld may have freed parts of it. */
static void tell_field(unsigned char *message, g2int number, struct told *told)
{
    gribfield *field = NULL;
    g2int error = g2_getfld(message, number, 1, 1, &field);
    begin(told);
    if (error == 0 && !(field->unpacked && field->expanded))
        error = ERROR_OF_UNPACKING;
    if (error == 0) {
        tell_numbers(field, told);
        tell_values(field, told);
    }
    end(told, (uint64_t)error);
    if (error == 0)
        g2_free(field);
}

static void tell_message(FILE *stream, g2int place, g2int length, struct told *told)
{
    g2int section0[3], section1[13], fields = 0, local_sections = 0, error = ERROR_OF_LENGTH;
    unsigned char *message = malloc((size_t)length);
    if (message == NULL) {
        tell_error(told, ERROR_OF_MEMORY);
        return;
    }
    if (fseek(stream, (long)place, SEEK_SET) == 0 && fread(message, 1, (size_t)length, stream) == (size_t)length)
        error = g2_info(message, section0, section1, &fields, &local_sections);
    if (error != 0)
        tell_error(told, (uint64_t)error);
    for (g2int number = 1; error == 0 && number <= fields; number++)
        tell_field(message, number, told);
    free(message);
}

static void tell_fields(struct file file, struct told *told)
{
    g2int from = 0, place = 0, length = 0;
    FILE *stream = fmemopen(file.octets, file.length, "rb");
    if (stream == NULL)
        give_up("g2c: stream");
    for (;;) {
        seekgb(stream, from, FAR, &place, &length);
        if (length == 0)
            break;
        tell_message(stream, place, length, told);
        from = place + length;
    }
    fclose(stream);
}

int main(int words, char **word)
{
    return tell_files(words, word, tell_fields);
}
