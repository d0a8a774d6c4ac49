/* skeptolyr pgm: a picture of one field in shades of grey, octet for octet as the library makes it. */
#include "command.h"

#include <inttypes.h>
#include <stdlib.h>
#include <string.h>

struct request {
    const char *file, *picture;
    size_t k;
};

static struct request read_request(int count, char **words)
{
    struct request request = {NULL, NULL, 0};
    names_only(&pgm_command, 3, 3, &count, words);
    request.file = words[0];
    request.k = number_in_word(&pgm_command, words[1], "K is not the number of a field");
    request.picture = name_of_picture(&pgm_command, words[2], request.file);
    return request;
}

static void save(const char *name, const uint8_t *picture, size_t length)
{
    struct made *made = start_file(name);
    fwrite(picture, 1, length, stream_of(made));
    /* The reason of a failure is known only now: of one large piece nothing is left in the stream that would fail again. */
    keep_printing();
    finish_file(made);
}

/* Makes the picture of a field that is described, and saves it when it is whole. The answer is the library's. */
static uint64_t make_picture(const struct request *request, struct octets file, const struct skeptolyr_field *field)
{
    size_t room = SKEPTOLYR_PICTURE_ROOM((size_t)field->points);
    uint8_t *picture = malloc(room);
    if (picture == NULL)
        give_up("the picture", "there is no memory for its points", 0, "Close other programs, or take a machine with more memory");
    show_progress("making the picture of field", request->k, 0);
    uint64_t answer = skeptolyr_picture(file.first, file.length, request->k, picture, room);
    hide_progress();
    if (!skeptolyr_is_refusal(answer))
        save(request->picture, picture, (size_t)answer);
    free(picture);
    return answer;
}

static int pgm(int count, char **words)
{
    struct request request = read_request(count, words);
    struct octets file = read_file(request.file);
    struct skeptolyr_field field = {0};
    uint64_t answer = skeptolyr_describe_field(file.first, file.length, request.k, &field);
    if (!skeptolyr_is_refusal(answer))
        answer = make_picture(&request, file, &field);
    int refused = skeptolyr_is_refusal(answer);
    if (refused)
        tell_refusal(request.file, file, request.k, answer);
    else if (strcmp(request.picture, "-") != 0)
        printf("%s: %" PRId64 " x %" PRId64 " points, %" PRId64 " missing\n", request.picture, field.ni, field.nj, field.points - field.present);
    release(file);
    finish_printing();
    return refused ? REFUSED : ANSWERED;
}

const struct subcommand pgm_command = {
    "pgm", "FILE K OUT.pgm", "a picture of field K in shades of grey, in the format PGM",
    "Makes OUT.pgm, a raw PGM, of field K of FILE: one pixel a point, north on top, or the upper side of the sheet of a Lambert grid. A missing point is\n"
    "black, 0. A point that is present is 1 + (254 X) div M, from 1 to 255, where X is its packed integer and M the largest X that is present: the larger\n"
    "the value, the lighter. Every octet is as the library makes it, and the library is proved. Each field has an M of its own, so that greys of two\n"
    "pictures cannot be compared; for a scale with numbers there is `skeptolyr draw`.\n\n"
    "Fields are counted from 0, and `skeptolyr ls FILE` tells what each is. OUT.pgm may be -, which is standard output. A picture that is there already is\n"
    "replaced when the new one is whole, and a part of a picture is never left behind.",
    pgm};
