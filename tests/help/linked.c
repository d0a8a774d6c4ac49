/* What a user's program does: it puts the file on standard input to the functions of the installed header, all of them, and prints what they answer. Of
 * descriptions, places, single points and pictures it prints only where they do not agree. tests/install.py compiles it as C and as C++, with what
 * pkg-config says and nothing else. */
#include <skeptolyr.h>

#include <stdio.h>
#include <string.h>

enum { MOST_OCTETS = 65536, ROOM = 16 };

static uint8_t file[MOST_OCTETS];

static void print_refusal(uint64_t answer)
{
    uint32_t number = skeptolyr_refusal_number(answer);
    printf("refused %u at %u. %s\n", (unsigned)number, (unsigned)skeptolyr_refusal_place(answer), skeptolyr_refusal_text(number));
}

/* Asks by name what a field is and where its first point lies: in degrees that is where the description says, and on the sheet it is 0 and 0. The question
 * that is not for the grid's kind is refused. */
static int names_agree(size_t file_len, size_t k, uint32_t points)
{
    struct skeptolyr_field field;
    struct skeptolyr_position position = {0, 0};
    struct skeptolyr_sheet_place place = {1, 1};
    uint64_t described = skeptolyr_describe_field(file, file_len, k, &field);
    uint64_t in_degrees = skeptolyr_place_point(file, file_len, k, 0, &position), on_sheet = skeptolyr_sheet_point(file, file_len, k, 0, &place);
    if (skeptolyr_is_refusal(described) || field.points != (int64_t)points)
        return 0;
    if (field.grid_template == 30)
        return described == SKEPTOLYR_DESCRIPTION_LAMBERT && skeptolyr_refusal_number(in_degrees) == SKEPTOLYR_OTHER_GRID &&
            on_sheet == SKEPTOLYR_SHEET_PLACE && place.right == 0 && place.down == 0;
    return described == SKEPTOLYR_DESCRIPTION && skeptolyr_refusal_number(on_sheet) == SKEPTOLYR_OTHER_GRID && in_degrees == SKEPTOLYR_POSITION &&
        position.latitude == field.first.latitude && position.longitude == field.first.longitude;
}

/* Asks for each point alone: it is what decode has written of it. */
static int points_agree(size_t file_len, size_t k, uint32_t points, const double *values, const uint8_t *presence)
{
    for (uint32_t n = 0; n < points; n++) {
        double value = 1;
        if (skeptolyr_point(file, file_len, k, n, &value, 1) != presence[n] || memcmp(&value, values + n, sizeof value) != 0)
            return 0;
    }
    return skeptolyr_refusal_number(skeptolyr_point(file, file_len, k, points, NULL, 0)) == SKEPTOLYR_NO_SUCH_POINT;
}

/* Asks for a picture: it ends in a grey for each point, 0 for a missing one and more for each other. */
static int picture_agrees(size_t file_len, size_t k, uint32_t points, const uint8_t *presence)
{
    uint8_t picture[SKEPTOLYR_PICTURE_ROOM(ROOM)];
    uint64_t length = skeptolyr_picture(file, file_len, k, picture, SKEPTOLYR_PICTURE_ROOM(points));
    if (skeptolyr_is_refusal(length) || memcmp(picture, "P5\n", 3) != 0)
        return 0;
    for (uint32_t n = 0; n < points; n++) {
        if ((picture[length - points + n] > 0) != presence[n])
            return 0;
    }
    return skeptolyr_refusal_number(skeptolyr_picture(file, file_len, k, picture, (size_t)length - 1)) == SKEPTOLYR_NO_ROOM;
}

static void print_field(size_t file_len, size_t k)
{
    double values[ROOM];
    uint8_t presence[ROOM];
    uint64_t answer = skeptolyr_decode(file, file_len, k, 0, values, ROOM, presence, ROOM);
    if (skeptolyr_is_refusal(answer)) {
        print_refusal(answer);
        return;
    }
    printf("%u points:", (unsigned)skeptolyr_points(answer));
    for (uint32_t n = 0; n < skeptolyr_points(answer); n++) {
        if (presence[n])
            printf(" %.17g", values[n]);
        else
            printf(" missing");
    }
    printf("\n");
    if (!names_agree(file_len, k, skeptolyr_points(answer)))
        printf("the description and the places do not agree\n");
    if (!points_agree(file_len, k, skeptolyr_points(answer), values, presence))
        printf("the points alone and the field do not agree\n");
    if (!picture_agrees(file_len, k, skeptolyr_points(answer), presence))
        printf("the picture and the field do not agree\n");
}

/* Asks for every field of the file, and for one more, which it does not have. */
int main(void)
{
    size_t file_len = fread(file, 1, sizeof file, stdin);
    uint64_t answer = skeptolyr_check(file, file_len);
    printf("Skeptolyr %s\n", SKEPTOLYR_VERSION);
    if (skeptolyr_is_refusal(answer)) {
        print_refusal(answer);
        return 0;
    }
    printf("%u messages, %u fields\n", (unsigned)skeptolyr_messages(answer), (unsigned)skeptolyr_fields(answer));
    for (size_t k = 0; k <= skeptolyr_fields(answer); k++)
        print_field(file_len, k);
    return 0;
}
