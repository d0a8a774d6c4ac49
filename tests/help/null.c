/* Puts questions with null pointers, whose lengths are 0, and prints what is answered, a line each. The file is standard input. */
#include "skeptolyr.h"

#include <inttypes.h>
#include <stdio.h>

enum { FILE_ROOM = 65536, ROOM = 16, UNTOUCHED = 7 };

static uint8_t file[FILE_ROOM], presence[ROOM], picture[ROOM];
static double values[ROOM];
static int64_t numbers[ROOM];

/* Prints an answer, and how many elements of the runs are no longer as they were before any call. */
static void print_answer(uint64_t answer)
{
    int altered = 0;
    for (int i = 0; i < ROOM; i++)
        altered += (values[i] != UNTOUCHED) + (presence[i] != UNTOUCHED) + (picture[i] != UNTOUCHED) + (numbers[i] != UNTOUCHED);
    printf("%016" PRIx64 " %d\n", answer, altered);
}

int main(void)
{
    size_t length = fread(file, 1, FILE_ROOM, stdin);
    for (int i = 0; i < ROOM; i++)
        values[i] = presence[i] = picture[i] = numbers[i] = UNTOUCHED;
    print_answer(skeptolyr_check(NULL, 0));
    print_answer(skeptolyr_decode(NULL, 0, 0, 0, NULL, 0, NULL, 0));
    print_answer(skeptolyr_decode(NULL, 0, 0, 0, values, ROOM, presence, ROOM));
    print_answer(skeptolyr_decode(file, length, 0, 0, NULL, 0, NULL, 0));
    print_answer(skeptolyr_decode(file, length, 0, 0, NULL, 0, presence, ROOM));
    print_answer(skeptolyr_decode(file, length, 0, 0, values, ROOM, NULL, 0));
    print_answer(skeptolyr_decode(file, length, 0, SIZE_MAX, NULL, 0, NULL, 0));
    print_answer(skeptolyr_describe(NULL, 0, 0, numbers, ROOM));
    print_answer(skeptolyr_describe(file, length, 0, NULL, 0));
    print_answer(skeptolyr_place(NULL, 0, 0, 0, numbers, ROOM));
    print_answer(skeptolyr_place(file, length, 0, 0, NULL, 0));
    print_answer(skeptolyr_sheet(NULL, 0, 0, 0, numbers, ROOM));
    print_answer(skeptolyr_sheet(file, length, 0, 0, NULL, 0));
    print_answer(skeptolyr_point(NULL, 0, 0, 0, values, ROOM));
    print_answer(skeptolyr_point(file, length, 0, 0, NULL, 0));
    print_answer(skeptolyr_point(file, length, 0, 1, NULL, 0));
    print_answer(skeptolyr_picture(NULL, 0, 0, picture, ROOM));
    print_answer(skeptolyr_picture(file, length, 0, NULL, 0));
    return 0;
}
