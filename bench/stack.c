/* Prints the most stack that any of the seven functions takes for the first and the last field of the file on standard input, and for one behind them, in
 * octets, with its return address and the arguments that are handed on the stack. The call runs on a stack of its own that was painted
 * before, and the deepest octet that lost its paint tells. */
#include "skeptolyr.h"

#include <stdio.h>
#include <stdlib.h>
#include <string.h>
#include <ucontext.h>

enum { STACK = 1 << 20, MOST_POINTS = 16777216, LONGEST_PICTURE = SKEPTOLYR_PICTURE_ROOM(MOST_POINTS) };

static uint8_t stack[STACK], *file, *presence, *picture_octets, *caller;
static double *values;
static int64_t numbers[SKEPTOLYR_DESCRIPTION_LAMBERT];
static size_t length, asked, last;
static volatile uint64_t answer;
static ucontext_t outside, inside;

static void check(void)
{
    caller = __builtin_frame_address(0);
    answer = skeptolyr_check(file, length);
}

static void decode(void)
{
    caller = __builtin_frame_address(0);
    answer = skeptolyr_decode(file, length, asked, 0, values, MOST_POINTS, presence, MOST_POINTS);
}

/* The last point, to which all integers of the field lead. */
static void point(void)
{
    caller = __builtin_frame_address(0);
    answer = skeptolyr_point(file, length, asked, last, values, 1);
}

static void picture(void)
{
    caller = __builtin_frame_address(0);
    answer = skeptolyr_picture(file, length, asked, picture_octets, LONGEST_PICTURE);
}

static void describe(void)
{
    caller = __builtin_frame_address(0);
    answer = skeptolyr_describe(file, length, asked, numbers, SKEPTOLYR_DESCRIPTION_LAMBERT);
}

static void place(void)
{
    caller = __builtin_frame_address(0);
    answer = skeptolyr_place(file, length, asked, 0, numbers, SKEPTOLYR_POSITION);
}

static void sheet(void)
{
    caller = __builtin_frame_address(0);
    answer = skeptolyr_sheet(file, length, asked, 0, numbers, SKEPTOLYR_SHEET_PLACE);
}

/* How deep a call reaches below its caller's frame. What is reserved and never changed does not show, so a few octets may be missing. */
static size_t depth(void (*call)(void), int paint)
{
    size_t kept = 0;
    memset(stack, paint, STACK);
    if (getcontext(&inside) != 0)
        exit(2);
    inside.uc_stack.ss_sp = stack;
    inside.uc_stack.ss_size = STACK;
    inside.uc_link = &outside;
    makecontext(&inside, call, 0);
    if (swapcontext(&outside, &inside) != 0)
        exit(2);
    while (kept < STACK && stack[kept] == paint)
        kept++;
    return (size_t)(caller - stack) - kept;
}

int main(void)
{
    size_t room = ((size_t)1 << 28) + 1, most = 0;
    file = malloc(room);
    values = malloc(MOST_POINTS * sizeof *values);
    presence = malloc(MOST_POINTS);
    picture_octets = malloc(LONGEST_PICTURE);
    if (file == NULL || values == NULL || presence == NULL || picture_octets == NULL)
        return 2;
    length = fread(file, 1, room, stdin);
    size_t fields = skeptolyr_fields(skeptolyr_check(file, length)), fields_asked[] = {0, fields - 1, fields};
    void (*const calls[])(void) = {check, decode, picture, point, describe, place, sheet};
    for (size_t i = 0; i < 3 * (sizeof calls / sizeof *calls); i++) {
        struct skeptolyr_field field = {0};
        asked = fields_asked[i % 3];
        skeptolyr_describe_field(file, length, asked, &field);
        last = field.points > 0 ? (size_t)field.points - 1 : 0;
        for (int paint = 0; paint < 256; paint += 85) {
            size_t deep = depth(calls[i / 3], paint);
            most = deep > most ? deep : most;
        }
    }
    printf("%zu\n", most);
    return 0;
}
