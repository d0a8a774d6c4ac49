/* Files that are read: their octets, one field of them, and what is said where they are refused. */
#include "command.h"

#include <errno.h>
#include <fcntl.h>
#include <inttypes.h>
#include <signal.h>
#include <stdlib.h>
#include <string.h>
#include <sys/mman.h>
#include <sys/stat.h>
#include <unistd.h>

/* A file of up to MOST_COPIED octets is copied into memory, where nobody changes it. A longer one is mapped: only what is read of it is fetched. */
enum { MOST_TAKEN = SKEPTOLYR_MOST_OCTETS + 1, MOST_COPIED = 1 << 24, FIRST_ROOM = 1 << 16 };

static const char *const buy_memory = "Close other programs, or take a machine with more memory";

/* ---- Octets */

const char *name_in_words(const char *name)
{
    return strcmp(name, "-") == 0 ? "standard input" : name;
}

/* The file that is mapped, if one is. While it is, others are copied, so that the handler below knows which file it is about. */
static const uint8_t *volatile mapped;
static const char *volatile mapped_name;

/* The system sends SIGBUS where a mapped file has become shorter, and the octets that are asked for are gone. */
static void say_shorter(int signal_number)
{
    (void)signal_number;
    give_up_in_handler(mapped_name != NULL ? mapped_name : "the file", "became shorter while it was read", "Wait until nothing writes to it, and try again");
}

static struct octets map_file(int file, const char *name, size_t length)
{
    void *first = mmap(NULL, length, PROT_READ, MAP_PRIVATE, file, 0);
    if (first == MAP_FAILED)
        give_up(name, "cannot be mapped into memory", errno, buy_memory);
    struct sigaction action;
    memset(&action, 0, sizeof action);
    sigemptyset(&action.sa_mask);
    action.sa_handler = say_shorter;
    mapped_name = name;
    mapped = first;
    sigaction(SIGBUS, &action, NULL);
    return (struct octets){first, length};
}

/* All that can be read to the end, of a file or a pipe. `expected` is its length where that is known, or 0. */
static struct octets copy_file(int file, const char *name, size_t expected)
{
    size_t room = expected > 0 ? expected + 1 : FIRST_ROOM, length = 0;
    uint8_t *octets = malloc(room);
    while (octets != NULL && length < MOST_TAKEN) {
        if (length == room) {
            room = room < MOST_TAKEN / 2 ? 2 * room : MOST_TAKEN;
            uint8_t *longer = realloc(octets, room);
            if (longer == NULL)
                free(octets);
            octets = longer;
            continue;
        }
        ssize_t count = read(file, octets + length, room - length);
        if (count < 0 && errno != EINTR)
            give_up(name, "cannot be read", errno, "Name a GRIB file that you may read");
        if (count == 0)
            return (struct octets){octets, length};
        length += count > 0 ? (size_t)count : 0;
        show_progress("octets read", length, 0);
    }
    if (octets == NULL)
        give_up(name, "there is no memory for it", 0, buy_memory);
    return (struct octets){octets, length};
}

struct octets read_file(const char *name)
{
    struct stat status;
    int is_standard = strcmp(name, "-") == 0, file = is_standard ? STDIN_FILENO : open(name, O_RDONLY);
    name = name_in_words(name);
    if (file < 0 || fstat(file, &status) != 0)
        give_up(name, "cannot be opened", errno, "Name a GRIB file that you may read");
    if (S_ISDIR(status.st_mode))
        give_up(name, "is a folder", 0, "Name a GRIB file in it");
    size_t expected = S_ISREG(status.st_mode) && status.st_size > 0 ? (size_t)status.st_size : 0;
    if (expected > MOST_TAKEN)
        expected = MOST_TAKEN;
    int can_map = expected > MOST_COPIED && mapped == NULL && lseek(file, 0, SEEK_CUR) == 0;
    struct octets octets = can_map ? map_file(file, name, expected) : copy_file(file, name, expected);
    if (!is_standard)
        close(file);
    hide_progress();
    return octets;
}

void release(struct octets file)
{
    if (file.first != NULL && file.first == mapped) {
        mapped = NULL;
        munmap((void *)(uintptr_t)file.first, file.length);
    } else
        free((void *)(uintptr_t)file.first);
}

void print_counts(const char *name, uint64_t answer)
{
    uint32_t messages = skeptolyr_messages(answer), fields = skeptolyr_fields(answer);
    printf("%s: %" PRIu32 " message%s, %" PRIu32 " field%s\n", name_in_words(name), messages, messages == 1 ? "" : "s", fields, fields == 1 ? "" : "s");
}

/* ---- A field */

struct decoded decode_field(struct octets file, size_t k)
{
    struct decoded decoded;
    memset(&decoded, 0, sizeof decoded);
    show_progress("decoding field", k, 0);
    decoded.answer = skeptolyr_describe_field(file.first, file.length, k, &decoded.field);
    if (skeptolyr_is_refusal(decoded.answer))
        return decoded;
    size_t points = (size_t)decoded.field.points;
    decoded.values = malloc(points * sizeof *decoded.values);
    decoded.presence = malloc(points);
    if (decoded.values == NULL || decoded.presence == NULL)
        give_up("the field", "there is no memory for its points", 0, buy_memory);
    decoded.answer = skeptolyr_decode(file.first, file.length, k, 0, decoded.values, points, decoded.presence, points);
    hide_progress();
    return decoded;
}

void release_decoded(struct decoded *decoded)
{
    free(decoded->values);
    free(decoded->presence);
    decoded->values = NULL;
    decoded->presence = NULL;
}

struct place place_of(const char *name, struct octets file, size_t k, size_t n, int on_sheet)
{
    struct skeptolyr_position position = {0, 0};
    struct skeptolyr_sheet_place place = {0, 0};
    uint64_t answer = on_sheet ? skeptolyr_sheet_point(file.first, file.length, k, n, &place)
                               : skeptolyr_place_point(file.first, file.length, k, n, &position);
    if (skeptolyr_is_refusal(answer))
        give_up(name_in_words(name), "has a point that the library does not place", 0,
                "That cannot be: this program or the library is at fault, so trust neither, and report it");
    return on_sheet ? (struct place){place.down, place.right} : (struct place){position.latitude, position.longitude};
}

/* ---- Refusals */

/* Says which fields or points there are to choose from. */
static void tell_choice(const char *what, int64_t count)
{
    fprintf(stderr, "skeptolyr: It has %" PRId64 " %s%s: choose one from 0 to %" PRId64 ".\n", count, what, count == 1 ? "" : "s", count - 1);
}

/* What the library cannot know: which fields and points there are to choose from, and how to look at the octets with this program. */
static void advise(const char *name, struct octets file, size_t k, uint32_t number)
{
    struct skeptolyr_field field = {0};
    const char *named = strcmp(name, "-") == 0 ? "FILE" : name;
    if (number == SKEPTOLYR_NO_SUCH_FIELD)
        tell_choice("field", skeptolyr_fields(skeptolyr_check(file.first, file.length)));
    else if (number == SKEPTOLYR_NO_SUCH_POINT && !skeptolyr_is_refusal(skeptolyr_describe_field(file.first, file.length, k, &field)))
        tell_choice("point", field.points);
    else if (number > SKEPTOLYR_NO_SUCH_FIELD)
        fprintf(stderr, "skeptolyr: To see the octets of the field: skeptolyr dump %s %zu\n", named, k);
    else if (number > SKEPTOLYR_EMPTY)
        fprintf(stderr, "skeptolyr: To see the octets: skeptolyr dump %s\n", named);
}

void tell_refusal(const char *name, struct octets file, size_t k, uint64_t answer)
{
    char fault[FAULT_ROOM] = "", field[40] = "";
    uint32_t number = skeptolyr_refusal_number(answer), place = skeptolyr_refusal_place(answer);
    hide_progress();
    /* What was printed before is to stand before this, where both go to one place. */
    fflush(stdout);
    if (number >= SKEPTOLYR_NO_SUCH_FIELD)
        snprintf(field, sizeof field, ", field %zu", k);
    fprintf(stderr, "skeptolyr: %s%s: refused %" PRIu32 " at %" PRIu32 ". %s\n", name_in_words(name), field, number, place,
            skeptolyr_refusal_text(number));
    if (fault_in_words(file, k, answer, fault)[0] != '\0')
        fprintf(stderr, "skeptolyr: %s\n", fault);
    advise(name, file, k, number);
}
