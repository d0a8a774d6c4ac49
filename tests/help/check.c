/* Lends each file of standard input to skeptolyr_check and prints what it answers, one number a line.
 *
 * A file comes as its length, the number of its holes, the start and end of each hole, and its octets; numbers have eight octets, the first
 * counting most. A hole is a stretch that check has no business with. The file is lent twice: with an unreadable page right before its first
 * octet, and right behind its last. Each page that lies in a hole is unreadable too. So a read outside the file, or in a hole, ends the
 * program; and both answers must be the same. */
#include "lent.h"
#include "skeptolyr.h"

#include <inttypes.h>
#include <string.h>
#include <unistd.h>

enum { MOST_HOLES = 64, PAGES = 32 };

struct hole {
    uint64_t start, end;
};

static size_t page;

/* What check answers for a file at `file`, with the pages that lie in its holes unreadable meanwhile. */
static uint64_t answer(uint8_t *file, size_t length, const struct hole *holes, size_t count)
{
    uint64_t code;
    for (int lent = 0; lent < 2; lent++) {
        for (size_t i = 0; i < count; i++) {
            uintptr_t from = ((uintptr_t)file + holes[i].start + page - 1) / page * page;
            uintptr_t to = ((uintptr_t)file + holes[i].end) / page * page;
            if (from < to && mprotect((void *)from, to - from, lent ? PROT_READ | PROT_WRITE : PROT_NONE) != 0)
                give_up("check: holes");
        }
        if (!lent)
            code = skeptolyr_check(file, length);
    }
    return code;
}

int main(void)
{
    uint64_t length, count;
    struct hole holes[MOST_HOLES];
    page = (size_t)sysconf(_SC_PAGESIZE);
    size_t room = PAGES * page;
    uint8_t *memory = between_guards(room, page);

    while (get_number(&length)) {
        if (!get_number(&count) || length > room || count > MOST_HOLES) {
            fprintf(stderr, "check: a file of %" PRIu64 " octets with %" PRIu64 " holes is too large\n", length, count);
            return 2;
        }
        for (size_t i = 0; i < count; i++)
            if (!get_number(&holes[i].start) || !get_number(&holes[i].end))
                give_up("check: input");
        if (fread(memory, 1, length, stdin) != length)
            give_up("check: input");
        uint64_t first = answer(memory, length, holes, count);
        memmove(memory + room - length, memory, length);
        uint64_t last = answer(memory + room - length, length, holes, count);
        if (first != last) {
            fprintf(stderr, "check: %016" PRIx64 " at one place of memory and %016" PRIx64 " at another\n", first, last);
            return 1;
        }
        printf("%016" PRIx64 "\n", last);
    }
    return 0;
}
