/* What the programs that lend files to proved code share: memory between pages that cannot be read. */
#include "numbers.h"

#include <sys/mman.h>

/* Readable memory of so many octets, whole pages, between two pages that cannot be read. */
static uint8_t *between_guards(size_t room, size_t page)
{
    uint8_t *base = mmap(NULL, room + 2 * page, PROT_NONE, MAP_PRIVATE | MAP_ANONYMOUS, -1, 0);
    if (base == MAP_FAILED || mprotect(base + page, room, PROT_READ | PROT_WRITE) != 0)
        give_up("memory");
    return base + page;
}
