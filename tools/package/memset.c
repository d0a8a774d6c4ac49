/* The one function that the archive asks of the C library, for the shared library, which is to need no other library. The pointer is volatile so that no
   compiler makes a call of this very function of the loop. */
#include <stddef.h>

void *memset(void *to, int octet, size_t count);

void *memset(void *to, int octet, size_t count)
{
    volatile unsigned char *at = to;
    while (count-- > 0)
        *at++ = (unsigned char)octet;
    return to;
}
