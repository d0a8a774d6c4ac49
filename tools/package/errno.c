/* What a proved program asks of the kit's part in C, for a machine for which the kit has no such part: the number of the last error of the C library. */
#include <errno.h>

int rattle_errno(void);

int rattle_errno(void)
{
    return errno;
}
