/* Asks ecCodes where the points of the field on standard input lie, and writes all latitudes and then all longitudes, as doubles in degrees. */
#include <eccodes.h>
#include <stdio.h>
#include <stdlib.h>

static int write_degrees(codes_handle *handle, const char *key)
{
    size_t count = 0, written = 0;
    double *degrees = NULL;
    int error = codes_get_size(handle, key, &count);
    if (error == CODES_SUCCESS)
        degrees = calloc(count + 1, sizeof *degrees);
    if (degrees == NULL)
        return 0;
    if (codes_get_double_array(handle, key, degrees, &count) == CODES_SUCCESS)
        written = fwrite(degrees, sizeof *degrees, count, stdout);
    free(degrees);
    return written == count;
}

int main(void)
{
    int error = CODES_SUCCESS;
    codes_handle *handle = codes_handle_new_from_file(NULL, stdin, PRODUCT_GRIB, &error);
    if (handle == NULL || error != CODES_SUCCESS)
        return 1;
    return write_degrees(handle, "latitudes") && write_degrees(handle, "longitudes") && fflush(stdout) == 0 ? 0 : 1;
}
