/* Pictures in the format PNG (ISO/IEC 15948), with a palette of at most 256 colours. */
#ifndef PNG_H
#define PNG_H

#include <stddef.h>
#include <stdint.h>
#include <stdio.h>

/* A picture: the number of a colour for each pixel, row by row from the top; red, green and blue of each colour; and what the picture says of itself. */
struct image {
    size_t width, height;
    const uint8_t *pixels;
    size_t colours;
    const uint8_t (*palette)[3];
    const char *title, *description, *software;
};

/* Writes the picture, compressed. Whether all was written is asked of `out` later. */
void write_png(FILE *out, const struct image *image);

#endif
