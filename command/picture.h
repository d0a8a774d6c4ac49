/* A picture of a field: its points in colours, with words above, coordinates beside, and a scale beneath. */
#ifndef PICTURE_H
#define PICTURE_H

#include "command.h"

/* The colours of a picture: those of the scale from that of the lowest value on, then those that stand for no value. */
enum { SCALE_COLOURS = 252, MISSING = SCALE_COLOURS, BACKGROUND, INK, COLOURS };

/* Red, green and blue of all colours. */
void fill_palette(uint8_t palette[COLOURS][3]);

/* The values from whose colour to whose colour the scale goes. Where it was asked for, so many values of the field lie below and above it: they get the
 * colours of its ends. Where it was not, it goes from the lowest value to the highest. */
struct scale {
    double low, high;
    int is_asked_for;
    size_t below, above;
};

enum { LABEL_ROOM = 32 };

/* Three numbers in words: the ends of a scale, and what is half way. */
struct labels {
    char low[LABEL_ROOM], middle[LABEL_ROOM], high[LABEL_ROOM];
};

/* Writes them in as many digits as it takes to tell them apart. Neighbouring doubles have no third one between them. */
struct labels label(double low, double high);

enum { LINES = 3, LINE_ROOM = 2 * WORDS_ROOM };

/* What is drawn: the field, how many points of it are missing, the scale, the lines of words above, of which the first is the title, and what is written of
 * the unit beneath the scale, or "". */
struct subject {
    const struct decoded *decoded;
    size_t missing;
    struct scale scale;
    char lines[LINES][LINE_ROOM];
    char unit[WORDS_ROOM];
};

/* Has the field any value? If not, the scale means nothing unless it was asked for. */
int any_present(const struct subject *subject);

/* The number of a colour for each pixel, row by row from the top, in memory of its own that the caller frees. */
struct picture {
    size_t width, height;
    uint8_t *pixels;
};

struct picture draw_picture(const struct subject *subject);

#endif
