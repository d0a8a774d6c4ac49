/* A font, each letter of which is drawn with dots. It has the characters of ASCII that can be printed, and a sign for degrees. */
#ifndef FONT_H
#define FONT_H

#include <stddef.h>

/* In dots: how large a letter is, how far the next letter and the next line are, and how high a digit is. What letters such as g have below the line stands
 * in the two rows beneath. */
enum { GLYPH_ROWS = 9, GLYPH_COLUMNS = 5, GLYPH_PITCH = 6, LINE_PITCH = 12, DIGIT_HEIGHT = 7 };

/* In a text that is to be drawn, this character is the sign for degrees. ASCII has none. */
#define DEGREE_SIGN "\177"

/* Has the letter a dot there? A character that the font does not have is drawn as a question mark. */
int has_dot(char character, size_t row, size_t column);

#endif
