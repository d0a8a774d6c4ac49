/* Pictures in the format PNG: a signature, and chunks, each of which has its length, a name of four letters, its content and a sum. */
#include "png.h"

#include "command.h"
#include "deflate.h"

#include <stdlib.h>
#include <string.h>

/* ---- Chunks */

/* The sum of a chunk, CRC-32: the remainder of a division of its bits, the lowest of each octet first, by the polynomial that this constant holds. */
static uint32_t sum_of_octet(uint32_t octet)
{
    for (int bit = 0; bit < 8; bit++)
        octet = octet & 1 ? octet >> 1 ^ 0xedb88320 : octet >> 1;
    return octet;
}

/* The sums of single octets, from which those of many are made. */
struct sums {
    uint32_t of_octet[256];
};

static struct sums prepare_sums(void)
{
    struct sums sums;
    for (uint32_t octet = 0; octet < 256; octet++)
        sums.of_octet[octet] = sum_of_octet(octet);
    return sums;
}

/* The sum of what was before and of these octets. The first has nothing before it, which counts as all ones. */
static uint32_t sum_after(const struct sums *sums, uint32_t before, const uint8_t *octets, size_t count)
{
    for (size_t i = 0; i < count; i++)
        before = before >> 8 ^ sums->of_octet[(before ^ octets[i]) & 255];
    return before;
}

/* Puts a number into four octets, the first counting most. */
static void put_number(uint8_t *octets, size_t number)
{
    for (int i = 0; i < 4; i++)
        octets[i] = (uint8_t)(number >> (24 - 8 * i));
}

static void write_chunk(FILE *out, const char *name, const uint8_t *content, size_t length)
{
    struct sums sums = prepare_sums();
    uint8_t start[8], sum[4];
    put_number(start, length);
    memcpy(start + 4, name, 4);
    put_number(sum, ~sum_after(&sums, sum_after(&sums, UINT32_MAX, start + 4, 4), content, length));
    fwrite(start, 1, sizeof start, out);
    if (length > 0)
        fwrite(content, 1, length, out);
    fwrite(sum, 1, sizeof sum, out);
}

/* A text under a keyword of the standard, with an octet 0 between the two. It is cut where it is too long for the chunk. */
static void write_text(FILE *out, const char *keyword, const char *text)
{
    enum { ROOM = 1024 };
    uint8_t content[ROOM];
    size_t before = strlen(keyword) + 1, length = strlen(text);
    memcpy(content, keyword, before);
    length = length < ROOM - before ? length : ROOM - before;
    memcpy(content + before, text, length);
    write_chunk(out, "tEXt", content, before + length);
}

/* ---- Pixels */

/* PNG lets each row be told as differences, which becomes many small numbers where a field is smooth. An octet before the row says from what they are:
 * from the pixel to the left, or from the pixel above. */
enum { FROM_LEFT = 1, FROM_ABOVE = 2 };

/* A row that is the same as the one above becomes zeros alone. Such rows are frequent, since a point of a small field is several pixels high. */
static void filter_row(const uint8_t *row, const uint8_t *above, size_t width, uint8_t *filtered)
{
    if (above != NULL && memcmp(row, above, width) == 0) {
        memset(filtered, 0, width + 1);
        filtered[0] = FROM_ABOVE;
        return;
    }
    filtered[0] = FROM_LEFT;
    filtered[1] = row[0];
    for (size_t x = 1; x < width; x++)
        filtered[x + 1] = (uint8_t)(row[x] - row[x - 1]);
}

static void write_pixels(FILE *out, const struct image *image)
{
    size_t width = image->width, length = image->height * (width + 1);
    uint8_t *filtered = malloc(length);
    if (filtered == NULL)
        give_up("the picture", "there is no memory to write it", 0, "Close other programs, or take a machine with more memory");
    for (size_t y = 0; y < image->height; y++) {
        const uint8_t *row = image->pixels + y * width;
        filter_row(row, y > 0 ? row - width : NULL, width, filtered + y * (width + 1));
    }
    struct compressed compressed = compress_octets(filtered, length);
    write_chunk(out, "IDAT", compressed.octets, compressed.length);
    free(compressed.octets);
    free(filtered);
}

/* ---- The whole */

void write_png(FILE *out, const struct image *image)
{
    static const uint8_t signature[] = {0x89, 'P', 'N', 'G', '\r', '\n', 0x1a, '\n'};
    /* Width and height; one octet a pixel, from a palette; the only ways to compress and to filter that there are; and rows in their order. */
    uint8_t head[] = {0, 0, 0, 0, 0, 0, 0, 0, 8, 3, 0, 0, 0};
    put_number(head, image->width);
    put_number(head + 4, image->height);
    fwrite(signature, 1, sizeof signature, out);
    write_chunk(out, "IHDR", head, sizeof head);
    write_chunk(out, "PLTE", image->palette[0], 3 * image->colours);
    write_text(out, "Title", image->title);
    write_text(out, "Description", image->description);
    write_text(out, "Software", image->software);
    write_pixels(out, image);
    write_chunk(out, "IEND", NULL, 0);
}
