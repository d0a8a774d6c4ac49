/* Compression without loss, in the format that PNG asks for: zlib's (RFC 1950), around deflate's (RFC 1951). */
#ifndef DEFLATE_H
#define DEFLATE_H

#include <stddef.h>
#include <stdint.h>

struct compressed {
    uint8_t *octets;
    size_t length;
};

/* The octets in fewer, in memory of its own that the caller frees; or it gives up. On a terminal it shows how far it is. */
struct compressed compress_octets(const uint8_t *octets, size_t length);

#endif
