/* Decode and picture in plain C, with the arguments and answers of skeptolyr_decode and skeptolyr_picture. */
#ifndef PLAIN_H
#define PLAIN_H

#include <stddef.h>
#include <stdint.h>

uint64_t plain_decode(const uint8_t *file, size_t file_len, size_t k, size_t start, double *values, size_t values_len, uint8_t *presence, size_t presence_len);
uint64_t plain_picture(const uint8_t *file, size_t file_len, size_t k, uint8_t *picture, size_t picture_len);

#endif
