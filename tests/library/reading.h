/* What the programs here share: a file in memory, and numbers drawn from a seed. */
#ifndef TESTS_LIBRARY_READING_H
#define TESTS_LIBRARY_READING_H

#include <stdint.h>
#include <stdio.h>
#include <stdlib.h>

/* Not 0 where numbers are to be drawn. */
static uint64_t state;

/* A number below `n`, or 0 if that is 0 (xorshift64). */
static inline size_t below(size_t n) {
    state ^= state << 13, state ^= state >> 7, state ^= state << 17;
    return n ? (size_t)(state % n) : 0;
}

/* All bytes of a file, and how many they are. */
static inline unsigned char *whole(const char *path, size_t *size) {
    FILE *file = fopen(path, "rb");
    unsigned char *bytes;
    if (!file || fseek(file, 0, SEEK_END)) exit(3);
    *size = (size_t)ftell(file);
    rewind(file);
    bytes = malloc(*size + 1);
    if (!bytes || fread(bytes, 1, *size, file) != *size) exit(3);
    fclose(file);
    return bytes;
}

#endif
