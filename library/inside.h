/* What the files of the library share: the calls of the proved crate dsdarc_c. */
#ifndef DSDARC_INSIDE_H
#define DSDARC_INSIDE_H

#include "dsdarc.h"

/* What the proved crate exports. A handle is the pointer alone. */
typedef struct handle {
    void *at;
} handle;

/* The sound of a file: where its bytes are, and how they are interleaved (0 as DSDIFF, 1 as DSF). */
typedef struct sound {
    uint64_t bits, start, size;
    uint32_t rate, channels, blocks;
} sound;

uint32_t dsdarc_c_new(const uint8_t *project, size_t size, uint8_t **out);
uint32_t dsdarc_c_new_bare(uint8_t **out);
uint32_t dsdarc_c_new_joined(uint8_t **out);
uint32_t dsdarc_c_next(handle);
uint32_t dsdarc_c_filter(handle, const uint8_t *project, size_t size);
uint32_t dsdarc_c_bits(handle, uint32_t layout);
uint32_t dsdarc_c_push(handle, const uint8_t *bytes, size_t size, size_t *taken);
uint32_t dsdarc_c_info(handle, dsdarc_info *info);
uint32_t dsdarc_c_sound(handle, sound *it);
size_t dsdarc_c_kept(handle, uint32_t after, size_t from, uint8_t *out, size_t size);
size_t dsdarc_c_pull(handle, uint8_t *out, size_t size);
size_t dsdarc_c_pull_numbers(handle, int32_t *out, size_t count);
uint32_t dsdarc_c_end(handle);
uint32_t dsdarc_c_seek(handle, uint64_t frame, uint64_t *offset);
void dsdarc_c_drop(handle);

/* The ready filters that are compiled in: library/ready.py makes ready_filters.c of them. The taps of a filter are the
 * sums of numbers of 7 bits a byte, the lowest first, the last of each without its highest bit; an odd number n stands
 * for -(n + 1) / 2, an even one for n / 2. Of taps that are the same backwards the first half is there. */
typedef struct ready_filter {
    const char *name, *rest;   /* the name of the file, and its keys but `taps` */
    const uint8_t *taps;       /* how many taps there are is `count` */
    uint32_t count, symmetric;
} ready_filter;

extern const char dsdarc_ready_index[];
extern const size_t dsdarc_ready_index_size, dsdarc_ready_count;
extern const ready_filter dsdarc_ready[];

static inline handle handle_of(dsdarc_player *player) {
    handle it = {player};
    return it;
}

/* Slices are never null, also where they are empty. */
static inline const uint8_t *bytes_of(const void *bytes) {
    static const uint8_t none[1];
    return bytes ? bytes : none;
}

/* The number that so many bytes make, with the highest byte first, as in DSDIFF. */
static inline uint64_t high_first(const uint8_t *at, int count) {
    uint64_t number = 0;
    for (int k = 0; k < count; k++) number = number << 8 | at[k];
    return number;
}

/* The same with the lowest byte first, as in DSF. */
static inline uint64_t low_first(const uint8_t *at, int count) {
    uint64_t number = 0;
    while (count-- > 0) number = number << 8 | at[count];
    return number;
}

#endif
