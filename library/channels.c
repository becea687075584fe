/* A call over the first bytes of a file: which loudspeakers its channels belong to. It needs no player.
 *
 * A DSDIFF file names its channels by IDs (CHNL), a DSF file by a channel type. */
#include "dsdarc.h"

#include <string.h>

enum { LEFT = 0x1, RIGHT = 0x2, CENTRE = 0x4, LOW = 0x8, BACK_LEFT = 0x10, BACK_RIGHT = 0x20, MOST = 6 };

/* The usual loudspeakers of so many channels. */
static const uint32_t usual[MOST + 1] = {
    0,
    CENTRE,
    LEFT | RIGHT,
    LEFT | RIGHT | CENTRE,
    LEFT | RIGHT | BACK_LEFT | BACK_RIGHT,
    LEFT | RIGHT | CENTRE | BACK_LEFT | BACK_RIGHT,
    LEFT | RIGHT | CENTRE | LOW | BACK_LEFT | BACK_RIGHT,
};

static const struct {
    char id[5];
    uint32_t speaker;
} speakers[] = {{"SLFT", LEFT}, {"MLFT", LEFT}, {"SRGT", RIGHT},    {"MRGT", RIGHT},
                {"C   ", CENTRE}, {"LFE ", LOW}, {"LS  ", BACK_LEFT}, {"RS  ", BACK_RIGHT}};

typedef struct bytes {
    const uint8_t *at;
    uint64_t size;
} bytes;

static uint64_t high_first(const uint8_t *at, int count) {
    uint64_t number = 0;
    for (int k = 0; k < count; k++) number = number << 8 | at[k];
    return number;
}

static uint32_t low_first(const uint8_t *at) {
    return (uint32_t)at[3] << 24 | (uint32_t)at[2] << 16 | (uint32_t)at[1] << 8 | at[0];
}

static int begins(bytes it, const char *name) { return it.size >= 4 && memcmp(it.at, name, 4) == 0; }

static bytes after(bytes it, uint64_t count) {
    bytes rest = {it.at, 0};
    if (count < it.size) rest.at += count, rest.size = it.size - count;
    return rest;
}

/* The data of the first chunk of this name, and of this type where one is asked for; as far as there are bytes of it. */
static bytes chunk(bytes from, const char *name, const char *type) {
    while (from.size >= 12) {
        uint64_t size = high_first(from.at + 4, 8);
        bytes data = after(from, 12);
        if (size < data.size) data.size = size;
        if (begins(from, name) && (!type || begins(data, type))) return data;
        if (size >= from.size) break;
        from = after(from, 12 + size + size % 2);
    }
    from.size = 0;
    return from;
}

/* Whether an ID only numbers its channel, as C000. */
static int is_number(const uint8_t *id) {
    for (int k = 1; k < 4; k++)
        if (id[k] < '0' || id[k] > '9') return 0;
    return id[0] == 'C';
}

/* The loudspeakers of IDs, where their order is that of the mask's bits. */
static uint32_t mask_of(const uint8_t *ids, uint64_t count) {
    uint32_t mask = 0;
    uint64_t numbers = 0;
    for (uint64_t channel = 0; channel < count; channel++) {
        uint32_t speaker = 0;
        for (size_t k = 0; k < sizeof speakers / sizeof *speakers; k++)
            if (memcmp(ids + 4 * channel, speakers[k].id, 4) == 0) speaker = speakers[k].speaker;
        numbers += (uint64_t)is_number(ids + 4 * channel);
        if (speaker <= mask && numbers <= channel) return 0;
        mask |= speaker;
    }
    return numbers == count ? usual[count] : numbers == 0 ? mask : 0;
}

dsdarc_status dsdarc_channel_mask(const void *header, size_t size, uint32_t *mask) {
    bytes file = {header, size};
    if (!mask || (!header && size > 0)) return DSDARC_NULL;
    *mask = 0;
    if (size > PTRDIFF_MAX) return DSDARC_SIZE;
    if (begins(file, "DSD ") && begins(after(file, 28), "fmt ") && size >= 56) {
        uint32_t type = low_first(file.at + 48), count = low_first(file.at + 52);
        if (count < 1 || count > MOST) return DSDARC_NOT_YET;
        *mask = type == 5 && count == 4 ? LEFT | RIGHT | CENTRE | LOW : usual[count];
        return DSDARC_OK;
    }
    if (begins(file, "FRM8") && begins(after(file, 12), "DSD ")) {
        bytes ids = chunk(after(chunk(after(file, 16), "PROP", "SND "), 4), "CHNL", NULL);
        uint64_t count = ids.size < 2 ? 0 : high_first(ids.at, 2);
        if (count < 1 || count > MOST || ids.size < 2 + 4 * count) return DSDARC_NOT_YET;
        *mask = mask_of(ids.at + 2, count);
        return DSDARC_OK;
    }
    return DSDARC_NOT_YET;
}
