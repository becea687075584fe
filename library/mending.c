/* A call over the first bytes of a file that was cut off, or whose header is wrong: they are changed so that they state
 * what is there. It needs no player. Each number stays where it is, so no byte of the file moves. */
#include "inside.h"

#include <string.h>

enum { BLOCK = 4096, MOST_CHANNELS = 6, FORM_HEAD = 16, CHUNK_HEAD = 12, BLOCKS_HEAD = 80 };

static const uint64_t most_bits = UINT64_C(1) << 36, most_bytes = UINT64_C(1) << 62;

/* The first bytes of a file of `file` bytes. */
typedef struct front {
    uint8_t *at;
    uint64_t size, file;
} front;

static void put_high(uint8_t *at, uint64_t number) {
    for (int k = 7; k >= 0; k--, number >>= 8) at[k] = (uint8_t)number;
}

static void put_low(uint8_t *at, uint64_t number) {
    for (int k = 0; k < 8; k++, number >>= 8) at[k] = (uint8_t)number;
}

static int is_named(front it, uint64_t place, const char *name) { return memcmp(it.at + place, name, 4) == 0; }

static uint64_t least(uint64_t one, uint64_t other) { return one < other ? one : other; }

/* What is wrong where bytes are missing: there are no more, or more are needed. */
static dsdarc_status missing(front it) { return it.size < it.file ? DSDARC_NOT_YET : DSDARC_FILE_REFUSED; }

/* The number of channels that the properties of a form state, from one place to another; 0 if they state none. */
static uint64_t channels_in(front it, uint64_t place, uint64_t stop) {
    while (place < stop && stop - place >= CHUNK_HEAD + 2) {
        uint64_t size = high_first(it.at + place + 4, 8), data = place + CHUNK_HEAD;
        if (is_named(it, place, "CHNL") && size >= 2) {
            uint64_t count = high_first(it.at + data, 2);
            return count <= MOST_CHANNELS ? count : 0;
        }
        if (size > stop - data) return 0;
        place = data + size + size % 2;
    }
    return 0;
}

/* Finds the sound of a form: where its chunk is, and how many channels it has. */
static dsdarc_status find_sound(front it, uint64_t *place, uint64_t *channels) {
    for (*place = FORM_HEAD, *channels = 0;;) {
        uint64_t size, data = *place + CHUNK_HEAD;
        if (data > it.size) return missing(it);
        size = high_first(it.at + *place + 4, 8);
        if (is_named(it, *place, "DSD ")) return *channels > 0 ? DSDARC_OK : DSDARC_FILE_REFUSED;
        if (size > it.file || is_named(it, *place, "DST ")) return DSDARC_FILE_REFUSED;
        if (is_named(it, *place, "PROP")) {
            if (size > it.size - data) return missing(it);
            if (size >= 4 && is_named(it, data, "SND ")) *channels = channels_in(it, data + 4, data + size);
        }
        *place = data + size + size % 2;
    }
}

/* Whether a chunk begins at a place, and no sound: letters, and a size that the file has. */
static int is_chunk(front it, uint64_t place) {
    for (uint64_t k = 0; k < 4; k++)
        if (it.at[place + k] < ' ' || it.at[place + k] > '~') return 0;
    return high_first(it.at + place + 4, 8) <= it.file - place - CHUNK_HEAD + 1;
}

static dsdarc_status mend_form(front it, dsdarc_mended *out) {
    uint64_t place, channels, size, there, form, length;
    dsdarc_status status = find_sound(it, &place, &channels);
    if (status != DSDARC_OK) return status;
    size = high_first(it.at + place + 4, 8), form = high_first(it.at + 4, 8);
    out->start = place + CHUNK_HEAD;
    there = it.file - out->start;
    if (size == 0 && there >= CHUNK_HEAD) {
        /* Sound that a recorder didn't count, unless chunks follow. */
        if (it.size - out->start < CHUNK_HEAD) return missing(it);
        if (is_chunk(it, out->start)) there = 0;
    }
    length = least(size == 0 || size > there ? there : size, channels * (most_bits / 8));
    length -= length % channels;
    /* The pad of the last chunk may be missing, and what follows the form isn't of it. */
    out->changed = size != length || form < out->start + size - CHUNK_HEAD || form > it.file - CHUNK_HEAD + 1;
    out->stop = out->start + length;
    out->bits = length / channels * 8;
    if (size / channels <= most_bits / 8) out->stated = size / channels * 8;
    if (!out->changed) return DSDARC_OK;
    if (length == 0) return DSDARC_FILE_REFUSED;
    put_high(it.at + 4, out->stop + length % 2 - CHUNK_HEAD);
    put_high(it.at + place + 4, length);
    return DSDARC_OK;
}

/* The bytes of blocks for so many bits of each channel. */
static uint64_t blocks_of(uint64_t bits, uint64_t channels) {
    return (bits + 8 * BLOCK - 1) / (8 * BLOCK) * channels * BLOCK;
}

/* How many bits of each channel are in so many bytes of blocks. */
static uint64_t bits_in(uint64_t bytes, uint64_t channels) {
    uint64_t groups = bytes / (channels * BLOCK), rest = bytes % (channels * BLOCK), before = (channels - 1) * BLOCK;
    return 8 * (groups * BLOCK + (rest > before ? rest - before : 0));
}

/* Where the chunk of the sound is after that of the format; 0 if it isn't in the bytes. */
static uint64_t find_data(front it) {
    uint64_t size = low_first(it.at + 32, 8), place = 28 + size;
    if (size >= 52 && size <= it.size && it.size - size >= 28 + CHUNK_HEAD && is_named(it, place, "data")) return place;
    for (place = BLOCKS_HEAD; it.size - place >= CHUNK_HEAD; place++)
        if (is_named(it, place, "data")) return place;
    return 0;
}

/* Where the sound of a file ends at the latest, of which `needed` bytes are stated: at its tag, or at the file's end. */
static uint64_t end_of(front it, uint64_t start, uint64_t needed) {
    uint64_t tag = low_first(it.at + 20, 8), stop = start + needed;
    if (tag <= start || tag > it.file) return it.file;
    /* Before the last block of the sound that is there, there is no tag. */
    return stop <= it.file && tag + BLOCK <= stop ? it.file : tag;
}

static dsdarc_status mend_blocks(front it, dsdarc_mended *out) {
    uint64_t place, channels, bits, needed, length, there, tag;
    if (it.size < BLOCKS_HEAD + CHUNK_HEAD) return missing(it);
    channels = low_first(it.at + 52, 4), bits = low_first(it.at + 64, 8), tag = low_first(it.at + 20, 8);
    if (!is_named(it, 28, "fmt ") || channels < 1 || channels > MOST_CHANNELS || low_first(it.at + 72, 4) != BLOCK)
        return DSDARC_FILE_REFUSED;
    if ((place = find_data(it)) == 0) return missing(it);
    out->start = place + CHUNK_HEAD;
    if (bits <= most_bits) out->stated = bits;
    needed = blocks_of(out->stated, channels);
    there = end_of(it, out->start, needed) - out->start;
    out->bits = least(bits_in(there, channels), out->stated > 0 ? out->stated : most_bits);
    length = blocks_of(out->bits, channels);
    out->stop = out->start + least(length, there);
    out->fill = length - (out->stop - out->start);
    out->changed = out->bits != bits || out->fill > 0 || low_first(it.at + 4, 8) != 28 ||
                   low_first(it.at + 32, 8) != place - 28 || low_first(it.at + place + 4, 8) - CHUNK_HEAD < length ||
                   low_first(it.at + place + 4, 8) < CHUNK_HEAD || (tag > 0 && (tag < out->stop || tag > it.file));
    if (!out->changed) return DSDARC_OK;
    if (out->bits == 0) return DSDARC_FILE_REFUSED;
    put_low(it.at + 4, 28);
    put_low(it.at + 12, out->start + length);
    put_low(it.at + 20, 0);
    put_low(it.at + 32, place - 28);
    put_low(it.at + 64, out->bits);
    put_low(it.at + place + 4, length + CHUNK_HEAD);
    return DSDARC_OK;
}

dsdarc_status dsdarc_mend_header(void *header, size_t size, uint64_t file, dsdarc_mended *mended, size_t room) {
    front it = {header, size, file};
    dsdarc_mended out;
    dsdarc_status status;
    if (!mended || (!header && size > 0)) return DSDARC_NULL;
    if (size > PTRDIFF_MAX || size > file) return DSDARC_SIZE;
    if (file > most_bytes) return DSDARC_TOO_LONG;
    memset(&out, 0, sizeof out);
    if (size < FORM_HEAD) return missing(it);
    if (is_named(it, 0, "FRM8") && is_named(it, 12, "DSD ")) status = mend_form(it, &out);
    else if (is_named(it, 0, "DSD ")) status = mend_blocks(it, &out);
    else return DSDARC_FILE_REFUSED;
    if (status != DSDARC_OK) return status;
    if (room > sizeof out) memset((char *)mended + sizeof out, 0, room - sizeof out);
    memcpy(mended, &out, room < sizeof out ? room : sizeof out);
    return DSDARC_OK;
}
