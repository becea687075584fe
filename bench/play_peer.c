// Plays a DSDIFF file with one top sound chunk to a WAVE file of 24 bits, as a C programmer would write it: the whole
// file is read, a table of 256 sums is made for each eight taps, and each sample adds up one entry a byte.
// Its samples are those of `dsdarc play` for the same taps, with what lies outside the sound
// counted as nothing, so the two files are equal byte by byte.
//
// play_peer TAPS FACTOR DELAY SHIFT IN OUT, where TAPS is a file of whole numbers.
#include <stdint.h>
#include <stdio.h>
#include <stdlib.h>
#include <string.h>

// How many bytes come before the samples.
#define HEAD 68

static int32_t taps[8192];
static size_t number;

static uint8_t *slurp(const char *name, size_t *size) {
    FILE *file = fopen(name, "rb");
    if (!file) exit(2);
    fseek(file, 0, SEEK_END);
    *size = (size_t)ftell(file);
    rewind(file);
    uint8_t *bytes = malloc(*size);
    if (!bytes || fread(bytes, 1, *size, file) != *size) exit(2);
    fclose(file);
    return bytes;
}

static uint64_t big(const uint8_t *at, int size) {
    uint64_t value = 0;
    for (int k = 0; k < size; k++) value = value << 8 | at[k];
    return value;
}

static void little(uint8_t *at, uint32_t value, int size) {
    for (int k = 0; k < size; k++) at[k] = (uint8_t)(value >> 8 * k);
}

// Writes them: an extensible format chunk, as files of 24 bits have it.
static void write_head(uint8_t *at, uint32_t rate, uint32_t channels, uint32_t data) {
    static const uint8_t pcm[16] = {1, 0, 0, 0, 0, 0, 0x10, 0, 0x80, 0, 0, 0xaa, 0, 0x38, 0x9b, 0x71};
    memcpy(at, "RIFF", 4), little(at + 4, HEAD - 8 + data + data % 2, 4), memcpy(at + 8, "WAVEfmt ", 8);
    little(at + 16, 40, 4), little(at + 20, 0xfffe, 2), little(at + 22, channels, 2);
    little(at + 24, rate, 4), little(at + 28, rate * channels * 3, 4), little(at + 32, channels * 3, 2);
    little(at + 34, 24, 2), little(at + 36, 22, 2), little(at + 38, 24, 2), little(at + 40, 0, 4);
    memcpy(at + 44, pcm, 16), memcpy(at + 60, "data", 4), little(at + 64, data, 4);
}

// The sum at a place, bit by bit: for the edges.
static int32_t plain(const uint8_t *bits, int64_t count, int64_t place) {
    int32_t sum = 0;
    for (size_t k = 0; k < number; k++) {
        int64_t i = place - (int64_t)k;
        if (i < 0 || i >= count) continue;
        sum += bits[i / 8] >> (7 - i % 8) & 1 ? taps[k] : -taps[k];
    }
    return sum;
}

int main(int given, char **arguments) {
    if (given != 7) return 2;
    FILE *list = fopen(arguments[1], "r");
    if (!list) return 2;
    while (number < 4096 && fscanf(list, "%d", &taps[number]) == 1) number++;
    fclose(list);
    int64_t factor = atoi(arguments[2]), delay = atoi(arguments[3]);
    int shift = atoi(arguments[4]);
    size_t size;
    uint8_t *file = slurp(arguments[5], &size);
    uint32_t rate = 0, channels = 0;
    uint8_t *sound = NULL;
    size_t bytes = 0;
    for (size_t at = 16; at + 12 <= size;) {
        uint64_t long_ = big(file + at + 4, 8);
        if (!memcmp(file + at, "PROP", 4)) {
            for (size_t in = at + 16; in + 12 <= at + 12 + long_;) {
                uint64_t part = big(file + in + 4, 8);
                if (!memcmp(file + in, "FS  ", 4)) rate = (uint32_t)big(file + in + 12, 4);
                if (!memcmp(file + in, "CHNL", 4)) channels = (uint32_t)big(file + in + 12, 2);
                in += 12 + part + part % 2;
            }
        } else if (!memcmp(file + at, "DSD ", 4)) {
            sound = file + at + 12;
            bytes = long_;
        }
        at += 12 + long_ + long_ % 2;
    }
    if (!sound || !channels) return 2;

    // The taps in the order of the bits, so that the window ends with the byte of its place.
    int64_t after = 7 - delay % 8, groups = ((int64_t)number + after + 7) / 8, ahead = 8 * groups - after - (int64_t)number;
    int32_t *turned = calloc((size_t)(8 * groups), sizeof *turned);
    for (size_t k = 0; k < number; k++) turned[ahead + (int64_t)number - 1 - (int64_t)k] = taps[k];
    int32_t(*table)[256] = malloc((size_t)groups * sizeof *table);
    for (int64_t g = 0; g < groups; g++)
        for (int byte = 0; byte < 256; byte++) {
            int32_t sum = 0;
            for (int k = 0; k < 8; k++) sum += byte >> (7 - k) & 1 ? turned[8 * g + k] : -turned[8 * g + k];
            table[g][byte] = sum;
        }

    int64_t frames_in = (int64_t)(bytes / channels), count = 8 * frames_in, frames = (count + factor - 1) / factor;
    size_t data = (size_t)frames * channels * 3, whole = HEAD + data + data % 2;
    uint8_t *wave = malloc(whole);
    uint8_t *own = malloc((size_t)frames_in);
    if (!wave || !own) return 2;
    write_head(wave, rate / (uint32_t)factor, channels, (uint32_t)data);
    if (data % 2) wave[whole - 1] = 0;
    for (uint32_t c = 0; c < channels; c++) {
        for (int64_t i = 0; i < frames_in; i++) own[i] = sound[(size_t)i * channels + c];
        uint8_t *out = wave + HEAD + 3 * c;
        for (int64_t j = 0; j < frames; j++, out += 3 * channels) {
            int64_t place = j * factor + delay, first = place / 8 + 1 - groups;
            int32_t sum = 0;
            if (first < 0 || place >= count) sum = plain(own, count, place);
            else
                for (int64_t g = 0; g < groups; g++) sum += table[g][own[first + g]];
            if (shift) sum = (sum + (1 << (shift - 1))) >> shift;
            if (sum > 8388607) sum = 8388607;
            if (sum < -8388608) sum = -8388608;
            out[0] = (uint8_t)sum, out[1] = (uint8_t)(sum >> 8), out[2] = (uint8_t)(sum >> 16);
        }
    }
    FILE *out = fopen(arguments[6], "wb");
    return out && fwrite(wave, 1, whole, out) == whole && !fclose(out) ? 0 : 2;
}
