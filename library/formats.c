/* The pulls of dsdarc.h: frames in the formats that the caller asks for. The proved crate gives packed frames, and those of
 * one file by a filter also as numbers of 32 bits. The others are made of these here, a few frames at a time. */
#include "inside.h"

#include <string.h>

/* How many samples are changed at a time. */
enum { SAMPLES = 1536 };

static const size_t most = PTRDIFF_MAX;

/* A sample of 16 or 24 bits, the lowest byte first. */
static int32_t number_at(const uint8_t *at, size_t size) {
    uint32_t high = size == 3 ? (uint32_t)at[2] << 24 | (uint32_t)at[1] << 16 | (uint32_t)at[0] << 8
                              : (uint32_t)at[1] << 24 | (uint32_t)at[0] << 16;
    int64_t value = high >= UINT32_C(0x80000000) ? (int64_t)high - (INT64_C(1) << 32) : (int64_t)high;
    return (int32_t)(value / (INT64_C(1) << (size == 3 ? 8 : 16)));
}

/* Takes samples as numbers: those of one file by a filter are given as numbers, and those of DoP and of files that are
 * joined are packed. */
static size_t take_numbers(handle player, int32_t *out, size_t count, size_t size) {
    uint8_t packed[3 * SAMPLES];
    size_t given = dsdarc_c_pull_numbers(player, out, count), k;
    if (given > 0) return given;
    given = dsdarc_c_pull(player, packed, size * count) / size;
    for (k = 0; k < given; k++) out[k] = number_at(packed + size * k, size);
    return given;
}

/* Writes samples from one frame on, each at its place. */
static void spread(const void *from, size_t count, size_t size, uint8_t *to, size_t first, const dsdarc_info *info,
                   size_t stride) {
    const uint8_t *at = from;
    size_t frame, channel;
    if (stride == 0) {
        memcpy(to + first * info->channels * size, from, count * info->channels * size);
        return;
    }
    for (frame = 0; frame < count; frame++)
        for (channel = 0; channel < info->channels; channel++, at += size)
            memcpy(to + (channel * stride + first + frame) * size, at, size);
}

static void to_floats(int32_t *values, size_t count, uint32_t width) {
    size_t k;
    for (k = 0; k < count; k++) {
        float value = (float)values[k] / (float)(INT32_C(1) << (width - 1));
        memcpy(values + k, &value, sizeof value);
    }
}

/* Takes frames a few at a time. `stride` is how many places a channel has, or 0 where they are interleaved. */
static size_t pull_some(handle player, uint8_t *out, size_t frames, int format, const dsdarc_info *info, size_t stride) {
    int32_t values[SAMPLES];
    size_t size = info->width / 8, done = 0, each = SAMPLES / info->channels, given, count;
    while (done < frames) {
        count = (frames - done < each ? frames - done : each) * info->channels;
        if (format == DSDARC_PACKED) given = dsdarc_c_pull(player, (uint8_t *)values, count * size) / size;
        else given = take_numbers(player, values, count, size);
        if (format == DSDARC_F32) to_floats(values, given, info->width);
        given /= info->channels;
        spread(values, given, format == DSDARC_PACKED ? size : 4, out, done, info, stride);
        done += given;
        if (given * info->channels < count) break;
    }
    return done;
}

dsdarc_status dsdarc_player_pull(dsdarc_player *player, void *pcm, size_t frames, dsdarc_format format, size_t *given) {
    dsdarc_info info;
    size_t sample, size;
    int base = (int)format & ~DSDARC_PLANAR, is_planar = ((int)format & DSDARC_PLANAR) != 0;
    if (!player || !given || (!pcm && frames > 0)) return DSDARC_NULL;
    *given = 0;
    if (base != DSDARC_PACKED && base != DSDARC_S32 && base != DSDARC_F32) return DSDARC_SIZE;
    if (base != DSDARC_PACKED && (uintptr_t)pcm % sizeof(int32_t) != 0) return DSDARC_SIZE;
    if (frames == 0 || dsdarc_c_info(handle_of(player), &info) != DSDARC_OK) return DSDARC_OK;
    size = info.width / 8;
    if (size == 1 && base != DSDARC_PACKED) return DSDARC_SIZE;
    sample = base == DSDARC_PACKED ? size : 4;
    if (frames > most / (sample * info.channels)) return DSDARC_SIZE;
    if (base == DSDARC_PACKED && !is_planar)
        *given = dsdarc_c_pull(handle_of(player), pcm, frames * sample * info.channels) / (sample * info.channels);
    else if (base == DSDARC_S32 && !is_planar)
        *given = dsdarc_c_pull_numbers(handle_of(player), pcm, frames * info.channels) / info.channels;
    if (*given == 0 && (base != DSDARC_PACKED || is_planar))
        *given = pull_some(handle_of(player), pcm, frames, base, &info, is_planar ? frames : 0);
    return DSDARC_OK;
}
