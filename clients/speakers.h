/* The loudspeakers of a file's channels, and frames in the order of a WAVE file's channel mask, as those of
 * `dsdarc play --speakers`, for the clients whose players name loudspeakers. */
#ifndef DSDARC_SPEAKERS_H
#define DSDARC_SPEAKERS_H

#include <dsdarc.h>
#include <string.h>

enum { SPEAKERS_MOST = 6, SPEAKERS_FORM = 1, SPEAKERS_SAMPLE = 4 };

typedef struct speaker_order {
    uint32_t mask;                     /* the loudspeakers; 0 if they aren't known */
    uint32_t channels;                 /* 1 to 6 */
    unsigned char from[SPEAKERS_MOST]; /* for each place in a frame, the channel of the file that goes there */
    int is_moved;                      /* whether any channel goes to another place */
} speaker_order;

/* The bit of the mask that an ID of DSDIFF stands for; 0 if it stands for no loudspeaker. */
static uint32_t speaker_of(const char id[4]) {
    static const char ids[][5] = {"SLFT", "MLFT", "SRGT", "MRGT", "C   ", "LFE ", "LS  ", "RS  "};
    static const uint32_t bits[] = {0x1, 0x1, 0x2, 0x2, 0x4, 0x8, 0x10, 0x20};
    for (size_t k = 0; k < sizeof bits / sizeof *bits; k++)
        if (memcmp(id, ids[k], 4) == 0) return bits[k];
    return 0;
}

/* The order of a file's channels. If the IDs of a DSDIFF file name a loudspeaker for each channel, and no two the same,
 * it is that of the mask's bits. Otherwise it is that of the file, and the mask is the one that the library reports. */
static speaker_order speakers_of(const dsdarc_description *file) {
    speaker_order as_is = {file->mask, file->channels, {0, 1, 2, 3, 4, 5}, 0}, it = as_is;
    uint32_t bits[SPEAKERS_MOST] = {0};
    if (file->form != SPEAKERS_FORM || file->channels > SPEAKERS_MOST) return as_is;
    it.mask = 0;
    for (uint32_t channel = 0; channel < file->channels; channel++) {
        bits[channel] = speaker_of(file->ids[channel]);
        if (bits[channel] == 0 || (it.mask & bits[channel])) return as_is;
        it.mask |= bits[channel];
    }
    for (uint32_t channel = 0; channel < file->channels; channel++) {
        uint32_t place = 0;
        for (uint32_t other = 0; other < file->channels; other++) place += bits[other] < bits[channel];
        it.from[place] = (unsigned char)channel;
        it.is_moved |= place != channel;
    }
    return it;
}

/* Puts the channels of interleaved frames in order, whose samples have at most SPEAKERS_SAMPLE bytes each. */
static void speakers_put(const speaker_order *it, void *frames, size_t count, size_t sample) {
    unsigned char held[SPEAKERS_MOST * SPEAKERS_SAMPLE], *to = frames;
    if (!it->is_moved) return;
    for (; count > 0; count--, to += it->channels * sample) {
        memcpy(held, to, it->channels * sample);
        for (uint32_t place = 0; place < it->channels; place++)
            memcpy(to + place * sample, held + it->from[place] * sample, sample);
    }
}

#endif
