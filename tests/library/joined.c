/* Plays files that follow each other by the library, with pushes and pulls cut at random: joined KIND OUT SEED FILE..
 *
 * KIND is msb, lsb or dop, as dsdarc.h names them, a path of a filter, or the rate and width of a ready one, as 88200/24. It
 * prints the status of each call that refuses, then what is reported of the recording, and ends it there. OUT gets the
 * frames, packed. With SEED 0 it pushes and pulls as much as it can; otherwise each pull has a format that it draws. */
#include <dsdarc.h>
#include <stdio.h>
#include <stdlib.h>
#include <string.h>

#include "reading.h"

enum { MOST = 70000 };

static int refused(const char *call, dsdarc_status status) {
    if (status != DSDARC_OK) printf("%s %s\n", call, dsdarc_status_text(status));
    return status != DSDARC_OK;
}

static dsdarc_status choose(dsdarc_player *player, const char *kind) {
    unsigned rate, width;
    dsdarc_status status;
    unsigned char *text;
    size_t size;
    if (!strcmp(kind, "msb")) return dsdarc_player_bits(player, DSDARC_BITS_MSB);
    if (!strcmp(kind, "lsb")) return dsdarc_player_bits(player, DSDARC_BITS_LSB);
    if (!strcmp(kind, "dop")) return dsdarc_player_dop(player);
    if (sscanf(kind, "%u/%u", &rate, &width) == 2) return dsdarc_player_filter_ready(player, rate, width, 0);
    text = whole(kind, &size);
    status = dsdarc_player_filter(player, text, size);
    free(text);
    return status;
}

/* A format in which frames of this width can be pulled. */
static dsdarc_format format_of(uint32_t width) {
    static const dsdarc_format formats[] = {DSDARC_PACKED, DSDARC_PACKED_PLANAR, DSDARC_S32,
                                            DSDARC_F32,    DSDARC_S32_PLANAR,    DSDARC_F32_PLANAR};
    return state ? formats[below(width == 8 ? 2 : 6)] : DSDARC_PACKED;
}

/* Writes frames packed that were pulled in this format, where each channel had room for `wanted`. */
static void put(const unsigned char *from, size_t wanted, size_t given, dsdarc_format format, const dsdarc_info *info,
                FILE *out) {
    size_t size = info->width / 8, frame, channel, at;
    int base = format & ~DSDARC_PLANAR;
    for (frame = 0; frame < given; frame++)
        for (channel = 0; channel < info->channels; channel++) {
            int32_t value;
            float scaled;
            at = format & DSDARC_PLANAR ? channel * wanted + frame : frame * info->channels + channel;
            memcpy(&value, from + 4 * at, sizeof value);
            memcpy(&scaled, from + 4 * at, sizeof scaled);
            if (base == DSDARC_F32) value = (int32_t)(scaled * (float)(1 << (info->width - 1)));
            if (base == DSDARC_PACKED) fwrite(from + size * at, size, 1, out);
            else for (at = 0; at < size; at++) fputc((int)((uint32_t)value >> 8 * at & 255), out);
        }
}

static void pull_some(dsdarc_player *player, const dsdarc_info *info, FILE *out, size_t most) {
    static uint32_t frames[MOST * 6];
    dsdarc_format format = format_of(info->width);
    size_t given, wanted = state ? 1 + below(most) : most;
    while (dsdarc_player_pull(player, frames, wanted, format, &given) == DSDARC_OK && given > 0)
        put((const unsigned char *)frames, wanted, given, format, info, out);
}

/* Pushes a file: whether all of it was taken. */
static int push_all(dsdarc_player *player, const char *kind, const char *name, dsdarc_info *info, FILE *out, size_t most) {
    size_t size, at, taken, step;
    unsigned char *bytes = whole(name, &size);
    dsdarc_status status = DSDARC_OK;
    for (at = 0; at < size && status == DSDARC_OK; at += taken) {
        step = state ? 1 + below(most) : size;
        status = dsdarc_player_push(player, bytes + at, step < size - at ? step : size - at, &taken);
        if (status == DSDARC_NO_CHOICE) {
            status = choose(player, kind);
            if (status == DSDARC_OK && choose(player, kind) != DSDARC_CHOSEN) exit(4);
        }
        if (status == DSDARC_OK && dsdarc_player_info(player, info) == DSDARC_OK) pull_some(player, info, out, most);
    }
    free(bytes);
    /* A sound of no bytes may start where the file ends. */
    if (status == DSDARC_OK && dsdarc_player_info(player, info) == DSDARC_NO_CHOICE) status = choose(player, kind);
    if (status == DSDARC_OK) dsdarc_player_info(player, info);
    return !refused("push", status);
}

int main(int count, char **arguments) {
    dsdarc_player *player;
    dsdarc_info info = {0};
    uint64_t offset = 7;
    size_t most, taken;
    FILE *out;
    int k;
    if (count < 5 || !(out = fopen(arguments[2], "wb"))) return 3;
    state = strtoull(arguments[3], NULL, 10);
    most = state ? 1 + below(below(3) ? MOST : 50) : MOST;
    if (refused("new", dsdarc_player_new_joined(&player))) return 1;
    for (k = 4; k < count; k++) {
        if (k > 4 && refused("next", dsdarc_player_next(player))) break;
        if (!push_all(player, arguments[1], arguments[k], &info, out, most)) break;
    }
    if (info.channels && (dsdarc_player_seek(player, 0, &offset) != DSDARC_NO_SEEK || offset != 7)) return 4;
    if (!refused("end", dsdarc_player_end(player)) && info.channels) {
        pull_some(player, &info, out, most);
        if (dsdarc_player_push(player, arguments[1], 1, &taken) != DSDARC_NOT_JOINED || taken != 0) return 4;
        if (dsdarc_player_next(player) != DSDARC_NOT_JOINED || dsdarc_player_end(player) != DSDARC_OK) return 4;
    }
    printf("%llu %u %u %u %u\n", (unsigned long long)info.frames, info.rate_in, info.rate, info.channels, info.width);
    dsdarc_player_drop(player);
    return fclose(out) ? 3 : 0;
}
