/* Gives the bits of a file by the library, with pushes and pulls cut at random: bits KIND FILE OUT SEED [FROM]
 *
 * KIND is msb, lsb or dop, as dsdarc.h names them, or dop32 for DoP as numbers of 32 bits; msb-planar, lsb-planar,
 * dop-planar and dop32-planar give the same by planes, which OUT gets interleaved again. Or it is ready, for the ready
 * filter to 88,200 Hz and 24 bits. With FROM it begins with that frame, after some seeks elsewhere. It prints what a
 * player without a filter reports, and the status of each call that refuses. With SEED 0 it pushes and pulls as much as
 * it can. */
#include <dsdarc.h>
#include <stdio.h>
#include <stdlib.h>
#include <string.h>

#include "reading.h"

enum { MOST = 70000 };

static int refused(const char *call, dsdarc_status status) {
    if (status != DSDARC_OK) printf("%s %s\n", call, dsdarc_status_text(status));
    return status != DSDARC_OK;
}

static dsdarc_status choose(dsdarc_player *player, const char *kind) {
    if (!strncmp(kind, "msb", 3)) return dsdarc_player_bits(player, DSDARC_BITS_MSB);
    if (!strncmp(kind, "lsb", 3)) return dsdarc_player_bits(player, DSDARC_BITS_LSB);
    if (!strncmp(kind, "dop", 3)) return dsdarc_player_dop(player);
    return dsdarc_player_filter_ready(player, 88200, 24, 0);
}

static unsigned char *bytes;

/* What is reported before the choice and after it, and once the file ends. */
static int describe(dsdarc_player *player, const char *when) {
    dsdarc_description it;
    dsdarc_mark mark, some[2];
    char title[40];
    size_t count;
    if (refused("describe", dsdarc_player_describe(player, &it, sizeof it))) return 1;
    printf("%s %llu %llu %u %u %u %u %u %u %u tag %llu %llu", when, (unsigned long long)it.bits,
           (unsigned long long)it.frames, it.rate_in, it.rate, it.width, it.channels, it.mask, it.form, it.type,
           (unsigned long long)it.tag, (unsigned long long)it.tag_size);
    for (uint32_t k = 0; dsdarc_player_mark(player, k, &mark, title, sizeof title) == DSDARC_OK; k++) {
        printf(" mark %lld %u %u %u %u %s", (long long)mark.place, mark.type, mark.channel, mark.flags, mark.length,
               title);
        if (refused("marks", dsdarc_player_marks(player, k, some, 2, &count))) return 1;
        if (count != (k + 1 < it.marks ? 2 : 1) || memcmp(some, &mark, sizeof mark) != 0 ||
            strncmp((const char *)bytes + mark.title, title, mark.length) != 0)
            return printf("other marks\n"), 1;
    }
    printf(" marks %u\n", it.marks);
    return 0;
}

int main(int count, char **arguments) {
    static unsigned char frames[MOST * 6 * 4], turned[MOST * 6 * 4];
    size_t size, at = 0, taken, given, step, most, sample;
    const char *kind = arguments[1];
    dsdarc_format format = DSDARC_PACKED;
    dsdarc_player *player;
    dsdarc_status status;
    dsdarc_info info = {0};
    uint64_t offset;
    int is_known = 0, is_planar, is_random, is_number;
    FILE *out;
    if (count != 5 && count != 6) return 3;
    is_planar = strstr(kind, "planar") != NULL, is_number = strstr(kind, "32") != NULL;
    if (is_number) format = is_planar ? DSDARC_S32_PLANAR : DSDARC_S32;
    else if (is_planar) format = DSDARC_PACKED_PLANAR;
    bytes = whole(arguments[2], &size);
    state = strtoull(arguments[4], NULL, 10);
    is_random = state != 0;
    if (!(out = fopen(arguments[3], "wb"))) return 3;
    if (refused("new", dsdarc_player_new_empty(&player))) return 1;
    most = is_random ? 1 + below(below(3) ? MOST : 50) : 65536;
    for (;;) {
        step = is_random ? 1 + below(most) : size;
        if (step > size - at) step = size - at;
        status = dsdarc_player_push(player, bytes + at, step, &taken);
        if (status == DSDARC_NO_CHOICE && !is_known) {
            if (dsdarc_player_info(player, &info) != DSDARC_NO_CHOICE || taken != 0) return 4;
            if (dsdarc_player_seek(player, 0, &offset) != DSDARC_NO_CHOICE) return 4;
            if (dsdarc_player_end(player) != DSDARC_NO_CHOICE || describe(player, "before")) return 4;
            if (refused("choose", choose(player, kind))) return 1;
            if (choose(player, kind) != DSDARC_CHOSEN || dsdarc_player_info(player, &info) != DSDARC_OK) return 4;
            is_known = 1;
            if (describe(player, "chosen")) return 4;
            if (count == 6) {
                while (is_random && below(3)) /* anywhere, and on from there for a while */ {
                    if (refused("seek", dsdarc_player_seek(player, below(info.frames + 1), &offset))) return 1;
                    step = below(size - offset + 1);
                    if (refused("push", dsdarc_player_push(player, bytes + offset, step, &taken))) return 1;
                    if (refused("pull", dsdarc_player_pull(player, frames, below(most), format, &given))) return 1;
                }
                if (refused("seek", dsdarc_player_seek(player, strtoull(arguments[5], NULL, 10), &offset))) return 1;
                at = offset;
            }
            continue;
        }
        if (refused("push", status)) break;
        if (taken > step) return 4;
        at += taken;
        sample = is_number ? 4 : info.width / 8;
        do {
            size_t wanted = is_random ? 1 + below(most) : most, k, c;
            unsigned char *from = frames;
            if (refused("pull", dsdarc_player_pull(player, frames, wanted, format, &given))) return 1;
            if (given > wanted) return 4;
            if (is_planar) {
                for (k = 0; k < given; k++)
                    for (c = 0; c < info.channels; c++)
                        memcpy(turned + (k * info.channels + c) * sample, frames + (c * wanted + k) * sample, sample);
                from = turned;
            }
            fwrite(from, sample * info.channels, given, out);
        } while (given > 0);
        /* A sound of no bytes starts where the file ends: the choice is then asked for by a push of none. */
        if (at == size && dsdarc_player_info(player, &info) != DSDARC_NO_CHOICE) break;
    }
    if (is_known && describe(player, "end")) return 4;
    if (refused("end", dsdarc_player_end(player))) return 1;
    dsdarc_player_drop(player);
    return fclose(out) ? 3 : 0;
}
