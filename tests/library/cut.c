/* Plays files by the library, with pushes and pulls cut at random, and seeks: cut PROJECT FILE OUT SEED [FROM TO]
 *
 * OUT gets the packed frames. With FROM and TO these frames alone, after some seeks elsewhere. It prints what is played,
 * and the status of each call that refuses. With SEED 0 it pushes and pulls as much as it can. */
#include <dsdarc.h>
#include <stdio.h>
#include <stdlib.h>
#include <string.h>

#include "reading.h"

static int refused(const char *call, dsdarc_status status) {
    if (status != DSDARC_OK) printf("%s %s\n", call, dsdarc_status_text(status));
    return status != DSDARC_OK;
}

int main(int count, char **arguments) {
    size_t text_size, size, at = 0, taken, given, step, most;
    unsigned char *text, *bytes, *pcm;
    dsdarc_player *player;
    dsdarc_info info = {0};
    uint64_t left = UINT64_MAX, offset, first = 0;
    FILE *out;
    int is_known = 0, random;
    if (count != 5 && count != 7) return 3;
    text = whole(arguments[1], &text_size);
    bytes = whole(arguments[2], &size);
    state = strtoull(arguments[4], NULL, 10);
    random = state != 0;
    if (!(out = fopen(arguments[3], "wb"))) return 3;
    if (refused("new", dsdarc_player_new(text, text_size, &player))) return 1;
    most = random ? 1 + below(below(3) ? 70000 : 50) : 65536;
    pcm = malloc(most * 6 * 3);
    for (;;) {
        if (!is_known && dsdarc_player_info(player, &info) == DSDARC_OK) {
            is_known = 1;
            printf("%u %u %u %u %llu\n", info.rate_in, info.rate, info.channels, info.width,
                   (unsigned long long)info.frames);
            if (count == 7) {
                first = strtoull(arguments[5], NULL, 10), left = strtoull(arguments[6], NULL, 10) - first;
                while (random && below(3)) /* anywhere, and on from there for a while */ {
                    if (refused("seek", dsdarc_player_seek(player, below(info.frames + 1), &offset))) return 1;
                    step = below(size - offset + 1);
                    if (refused("push", dsdarc_player_push(player, bytes + offset, step, &taken))) return 1;
                    if (refused("pull", dsdarc_player_pull(player, pcm, below(most), DSDARC_PACKED, &given))) return 1;
                }
                if (refused("seek", dsdarc_player_seek(player, first, &offset))) return 1;
                at = offset;
            }
        }
        step = random ? 1 + below(most) : size;
        if (step > size - at) step = size - at;
        if (refused("push", dsdarc_player_push(player, bytes + at, step, &taken))) break;
        if (taken > step) return 4;
        at += taken;
        do {
            size_t wanted = random ? 1 + below(most) : most;
            if (wanted > left) wanted = (size_t)left;
            if (refused("pull", dsdarc_player_pull(player, pcm, wanted, DSDARC_PACKED, &given))) return 1;
            if (given > wanted) return 4;
            fwrite(pcm, (size_t)info.width / 8 * info.channels, given, out);
            left -= given;
        } while (given > 0);
        if (at == size && taken == 0) break;
        if (left == 0) break;
    }
    if (left != 0) refused("end", dsdarc_player_end(player));
    dsdarc_player_drop(player);
    free(text), free(bytes), free(pcm);
    return fclose(out) != 0;
}
