/* Shows what a seek costs by the library, alone and until the first frame is there, and a start: seeks PROJECT FILE */
#include <dsdarc.h>
#include <stdio.h>
#include <stdlib.h>
#include <time.h>

#include "../tests/library/reading.h"

enum { SEEKS = 200 };

/* The milliseconds of processor time of one of so many since then. */
static double each(clock_t began) { return 1e3 * (double)(clock() - began) / CLOCKS_PER_SEC / SEEKS; }

int main(int count, char **arguments) {
    static unsigned char pcm[18];
    size_t text_size, size, taken, given = 0;
    unsigned char *text, *bytes;
    dsdarc_player *player;
    dsdarc_info info;
    clock_t began;
    if (count != 3) return 3;
    text = whole(arguments[1], &text_size), bytes = whole(arguments[2], &size);
    if (dsdarc_player_new(text, text_size, &player) != DSDARC_OK) return 1;
    if (dsdarc_player_push(player, bytes, size, &taken) != DSDARC_OK) return 1;
    if (dsdarc_player_info(player, &info) != DSDARC_OK) return 1;
    began = clock();
    for (int seek = 0; seek < SEEKS; seek++) {
        uint64_t at, frame = (uint64_t)seek * 7919 * 7919 % (info.frames - 1);
        if (dsdarc_player_seek(player, frame, &at) != DSDARC_OK) return 1;
    }
    printf("%.3f ms of processor for a seek", each(began));
    began = clock();
    for (int seek = 0; seek < SEEKS; seek++) {
        uint64_t at, frame = (uint64_t)seek * 7919 * 7919 % (info.frames - 1);
        if (dsdarc_player_seek(player, frame, &at) != DSDARC_OK) return 1;
        for (given = 0; given == 0; at += taken) {
            size_t step = size - at < 8192 ? size - at : 8192;
            if (dsdarc_player_push(player, bytes + at, step, &taken) != DSDARC_OK) return 1;
            if (dsdarc_player_pull(player, pcm, 1, DSDARC_PACKED, &given) != DSDARC_OK) return 1;
        }
    }
    printf(", %.2f ms for one and its first frame", each(began));
    dsdarc_player_drop(player);
    began = clock();
    for (int start = 0; start < SEEKS; start++) {
        if (dsdarc_player_new(text, text_size, &player) != DSDARC_OK) return 1;
        for (size_t at = given = 0; given == 0; at += taken) {
            size_t step = size - at < 8192 ? size - at : 8192;
            if (dsdarc_player_push(player, bytes + at, step, &taken) != DSDARC_OK) return 1;
            if (dsdarc_player_pull(player, pcm, 1, DSDARC_PACKED, &given) != DSDARC_OK) return 1;
        }
        dsdarc_player_drop(player);
    }
    printf(", %.2f ms for a new player and its first frame\n", each(began));
    return 0;
}
