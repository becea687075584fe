/* What a player holds of what comes before and after a sound: held PROJECT FILE PIECE ZEROS
 *
 * It pushes FILE in pieces of PIECE bytes, and then ZEROS zero bytes. It prints how many KiB of memory one push of a
 * piece touched, the least of the last eight of FILE (one push in many makes room for more); then the status of the
 * zeros, of one more zero byte, and of the next. Linux counts what is touched (/proc/PID/clear_refs). */
#include <dsdarc.h>
#include <stdio.h>
#include <stdlib.h>

#include "reading.h"

enum { MOST = 65536 };

static void forget_touched(void) {
    FILE *file = fopen("/proc/self/clear_refs", "w");
    if (!file || fputs("1", file) < 0 || fclose(file)) exit(3);
}

static long touched(void) {
    FILE *file = fopen("/proc/self/smaps_rollup", "r");
    char line[256];
    long kib = -1;
    if (!file) exit(3);
    while (kib < 0 && fgets(line, sizeof line, file)) sscanf(line, "Referenced: %ld kB", &kib);
    fclose(file);
    return kib;
}

/* Pushes all of these bytes, at most `piece` at once, and pulls all frames. */
static dsdarc_status push(dsdarc_player *player, const unsigned char *bytes, size_t size, size_t piece) {
    static unsigned char pcm[MOST];
    size_t taken, given;
    while (size > 0) {
        dsdarc_status status = dsdarc_player_push(player, bytes, size < piece ? size : piece, &taken);
        if (status != DSDARC_OK) return status;
        if (taken == 0 || taken > size) exit(4);
        bytes += taken, size -= taken;
        do
            if (dsdarc_player_pull(player, pcm, MOST / 18, DSDARC_PACKED, &given)) exit(4);
        while (given > 0);
    }
    return DSDARC_OK;
}

int main(int count, char **arguments) {
    static const unsigned char zeros[MOST];
    size_t text_size, size, piece, left, step;
    unsigned char *text, *bytes;
    dsdarc_player *player;
    dsdarc_status status = DSDARC_OK;
    long least = -1;
    if (count != 5) return 3;
    text = whole(arguments[1], &text_size), bytes = whole(arguments[2], &size);
    piece = strtoull(arguments[3], NULL, 10), left = strtoull(arguments[4], NULL, 10);
    if (dsdarc_player_new(text, text_size, &player)) return 3;
    for (size_t at = 0; at < size && status == DSDARC_OK; at += step) {
        int last = size - at <= 8 * piece;
        step = size - at < piece ? size - at : piece;
        if (last) forget_touched();
        status = push(player, bytes + at, step, piece);
        if (last) {
            long now = touched();
            if (least < 0 || now < least) least = now;
        }
    }
    printf("%ld", least);
    for (; left > 0 && status == DSDARC_OK; left -= step) {
        step = left < MOST ? left : MOST;
        status = push(player, zeros, step, MOST);
    }
    for (int more = 0; more < 3; more++) {
        printf(" %s", dsdarc_status_text(status));
        if (more < 2) status = push(player, zeros, 1, 1);
    }
    printf("\n");
    dsdarc_player_drop(player);
    return 0;
}
