/* Plays a file by the library as `dsdarc play` does, but without a header: library_player PROJECT FILE OUT [PIECE]
 *
 * It pushes at most PIECE bytes at once, and otherwise 65,536. Instead of a project, msb, lsb and dop give the bits. */
#include <dsdarc.h>
#include <fcntl.h>
#include <stdio.h>
#include <stdlib.h>
#include <string.h>
#include <unistd.h>

enum { BLOCK = 65536, FRAMES = 65536 };

static int put(int out, const unsigned char *bytes, size_t size) {
    while (size > 0) {
        ssize_t wrote = write(out, bytes, size);
        if (wrote < 0) return 0;
        bytes += wrote, size -= (size_t)wrote;
    }
    return 1;
}

/* Makes a player of a project, or one that gives the bits. */
static int make(const char *project, dsdarc_player **player) {
    static unsigned char text[1 << 20];
    ssize_t size;
    int file;
    if (!strcmp(project, "msb") || !strcmp(project, "lsb") || !strcmp(project, "dop")) return dsdarc_player_new_empty(player);
    if ((file = open(project, O_RDONLY)) < 0 || (size = read(file, text, sizeof text)) < 0) return 1;
    close(file);
    return dsdarc_player_new(text, (size_t)size, player) != DSDARC_OK;
}

static dsdarc_status choose(const char *kind, dsdarc_player *player) {
    if (!strcmp(kind, "dop")) return dsdarc_player_dop(player);
    return dsdarc_player_bits(player, strcmp(kind, "lsb") ? DSDARC_BITS_MSB : DSDARC_BITS_LSB);
}

int main(int count, char **arguments) {
    static unsigned char bytes[BLOCK], pcm[FRAMES * 6 * 3];
    dsdarc_player *player;
    dsdarc_info info = {0};
    size_t taken, given;
    ssize_t size;
    size_t piece = count == 5 ? strtoul(arguments[4], NULL, 10) : BLOCK;
    int file, out;
    if (count < 4 || count > 5 || piece == 0 || piece > BLOCK || (file = open(arguments[2], O_RDONLY)) < 0) return 3;
    if ((out = open(arguments[3], O_WRONLY | O_CREAT | O_TRUNC, 0666)) < 0) return 3;
    if (make(arguments[1], &player)) return 1;
    while ((size = read(file, bytes, piece)) > 0)
        for (size_t at = 0; at < (size_t)size; at += taken) {
            dsdarc_status status = dsdarc_player_push(player, bytes + at, (size_t)size - at, &taken);
            if (status == DSDARC_NO_CHOICE) status = choose(arguments[1], player);
            if (status) return 1;
            if (info.width == 0) dsdarc_player_info(player, &info);
            while (!dsdarc_player_pull(player, pcm, FRAMES, DSDARC_PACKED, &given) && given > 0)
                if (!put(out, pcm, given * info.channels * info.width / 8)) return 2;
        }
    if (dsdarc_player_end(player)) return 1;
    dsdarc_player_drop(player);
    return 0;
}
