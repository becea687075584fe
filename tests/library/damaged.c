/* Plays a file that may be damaged, as far as its sound is there: damaged PROJECT FILE OUT
 *
 * OUT gets the packed frames, and a line says after which one the file is damaged. docs/LIBRARY.md shows `play_there`. */
#include <dsdarc.h>
#include <stdio.h>
#include <stdlib.h>

static FILE *out;

static void use(const void *pcm, size_t size) { fwrite(pcm, 1, size, out); }

static dsdarc_status give(dsdarc_player *player, const unsigned char *bytes, size_t size) {
    static unsigned char pcm[1024 * 6 * 3];
    size_t taken = 0, given = 0;
    dsdarc_status status = DSDARC_OK;
    dsdarc_info info;
    for (size_t at = 0; at < size && status == DSDARC_OK; at += taken) {
        status = dsdarc_player_push(player, bytes + at, size - at, &taken);
        while (dsdarc_player_pull(player, pcm, 1024, DSDARC_PACKED, &given) == DSDARC_OK && given > 0)
            if (dsdarc_player_info(player, &info) == DSDARC_OK) use(pcm, given * info.channels * info.width / 8);
    }
    return status;
}

static dsdarc_status play_there(dsdarc_player *player, FILE *file, uint64_t file_size) {
    static unsigned char header[1 << 20], bytes[65536];
    size_t size = fread(header, 1, sizeof header, file);
    dsdarc_mended left;
    dsdarc_info info = {0};
    dsdarc_status status = dsdarc_mend_header(header, size, file_size, &left, sizeof left);
    if (status != DSDARC_OK) return status;
    uint64_t at = left.start, stop = left.changed ? left.stop : file_size;
    status = give(player, header, (size_t)left.start);
    fseek(file, (long)left.start, SEEK_SET);
    while (status == DSDARC_OK && at < stop) {
        size_t most = stop - at < sizeof bytes ? (size_t)(stop - at) : sizeof bytes;
        if ((size = fread(bytes, 1, most, file)) == 0) break;
        status = give(player, bytes, size), at += size;
    }
    for (; status == DSDARC_OK && left.fill > 0; left.fill--) status = give(player, (const unsigned char *)"", 1);
    if (status == DSDARC_OK) status = dsdarc_player_end(player);
    if (dsdarc_player_info(player, &info) == DSDARC_OK && (left.changed || status != DSDARC_OK))
        printf("damaged after frame %llu\n", (unsigned long long)info.frames);
    return status;
}

int main(int count, char **words) {
    static char text[1 << 20];
    dsdarc_player *player;
    FILE *project, *file;
    dsdarc_status status;
    long size;
    if (count != 4 || !(project = fopen(words[1], "rb")) || !(file = fopen(words[2], "rb"))) return 3;
    if (!(out = fopen(words[3], "wb")) || fseek(file, 0, SEEK_END) || (size = ftell(file)) < 0) return 3;
    rewind(file);
    if (dsdarc_player_new(text, fread(text, 1, sizeof text, project), &player) != DSDARC_OK) return 3;
    status = play_there(player, file, (uint64_t)size);
    if (status != DSDARC_OK) printf("%s\n", dsdarc_status_text(status));
    dsdarc_player_drop(player);
    fclose(project), fclose(file);
    return fclose(out) != 0;
}
