/* Where a DSDIFF or DSF file has its tag, as the library reports it, for the clients that hand it on. */
#ifndef DSDARC_TAGS_H
#define DSDARC_TAGS_H

#include <dsdarc.h>
#include <stdint.h>
#include <string.h>
#include <sys/stat.h>
#include <unistd.h>

/* Bytes: a larger tag is left out, and what comes after so many that follow the sound isn't looked at. */
enum { TAG_MOST = 1 << 26, TAG_PIECE = 65536, TAG_FORM = 1 };

typedef struct tag_place {
    uint64_t at, size; /* no bytes if there is no tag */
} tag_place;

/* Pushes at most `size` bytes from *at on, and moves *at past those that are taken; whether there were some. */
static int tag_push(int file, dsdarc_player *player, uint64_t *at, size_t size) {
    unsigned char bytes[TAG_PIECE];
    size_t taken = 0;
    ssize_t count = pread(file, bytes, size < sizeof bytes ? size : sizeof bytes, (off_t)*at);
    if (count <= 0 || dsdarc_player_push(player, bytes, (size_t)count, &taken) != DSDARC_OK) return 0;
    *at += taken;
    return taken > 0;
}

/* Describes a file as soon as its tag is known, which mostly follows the sound in a DSDIFF file; whether it has one. */
static int tag_described(int file, dsdarc_player *player, dsdarc_description *it) {
    dsdarc_info info;
    uint64_t at = 0, from, stop;
    while (dsdarc_player_describe(player, it, sizeof *it) != DSDARC_OK)
        if (!tag_push(file, player, &at, TAG_PIECE)) return 0;
    if (it->tag > 0 || it->form != TAG_FORM) return it->tag > 0;
    if (dsdarc_player_bits(player, DSDARC_BITS_MSB) != DSDARC_OK || dsdarc_player_info(player, &info) != DSDARC_OK) return 0;
    if (dsdarc_player_seek(player, info.frames, &from) != DSDARC_OK) return 0;
    /* What is pushed is looked at anew each time: each time it is twice as much. */
    for (at = stop = from; it->tag == 0 && at == stop && at - from < TAG_MOST;) {
        stop = at + (at > from ? at - from : TAG_PIECE);
        while (at < stop && tag_push(file, player, &at, (size_t)(stop - at))) continue;
        if (dsdarc_player_describe(player, it, sizeof *it) != DSDARC_OK) return 0;
    }
    return it->tag > 0;
}

/* The tag of a file that is open and seeks; that of a DSF file goes to its end. What isn't there as a whole, or is no ID3
 * tag, is none. */
static tag_place tag_of(int file) {
    tag_place none = {0, 0}, tag;
    dsdarc_player *player;
    dsdarc_description it;
    unsigned char start[3];
    struct stat state;
    int is_there;
    if (fstat(file, &state) < 0 || dsdarc_player_new_empty(&player) != DSDARC_OK) return none;
    is_there = tag_described(file, player, &it);
    dsdarc_player_drop(player);
    if (!is_there || it.tag > (uint64_t)state.st_size) return none;
    tag.at = it.tag, tag.size = (uint64_t)state.st_size - tag.at;
    if (it.form == TAG_FORM && it.tag_size > tag.size) return none;
    if (it.form == TAG_FORM) tag.size = it.tag_size;
    if (tag.size > TAG_MOST || pread(file, start, 3, (off_t)tag.at) != 3) return none;
    return memcmp(start, "ID3", 3) == 0 ? tag : none;
}

#endif
