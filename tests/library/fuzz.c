/* Calls the library at random over files that are changed at random: fuzz SEED RUNS PROJECT FILE..
 *
 * Each run plays a file twice: once as it comes, and once in random pushes, pulls, seeks, calls with null pointers and
 * sizes that can't be. What the second pulls from a frame on has to be what the first pulled there, and without a seek
 * the verdict at the end has to be the same. A push has to take something where nothing waits. AddressSanitizer sees
 * what is freed twice or never. The library's own code isn't made for it, so every buffer of a call has just the size
 * that is reported, and ends before a page that nothing may touch. The pages are mapped once for all runs. After a call
 * its bytes are filled, so that what reads them later gets others; at the next call they have to be as they were left.
 * After one call in sixteen nothing may touch them. */
#include <dsdarc.h>
#include <stdio.h>
#include <stdlib.h>
#include <string.h>
#include <sys/mman.h>

#include "reading.h"

static void fail(const char *why, unsigned long run) {
    printf("FOUND: %s in run %lu\n", why, run);
    exit(1);
}

enum { PAGE = 4096, FILL = 0xa5 };

/* Pages for the buffers of one kind, before a page that nothing may touch; how many bytes the last buffer had, and
 * whether nothing may touch it. */
typedef struct pages {
    unsigned char *fence;
    size_t room, used;
    int gone;
} pages;

static pages for_file, for_text, for_pushes, for_pulls;

/* Whether all these bytes are the filling. */
static int filled(const unsigned char *bytes, size_t size) {
    return size == 0 || (bytes[0] == FILL && memcmp(bytes, bytes + 1, size - 1) == 0);
}

static void make_room(pages *in, size_t size) {
    size_t whole = (size + PAGE) / PAGE * PAGE * 2;
    unsigned char *base;
    if (in->fence && munmap(in->fence - in->room, in->room + PAGE)) exit(2);
    base = mmap(NULL, whole + PAGE, PROT_READ | PROT_WRITE, MAP_PRIVATE | MAP_ANONYMOUS, -1, 0);
    if (base == MAP_FAILED || mprotect(base + whole, PAGE, PROT_NONE)) exit(2);
    memset(base, FILL, whole);
    *in = (pages){.fence = base + whole, .room = whole};
}

/* A buffer whose last byte is before a page that nothing may touch. */
static unsigned char *fenced(pages *in, size_t size, unsigned long run) {
    if (in->gone && mprotect(in->fence - in->room, in->room, PROT_READ | PROT_WRITE)) exit(2);
    in->gone = 0;
    if (!filled(in->fence - in->used, in->fence ? in->used : 0)) fail("a buffer is written after its call", run);
    if (in->room < size + PAGE) make_room(in, size + PAGE);
    in->used = size;
    return in->fence - size;
}

static unsigned char *copied(pages *in, const void *bytes, size_t size, unsigned long run) {
    return memcpy(fenced(in, size, run), bytes, size);
}

/* Ends a buffer's use; nothing may have been written before it. */
static void forget(pages *in, unsigned long run) {
    if (!filled(in->fence - in->used - PAGE, PAGE)) fail("something is written before a buffer", run);
    memset(in->fence - in->used, FILL, in->used);
    in->gone = below(16) == 0;
    if (in->gone && mprotect(in->fence - in->room, in->room, PROT_NONE)) exit(2);
}

/* What a file plays to, taken as it comes. */
static unsigned char *reference(const unsigned char *text, size_t text_size, const unsigned char *bytes, size_t size,
                                size_t *have, dsdarc_status *verdict) {
    dsdarc_player *player;
    dsdarc_info info;
    unsigned char *pcm = NULL;
    size_t at = 0, taken, given, room = 0;
    *have = 0;
    *verdict = dsdarc_player_new(text, text_size, &player);
    if (*verdict != DSDARC_OK) return NULL;
    for (;;) {
        *verdict = dsdarc_player_push(player, bytes + at, size - at, &taken);
        if (*verdict != DSDARC_OK) break;
        at += taken;
        if (dsdarc_player_info(player, &info) == DSDARC_OK) {
            size_t frame = (size_t)info.width / 8 * info.channels;
            do {
                if (room < *have + 4096 * frame) pcm = realloc(pcm, room = 2 * *have + 4096 * frame);
                if (dsdarc_player_pull(player, pcm + *have, 4096, DSDARC_PACKED, &given) != DSDARC_OK) exit(2);
                *have += given * frame;
            } while (given > 0);
        }
        if (taken == 0 && at == size) break;
    }
    if (*verdict == DSDARC_OK) *verdict = dsdarc_player_end(player);
    dsdarc_player_drop(player);
    return pcm;
}

static void at_random(unsigned long run, const unsigned char *text, size_t text_size, const unsigned char *bytes,
                      size_t size, const unsigned char *pcm, size_t have, dsdarc_status verdict) {
    dsdarc_player *player, *none;
    dsdarc_info info = {0};
    size_t at = 0, taken, given, place = 0, frame = 0, most = 1 + below(below(2) ? 70000 : 300);
    uint64_t offset;
    int sought = 0, is_known = 0, none_wait = 1;
    dsdarc_status status = dsdarc_player_new(text, text_size, &player);
    if (status != DSDARC_OK) {
        if (status != verdict || player) fail("another status of new", run);
        return;
    }
    for (unsigned long call = 0; call < 4000; call++) {
        size_t kind = below(20);
        if (kind < 9) {
            size_t step = 1 + below(most);
            unsigned char *piece;
            if (step > size - at) step = size - at;
            piece = copied(&for_pushes, bytes + at, step, run);
            status = dsdarc_player_push(player, piece, step, &taken);
            forget(&for_pushes, run);
            if (status != DSDARC_OK) {
                if (!sought && status != verdict) fail("another fault of push", run);
                if (dsdarc_player_push(player, bytes, 0, &taken) != DSDARC_AFTER_FAULT && status != DSDARC_MEMORY)
                    fail("taken after a fault", run);
                break;
            }
            if (taken > step) fail("too many taken", run);
            if (taken == 0 && step > 0 && none_wait) fail("nothing is taken where nothing waits", run);
            if (taken > 0) none_wait = dsdarc_player_info(player, &info) == DSDARC_NOT_YET;
            at += taken;
        } else if (kind < 17 && is_known) {
            size_t frames = below(most);
            int as_numbers = below(3) == 0;
            size_t size_of = frames * info.channels * (as_numbers ? 4 : info.width / 8);
            unsigned char *to = fenced(&for_pulls, size_of, run);
            if (dsdarc_player_pull(player, to, frames, as_numbers ? DSDARC_S32 : DSDARC_PACKED, &given) != DSDARC_OK)
                fail("a pull is refused", run);
            if (given > frames) fail("too many given", run);
            if (place + given * frame > have) fail("more frames than there are", run);
            for (size_t n = 0; n < given * info.channels; n++) {
                size_t wide = info.width / 8;
                const unsigned char *is = pcm + place + n * wide;
                int32_t number = is[wide - 1] < 128 ? is[wide - 1] : (int32_t)is[wide - 1] - 256, found;
                for (size_t k = wide - 1; k-- > 0;) number = number * 256 + is[k];
                if (as_numbers ? (memcpy(&found, to + 4 * n, 4), found != number) : memcmp(to + n * wide, is, wide) != 0)
                    fail("another sample", run);
            }
            place += given * frame;
            none_wait = none_wait || given < frames;
            forget(&for_pulls, run);
        } else if (kind == 17 && is_known && below(4) == 0) {
            uint64_t to = below(info.frames + 3);
            status = dsdarc_player_seek(player, to, &offset);
            if (to > info.frames ? status != DSDARC_PAST_END : status != DSDARC_OK) fail("a seek", run);
            if (status == DSDARC_OK) {
                if (to * frame > have) break; /* after a fault: nothing to compare with */
                place = to * frame, at = offset < size ? (size_t)offset : size, sought = 1, none_wait = 0;
            }
        } else if (kind == 18) {
            if (dsdarc_player_push(NULL, bytes, size, &taken) != DSDARC_NULL ||
                dsdarc_player_push(player, NULL, 1, &taken) != DSDARC_NULL ||
                dsdarc_player_push(player, bytes, 0, NULL) != DSDARC_NULL ||
                dsdarc_player_push(player, bytes, SIZE_MAX, &taken) != DSDARC_SIZE ||
                dsdarc_player_pull(player, NULL, 1, DSDARC_S32, &given) != DSDARC_NULL ||
                dsdarc_player_pull(player, &given, 1, (dsdarc_format)7, &given) != DSDARC_SIZE ||
                dsdarc_player_info(player, NULL) != DSDARC_NULL || dsdarc_player_seek(player, 0, NULL) != DSDARC_NULL ||
                dsdarc_player_end(NULL) != DSDARC_NULL || dsdarc_player_new(NULL, 1, &none) != DSDARC_NULL ||
                none || dsdarc_player_new(text, text_size, NULL) != DSDARC_NULL)
                fail("a null pointer or a size", run);
            dsdarc_player_drop(none);
        } else if (!is_known) {
            is_known = dsdarc_player_info(player, &info) == DSDARC_OK;
            frame = (size_t)info.width / 8 * info.channels;
        }
        if (at == size && place == have && below(8) == 0) {
            /* Bytes after the sound may still be taken. */
            status = dsdarc_player_end(player);
            if (!sought && status != verdict) fail("another verdict", run);
            break;
        }
    }
    dsdarc_player_drop(player);
}

int main(int count, char **arguments) {
    unsigned long runs = count > 2 ? strtoul(arguments[2], NULL, 10) : 0, played = 0;
    size_t text_size;
    unsigned char *text;
    if (count < 5) return 3;
    state = strtoull(arguments[1], NULL, 10) * 0x9E3779B97F4A7C15u + 1;
    text = whole(arguments[3], &text_size);
    for (unsigned long run = 0; run < runs; run++) {
        size_t size, have;
        dsdarc_status verdict;
        unsigned char *made = whole(arguments[4 + below((size_t)count - 4)], &size), *bytes, *pcm, *own;
        size_t text_now = text_size;
        for (size_t change = below(2) ? 1 + below(3) : 0; change > 0 && size > 0; change--)
            made[below(below(2) && size > 160 ? 160 : size)] = (unsigned char)below(256);
        if (below(6) == 0) size = below(size + 1);
        bytes = copied(&for_file, made, size, run);
        if (below(200) == 0) text_now = below(text_size);
        own = copied(&for_text, text, text_now, run);
        if (text_now > 0 && below(50) == 0) own[below(text_now)] = (unsigned char)below(256);
        pcm = reference(own, text_now, bytes, size, &have, &verdict);
        played += verdict == DSDARC_OK;
        at_random(run, own, text_now, bytes, size, pcm, have, verdict);
        forget(&for_file, run), forget(&for_text, run);
        free(made), free(pcm);
    }
    free(text);
    printf("%lu runs, %lu of files that are played\n", runs, played);
    return 0;
}
