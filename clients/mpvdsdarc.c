/* A plugin of mpv over the library: DSDIFF and DSF files are played by a filter, as `dsdarc play` plays them.
 *
 *     cc -shared -fPIC mpvdsdarc.c $(pkg-config --cflags --libs dsdarc) -o dsdarc.so
 *     mpv --script=./dsdarc.so in.dsf
 *     mpv --script=./dsdarc.so --script-opts=dsdarc-filter=176400/24 in.dsf
 *
 * In ~/.config/mpv/scripts mpv finds it by itself. It needs the headers of mpv, which are in libmpv-dev, and none of its
 * libraries. The filter is a project text's path, or what to play to: RATE/BITS, or several, the best first. Without the
 * option it is what DSDARC_FILTER says, else 88200/24,96000/24. The ready filters are those of the folder that
 * DSDARC_FILTERS names, by its index, and those that the library has.
 *
 * mpv gets a file as a stream `dsdarc://`, which is a WAVE file that isn't there: its header, the tag of the file, and the
 * frames. Channels are in the order of the loudspeakers, as of `play --speakers`, and the header names these. A seek goes to
 * the byte that mpv asks for. A file that the library refuses, and one for whose rate there is no such filter, is left to
 * mpv, and a line says so. */
#define _GNU_SOURCE
#include <dsdarc.h>
#include <fcntl.h>
#include <mpv/client.h>
#include <mpv/stream_cb.h>
#include <stdio.h>
#include <stdlib.h>

#include "speakers.h"
#include "tags.h"

#define SCHEME "dsdarc://"
#define BEST "88200/24,96000/24"
#define OPTION "dsdarc-filter"
enum { FRAMES = 4096, MOST_FRAME = 18, MOST_RATES = 16, BEFORE_TAG = 104, AFTER_TAG = 9 };

typedef struct {
    int file;
    dsdarc_player *player;
    dsdarc_description known;    /* what the file holds */
    speaker_order order;         /* of its channels */
    dsdarc_info info;            /* what is played, once a filter is chosen */
    uint64_t offset;             /* of the next byte that is read of the file */
    unsigned char bytes[65536];
    size_t count, pushed;        /* of these bytes */
    unsigned char *header;
    uint64_t header_size, frame_size;
    uint64_t place;              /* of the next byte of the WAVE file */
    int is_elsewhere;            /* the player isn't there */
    unsigned char frames[FRAMES * MOST_FRAME];
    size_t given, taken;         /* bytes of frames */
} stream;

/* The whole of a small file, with a zero after it; or NULL. */
static char *text_of(const char *path, size_t *size) {
    FILE *file = fopen(path, "rb");
    char *text = NULL;
    long end;
    *size = 0;
    if (!file) return NULL;
    if (fseek(file, 0, SEEK_END) == 0 && (end = ftell(file)) >= 0 && fseek(file, 0, SEEK_SET) == 0 &&
        (text = malloc((size_t)end + 1))) {
        *size = fread(text, 1, (size_t)end, file);
        text[*size] = 0;
    }
    fclose(file);
    return text;
}

static void leave(stream *it) {
    dsdarc_player_drop(it->player);
    if (it->file >= 0) close(it->file);
    free(it->header);
    free(it);
}

/* Pushes what comes next of the file: 1, 0 at its end, or -1. */
static int push(stream *it) {
    size_t taken;
    if (it->pushed == it->count) {
        ssize_t count = pread(it->file, it->bytes, sizeof it->bytes, (off_t)it->offset);
        if (count <= 0) return (int)count;
        it->offset += (uint64_t)count;
        it->count = (size_t)count;
        it->pushed = 0;
    }
    if (dsdarc_player_push(it->player, it->bytes + it->pushed, it->count - it->pushed, &taken) != DSDARC_OK) return -1;
    it->pushed += taken;
    return 1;
}

/* A player of a file, once it knows the sound; or NULL. */
static stream *opened(const char *path) {
    stream *it = calloc(1, sizeof *it);
    if (!it) return NULL;
    it->file = open(path, O_RDONLY | O_CLOEXEC);
    if (it->file < 0 || dsdarc_player_new_empty(&it->player) != DSDARC_OK) return leave(it), NULL;
    while (dsdarc_player_describe(it->player, &it->known, sizeof it->known) != DSDARC_OK)
        if (push(it) <= 0) return leave(it), NULL;
    it->order = speakers_of(&it->known);
    return it;
}

/* Chooses the filter at a path. */
static dsdarc_status choose_at(stream *it, const char *path) {
    size_t size;
    char *text = text_of(path, &size);
    dsdarc_status status = text ? dsdarc_player_filter(it->player, text, size) : DSDARC_NO_FILTER;
    free(text);
    return status;
}

/* The path of the ready filter that the index in the folder DSDARC_FILTERS lists for a wish; or NULL. */
static char *listed(const dsdarc_wish *wish) {
    const char *folder = getenv("DSDARC_FILTERS");
    char name[4096], *place = NULL, *index = NULL, *path = NULL;
    size_t size = 0;
    if (folder && asprintf(&place, "%s/index.txt", folder) >= 0) index = text_of(place, &size);
    if (index && dsdarc_filter_find(index, size, wish, name, sizeof name) == DSDARC_OK &&
        asprintf(&path, "%s/%s", folder, name) < 0)
        path = NULL;
    free(index);
    if (folder) free(place);
    return path;
}

/* Whether a filter is a rate and width, and not a path. */
static int is_wish(const char *filter, dsdarc_wish *wish) {
    char more;
    return sscanf(filter, "%9u/%2u%c", &wish->rate, &wish->width, &more) == 2;
}

/* Chooses a filter: a path, or a rate and width. */
static dsdarc_status choose(stream *it, const char *filter) {
    dsdarc_wish wish = {.rate_in = it->known.rate_in};
    dsdarc_status status;
    char *path;
    if (!is_wish(filter, &wish)) {
        status = choose_at(it, filter);
    } else if ((path = listed(&wish))) {
        status = choose_at(it, path);
        free(path);
    } else {
        status = dsdarc_player_filter_ready(it->player, wish.rate, wish.width, wish.gain);
    }
    return status == DSDARC_OK ? dsdarc_player_info(it->player, &it->info) : status;
}

static unsigned char *put(unsigned char *at, const char *name, uint64_t number, int count) {
    for (; *name; name++) *at++ = (unsigned char)*name;
    for (; count > 0; count--, number >>= 8) *at++ = (unsigned char)number;
    return at;
}

/* The header of the WAVE file, of the form for any length (RF64), with the tag. Whether there was memory for it. */
static int describe(stream *it) {
    static const char rest[] = "\0\0\0\0\x10\0\x80\0\0\xaa\0\x38\x9b\x71";
    tag_place tag = tag_of(it->file);
    uint32_t width = it->info.width, channels = it->info.channels;
    uint64_t frame = width / 8 * channels, size = it->info.frames * frame;
    unsigned char *at = it->header = calloc(1, BEFORE_TAG + (size_t)tag.size + AFTER_TAG);
    if (!at) return 0;
    at = put(put(at, "RF64", UINT32_MAX, 4), "WAVEds64", 28, 4);
    at = put(put(put(put(at, "", 0, 8), "", size, 8), "", it->info.frames, 8), "", 0, 4);
    at = put(put(put(at, "fmt ", 40, 4), "", 0xfffe, 2), "", channels, 2);
    at = put(put(put(at, "", it->info.rate, 4), "", it->info.rate * frame, 4), "", frame, 2);
    at = put(put(put(put(put(at, "", width, 2), "", 22, 2), "", width, 2), "", it->order.mask, 4), "", 1, 2);
    memcpy(at, rest, 14);
    at += 14;
    if (tag.size > 0) {
        at = put(at, "ID3 ", tag.size, 4);
        if (pread(it->file, at, (size_t)tag.size, (off_t)tag.at) != (ssize_t)tag.size) return 0;
        at += tag.size + tag.size % 2;
    }
    at = put(at, "data", UINT32_MAX, 4);
    it->header_size = (uint64_t)(at - it->header);
    it->frame_size = frame;
    put(it->header + 20, "", it->header_size - 8 + size, 8);
    return 1;
}

/* Has the player go to the frame with the next byte. */
static int go_on(stream *it) {
    uint64_t from = it->place - it->header_size;
    if (dsdarc_player_seek(it->player, from / it->frame_size, &it->offset) != DSDARC_OK) return 0;
    it->count = it->pushed = it->given = 0;
    it->taken = (size_t)(from % it->frame_size);
    it->is_elsewhere = 0;
    return 1;
}

/* Gets frames, where all bytes of those before were read: 1, 0 at the end, or -1. */
static int pull(stream *it) {
    size_t frames, before = it->taken - it->given;
    for (;;) {
        int status;
        if (dsdarc_player_pull(it->player, it->frames, FRAMES, DSDARC_PACKED, &frames) != DSDARC_OK) return -1;
        if (frames > 0) break;
        if ((status = push(it)) < 0) return -1;
        if (status == 0) return 0;
    }
    speakers_put(&it->order, it->frames, frames, it->info.width / 8);
    it->given = frames * (size_t)it->frame_size;
    it->taken = before;
    return 1;
}

static int64_t read_bytes(void *cookie, char *out, uint64_t room) {
    stream *it = cookie;
    uint64_t end = it->header_size + it->info.frames * it->frame_size, count;
    if (it->place >= end) return 0;
    if (it->place < it->header_size) {
        count = it->header_size - it->place;
        count = count < room ? count : room;
        memcpy(out, it->header + it->place, count);
    } else {
        if (it->is_elsewhere && !go_on(it)) return -1;
        if (it->taken >= it->given && pull(it) <= 0) return -1;
        count = it->given - it->taken;
        count = count < room ? count : room;
        memcpy(out, it->frames + it->taken, count);
        it->taken += (size_t)count;
    }
    it->place += count;
    return (int64_t)count;
}

static int64_t seek_to(void *cookie, int64_t place) {
    stream *it = cookie;
    if (place < 0 || (uint64_t)place > it->header_size + it->info.frames * it->frame_size) return MPV_ERROR_GENERIC;
    it->is_elsewhere |= it->place != (uint64_t)place;
    it->place = (uint64_t)place;
    return place;
}

static int64_t size_of(void *cookie) {
    stream *it = cookie;
    return (int64_t)(it->header_size + it->info.frames * it->frame_size);
}

static void close_it(void *cookie) { leave(cookie); }

/* Opens dsdarc://SIZE/FILTERFILE: SIZE is how long the name of the filter is. */
static int open_it(void *data, char *name, mpv_stream_cb_info *info) {
    char *rest, *filter;
    size_t length = strtoul(name + strlen(SCHEME), &rest, 10);
    stream *it;
    (void)data;
    if (*rest++ != '/' || length > strlen(rest) || !(filter = strndup(rest, length))) return MPV_ERROR_LOADING_FAILED;
    it = opened(rest + length);
    if (it && (choose(it, filter) != DSDARC_OK || !describe(it))) leave(it), it = NULL;
    free(filter);
    if (!it) return MPV_ERROR_LOADING_FAILED;
    *info = (mpv_stream_cb_info){it, read_bytes, seek_to, size_of, close_it, NULL};
    it->is_elsewhere = 1;
    return 0;
}

/* Prints a line on mpv's terminal. */
static void say(mpv_handle *mpv, const char *path, const char *what) {
    char *line;
    if (asprintf(&line, "dsdarc: %s: %s", path, what) < 0) return;
    mpv_command(mpv, (const char *[]){"print-text", line, NULL});
    free(line);
}

/* Warns of a filter that the index beside it lists for files of other rates. */
static void warn_of_rate(mpv_handle *mpv, const char *path, const char *filter, uint32_t rate) {
    const char *slash = strrchr(filter, '/');
    char *place, *index, what[200];
    uint32_t rates[MOST_RATES];
    size_t size, count, known = 0;
    if (asprintf(&place, "%.*sindex.txt", slash ? (int)(slash + 1 - filter) : 0, filter) < 0) return;
    index = text_of(place, &size);
    if (index && dsdarc_filter_rates(index, size, slash ? slash + 1 : filter, rates, MOST_RATES, &count) == DSDARC_OK) {
        while (known < count && known < MOST_RATES && rates[known] != rate) known++;
        snprintf(what, sizeof what, "the filter is for files of %u Hz, and this one has %u Hz", rates[0], rate);
        if (count > 0 && (known == count || known == MOST_RATES)) say(mpv, path, what);
    }
    free(index);
    free(place);
}

/* The option, as it is now; or NULL. */
static char *option(mpv_handle *mpv) {
    mpv_node all;
    char *found = NULL;
    if (mpv_get_property(mpv, "script-opts", MPV_FORMAT_NODE, &all) < 0) return NULL;
    for (int k = 0; all.format == MPV_FORMAT_NODE_MAP && k < all.u.list->num; k++)
        if (strcmp(all.u.list->keys[k], OPTION) == 0 && all.u.list->values[k].format == MPV_FORMAT_STRING)
            found = strdup(all.u.list->values[k].u.string);
    mpv_free_node_contents(&all);
    return found;
}

/* Chooses the first of several filters that there is: which one; or NULL, and *status says why. */
static char *chosen(stream *it, const char *wishes, dsdarc_status *status) {
    char *all = strdup(wishes), *found = NULL, *rest = NULL, *each;
    *status = all ? DSDARC_NO_FILTER : DSDARC_MEMORY;
    for (each = all ? strtok_r(all, ",", &rest) : NULL; each && !found; each = strtok_r(NULL, ",", &rest)) {
        dsdarc_wish wish;
        if ((*status = choose(it, each)) == DSDARC_OK) found = strdup(each);
        else if (*status != DSDARC_NO_FILTER || !is_wish(each, &wish)) break;
    }
    free(all);
    return found;
}

/* Whether a file begins as a DSDIFF or DSF file. */
static int is_ours(const char *path) {
    unsigned char head[16];
    int file = open(path, O_RDONLY | O_CLOEXEC | O_NONBLOCK), is_known;
    struct stat state;
    if (file < 0) return 0;
    is_known = fstat(file, &state) == 0 && S_ISREG(state.st_mode) && pread(file, head, sizeof head, 0) == sizeof head &&
               (memcmp(head, "DSD ", 4) == 0 || (memcmp(head, "FRM8", 4) == 0 && memcmp(head + 12, "DSD ", 4) == 0));
    close(file);
    return is_known;
}

/* Has mpv open a file by the library, if it is one that the library plays. */
static void load(mpv_handle *mpv) {
    char *path = mpv_get_property_string(mpv, "stream-open-filename"), *filter = NULL, *name = NULL, *said = option(mpv);
    const char *plain_path = path && strncmp(path, "file://", 7) == 0 ? path + 7 : path;
    const char *wish = said ? said : getenv("DSDARC_FILTER");
    char what[100];
    dsdarc_status status;
    stream *it;
    if (path && is_ours(plain_path)) {
        if (!(it = opened(plain_path))) {
            say(mpv, plain_path, "the library refuses it: mpv plays it by itself");
        } else if (!(filter = chosen(it, wish ? wish : BEST, &status))) {
            snprintf(what, sizeof what, "the filter is refused (%s): mpv plays it by itself", dsdarc_status_text(status));
            say(mpv, plain_path, status == DSDARC_NO_FILTER ? "there is no such filter for it: mpv plays it by itself" : what);
        } else if (asprintf(&name, SCHEME "%zu/%s%s", strlen(filter), filter, plain_path) >= 0) {
            warn_of_rate(mpv, plain_path, filter, it->known.rate_in);
            mpv_set_property_string(mpv, "stream-open-filename", name);
            free(name);
        }
        if (it) leave(it);
    }
    free(filter);
    free(said);
    mpv_free(path);
}

/* What mpv calls in a thread of the plugin. */
__attribute__((visibility("default"))) int mpv_open_cplugin(mpv_handle *mpv) {
    mpv_event *event;
    if (mpv_stream_cb_add_ro(mpv, "dsdarc", NULL, open_it) < 0 || mpv_hook_add(mpv, 0, "on_load", 10) < 0) return -1;
    while ((event = mpv_wait_event(mpv, -1))->event_id != MPV_EVENT_SHUTDOWN) {
        if (event->event_id != MPV_EVENT_HOOK) continue;
        load(mpv);
        mpv_hook_continue(mpv, ((mpv_event_hook *)event->data)->id);
    }
    return 0;
}
