/* What a file holds beside its sound: it is read from the bytes before the sound and after it that the player keeps. */
#include "inside.h"

#include <string.h>

/* Bytes that a player keeps, before its sound or after it: `at` is where in the file they start. */
typedef struct kept {
    handle player;
    uint32_t after;
    uint64_t at;
} kept;

/* A chunk of a DSDIFF form: where its data starts among the kept bytes, and how many there are. */
typedef struct chunk {
    uint8_t id[4];
    uint64_t data, size;
} chunk;

static size_t take(kept from, uint64_t place, void *out, size_t size) {
    return place > SIZE_MAX ? 0 : dsdarc_c_kept(from.player, from.after, (size_t)place, out, size);
}

/* The chunk at a place, up to another one; *place goes to the next one. */
static int next_chunk(kept from, uint64_t *place, uint64_t stop, chunk *it) {
    uint8_t head[12];
    if (*place >= stop || take(from, *place, head, sizeof head) < sizeof head) return 0;
    memcpy(it->id, head, 4);
    it->data = *place + 12;
    it->size = high_first(head + 4, 8);
    if (it->size > (UINT64_C(1) << 62)) return 0;
    *place = it->data + it->size + it->size % 2;
    return 1;
}

static int is_named(const chunk *it, const char *name) { return memcmp(it->id, name, 4) == 0; }

/* Where the chunks of a form begin among the bytes before its sound or after it. */
static uint64_t first_chunk(kept from, const sound *it) { return from.after ? it->size % 2 : 16; }

static kept kept_of(dsdarc_player *player, const sound *it, uint32_t after) {
    kept from = {handle_of(player), after, after ? it->start + it->size : 0};
    return from;
}

/* Where the next mark of a form is looked for: first among the bytes before its sound, then among those after it. In
 * these a chunk DIIN comes next at `place`, and in the last one that was found a mark at `inner`. */
typedef struct search {
    dsdarc_player *player;
    const sound *it;
    kept from;
    uint64_t place, inner, stop;
} search;

/* The head of a mark: its place and what else it says but its title. */
enum { MARK_HEAD = 22 };

static search begin_search(dsdarc_player *player, const sound *it, uint32_t after) {
    search left = {player, it, kept_of(player, it, after), 0, 0, 0};
    left.place = first_chunk(left.from, it);
    return left;
}

/* Finds the next mark whose head is there; *found is its chunk. */
static int next_mark(search *left, chunk *found, uint8_t *head) {
    chunk outer;
    for (;;) {
        while (next_chunk(left->from, &left->inner, left->stop, found)) {
            uint64_t most = found->data < left->stop ? left->stop - found->data : 0;
            if (found->size > most) found->size = most;
            if (is_named(found, "MARK") && found->size >= MARK_HEAD &&
                take(left->from, found->data, head, MARK_HEAD) == MARK_HEAD)
                return 1;
        }
        left->inner = left->stop = 0;
        if (next_chunk(left->from, &left->place, UINT64_MAX, &outer)) {
            if (is_named(&outer, "DIIN")) left->inner = outer.data, left->stop = outer.data + outer.size;
        } else {
            if (left->from.after) return 0;
            *left = begin_search(left->player, left->it, 1);
        }
    }
}

static dsdarc_mark mark_of(const search *left, const chunk *found, const uint8_t *head) {
    dsdarc_mark mark;
    uint64_t length = high_first(head + 18, 4);
    memset(&mark, 0, sizeof mark);
    mark.place = (int64_t)(((high_first(head, 2) * 60 + head[2]) * 60 + head[3]) * left->it->rate + high_first(head + 4, 4)) +
                 (int32_t)(uint32_t)high_first(head + 8, 4);
    mark.type = (uint32_t)high_first(head + 12, 2);
    mark.channel = (uint32_t)high_first(head + 14, 2);
    mark.flags = (uint32_t)high_first(head + 16, 2);
    mark.length = (uint32_t)(length < found->size - MARK_HEAD ? length : found->size - MARK_HEAD);
    mark.title = left->from.at + found->data + MARK_HEAD;
    return mark;
}

static uint32_t count_marks(dsdarc_player *player, const sound *it) {
    search left = begin_search(player, it, 0);
    uint8_t head[MARK_HEAD];
    uint32_t count = 0;
    chunk found;
    while (next_mark(&left, &found, head)) count++;
    return count;
}

/* The first ID3 chunk of a form. */
static int tag_in(kept from, const sound *it, dsdarc_description *out) {
    uint64_t place = first_chunk(from, it);
    chunk tag;
    while (next_chunk(from, &place, UINT64_MAX, &tag))
        if (is_named(&tag, "ID3 ")) {
            out->tag = from.at + tag.data;
            out->tag_size = tag.size;
            return 1;
        }
    return 0;
}

static void describe_blocks(kept header, dsdarc_description *out) {
    uint8_t head[80];
    uint64_t total, tag;
    if (take(header, 0, head, sizeof head) < sizeof head) return;
    total = low_first(head + 12, 8), tag = low_first(head + 20, 8);
    /* A tag goes to the end of its file, also where the header states another size of the file. */
    if (tag > 0) out->tag = tag, out->tag_size = tag < total ? total - tag : 0;
    out->type = (uint32_t)low_first(head + 48, 4);
    dsdarc_channel_mask(head, sizeof head, &out->mask);
}

/* The IDs of the channels are in the chunk CHNL of the form's properties; the mask is made of a small form with it. */
static void describe_channels(kept header, const sound *it, dsdarc_description *out) {
    uint8_t form[16 + 16 + 12 + 2 + 24] = "FRM8\0\0\0\0\0\0\0\0DSD PROP";
    uint64_t place = first_chunk(header, it), inner;
    size_t size = 2 + 4 * (size_t)it->channels;
    chunk outer, channels;
    while (next_chunk(header, &place, UINT64_MAX, &outer))
        if (is_named(&outer, "PROP"))
            for (inner = outer.data + 4; next_chunk(header, &inner, outer.data + outer.size, &channels);)
                if (is_named(&channels, "CHNL") && channels.size >= size && it->channels <= 6) {
                    form[27] = (uint8_t)(4 + 12 + size);
                    memcpy(form + 28, "SND CHNL", 8);
                    form[43] = (uint8_t)size;
                    if (take(header, channels.data, form + 44, size) < size) return;
                    memcpy(out->ids, form + 46, size - 2);
                    dsdarc_channel_mask(form, 44 + size, &out->mask);
                    return;
                }
}

dsdarc_status dsdarc_player_describe(dsdarc_player *player, dsdarc_description *description, size_t size) {
    dsdarc_description out;
    dsdarc_info info;
    dsdarc_status status;
    sound it;
    if (!player || !description) return DSDARC_NULL;
    status = (dsdarc_status)dsdarc_c_sound(handle_of(player), &it);
    if (status != DSDARC_OK) return status;
    memset(&out, 0, sizeof out);
    out.bits = it.bits, out.rate_in = it.rate, out.channels = it.channels, out.form = it.blocks ? 2 : 1;
    if (dsdarc_c_info(handle_of(player), &info) == DSDARC_OK)
        out.frames = info.frames, out.rate = info.rate, out.width = info.width;
    if (it.blocks) describe_blocks(kept_of(player, &it, 0), &out);
    else {
        kept before = kept_of(player, &it, 0), after = kept_of(player, &it, 1);
        describe_channels(before, &it, &out);
        if (!tag_in(before, &it, &out)) tag_in(after, &it, &out);
        out.marks = count_marks(player, &it);
    }
    if (size > sizeof out) memset((char *)description + sizeof out, 0, size - sizeof out);
    memcpy(description, &out, size < sizeof out ? size : sizeof out);
    return DSDARC_OK;
}

dsdarc_status dsdarc_player_mark(dsdarc_player *player, uint32_t index, dsdarc_mark *mark, char *title, size_t room) {
    dsdarc_status status;
    uint8_t head[MARK_HEAD];
    uint32_t number = 0;
    search left;
    chunk found;
    sound it;
    if (!player || !mark || (!title && room > 0)) return DSDARC_NULL;
    status = (dsdarc_status)dsdarc_c_sound(handle_of(player), &it);
    if (status != DSDARC_OK) return status;
    if (it.blocks) return DSDARC_NO_MARK;
    left = begin_search(player, &it, 0);
    do {
        if (!next_mark(&left, &found, head)) return DSDARC_NO_MARK;
    } while (number++ < index);
    *mark = mark_of(&left, &found, head);
    if (room > 0) {
        size_t count = mark->length < room - 1 ? mark->length : room - 1;
        title[take(left.from, found.data + MARK_HEAD, title, count)] = 0;
    }
    return DSDARC_OK;
}

dsdarc_status dsdarc_player_marks(dsdarc_player *player, uint32_t index, dsdarc_mark *marks, size_t room, size_t *count) {
    dsdarc_status status;
    uint8_t head[MARK_HEAD];
    search left;
    chunk found;
    sound it;
    if (!player || !count || (!marks && room > 0)) return DSDARC_NULL;
    *count = 0;
    status = (dsdarc_status)dsdarc_c_sound(handle_of(player), &it);
    if (status != DSDARC_OK || it.blocks) return status;
    left = begin_search(player, &it, 0);
    while (*count < room && next_mark(&left, &found, head)) {
        if (index > 0) index--;
        else marks[(*count)++] = mark_of(&left, &found, head);
    }
    return DSDARC_OK;
}
