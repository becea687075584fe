/* Tries the sentences of dsdarc.h, each by calls: sentences PROJECT FILE..
 *
 * Each FILE has three channels, of which all bits are 1, all are 0, and every other bit is 1, and enough sound that it is
 * pushed in several pieces. A line is printed for each sentence that doesn't hold. */
#include <dsdarc.h>
#include <malloc.h>
#include <stdio.h>
#include <stdlib.h>
#include <string.h>

#include "reading.h"

enum { CHANNELS = 3, MOST = 65536, FRAMES = 1 << 20 };

static int failed;
static const char *name;

#define SAYS(sentence, holds) \
    do { \
        if (!(holds)) printf("FOUND: %s: \"%s\" (line %d)\n", name, sentence, __LINE__), failed = 1; \
    } while (0)

static unsigned char *text, *bytes;
static size_t text_size, size;
static unsigned char pcm[FRAMES * CHANNELS * 4 + 8];

static dsdarc_player *made(void) {
    dsdarc_player *player = NULL;
    if (dsdarc_player_new(text, text_size, &player) != DSDARC_OK) exit(3);
    return player;
}

/* Pushes the bytes before the sound, and reports where it starts. */
static size_t to_sound(dsdarc_player *player, dsdarc_info *info) {
    size_t at = 0, taken;
    while (dsdarc_player_info(player, info) == DSDARC_NOT_YET) {
        if (dsdarc_player_push(player, bytes + at, size - at, &taken) != DSDARC_OK) exit(3);
        at += taken;
    }
    return at;
}

static size_t pulled(dsdarc_player *player) {
    size_t given = 0;
    if (dsdarc_player_pull(player, pcm, FRAMES, DSDARC_PACKED, &given) != DSDARC_OK) exit(3);
    return given;
}

static void try_new(void) {
    dsdarc_player *player = (dsdarc_player *)pcm;
    SAYS("after any status but OK it is null", dsdarc_player_new("[", 1, &player) == DSDARC_NOT_TOML && !player);
    player = (dsdarc_player *)pcm;
    SAYS("after any status but OK it is null", dsdarc_player_new(NULL, 1, &player) == DSDARC_NULL && !player);
    player = (dsdarc_player *)pcm;
    SAYS("a size that can't be", dsdarc_player_new(text, SIZE_MAX, &player) == DSDARC_SIZE && !player);
    dsdarc_player_drop(NULL);
}

static void try_pushes(void) {
    dsdarc_info info;
    dsdarc_player *player = made();
    size_t taken = 9, at = to_sound(player, &info), rest;
    uint64_t start = 0, last = 0;
    SAYS("a push takes bytes up to where the sound starts",
         dsdarc_player_seek(player, 0, &start) == DSDARC_OK && start == at);
    SAYS("a push of 0 takes nothing", dsdarc_player_push(player, NULL, 0, &taken) == DSDARC_OK && taken == 0);
    dsdarc_player_push(player, bytes + at, size - at, &taken);
    SAYS("a push takes 65,536 bytes at most", taken == MOST);
    rest = taken;
    taken = 9;
    SAYS("none are taken while frames wait",
         dsdarc_player_push(player, bytes + at + rest, 100, &taken) == DSDARC_OK && taken == 0);
    while (pulled(player) > 0) continue;
    at += rest;
    SAYS("a null pointer changes nothing", dsdarc_player_push(player, NULL, 1, &taken) == DSDARC_NULL);
    SAYS("a size that can't be changes nothing and takes nothing",
         (taken = 9, dsdarc_player_push(player, bytes, SIZE_MAX, &taken)) == DSDARC_SIZE && taken == 0);
    SAYS("a push of 0 takes nothing", dsdarc_player_push(player, bytes, 0, &taken) == DSDARC_OK && taken == 0);
    SAYS("a push of 0 changes nothing", pulled(player) == 0);
    SAYS("otherwise at least one is taken", dsdarc_player_push(player, bytes + at, 1, &taken) == DSDARC_OK && taken == 1);
    if (dsdarc_player_seek(player, info.frames, &last) != DSDARC_OK) exit(3);
    at = (size_t)last;
    dsdarc_player_push(player, bytes + at, size - at, &taken);
    SAYS("a push takes bytes up to where the sound ends", at + taken <= size);
    dsdarc_player_drop(player);
}

static void try_info(void) {
    dsdarc_info info = {.frames = 77}, after = {0};
    dsdarc_player *player = made();
    size_t taken = 9;
    SAYS("info is as it was before the sound is known",
         dsdarc_player_info(player, &info) == DSDARC_NOT_YET && info.frames == 77);
    SAYS("a file without a recording is refused",
         dsdarc_player_push(player, "nothing of the kind, and long enough for a header of either form", 64, &taken) ==
             DSDARC_FILE_REFUSED);
    SAYS("*taken is 0 after any status but OK", taken == 0);
    SAYS("after a fault info returns what it returned before", dsdarc_player_info(player, &info) == DSDARC_NOT_YET);
    SAYS("all other calls return AfterFault", dsdarc_player_push(player, bytes, 1, &taken) == DSDARC_AFTER_FAULT);
    dsdarc_player_drop(player);
    player = made();
    to_sound(player, &info);
    SAYS("there is no end amid the sound", dsdarc_player_end(player) == DSDARC_FILE_REFUSED);
    SAYS("after a fault info returns what it returned before",
         dsdarc_player_info(player, &after) == DSDARC_OK && memcmp(&info, &after, sizeof info) == 0);
    SAYS("three channels", info.channels == CHANNELS);
    dsdarc_player_drop(player);
}

static void try_pulls(void) {
    dsdarc_info info;
    dsdarc_player *player = made();
    size_t at = to_sound(player, &info), taken, given = 9, width = info.width / 8;
    const int32_t *numbers = (const int32_t *)(void *)(pcm + 4);
    memset(pcm, 0x5a, sizeof pcm);
    if (dsdarc_player_push(player, bytes + at, size - at, &taken) != DSDARC_OK) exit(3);
    SAYS("pcm may be null if frames is 0", dsdarc_player_pull(player, NULL, 0, DSDARC_S32, &given) == DSDARC_OK && !given);
    SAYS("S32 has to be aligned",
         (given = 9, dsdarc_player_pull(player, pcm + 2, 4, DSDARC_S32, &given)) == DSDARC_SIZE && given == 0);
    SAYS("S32 may be anywhere aligned", dsdarc_player_pull(player, pcm + 4, 40, DSDARC_S32, &given) == DSDARC_OK && given == 40);
    SAYS("channels are in the order of the file, and numbers have the values of samples",
         numbers[39 * 3] > 1 << (info.width - 3) && numbers[39 * 3 + 1] < -(1 << (info.width - 3)) &&
             abs(numbers[39 * 3 + 2]) < 1 << (info.width - 3));
    SAYS("numbers go to 2^(width-1) - 1 at most", numbers[39 * 3] < 1 << (info.width - 1));
    memcpy(pcm + 400, numbers, 12);
    SAYS("PACKED may be anywhere", dsdarc_player_pull(player, pcm + 1, 1, DSDARC_PACKED, &given) == DSDARC_OK && given == 1);
    SAYS("the lowest byte comes first, in the order of the file",
         pcm[width] < 0x80 && pcm[2 * width] >= 0x80 && pcm[3 * width] != 0x5a && pcm[3 * width + 1] != 0x80);
    SAYS("a format that can't be", dsdarc_player_pull(player, pcm, 1, (dsdarc_format)7, &given) == DSDARC_SIZE);
    SAYS("a size that can't be", dsdarc_player_pull(player, pcm, SIZE_MAX / 2, DSDARC_PACKED, &given) == DSDARC_SIZE);
    SAYS("what is wrong changes nothing", dsdarc_player_pull(player, pcm, 1, DSDARC_PACKED, &given) == DSDARC_OK && given == 1);
    dsdarc_player_drop(player);
    player = made();
    SAYS("S32 has to be aligned, also before the sound is known",
         dsdarc_player_pull(player, pcm + 2, 4, DSDARC_S32, &given) == DSDARC_SIZE);
    SAYS("0 are given if more bytes are needed", dsdarc_player_pull(player, pcm, 4, DSDARC_S32, &given) == DSDARC_OK && !given);
    dsdarc_player_drop(player);
}

/* The same frames in each format, in pulls of another size. */
static void try_formats(void) {
    static unsigned char packed[FRAMES * CHANNELS * 4], other[FRAMES * CHANNELS * 4];
    static const int formats[] = {DSDARC_S32, DSDARC_F32, DSDARC_PACKED_PLANAR, DSDARC_S32_PLANAR, DSDARC_F32_PLANAR};
    dsdarc_info info;
    dsdarc_player *player = made();
    size_t at = to_sound(player, &info), width = info.width / 8, taken, given, count, frames, k, c, f;
    if (dsdarc_player_push(player, bytes + at, size - at, &taken) != DSDARC_OK) exit(3);
    if (dsdarc_player_pull(player, packed, FRAMES, DSDARC_PACKED, &count) != DSDARC_OK || count < 700) exit(3);
    dsdarc_player_drop(player);
    for (f = 0; f < sizeof formats / sizeof *formats; f++) {
        dsdarc_format format = (dsdarc_format)formats[f];
        int base = formats[f] & ~DSDARC_PLANAR, wrong = 0;
        size_t sample = base == DSDARC_PACKED ? width : 4, done = 0, planes;
        player = made();
        at = to_sound(player, &info);
        if (dsdarc_player_push(player, bytes + at, size - at, &taken) != DSDARC_OK) exit(3);
        for (frames = 1; done < count; frames = 2 * frames + 511) {
            memset(other, 0x5a, sizeof other);
            if (dsdarc_player_pull(player, other, frames, format, &given) != DSDARC_OK || given > frames) exit(3);
            if (given != (frames < count - done ? frames : count - done)) exit(3);
            planes = formats[f] & DSDARC_PLANAR ? frames : 0;
            for (k = 0; k < given; k++)
                for (c = 0; c < CHANNELS; c++) {
                    const unsigned char *is = other + (planes ? c * planes + k : k * CHANNELS + c) * sample;
                    const unsigned char *from = packed + ((done + k) * CHANNELS + c) * width;
                    int64_t value = from[width - 1] < 128 ? 0 : -1;
                    float real;
                    int32_t whole;
                    for (size_t byte = width; byte-- > 0;) value = value * 256 + from[byte];
                    memcpy(&real, is, sample < 4 ? 0 : 4), memcpy(&whole, is, sample < 4 ? 0 : 4);
                    wrong += base == DSDARC_PACKED ? memcmp(is, from, width) != 0
                             : base == DSDARC_S32  ? whole != value
                                                   : (double)real != (double)value / (1 << (info.width - 1));
                }
            done += given;
        }
        SAYS("the same values in each format, and each at its place", wrong == 0);
        SAYS("F32 has to be aligned",
             base == DSDARC_PACKED || dsdarc_player_pull(player, pcm + 2, 1, format, &given) == DSDARC_SIZE);
        dsdarc_player_drop(player);
    }
}

static void try_faults(void) {
    dsdarc_info info, after;
    dsdarc_player *player = made();
    size_t at = to_sound(player, &info), taken, given;
    uint64_t offset = 5;
    if (dsdarc_player_push(player, bytes + at, size - at, &taken) != DSDARC_OK) exit(3);
    if (dsdarc_player_pull(player, pcm, 7, DSDARC_PACKED, &given) != DSDARC_OK || given != 7) exit(3);
    SAYS("there is no end amid the sound", dsdarc_player_end(player) == DSDARC_FILE_REFUSED);
    SAYS("a push takes nothing while frames wait",
         (taken = 9, dsdarc_player_push(player, bytes + at, 10, &taken)) == DSDARC_OK && taken == 0);
    SAYS("a seek returns AfterFault", dsdarc_player_seek(player, 0, &offset) == DSDARC_AFTER_FAULT && offset == 5);
    SAYS("an end returns AfterFault", dsdarc_player_end(player) == DSDARC_AFTER_FAULT);
    SAYS("frames that wait can be pulled", pulled(player) > 100);
    SAYS("a push returns AfterFault", dsdarc_player_push(player, bytes + at, 10, &taken) == DSDARC_AFTER_FAULT);
    SAYS("a push of no bytes returns AfterFault", dsdarc_player_push(player, NULL, 0, &taken) == DSDARC_AFTER_FAULT);
    SAYS("info returns what it returned before",
         dsdarc_player_info(player, &after) == DSDARC_OK && memcmp(&info, &after, sizeof info) == 0);
    SAYS("null pointers are refused as before", dsdarc_player_push(player, NULL, 1, &taken) == DSDARC_NULL);
    dsdarc_player_drop(player);
}

static void try_seeks(void) {
    dsdarc_info info;
    dsdarc_player *player = made();
    size_t at, taken;
    uint64_t offset = 5, frames = 0;
    SAYS("before the sound is known a seek is NotYet", dsdarc_player_seek(player, 0, &offset) == DSDARC_NOT_YET && offset == 5);
    at = to_sound(player, &info);
    dsdarc_player_push(player, bytes + at, size - at, &taken);
    SAYS("after the end a seek changes nothing",
         dsdarc_player_seek(player, info.frames + 1, &offset) == DSDARC_PAST_END && offset == 5);
    SAYS("frames that wait are dropped", dsdarc_player_seek(player, 3, &offset) == DSDARC_OK && pulled(player) == 0);
    SAYS("a seek goes to any frame, and to their number", dsdarc_player_seek(player, info.frames, &offset) == DSDARC_OK);
    if (dsdarc_player_seek(player, 0, &offset) != DSDARC_OK) exit(3);
    for (at = (size_t)offset; frames < info.frames;) {
        size_t more;
        if (dsdarc_player_push(player, bytes + at, size - at, &taken) != DSDARC_OK || taken == 0) break;
        at += taken;
        while ((more = pulled(player)) > 0) frames += more;
    }
    SAYS("once the last byte of the sound was pushed, all frames can be pulled", frames == info.frames);
    while (at < size && dsdarc_player_push(player, bytes + at, size - at, &taken) == DSDARC_OK) at += taken;
    SAYS("bytes after the sound are taken and give no frames", at == size && pulled(player) == 0);
    SAYS("an end", dsdarc_player_end(player) == DSDARC_OK);
    SAYS("DSDARC_OK of an end changes nothing: an end again", dsdarc_player_end(player) == DSDARC_OK);
    SAYS("DSDARC_OK of an end changes nothing: a seek", dsdarc_player_seek(player, 1, &offset) == DSDARC_OK);
    dsdarc_player_push(player, bytes + offset, size - (size_t)offset, &taken);
    SAYS("DSDARC_OK of an end changes nothing: a push", taken > 0 && pulled(player) > 0);
    dsdarc_player_drop(player);
}

static dsdarc_player *made_by(dsdarc_status (*make)(dsdarc_player **)) {
    dsdarc_player *player = NULL;
    if (make(&player) != DSDARC_OK) exit(3);
    return player;
}

/* Pushes the bytes before the sound to a player without a choice, and reports where it starts. */
static size_t to_choice(dsdarc_player *player) {
    size_t at = 0, taken;
    dsdarc_status status = DSDARC_OK;
    while (at < size && (status = dsdarc_player_push(player, bytes + at, size - at, &taken)) == DSDARC_OK) at += taken;
    SAYS("the bytes are taken up to where the sound starts", status == DSDARC_NO_CHOICE && taken == 0);
    return at;
}

static void try_unknown(void) {
    dsdarc_description file = {.bits = 77}, was = file;
    dsdarc_mark mark = {.place = 77}, marks[2] = {{.place = 77}, {.place = 77}};
    dsdarc_player *player = made_by(dsdarc_player_new_empty);
    char title[8] = "is left";
    size_t count = 9;
    SAYS("before the sound is known nothing is described",
         dsdarc_player_describe(player, &file, sizeof file) == DSDARC_NOT_YET && memcmp(&file, &was, sizeof file) == 0);
    SAYS("there is no mark yet, and it and its title are unchanged",
         dsdarc_player_mark(player, 0, &mark, title, sizeof title) == DSDARC_NOT_YET && mark.place == 77 && *title == 'i');
    SAYS("there are no marks yet, and they are unchanged",
         dsdarc_player_marks(player, 0, marks, 2, &count) == DSDARC_NOT_YET && marks[0].place == 77 && count == 0);
    SAYS("each choice is NotYet", dsdarc_player_dop(player) == DSDARC_NOT_YET &&
                                      dsdarc_player_bits(player, DSDARC_BITS_LSB) == DSDARC_NOT_YET &&
                                      dsdarc_player_filter(player, text, text_size) == DSDARC_NOT_YET &&
                                      dsdarc_player_filter_ready(player, 88200, 24, 0) == DSDARC_NOT_YET);
    SAYS("a text that is refused", dsdarc_player_filter(player, "[", 1) == DSDARC_NOT_TOML);
    to_choice(player);
    SAYS("there is no such mark, and it and its title are unchanged",
         dsdarc_player_mark(player, 0, &mark, title, sizeof title) == DSDARC_NO_MARK && mark.place == 77 && *title == 'i');
    SAYS("there are no marks", dsdarc_player_marks(player, 0, NULL, 0, &count) == DSDARC_OK && count == 0);
    dsdarc_player_drop(player);
    player = made_by(dsdarc_player_new_empty);
    SAYS("a file of no bytes holds no recording", dsdarc_player_end(player) == DSDARC_FILE_REFUSED);
    SAYS("a choice returns AfterFault", dsdarc_player_dop(player) == DSDARC_AFTER_FAULT);
    dsdarc_player_drop(player);
}

static void try_choices(void) {
    dsdarc_info info = {.frames = 77};
    dsdarc_player *player = made_by(dsdarc_player_new_empty);
    size_t at = to_choice(player), taken = 9, given = 9;
    uint64_t offset = 5;
    SAYS("info is NoChoice, and as it was", dsdarc_player_info(player, &info) == DSDARC_NO_CHOICE && info.frames == 77);
    SAYS("an end is NoChoice", dsdarc_player_end(player) == DSDARC_NO_CHOICE);
    SAYS("a seek is NoChoice", dsdarc_player_seek(player, 0, &offset) == DSDARC_NO_CHOICE && offset == 5);
    SAYS("a next is NotJoined", dsdarc_player_next(player) == DSDARC_NOT_JOINED);
    SAYS("an order that isn't one", dsdarc_player_bits(player, (dsdarc_bit_order)2) == DSDARC_SIZE);
    SAYS("there is no such filter", dsdarc_player_filter_ready(player, 88200, 17, 0) == DSDARC_NO_FILTER);
    SAYS("a text that is refused changes nothing", dsdarc_player_filter(player, "[", 1) == DSDARC_NOT_TOML);
    SAYS("these changed nothing", dsdarc_player_bits(player, DSDARC_BITS_MSB) == DSDARC_OK);
    SAYS("another choice is Chosen", dsdarc_player_dop(player) == DSDARC_CHOSEN &&
                                         dsdarc_player_filter(player, text, text_size) == DSDARC_CHOSEN &&
                                         dsdarc_player_filter_ready(player, 88200, 24, 0) == DSDARC_CHOSEN);
    SAYS("there is no such filter, also after a choice",
         dsdarc_player_filter_ready(player, 88200, 17, 0) == DSDARC_NO_FILTER);
    if (dsdarc_player_push(player, bytes + at, size - at, &taken) != DSDARC_OK) exit(3);
    SAYS("bits are no numbers", dsdarc_player_pull(player, pcm, 1, DSDARC_S32, &given) == DSDARC_SIZE && given == 0);
    SAYS("no frame is lost", pulled(player) > 0);
    dsdarc_player_drop(player);
    player = made();
    to_sound(player, &info);
    SAYS("a player with a filter has its choice", dsdarc_player_dop(player) == DSDARC_CHOSEN);
    dsdarc_player_drop(player);
}

/* Frames go to their places, and what comes after them stays as it was. */
static void try_rest(void) {
    dsdarc_info info;
    for (int format = DSDARC_PACKED; format <= DSDARC_PACKED_PLANAR; format += DSDARC_PLANAR) {
        dsdarc_player *player = made();
        size_t at = to_sound(player, &info), width = info.width / 8, taken, given, last, rest = 0, k, plane;
        memset(pcm, 0x5a, sizeof pcm);
        if (dsdarc_player_push(player, bytes + at, size - at, &taken) != DSDARC_OK) exit(3);
        if (dsdarc_player_pull(player, pcm, FRAMES, (dsdarc_format)format, &given) != DSDARC_OK || given == 0) exit(3);
        for (plane = 0; plane < (format ? CHANNELS : 1); plane++)
            for (last = format ? given * width : given * width * CHANNELS, k = last; k < last + 1000; k++)
                rest += pcm[plane * FRAMES * width + k] != 0x5a;
        SAYS("what is after the frames stays as it was", rest == 0);
        dsdarc_player_drop(player);
    }
}

static void try_joined(void) {
    dsdarc_description file;
    dsdarc_info info;
    dsdarc_player *player = made_by(dsdarc_player_new_joined);
    size_t at = to_choice(player), taken, frames = 0, more;
    uint64_t offset = 5;
    SAYS("before the choice a next is NoChoice", dsdarc_player_next(player) == DSDARC_NO_CHOICE);
    if (dsdarc_player_bits(player, DSDARC_BITS_MSB) != DSDARC_OK) exit(3);
    SAYS("a seek is NoSeek", dsdarc_player_seek(player, 0, &offset) == DSDARC_NO_SEEK && offset == 5);
    for (; at < size; at += taken) {
        if (dsdarc_player_push(player, bytes + at, size - at, &taken) != DSDARC_OK) exit(3);
        while ((more = pulled(player)) > 0) frames += more;
    }
    SAYS("a next", dsdarc_player_next(player) == DSDARC_OK);
    SAYS("nothing is described before the next header", dsdarc_player_describe(player, &file, sizeof file) == DSDARC_NOT_YET);
    SAYS("a header that is refused", dsdarc_player_push(player, "nothing of the kind, but long enough", 36, &taken) ==
                                         DSDARC_FILE_REFUSED);
    if (dsdarc_player_push(player, bytes, 20, &taken) != DSDARC_OK) exit(3);
    SAYS("another file is pushed, and left out as its sound doesn't start", dsdarc_player_next(player) == DSDARC_OK);
    SAYS("an end", dsdarc_player_end(player) == DSDARC_OK);
    while ((more = pulled(player)) > 0) frames += more;
    SAYS("the recording is that of the first file", dsdarc_player_info(player, &info) == DSDARC_OK && frames == info.frames);
    SAYS("once more an end", dsdarc_player_end(player) == DSDARC_OK);
    SAYS("after the end a push is NotJoined", dsdarc_player_push(player, bytes, 20, &taken) == DSDARC_NOT_JOINED);
    SAYS("after the end a next is NotJoined", dsdarc_player_next(player) == DSDARC_NOT_JOINED);
    dsdarc_player_drop(player);
}

static size_t held(void) {
    struct mallinfo2 all = mallinfo2();
    return all.uordblks + all.hblkhd;
}

/* The sound is pushed again and again, by seeks to its start: what is held stays the same. */
static void try_held(void) {
    dsdarc_info info;
    size_t before = held(), most = 0, at, taken;
    dsdarc_player *player = made();
    size_t header = to_sound(player, &info), frame = (size_t)info.width / 8 * info.channels;
    size_t factor = info.rate_in / info.rate, piece = MOST * 8 / factor / info.channels * frame;
    uint64_t offset;
    for (int turn = 0; turn < 3; turn++) {
        if (dsdarc_player_seek(player, 0, &offset) != DSDARC_OK) exit(3);
        for (at = (size_t)offset; at < size; at += taken) {
            if (dsdarc_player_push(player, bytes + at, size - at, &taken) != DSDARC_OK || taken == 0) exit(3);
            if (held() > most) most = held();
            while (pulled(player) > 0) continue;
        }
    }
    /* Rows of the filter, a piece before and after it is spread to channels, and what grows has up to twice its room. */
    SAYS("a player holds the bytes before the sound, one piece as frames, and what the filter reads",
         most - before < 2 * (header + MOST + 2 * piece) + (1 << 20));
    dsdarc_player_drop(player);
    SAYS("drop frees a player", held() <= before);
}

int main(int count, char **arguments) {
    if (count < 3) return 3;
    text = whole(arguments[1], &text_size);
    for (int at = 2; at < count; at++) {
        name = arguments[at];
        bytes = whole(name, &size);
        try_new(), try_pushes(), try_info(), try_pulls(), try_formats(), try_faults(), try_seeks(), try_held();
        try_unknown(), try_choices(), try_rest(), try_joined();
        free(bytes);
    }
    name = "statuses";
    SAYS("the version as a number that can be compared", DSDARC_VERSION == 200);
    SAYS("the name of a status", strcmp(dsdarc_status_text(DSDARC_FILE_REFUSED), "FileRefused") == 0 &&
                                     strcmp(dsdarc_status_text(DSDARC_PROCESSOR), "Processor") == 0 &&
                                     strcmp(dsdarc_status_text(DSDARC_NO_FILTER), "NoFilter") == 0);
    SAYS("Unknown for any other number", strcmp(dsdarc_status_text((dsdarc_status)99), "Unknown") == 0 &&
                                             strcmp(dsdarc_status_text((dsdarc_status)-1), "Unknown") == 0);
    free(text);
    return failed;
}
