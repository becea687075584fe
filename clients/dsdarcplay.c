/* Plays DSDIFF and DSF files over ALSA: dsdarcplay [-D DEVICE] [-s SECONDS] FILTER|--dop|--native FILE..
 *
 *     cc dsdarcplay.c $(pkg-config --cflags --libs dsdarc alsa) -o dsdarcplay
 *     dsdarcplay 88200/24 in.dsf
 *
 * FILTER is the rate and width that you want, for which the library has a filter, or a path to one. --dop gives the bits
 * of the file as DoP samples, and --native as they are, to a device that takes them: nothing may change them on the way,
 * so name one such as hw:0. Files that can be joined are played without a gap. With -s each file is played from that
 * second on, by itself. A line warns of a filter that the index beside it lists for files of other rates.
 *
 * Of a file that can't be played a line says why, and the next one is played. Where the device or the filter fails, none
 * is. The status is 0 if all were played, 1 if not, and 2 if the arguments are wrong. */
#include <alsa/asoundlib.h>
#include <dsdarc.h>
#include <errno.h>
#include <getopt.h>
#include <stdio.h>
#include <stdlib.h>
#include <string.h>
#include <unistd.h>

enum { FILTER, DOP, NATIVE, UNKNOWN };

enum { BLOCK = 65536, FRAMES = 4096, SILENCE = 0x69, MOST_TEXT = 1 << 20, MOST_RATES = 16, MOST_SECONDS = 1000000000 };

static int failed_with(const char *name, const char *what) {
    fprintf(stderr, "dsdarcplay: %s: %s\n", name, what);
    return 1;
}

/* What a status says of a file, in words. */
static const char *words_of(dsdarc_status status, int kind) {
    switch (status) {
    case DSDARC_FILE_REFUSED: return "it isn't a whole DSDIFF or DSF recording: dsdarc info says what is wrong";
    case DSDARC_RATE_NOT_DIVIDED:
        return kind == DOP ? "its sample rate can't be divided by 16" : "the filter's factor doesn't divide its sample rate";
    case DSDARC_NO_FILTER: return "there is no ready filter to that rate and width for its sample rate";
    case DSDARC_PAST_END: return "it ends before that second";
    case DSDARC_TOO_LONG: return "it is too long";
    case DSDARC_TOO_MUCH_HELD: return "it has more than 256 MiB before its sound, or after it";
    case DSDARC_MEMORY: return "out of memory";
    case DSDARC_PROCESSOR: return "the library was built for processors that can do more than this one";
    default: return dsdarc_status_text(status);
    }
}

static char *text_of(const char *name, size_t *size) {
    FILE *file = fopen(name, "rb");
    char *text = file ? malloc(MOST_TEXT) : NULL;
    *size = text ? fread(text, 1, MOST_TEXT, file) : 0;
    if (text && ferror(file)) free(text), text = NULL;
    if (file) fclose(file);
    return text;
}

/* Warns of a filter that the index beside it lists for files of other rates. */
static void warn_of_rate(const char *filter, const dsdarc_info *info, const char *name) {
    const char *slash = strrchr(filter, '/'), *base = slash ? slash + 1 : filter;
    uint32_t rates[MOST_RATES];
    size_t size, count, known;
    char path[4096], *index;
    if (snprintf(path, sizeof path, "%.*sindex.txt", (int)(base - filter), filter) >= (int)sizeof path) return;
    if (!(index = text_of(path, &size))) return;
    if (dsdarc_filter_rates(index, size, base, rates, MOST_RATES, &count) == DSDARC_OK && count > 0) {
        if (count > MOST_RATES) count = MOST_RATES;
        for (known = 0; known < count && rates[known] != info->rate_in;) known++;
        if (known == count)
            fprintf(stderr, "dsdarcplay: %s: warning: the filter %s is for files of %u Hz, and this one has %u Hz\n", name,
                    filter, rates[0], info->rate_in);
    }
    free(index);
}

/* How a file is played: by a filter (its path and text, or a rate and width), or by its bits. */
typedef struct way {
    int kind;
    const char *name, *text;
    size_t size;
    unsigned rate, width;
} way;

/* The open device: how many bytes a sample has there, how many frames of the player make one of the device, and how many
 * wait for others. */
typedef struct output {
    snd_pcm_t *pcm;
    size_t sample, each, held;
} output;

/* Samples of a device: their format, their bytes, and how many frames of the player make one of the device. */
typedef struct shape {
    snd_pcm_format_t form;
    size_t sample, each;
} shape;

/* What comes of a file: it is played, a line says why not, it needs another player, or no file can be played. */
enum { DONE, SAID, AGAIN, STOP };

/* Opens the device for samples of this shape, changed by nothing on the way if `exact` is set. *fault gets that of ALSA. */
static int open_as(output *out, const char *device, const dsdarc_info *info, shape as, int exact, int *fault) {
    *fault = snd_pcm_open(&out->pcm, device, SND_PCM_STREAM_PLAYBACK, exact ? SND_PCM_NO_AUTO_FORMAT : 0);
    if (*fault < 0) return out->pcm = NULL, failed_with(device, snd_strerror(*fault)), STOP;
    *fault = snd_pcm_set_params(out->pcm, as.form, SND_PCM_ACCESS_RW_INTERLEAVED, info->channels,
                                info->rate / (unsigned)as.each, !exact, 500000);
    if (*fault < 0) snd_pcm_close(out->pcm), out->pcm = NULL;
    out->sample = as.sample, out->each = as.each;
    return *fault < 0 ? SAID : DONE;
}

/* Opens the device as soon as it is known what is played of a file. */
static int open_device(output *out, const char *device, const dsdarc_info *info, int kind, const char *name) {
    static const shape shapes[][2] = {{{SND_PCM_FORMAT_S24_3LE, 3, 1}, {SND_PCM_FORMAT_S16_LE, 2, 1}},
                                      {{SND_PCM_FORMAT_S24_3LE, 3, 1}, {SND_PCM_FORMAT_S32_LE, 4, 1}},
                                      {{SND_PCM_FORMAT_DSD_U32_BE, 4, 4}, {SND_PCM_FORMAT_DSD_U8, 1, 1}}};
    int fault, second = kind == FILTER && info->width == 16;
    int done = open_as(out, device, info, shapes[kind][second], kind != FILTER, &fault);
    if (done == SAID && kind != FILTER) done = open_as(out, device, info, shapes[kind][1], 1, &fault);
    if (done == SAID && kind == NATIVE)
        fprintf(stderr, "dsdarcplay: %s: %s doesn't take %u channels of DSD at %u Hz (DSD_U32_BE, DSD_U8)\n", name, device,
                info->channels, info->rate_in);
    else if (done == SAID)
        fprintf(stderr, "dsdarcplay: %s: %s doesn't take %u channels of %u bits at %u Hz\n", name, device, info->channels,
                info->width, info->rate);
    return done;
}

/* Writes frames of the device. */
static int write_all(output *out, const dsdarc_info *info, const unsigned char *frames, size_t count) {
    int fault = 0;
    for (size_t done = 0; done < count && fault >= 0;) {
        snd_pcm_sframes_t wrote = snd_pcm_writei(out->pcm, frames + done * info->channels * out->sample, count - done);
        if (wrote < 0) fault = snd_pcm_recover(out->pcm, (int)wrote, 1);
        if (wrote > 0) done += (size_t)wrote;
    }
    return fault;
}

/* Pulls the frames that are due, and writes them. Of bits that the device takes 32 at a time, some frames
 * wait for others; at the end silence follows them. */
static int pull_all(dsdarc_player *player, output *out, const dsdarc_info *info, int ends) {
    static unsigned char frames[(FRAMES + 4) * 6 * 4], turned[(FRAMES + 4) * 6 * 4];
    size_t channels = info->channels, given, count, k, c, byte;
    int fault = 0;
    do {
        unsigned char *to = frames + out->held * channels * (out->each > 1 ? 1 : out->sample);
        dsdarc_format format = info->width == 24 && out->sample == 4 ? DSDARC_S32 : DSDARC_PACKED;
        if (dsdarc_player_pull(player, to, FRAMES, format, &given) != DSDARC_OK) given = 0;
        count = out->held + given;
        if (ends && given == 0)
            for (; count % out->each; count++) memset(frames + count * channels, SILENCE, channels);
        out->held = count % out->each;
        count /= out->each;
        if (format == DSDARC_S32) /* DoP samples are the high 24 of 32 bits */
            for (k = 0; k < count * channels; k++) frames[4 * k + 3] = frames[4 * k + 2], frames[4 * k + 2] = frames[4 * k + 1],
                                                   frames[4 * k + 1] = frames[4 * k], frames[4 * k] = 0;
        if (out->each > 1) {
            for (k = 0; k < count; k++)
                for (c = 0; c < channels; c++)
                    for (byte = 0; byte < 4; byte++)
                        turned[(k * channels + c) * 4 + byte] = frames[(4 * k + byte) * channels + c];
            fault = write_all(out, info, turned, count);
            memmove(frames, frames + count * 4 * channels, out->held * channels);
        } else {
            fault = write_all(out, info, frames, count);
        }
    } while (given > 0 && fault >= 0);
    return fault;
}

static dsdarc_status choose(dsdarc_player *player, way by) {
    if (by.kind == DOP) return dsdarc_player_dop(player);
    if (by.kind == NATIVE) return dsdarc_player_bits(player, DSDARC_BITS_MSB);
    if (by.text) return dsdarc_player_filter(player, by.text, by.size);
    return dsdarc_player_filter_ready(player, by.rate, by.width, 0);
}

/* What is played: the device is opened where the sound of the first file starts. */
typedef struct session {
    dsdarc_player *player;
    output out;
    dsdarc_info info;
    int is_joined;
} session;

/* Says of a file why it isn't played. */
static int refused(const char *name, dsdarc_status status, way by) {
    return failed_with(name, words_of(status, by.kind)), SAID;
}

/* Chooses how the sound is given, and opens the device; then goes to `from` seconds. */
static int begin(session *now, const char *device, way by, double from, FILE *file, const char *name, int *is_moved) {
    dsdarc_status status = choose(now->player, by);
    uint64_t offset;
    int done;
    if (status == DSDARC_NOT_JOINED || (status == DSDARC_TOO_LONG && now->is_joined)) return AGAIN;
    if (status == DSDARC_OK) status = dsdarc_player_info(now->player, &now->info);
    if (status != DSDARC_OK) return refused(name, status, by);
    if (by.kind == FILTER && by.text) warn_of_rate(by.name, &now->info, name);
    if ((done = open_device(&now->out, device, &now->info, by.kind, name)) != DONE) return done;
    if (from <= 0) return DONE;
    status = dsdarc_player_seek(now->player, (uint64_t)(from * now->info.rate), &offset);
    if (status != DSDARC_OK) return refused(name, status, by);
    if (fseek(file, (long)offset, SEEK_SET)) return failed_with(name, snd_strerror(-errno)), SAID;
    return *is_moved = 1, DONE;
}

/* Plays what is due; whether the device takes it. */
static int is_given(session *now, const char *device, int ends) {
    int fault = now->out.pcm ? pull_all(now->player, &now->out, &now->info, ends) : 0;
    if (fault < 0) failed_with(device, snd_strerror(fault));
    return fault >= 0;
}

/* Pushes a file and plays what is due. AGAIN: this file can't be joined to those before it. */
static int play_file(session *now, const char *device, way by, double from, FILE *file, const char *name) {
    static unsigned char bytes[BLOCK];
    dsdarc_status status;
    size_t size, at, taken;
    int is_moved, done;
    while ((size = fread(bytes, 1, BLOCK, file)) > 0)
        for (at = 0, is_moved = 0; at < size && !is_moved; at += taken) {
            status = dsdarc_player_push(now->player, bytes + at, size - at, &taken);
            if (status == DSDARC_NO_CHOICE && !now->out.pcm) {
                if ((done = begin(now, device, by, from, file, name, &is_moved)) != DONE) return done;
                continue;
            }
            if (status == DSDARC_NOT_JOINED || (status == DSDARC_TOO_LONG && now->is_joined)) return AGAIN;
            if (status != DSDARC_OK) return refused(name, status, by);
            if (!is_given(now, device, 0)) return STOP;
        }
    if (ferror(file)) return failed_with(name, snd_strerror(-errno)), SAID;
    return DONE;
}

/* Has the player judge a file whose bytes were all pushed, before the next one or at the end. */
static int judge(session *now, const char *device, way by, const char *name, int is_last) {
    dsdarc_description file;
    dsdarc_status status = dsdarc_player_describe(now->player, &file, sizeof file);
    int done = DONE, is_moved;
    /* It ended before its sound. */
    if (status == DSDARC_NOT_YET) return refused(name, DSDARC_FILE_REFUSED, by);
    /* It may end where its sound, of no bytes, starts: so nothing was chosen. */
    if (!now->out.pcm && (done = begin(now, device, by, 0, NULL, name, &is_moved)) != DONE) return done;
    status = is_last ? dsdarc_player_end(now->player) : dsdarc_player_next(now->player);
    return status == DSDARC_OK ? DONE : refused(name, status, by);
}

/* Closes all, after the last frames; a device that failed gets none. What is wrong with the last file was said. */
static int finish(session *now, const char *device, int is_failing) {
    int is_right = 1;
    if (now->out.pcm && !is_failing) {
        dsdarc_player_end(now->player);
        is_right = is_given(now, device, 1);
        if (is_right) snd_pcm_drain(now->out.pcm);
    }
    if (now->out.pcm) snd_pcm_close(now->out.pcm);
    dsdarc_player_drop(now->player);
    *now = (session){NULL, {NULL, 0, 1, 0}, {0}, 0};
    return is_right;
}

/* Pushes a file to the player, with a new one if there is none, and has it judged. */
static int play_next(session *now, const char *device, way by, double from, FILE *file, const char *name, int is_last) {
    dsdarc_status status = DSDARC_OK;
    int done;
    if (!now->player && now->is_joined) status = dsdarc_player_new_joined(&now->player);
    else if (!now->player) status = dsdarc_player_new_empty(&now->player);
    if (status != DSDARC_OK) return refused(name, status, by), STOP;
    done = play_file(now, device, by, from, file, name);
    return done == DONE ? judge(now, device, by, name, is_last || !now->is_joined) : done;
}

/* Plays files one after the other: without a gap, as far as they can be joined. After one that can't be played another
 * recording begins. */
static int play(const char *device, way by, double from, char **names, int count) {
    session now = {NULL, {NULL, 0, 1, 0}, {0}, 0};
    int k, failed = 0, done = DONE, is_alone = 0;
    for (k = 0; k < count && done != STOP; k++) {
        FILE *file = fopen(names[k], "rb");
        if (!now.player) now.is_joined = count > 1 && from <= 0 && !is_alone;
        if (file) done = play_next(&now, device, by, from, file, names[k], k + 1 == count), fclose(file);
        else failed_with(names[k], "it can't be read"), done = SAID;
        is_alone = done == AGAIN && !now.out.pcm;
        if (done == AGAIN) k--; /* with another player; the first of a recording by one that joins none */
        else failed |= done != DONE;
        if ((done != DONE || !now.is_joined) && !finish(&now, device, done == STOP)) done = STOP, failed = 1;
    }
    return !finish(&now, device, 0) || failed;
}

/* Seconds from 0 on, and nothing else after them: -1 if the text isn't that. */
static double seconds_of(const char *text) {
    char *end;
    double seconds = strtod(text, &end);
    return end != text && *end == 0 && seconds >= 0 && seconds < MOST_SECONDS ? seconds : -1;
}

/* Whether a text is a rate and a width, such as 88200/24. */
static int is_wish(const char *text, way *by) {
    char more;
    return sscanf(text, "%u/%u%c", &by->rate, &by->width, &more) == 2;
}

/* What ALSA says of a fault comes in the line of this program. */
static void say_nothing(const char *file, int line, const char *function, int fault, const char *form, ...) {
    (void)file, (void)line, (void)function, (void)fault, (void)form;
}

/* Says what is wrong with the arguments. */
static int misused(const char *word, const char *why) {
    static const char usage[] = "dsdarcplay [-D DEVICE] [-s SECONDS] FILTER|--dop|--native FILE..";
    fprintf(stderr, "dsdarcplay: %s %s: %s\n", word, why, usage);
    return 2;
}

/* Reads the filter, whose path is no rate and width, and has the library judge it. */
static int is_filter(way *by, char **text) {
    dsdarc_player *player;
    dsdarc_status status;
    if (!(by->text = *text = text_of(by->name, &by->size))) return !failed_with(by->name, "it can't be read");
    status = dsdarc_player_new(by->text, by->size, &player);
    dsdarc_player_drop(player);
    if (status == DSDARC_OK) return 1;
    if (status == DSDARC_MEMORY || status == DSDARC_PROCESSOR) return !failed_with(by->name, words_of(status, FILTER));
    fprintf(stderr, "dsdarcplay: %s: it is no filter (%s)\n", by->name, dsdarc_status_text(status));
    return 0;
}

int main(int count, char **arguments) {
    static const struct option options[] = {{"dop", no_argument, NULL, 'd'}, {"native", no_argument, NULL, 'n'}, {0}};
    const char *device = "default";
    char *text = NULL;
    way by = {UNKNOWN, NULL, NULL, 0, 0, 0};
    double from = 0;
    int option, failed;
    opterr = 0;
    while ((option = getopt_long(count, arguments, ":D:s:", options, NULL)) != -1) {
        int kind = option == 'd' ? DOP : option == 'n' ? NATIVE : UNKNOWN;
        if (option == '?') return misused(arguments[optind - 1], "is no option");
        if (option == ':') return misused(arguments[optind - 1], "has no value");
        if (option == 'D') device = optarg;
        if (option == 's' && (from = seconds_of(optarg)) < 0) return misused("-s", "has no number of seconds");
        if (kind != UNKNOWN && by.kind != UNKNOWN && kind != by.kind)
            return misused("--dop and --native", "don't go together");
        if (kind != UNKNOWN) by.kind = kind;
    }
    if (by.kind == UNKNOWN && optind < count) by.kind = FILTER, by.name = arguments[optind++];
    if (optind >= count) return misused(by.kind == UNKNOWN ? "the filter" : "FILE", "is missing");
    if (by.kind == FILTER && !is_wish(by.name, &by) && !is_filter(&by, &text)) return free(text), 1;
    snd_lib_error_set_handler(say_nothing);
    failed = play(device, by, from, arguments + optind, count - optind);
    free(text);
    return failed;
}
