// Makes the null test of docs/NULL_TEST.md, as a C programmer would write it: files are read a block at a time, own bits
// are compared 64 at a time, takes are decoded by a table of 256 sums for each eight taps, and residuals are summed in 64
// bits. Both sums take four tables or taps at a time over a block of places. It prints what `tools/null_test` prints of
// the same mix, byte by byte, and its status is the same.
//
// null_test_peer PLAN MASTER [once | mapped]: with `once` each file is read once from its start to its end, as a pipe has to
// be, and the bits that are needed are kept; with `mapped` files are mapped. Without either it goes back and forth in them.
// PLAN is what bench/nulltest writes of a mix without faults: the number of takes and their names, a line each; then `unit`,
// `limit` and `every`; the taps of `audible`, their number first; the number of decoders, and the taps of each in the same
// way; the number of clips, and for each its take, decoder, start, at and length, the number of its lists of points (none,
// one for all channels, or one for each), and for each list the number of points, and each point's place and gain.
#include <fcntl.h>
#include <inttypes.h>
#include <math.h>
#include <stdint.h>
#include <stdio.h>
#include <stdlib.h>
#include <string.h>
#include <sys/mman.h>
#include <sys/stat.h>
#include <unistd.h>

#define CHANNELS 6
#define FULL_GAIN (INT64_C(1) << 24)
#define LOUD (INT64_C(1) << 31)
// How many places are judged, decoded and compared at a time.
#define JUDGED 2048
#define DECODED 4096
#define SCANNED (1 << 18)
// How many bytes of a file are read at least.
#define READ (1 << 18)
// How many bytes of a channel may be looked at beyond those that clips and their decoders reach.
#define BEYOND 64

// Sound bytes from one to another, and where they are kept.
struct part {
    int64_t first, stop;
    uint8_t *bytes;
};

// A file's sound: bytes of the channels in turn in DSDIFF, blocks of 4096 bytes in DSF. If the file isn't mapped, some of
// them are held: those that were read last, or parts of a file that is read once.
struct recording {
    const uint8_t *sound;
    uint8_t *held;
    struct part *parts;
    int64_t count, bytes, start, held_first, held_stop, room, part_number;
    uint32_t rate, channels;
    int in_blocks, is_turned, file;
};

struct taps {
    int64_t number, groups;
    int32_t *taps;
    int32_t (*table)[256];
};

struct points {
    int64_t number, *places, *gains;
};

// The first clip of a take and an offset is the way of all.
struct clip {
    int64_t take, decoder, at, stop, offset, way;
    struct points points[CHANNELS];
};

struct range {
    int64_t first, stop;
};

// What is known of a channel: the way of the run of own bits that is read, -1 for none, and where it begins; and the
// places that aren't judged.
struct channel {
    int64_t way, begin, number;
    struct range *own;
};

struct stretch {
    uint32_t channel;
    int64_t first, last, residual, place;
};

static struct recording takes[16], master;
static struct taps audible, decoders[16];
static struct clip clips[1024], *heard[1024];
static struct channel channels[CHANNELS];
static struct stretch *stretches;
static int64_t take_number, decoder_number, clip_number, heard_number, stretch_number, unit, limit, every, reach;
static uint8_t turned[256];
static char names[16][4096];

// How files are read.
static enum { BACK_AND_FORTH, ONCE, MAPPED } access_to_files;

// The errors of places of one channel, the same by their remainders, and what they are made by.
static int32_t *errors, *rows, sounds[DECODED];
static int64_t errors_first, errors_stop, row_size, sums[JUDGED], mixed[DECODED], gains[DECODED];
static uint8_t *packed, *windows;

static void *room(int64_t size) {
    void *made = calloc((size_t)size, 1);
    if (!made) exit(2);
    return made;
}

// An array that has room for one more: its size doubles.
static void *larger(void *old, int64_t number, int64_t size) {
    if (number & (number - 1)) return old;
    void *made = realloc(old, (size_t)((2 * number + 1) * size));
    if (!made) exit(2);
    return made;
}

static int64_t least(int64_t a, int64_t b) { return a < b ? a : b; }
static int64_t most(int64_t a, int64_t b) { return a > b ? a : b; }

// Files.

static uint64_t big(const uint8_t *at, int size) {
    uint64_t value = 0;
    for (int k = 0; k < size; k++) value = value << 8 | at[k];
    return value;
}

static uint64_t little(const uint8_t *at, int size) {
    uint64_t value = 0;
    for (int k = size; k > 0; k--) value = value << 8 | at[k - 1];
    return value;
}

static void read_dsf(struct recording *it, const uint8_t *file) {
    it->channels = (uint32_t)little(file + 52, 4), it->rate = (uint32_t)little(file + 56, 4);
    it->is_turned = little(file + 60, 4) == 1, it->in_blocks = 1;
    it->count = (int64_t)little(file + 64, 8), it->bytes = (it->count + 7) / 8;
    it->sound = file + 28 + little(file + 32, 8) + 12;
}

static void read_dsdiff(struct recording *it, const uint8_t *file, size_t size) {
    for (size_t at = 16; at + 12 <= size;) {
        uint64_t part = big(file + at + 4, 8);
        if (!memcmp(file + at, "PROP", 4)) {
            for (size_t in = at + 16; in + 12 <= at + 12 + part;) {
                uint64_t inner = big(file + in + 4, 8);
                if (!memcmp(file + in, "FS  ", 4)) it->rate = (uint32_t)big(file + in + 12, 4);
                if (!memcmp(file + in, "CHNL", 4)) it->channels = (uint32_t)big(file + in + 12, 2);
                in += 12 + inner + inner % 2;
            }
        } else if (!memcmp(file + at, "DSD ", 4)) {
            it->sound = file + at + 12;
            it->bytes = (int64_t)(part / it->channels), it->count = 8 * it->bytes;
        }
        at += 12 + part + part % 2;
    }
}

static void read_header(struct recording *it, const uint8_t *bytes, size_t size) {
    if (!memcmp(bytes, "DSD ", 4)) read_dsf(it, bytes);
    else read_dsdiff(it, bytes, size);
    if (!it->sound || it->channels < 1 || it->channels > CHANNELS) exit(2);
    it->start = it->sound - bytes;
}

static void map_recording(struct recording *it) {
    struct stat status;
    if (fstat(it->file, &status)) exit(2);
    const uint8_t *bytes = mmap(NULL, (size_t)status.st_size, PROT_READ, MAP_PRIVATE, it->file, 0);
    if (bytes == MAP_FAILED) exit(2);
    read_header(it, bytes, (size_t)status.st_size);
}

// Bytes of a file up to so many, or to its end.
static int64_t fill(int file, uint8_t *out, int64_t size) {
    int64_t found = 0;
    for (ssize_t more = 1; found < size && more > 0; found += more)
        if ((more = read(file, out + found, (size_t)(size - found))) < 0) exit(2);
    return found;
}

static int by_first(const void *a, const void *b) {
    const struct part *x = a, *y = b;
    return (x->first > y->first) - (x->first < y->first);
}

// Adds the sound bytes that hold those of each channel from one to another, as far as there are such.
static void want(struct recording *it, int64_t low, int64_t high) {
    low = most(low - BEYOND, 0), high = least(high + BEYOND, it->bytes);
    if (low >= high) return;
    if (it->in_blocks) low = low / 4096 * 4096, high = (high + 4095) / 4096 * 4096;
    it->parts = larger(it->parts, it->part_number, sizeof *it->parts);
    it->parts[it->part_number++] = (struct part){low * it->channels, high * it->channels, NULL};
}

// Parts that meet or overlap become one, and all get room.
static void join_parts(struct recording *it) {
    int64_t number = 0;
    if (it->part_number) qsort(it->parts, (size_t)it->part_number, sizeof *it->parts, by_first);
    for (int64_t i = 0; i < it->part_number; i++) {
        struct part next = it->parts[i];
        if (number && next.first <= it->parts[number - 1].stop)
            it->parts[number - 1].stop = most(it->parts[number - 1].stop, next.stop);
        else it->parts[number++] = next;
    }
    it->part_number = number;
    for (struct part *part = it->parts; part < it->parts + number; part++) part->bytes = room(part->stop - part->first);
}

// What of a take clips and their decoders reach; all of the master.
static void want_parts(struct recording *it) {
    if (it == &master) want(it, 0, it->bytes);
    for (const struct clip *clip = clips; clip < clips + clip_number; clip++) {
        int64_t wide = decoders[clip->decoder].number / 2;
        if (it == &takes[clip->take])
            want(it, (clip->at + clip->offset - wide) / 8, (clip->stop + clip->offset + wide) / 8 + 1);
    }
    join_parts(it);
}

// Reads a file from its start to its end, and keeps parts of its sound.
static void read_once(struct recording *it) {
    static uint8_t block[READ];
    int64_t size = fill(it->file, block, READ), next = 0;
    read_header(it, block, (size_t)size);
    want_parts(it);
    for (int64_t place = -it->start; size > 0; place += size, size = fill(it->file, block, READ))
        for (int64_t i = next; i < it->part_number && it->parts[i].first < place + size; i++) {
            struct part part = it->parts[i];
            int64_t low = most(place, part.first), high = least(place + size, part.stop);
            if (low < high) memcpy(part.bytes + (low - part.first), block + (low - place), (size_t)(high - low));
            if (part.stop <= place + size) next = i + 1;
        }
}

static void read_recording(struct recording *it, const char *name) {
    it->file = open(name, O_RDONLY);
    if (it->file < 0) exit(2);
    if (access_to_files == ONCE) read_once(it);
    else map_recording(it);
}

// The part that has the byte of a sound.
static const struct part *part_of(const struct recording *it, int64_t first) {
    int64_t low = 0, high = it->part_number - 1;
    while (low < high) {
        int64_t middle = (low + high + 1) / 2;
        if (it->parts[middle].first <= first) low = middle;
        else high = middle - 1;
    }
    return it->parts + low;
}

// Bytes of the sound from one to another.
static const uint8_t *bytes_of(struct recording *it, int64_t first, int64_t stop) {
    if (access_to_files == MAPPED) return it->sound + first;
    if (access_to_files == ONCE) {
        const struct part *part = part_of(it, first);
        if (!it->part_number || first < part->first || stop > part->stop) exit(2);
        return part->bytes + (first - part->first);
    }
    if (first < it->held_first || stop > it->held_stop) {
        int64_t size = most(stop - first, READ);
        if (size > it->room) {
            free(it->held);
            it->held = room(size), it->room = size;
        }
        ssize_t found = pread(it->file, it->held, (size_t)size, it->start + first);
        if (found < stop - first) exit(2);
        it->held_first = first, it->held_stop = first + found;
    }
    return it->held + (first - it->held_first);
}

static inline void pick(uint8_t *out, const uint8_t *in, int64_t number, int64_t step) {
    for (int64_t i = 0; i < number; i++) out[i] = in[i * step];
}

// The packed bits of a channel, the earliest the most significant. There are nulls outside of the recording.
static void fetch(struct recording *it, uint32_t channel, int64_t first, int64_t number, uint8_t *out) {
    int64_t low = most(first, 0), high = least(first + number, it->bytes);
    if (low != first || high != first + number) memset(out, 0, (size_t)number);
    if (it->in_blocks)
        for (int64_t at = low, stop; at < high; at = stop) {
            stop = least(high, (at / 4096 + 1) * 4096);
            int64_t place = (at / 4096 * it->channels + channel) * 4096 + at % 4096;
            const uint8_t *in = bytes_of(it, place, place + stop - at);
            if (it->is_turned)
                for (int64_t i = 0; i < stop - at; i++) out[at - first + i] = turned[in[i]];
            else memcpy(out + (at - first), in, (size_t)(stop - at));
        }
    else if (low < high) {
        const uint8_t *in = bytes_of(it, low * it->channels, high * it->channels) + channel;
        switch (it->channels) {
        case 1: memcpy(out + (low - first), in, (size_t)(high - low)); break;
        case 2: pick(out + (low - first), in, high - low, 2); break;
        default: pick(out + (low - first), in, high - low, it->channels);
        }
    }
}

// The plan.

static int64_t number_of(FILE *plan) {
    int64_t value;
    if (fscanf(plan, "%" SCNd64, &value) != 1) exit(2);
    return value;
}

// Taps in the order of the bits that they meet: the last one first.
static void read_taps(FILE *plan, struct taps *it) {
    it->number = number_of(plan), it->groups = (it->number + 31) / 32 * 4;
    it->taps = room(8 * it->groups * (int64_t)sizeof *it->taps);
    for (int64_t k = it->number; k > 0; k--) it->taps[k - 1] = (int32_t)number_of(plan);
}

static void make_table(struct taps *it) {
    it->table = room(it->groups * (int64_t)sizeof *it->table);
    for (int64_t g = 0; g < it->groups; g++)
        for (int byte = 0; byte < 256; byte++)
            for (int k = 0; k < 8; k++) it->table[g][byte] += it->taps[8 * g + k] * ((byte >> (7 - k) & 1) * 2 - 1);
}

static struct points read_points(FILE *plan) {
    struct points it = {number_of(plan), NULL, NULL};
    it.places = room(it.number * (int64_t)sizeof *it.places), it.gains = room(it.number * (int64_t)sizeof *it.gains);
    for (int64_t i = 0; i < it.number; i++) it.places[i] = number_of(plan), it.gains[i] = number_of(plan);
    return it;
}

static void read_clip(FILE *plan, struct clip *it) {
    int64_t start;
    it->take = number_of(plan), it->decoder = number_of(plan), start = number_of(plan), it->at = number_of(plan);
    it->stop = it->at + number_of(plan), it->offset = start - it->at;
    while (clips[it->way].take != it->take || clips[it->way].offset != it->offset) it->way++;
    int64_t lists = number_of(plan);
    for (int64_t i = 0; i < lists; i++) it->points[i] = read_points(plan);
    if (lists == 1)
        for (int c = 1; c < CHANNELS; c++) it->points[c] = it->points[0];
}

static void read_plan(const char *name) {
    char line[4096];
    FILE *plan = fopen(name, "r");
    if (!plan || !fgets(line, sizeof line, plan)) exit(2);
    take_number = atoi(line);
    for (int64_t t = 0; t < take_number; t++) {
        if (!fgets(line, sizeof line, plan)) exit(2);
        line[strcspn(line, "\n")] = 0;
        strcpy(names[t], line);
    }
    unit = number_of(plan), limit = number_of(plan), every = number_of(plan);
    read_taps(plan, &audible);
    reach = audible.number / 2;
    decoder_number = number_of(plan);
    for (int64_t d = 0; d < decoder_number; d++) read_taps(plan, &decoders[d]), make_table(&decoders[d]);
    clip_number = number_of(plan);
    for (int64_t k = 0; k < clip_number; k++) read_clip(plan, &clips[k]);
    fclose(plan);
}

// Gains.

// How many points are at a place or before it.
static int64_t passed(const struct points *it, int64_t k) {
    int64_t low = 0, high = it->number;
    while (low < high) {
        int64_t middle = (low + high) / 2;
        if (it->places[middle] <= k) low = middle + 1;
        else high = middle;
    }
    return low;
}

// The gain at a place, after so many points.
static inline int64_t gain_after(const struct points *it, int64_t i, int64_t k) {
    if (!it->number) return FULL_GAIN;
    if (i == 0 || i == it->number) return it->gains[i ? i - 1 : 0];
    int64_t run = it->places[i] - it->places[i - 1], above = (it->gains[i] - it->gains[i - 1]) * (k - it->places[i - 1]);
    return it->gains[i - 1] + above / run - (above % run < 0);
}

// Fills in the gains from a place on, and says whether one isn't 0.
static int fill_gains(const struct points *it, int64_t k, int64_t number, int64_t *out) {
    int is_heard = 0;
    for (int64_t i = passed(it, k), stop = k + number; k < stop; i++) {
        int64_t end = i < it->number ? least(stop, it->places[i]) : stop;
        for (; k < end; k++) *out = gain_after(it, i, k), is_heard |= *out++ != 0;
    }
    return is_heard;
}

// Where a master is judged.

// By which way a place can be own, of the clips that were noted; -1 if by none.
static int64_t way_at(uint32_t channel, int64_t m) {
    int64_t way = -1;
    for (int64_t i = 0; i < heard_number; i++) {
        int64_t gain, its = heard[i]->way;
        if (!fill_gains(&heard[i]->points[channel], m - heard[i]->at, 1, &gain)) continue;
        if (gain != FULL_GAIN || (way != -1 && way != its)) return -1;
        way = its;
    }
    return way;
}

// Notes the clips at a place, and says whether a gain rises or falls there. The place after it where one of them ends, or
// another or a part of its gains begins, is left in `next`.
static int look(uint32_t channel, int64_t m, int64_t *next) {
    int is_varying = 0;
    heard_number = 0;
    for (struct clip *clip = clips; clip < clips + clip_number; clip++) {
        const struct points *points = &clip->points[channel];
        if (clip->at > m) *next = least(*next, clip->at);
        if (clip->at > m || clip->stop <= m) continue;
        int64_t after = passed(points, m - clip->at);
        *next = least(*next, after < points->number ? least(clip->stop, clip->at + points->places[after]) : clip->stop);
        is_varying |= after > 0 && after < points->number && points->gains[after] != points->gains[after - 1];
        heard[heard_number++] = clip;
    }
    return is_varying;
}

// Ends a run of own bits before a place, and notes which places aren't judged for it.
static void end_run(struct channel *it, int64_t stop) {
    int64_t low = it->begin == 0 ? 0 : it->begin + reach, high = stop == master.count ? stop : stop - reach;
    if (it->way == -1 || low >= high) return;
    it->own = larger(it->own, it->number, sizeof *it->own);
    it->own[it->number++] = (struct range){low, high};
}

static void go_on(struct channel *it, int64_t m, int64_t way) {
    if (way == it->way) return;
    end_run(it, m);
    it->way = way, it->begin = m;
}

// 64 bits, from one of the first byte on.
static inline uint64_t word(const uint8_t *at, int64_t shift) {
    uint64_t value;
    memcpy(&value, at, 8);
    return __builtin_bswap64(value) << shift | at[8] >> (8 - shift);
}

// Compares the bits of a channel with those of a take: each other one ends a run.
static void compare(uint32_t channel, int64_t way, int64_t first, int64_t stop) {
    static uint8_t mine[SCANNED / 8 + 16], theirs[SCANNED / 8 + 16];
    struct channel *it = &channels[channel];
    int64_t low = first / 8 * 8, bytes = (stop - low + 7) / 8, other = low + clips[way].offset, shift = other & 7;
    fetch(&master, channel, low / 8, bytes, mine);
    fetch(&takes[clips[way].take], channel, other >> 3, bytes + 1, theirs);
    go_on(it, first, way);
    for (int64_t i = 0; i < bytes; i += 8)
        for (uint64_t differ = word(mine + i, 0) ^ word(theirs + i, shift); differ;) {
            int64_t at = __builtin_clzll(differ), place = low + 8 * i + at;
            differ &= UINT64_MAX >> at >> 1;
            if (place < first || place >= stop) continue;
            end_run(it, place);
            it->begin = place + 1;
        }
}

// Finds the runs of own bits in the next places of a channel.
static void scan(uint32_t channel, int64_t first, int64_t stop) {
    for (int64_t end = stop; first < stop; end = stop) {
        int is_varying = look(channel, first, &end);
        for (int64_t m = first; m < end; m = first) {
            int64_t way = way_at(channel, m);
            first = is_varying ? m + 1 : end;
            if (way == -1) go_on(&channels[channel], m, -1);
            else compare(channel, way, m, first);
        }
    }
}

// Residuals.

// The sounds of a take from a bit on.
static void decode(const struct clip *clip, uint32_t channel, int64_t first, int64_t number) {
    struct recording *take = &takes[clip->take];
    const struct taps *it = &decoders[clip->decoder];
    int64_t begin = first - it->number / 2, byte = begin >> 3, shift = begin & 7, size = number + 8 * it->groups;
    fetch(take, channel, byte, size / 8 + 3, packed);
    for (int64_t i = 0; i < size; i++) {
        const uint8_t *at = packed + (i + shift) / 8;
        windows[i] = (uint8_t)((at[0] << 8 | at[1]) >> (8 - (i + shift) % 8));
    }
    memset(sounds, 0, sizeof sounds);
    for (int64_t g = 0; g < it->groups; g += 4) {
        const int32_t(*table)[256] = it->table + g;
        const uint8_t *at = windows + 8 * g;
        for (int64_t n = 0; n < number; n++)
            sounds[n] += table[0][at[n]] + table[1][at[n + 8]] + table[2][at[n + 16]] + table[3][at[n + 24]];
    }
    // Tap by tap where some lie outside of the take.
    for (int64_t n = 0; n < number; n++) {
        if (begin + n >= 0 && begin + n + it->number <= take->count) continue;
        sounds[n] = 0;
        for (int64_t j = n; j < n + it->number; j++)
            if (begin + j >= 0 && begin + j < take->count) sounds[n] += it->taps[j - n] * ((windows[j] >> 7) * 2 - 1);
    }
}

// Finds the errors of places, 0 outside of the master.
static void find_errors(uint32_t channel, int64_t first, int64_t stop, int32_t *out) {
    int64_t number = stop - first;
    memset(mixed, 0, sizeof mixed);
    for (const struct clip *clip = clips; clip < clips + clip_number; clip++) {
        int64_t low = most(first, clip->at), high = least(stop, clip->stop);
        if (low >= high || !fill_gains(&clip->points[channel], low - clip->at, high - low, gains)) continue;
        decode(clip, channel, low + clip->offset, high - low);
        for (int64_t i = 0; i < high - low; i++) mixed[low - first + i] += gains[i] * sounds[i];
    }
    fetch(&master, channel, first >> 3, number / 8 + 2, packed);
    for (int64_t i = 0; i < number; i++) {
        int64_t bit = (first & 7) + i, sign = (packed[bit / 8] >> (7 - bit % 8) & 1) * 2 - 1;
        int64_t error = (sign * unit * FULL_GAIN - mixed[i] + (1 << 22)) >> 23;
        if (first + i < 0 || first + i >= master.count) error = 0;
        if (error >= LOUD || error <= -LOUD) {
            printf("rejected TooLoud %" PRIu32 " %" PRId64 "\n", channel, first + i);
            exit(1);
        }
        out[i] = (int32_t)error;
    }
}

// Makes sure that the errors from one place to another are there; those that are there already are kept.
static void make_errors(uint32_t channel, int64_t first, int64_t stop) {
    int64_t kept = first >= errors_first && first < errors_stop ? errors_stop - first : 0;
    memmove(errors, errors + (first - errors_first) * (kept > 0), (size_t)kept * sizeof *errors);
    for (int64_t at = first + kept; at < stop; at += DECODED)
        find_errors(channel, at, least(stop, at + DECODED), errors + (at - first));
    errors_first = first, errors_stop = stop;
}

// The errors that a tap meets.
static const int32_t *row_of(int64_t k) { return rows + k % every * row_size + k / every; }

// Sums the residuals of places that are `every` apart, and keeps the greatest.
static void sum_residuals(struct stretch *it, int64_t first, int64_t number) {
    int64_t size = (number - 1) * every + audible.number;
    make_errors(it->channel, first - reach, first - reach + size);
    // Of the errors each that is `every` after another lies beside it, so that sums run over neighbours.
    for (int64_t phase = 0; phase < every; phase++)
        for (int64_t i = phase, j = phase * row_size; i < size; i += every) rows[j++] = errors[i];
    memset(sums, 0, sizeof sums);
    for (int64_t k = 0; k < 8 * audible.groups; k += 4) {
        const int32_t *a = row_of(k), *b = row_of(k + 1), *c = row_of(k + 2), *d = row_of(k + 3);
        int64_t p = audible.taps[k], q = audible.taps[k + 1], r = audible.taps[k + 2], s = audible.taps[k + 3];
        for (int64_t n = 0; n < number; n++) sums[n] += p * a[n] + q * b[n] + r * c[n] + s * d[n];
    }
    for (int64_t n = 0; n < number; n++) {
        int64_t residual = sums[n] < 0 ? -sums[n] : sums[n];
        if (residual > it->residual) it->residual = residual, it->place = first + n * every;
    }
}

// Judges places that are `every` apart. They belong to the last stretch if they are near it.
static void judge(uint32_t channel, int64_t first, int64_t last) {
    struct stretch *it = stretch_number ? &stretches[stretch_number - 1] : NULL;
    if (!it || it->channel != channel || first - it->last - 1 >= audible.number) {
        stretches = larger(stretches, stretch_number, sizeof *stretches);
        it = &stretches[stretch_number++];
        *it = (struct stretch){channel, first, last, -1, first};
    }
    it->last = last;
    for (int64_t at = first; at <= last; at += JUDGED * every) sum_residuals(it, at, least(JUDGED, (last - at) / every + 1));
}

// Judges what lies between the places that needn't be.
static void judge_channel(uint32_t channel) {
    struct channel *it = &channels[channel];
    int64_t place = 0;
    errors_first = errors_stop = 0;
    end_run(it, master.count);
    for (int64_t i = 0; i <= it->number; i++) {
        struct range own = i < it->number ? it->own[i] : (struct range){master.count, master.count};
        int64_t first = (place + every - 1) / every * every, last = (own.first - 1) / every * every;
        if (own.first > place && first <= last) {
            if (every <= audible.number) judge(channel, first, last);
            else
                for (; first <= last; first += every) judge(channel, first, first);
        }
        place = own.stop;
    }
}

// Levels.

// Whether a value is at most full scale times a power of ten.
static int is_at_most(int64_t value, int64_t full, int64_t power) {
    unsigned __int128 mine = (unsigned __int128)value, theirs = (unsigned __int128)full;
    for (; power < 0; power++) mine *= 10;
    for (; power > 0; power--) theirs *= 10;
    return mine <= theirs;
}

// Prints a residual and its level, rounded towards louder. Of the levels with two decimals only powers of ten can be met.
static void print_level(int64_t value, int64_t full) {
    printf("%" PRId64 " dBFS ", value);
    if (!value) {
        printf("-inf");
        return;
    }
    long double exact = 2000 * (log10l(value) - log10l(full));
    int64_t found = (int64_t)ceill(exact), nearest = (int64_t)roundl(exact);
    if (nearest % 2000 == 0 && fabsl(exact - nearest) < 1e-6L) found = nearest + !is_at_most(value, full, nearest / 2000);
    int64_t size = found < 0 ? -found : found;
    printf("%s%" PRId64 ".%02" PRId64, found < 0 ? "-" : "", size / 100, size % 100);
}

static int print_answer(void) {
    int64_t sum = 0, greatest = 0;
    const struct stretch *loud = NULL;
    for (int64_t k = 0; k < audible.number; k++) sum += audible.taps[k];
    int64_t full = 2 * unit * sum;
    for (const struct stretch *it = stretches; it < stretches + stretch_number; it++) {
        printf("channel %" PRIu32 " first %" PRId64 " last %" PRId64 " residual ", it->channel, it->first, it->last);
        print_level(it->residual, full);
        printf(" place %" PRId64 "\n", it->place);
        greatest = most(greatest, it->residual);
        if (!loud && it->residual > limit) loud = it;
    }
    if (loud) {
        printf("rejected Residual %" PRIu32 " %" PRId64 "\n", loud->channel, loud->place);
        return 1;
    }
    printf("accepted residual ");
    print_level(greatest, full);
    printf("\n");
    return 0;
}

int main(int given, char **arguments) {
    if (given != 3 && (given != 4 || (strcmp(arguments[3], "mapped") && strcmp(arguments[3], "once")))) return 3;
    if (given == 4) access_to_files = strcmp(arguments[3], "once") ? MAPPED : ONCE;
    for (int byte = 0; byte < 256; byte++)
        for (int k = 0; k < 8; k++) turned[byte] |= (uint8_t)((byte >> k & 1) << (7 - k));
    read_plan(arguments[1]);
    for (int64_t t = 0; t < take_number; t++) read_recording(&takes[t], names[t]);
    read_recording(&master, arguments[2]);
    int64_t length = 0, longest = 0;
    const char *reason = NULL;
    for (int64_t k = 0; k < clip_number; k++) length = most(length, clips[k].stop);
    for (int64_t d = 0; d < decoder_number; d++) longest = most(longest, decoders[d].number);
    if (master.count != length) reason = "Length";
    if (master.rate != takes[0].rate || master.channels != takes[0].channels) reason = "Shape";
    if (reason) {
        printf("rejected Master%s\n", reason);
        return 1;
    }
    packed = room((DECODED + longest) / 8 + 16), windows = room(DECODED + longest + 32);
    errors = room((JUDGED * every + audible.number) * (int64_t)sizeof *errors);
    row_size = JUDGED + 8 * audible.groups / every + 2, rows = room(every * row_size * (int64_t)sizeof *rows);

    for (uint32_t c = 0; c < master.channels; c++) channels[c].way = -1;
    for (int64_t first = 0; first < length; first += SCANNED)
        for (uint32_t c = 0; c < master.channels; c++) scan(c, first, least(length, first + SCANNED));
    for (uint32_t c = 0; c < master.channels; c++) judge_channel(c);
    return print_answer();
}
