// Cuts a DSDIFF master from DSDIFF takes and writes its certificate, as a C programmer would write it: rows of 64-bit
// numbers, a byte for each level and state that says which of the two ways was less, and a plain loop over the states.
// The certificate is of version 2, whose bounds are cut at the cost: once that is known the rows are made again, two at a
// time, and written. What it writes is what `dsdarc edit dsdiff` writes of the same project without titles: master and
// certificate are equal byte by byte.
//
// edit_peer PLAN MASTER [CERT], where PLAN is what make_project.py writes: the names of the takes, two lines; the number
// of weights and the weights; the number of cues, and for each its take, start, stop and bridge. It prints what the
// bridges cost together. Without CERT it only searches.
#include <inttypes.h>
#include <stdint.h>
#include <stdio.h>
#include <stdlib.h>
#include <string.h>

#define TAKES 2
#define LEVELS 4096
#define WIDTH 12
#define STATES (1 << (WIDTH - 1))
#define NO_WAY (UINT64_C(1) << 63)

struct take {
    uint32_t rate, channels;
    uint8_t ids[24];
    uint64_t count;
    uint8_t *bits[6];
};

struct cue {
    uint64_t start, stop;
    int take, bridge;
};

static struct take takes[TAKES];
static struct cue cues[256];
static int number, width, weights[WIDTH];

// What a search needs, kept from one to the next.
static int32_t targets[LEVELS + WIDTH - 1], sums[2 * STATES];
static uint64_t rows[2][STATES];
static uint8_t decisions[LEVELS * STATES], spelled[8 * STATES + 8], found[LEVELS];

static void *room(size_t size) {
    void *made = calloc(size, 1);
    if (!made) exit(2);
    return made;
}

static uint64_t big(const uint8_t *at, int size) {
    uint64_t value = 0;
    for (int k = 0; k < size; k++) value = value << 8 | at[k];
    return value;
}

static void put(FILE *file, uint64_t value, int size) {
    uint8_t bytes[8];
    for (int k = 0; k < size; k++) bytes[k] = (uint8_t)(value >> 8 * (size - 1 - k));
    fwrite(bytes, 1, (size_t)size, file);
}

static int bit_at(const uint8_t *bits, uint64_t place) { return bits[place / 8] >> (7 - place % 8) & 1; }

static void read_property(struct take *take, const uint8_t *at, const uint8_t *end) {
    while (at + 12 <= end) {
        uint64_t size = big(at + 4, 8);
        if (!memcmp(at, "FS  ", 4)) take->rate = (uint32_t)big(at + 12, 4);
        if (!memcmp(at, "CHNL", 4)) {
            take->channels = (uint32_t)big(at + 12, 2);
            if (take->channels < 1 || take->channels > 6) exit(2);
            memcpy(take->ids, at + 14, 4 * take->channels);
        }
        at += 12 + size + size % 2;
    }
}

static void read_take(struct take *take, const char *name) {
    FILE *file = fopen(name, "rb");
    if (!file) exit(2);
    fseek(file, 0, SEEK_END);
    size_t size = (size_t)ftell(file);
    rewind(file);
    uint8_t *bytes = room(size);
    if (fread(bytes, 1, size, file) != size) exit(2);
    fclose(file);
    for (size_t at = 16; at + 12 <= size;) {
        uint64_t part = big(bytes + at + 4, 8);
        if (!memcmp(bytes + at, "PROP", 4)) read_property(take, bytes + at + 16, bytes + at + 12 + part);
        if (!memcmp(bytes + at, "DSD ", 4)) {
            uint64_t frames = part / take->channels;
            take->count = 8 * frames;
            for (uint32_t c = 0; c < take->channels; c++) {
                take->bits[c] = room(frames);
                for (uint64_t i = 0; i < frames; i++) take->bits[c][i] = bytes[at + 12 + i * take->channels + c];
            }
        }
        at += 12 + part + part % 2;
    }
    free(bytes);
}

static void read_plan(const char *name) {
    FILE *file = fopen(name, "r");
    char line[4096];
    if (!file) exit(2);
    for (int t = 0; t < TAKES; t++) {
        if (!fgets(line, sizeof line, file)) exit(2);
        line[strcspn(line, "\n")] = 0;
        read_take(&takes[t], line);
    }
    if (fscanf(file, "%d", &width) != 1 || width < 2 || width > WIDTH) exit(2);
    for (int k = 0; k < width; k++)
        if (fscanf(file, "%d", &weights[k]) != 1) exit(2);
    if (fscanf(file, "%d", &number) != 1 || number < 1 || number > 256) exit(2);
    for (struct cue *cue = cues; cue < cues + number; cue++)
        if (fscanf(file, "%d%" SCNu64 "%" SCNu64 "%d", &cue->take, &cue->start, &cue->stop, &cue->bridge) != 4 || cue->bridge > LEVELS) exit(2);
    fclose(file);
}

static int32_t weighted(const uint8_t *bits, uint64_t place) {
    int32_t sum = 0;
    for (int k = 0; k < width; k++) sum += bit_at(bits, place - (uint64_t)k) ? weights[k] : -weights[k];
    return sum;
}

static uint64_t squared(int32_t difference) { return (uint64_t)((int64_t)difference * difference); }

// Whether a state comes before another one, read from the newest bit to the oldest.
static int is_before(uint32_t a, uint32_t b) {
    uint32_t differs = a ^ b;
    return (a & (differs & -differs)) == 0;
}

// What the search of one bridge goes by.
struct bridge {
    int levels;
    uint32_t states, start;
    const uint8_t *after;
    uint64_t next;
};

static struct bridge prepare(const struct cue *cue, uint32_t channel) {
    const struct cue *next = cue + 1;
    const uint8_t *a = takes[cue->take].bits[channel], *b = takes[next->take].bits[channel];
    int levels = cue->bridge, places = levels + width - 1;
    struct bridge bridge = {levels, 1u << (width - 1), 0, b, next->start};

    for (int i = 1; i <= places; i++)
        targets[i - 1] = i <= levels ? (levels + 1 - i) * weighted(a, cue->stop + (uint64_t)i - 1) + i * weighted(b, next->start - (uint64_t)levels + (uint64_t)i - 1)
                                     : (levels + 1) * weighted(b, next->start + (uint64_t)(i - levels) - 1);
    for (uint32_t code = 0; code < 2 * bridge.states; code++) {
        int32_t sum = 0;
        for (int k = 0; k < width; k++) sum += code >> k & 1 ? weights[k] : -weights[k];
        sums[code] = (levels + 1) * sum;
    }
    for (int k = width - 1; k > 0; k--) bridge.start = 2 * bridge.start + (uint32_t)bit_at(a, cue->stop - (uint64_t)k);
    return bridge;
}

// Begins with no way but from the start state.
static void begin(uint64_t *row, const struct bridge *bridge, uint64_t most) {
    for (uint32_t q = 0; q < bridge->states; q++) row[q] = q == bridge->start ? 0 : most;
}

// Finds the least bits of a bridge, the earliest first, a byte each, and what they cost.
static uint64_t search(const struct bridge *bridge) {
    uint32_t states = bridge->states, half = states / 2, end = 0;
    uint64_t *row = rows[0], *following = rows[1], cost = UINT64_MAX;

    begin(row, bridge, NO_WAY);
    for (int level = 0; level < bridge->levels; level++) {
        int32_t target = targets[level];
        uint8_t *decision = decisions + (size_t)level * states;
        for (uint32_t q = 0; q < states; q++) {
            uint64_t first = row[q / 2] + squared(sums[q] - target);
            uint64_t second = row[half + q / 2] + squared(sums[states + q] - target);
            uint64_t least = second < first ? second : first;
            decision[q] = second < first;
            following[q] = least < NO_WAY ? least : NO_WAY;
        }
        uint64_t *old = row;
        row = following, following = old;
    }

    for (uint32_t q = 0; q < states; q++) {
        uint64_t total = row[q];
        uint32_t state = q;
        for (int i = 0; i < width - 1; i++) {
            uint32_t code = 2 * state + (uint32_t)bit_at(bridge->after, bridge->next + (uint64_t)i);
            total += squared(sums[code] - targets[bridge->levels + i]);
            state = code % states;
        }
        if (total < cost || (total == cost && is_before(q, end))) cost = total, end = q;
    }
    for (int level = bridge->levels; level > 0; level--) {
        found[level - 1] = end & 1;
        end = end / 2 + (decisions[(size_t)(level - 1) * states + end] ? half : 0);
    }
    return cost;
}

// Writes the low bytes of what the values of a row exceed the least by. Eight bytes are stored of each, of which the next
// one takes what isn't its own.
static inline void spell(const uint64_t *row, uint32_t states, uint64_t least, int size) {
    for (uint32_t q = 0; q < states; q++) {
        uint64_t turned = __builtin_bswap64((row[q] - least) << (64 - 8 * size));
        memcpy(spelled + (size_t)size * q, &turned, 8);
    }
}

static void write_row(const uint64_t *row, uint32_t states, FILE *cert) {
    uint64_t least = UINT64_MAX, most = 0;
    int size = 0;
    for (uint32_t q = 0; q < states; q++) {
        least = row[q] < least ? row[q] : least;
        most = row[q] > most ? row[q] : most;
    }
    while (size < 8 && (most - least) >> 8 * size) size++;
    put(cert, least, 8), put(cert, (uint64_t)size, 1);
    switch (size) {
    case 0: return;
    case 1: spell(row, states, least, 1); break;
    case 2: spell(row, states, least, 2); break;
    case 3: spell(row, states, least, 3); break;
    case 4: spell(row, states, least, 4); break;
    case 5: spell(row, states, least, 5); break;
    case 6: spell(row, states, least, 6); break;
    case 7: spell(row, states, least, 7); break;
    default: spell(row, states, least, 8);
    }
    fwrite(spelled, (size_t)size, states, cert);
}

// Makes the rows of a bridge again, no value above what it costs, and writes them. A value that was cut leads to none
// below the cost, so it makes no difference to the next row.
static void write_rows(const struct bridge *bridge, uint64_t cost, FILE *cert) {
    uint32_t states = bridge->states, half = states / 2;
    uint64_t *row = rows[0], *following = rows[1];
    begin(row, bridge, cost);
    write_row(row, states, cert);
    for (int level = 0; level < bridge->levels; level++) {
        int32_t target = targets[level];
        for (uint32_t q = 0; q < states; q++) {
            uint64_t first = row[q / 2] + squared(sums[q] - target);
            uint64_t second = row[half + q / 2] + squared(sums[states + q] - target);
            uint64_t least = second < first ? second : first;
            following[q] = least < cost ? least : cost;
        }
        uint64_t *old = row;
        row = following, following = old;
        write_row(row, states, cert);
    }
}

// Finds the bridge after a cue in one channel, and writes its entry.
static uint64_t join(int at, uint32_t channel, FILE *cert) {
    struct bridge bridge = prepare(&cues[at], channel);
    uint64_t cost = search(&bridge);
    if (cert) {
        put(cert, (uint64_t)at, 2), put(cert, channel, 2), put(cert, (uint64_t)bridge.levels, 2);
        write_rows(&bridge, cost, cert);
        put(cert, cost, 8);
    }
    return cost;
}

static void put_bit(uint8_t *sound, uint32_t channel, uint64_t place, int bit) {
    sound[place / 8 * takes[0].channels + channel] |= (uint8_t)(bit << (7 - place % 8));
}

static int write_master(const char *name, const uint8_t *sound, uint64_t size) {
    uint32_t channels = takes[0].channels;
    uint64_t property = 4 + 16 + 12 + 2 + 4 * channels + 12 + 20;
    FILE *file = fopen(name, "wb");
    if (!file) return 0;
    fputs("FRM8", file), put(file, 4 + 16 + 12 + property + 12 + size + size % 2, 8), fputs("DSD ", file);
    fputs("FVER", file), put(file, 4, 8), put(file, 0x01050000, 4);
    fputs("PROP", file), put(file, property, 8), fputs("SND ", file);
    fputs("FS  ", file), put(file, 4, 8), put(file, takes[0].rate, 4);
    fputs("CHNL", file), put(file, 2 + 4 * channels, 8), put(file, channels, 2), fwrite(takes[0].ids, 4, channels, file);
    fputs("CMPR", file), put(file, 19, 8), fputs("DSD \016not compressed", file), put(file, 0, 1);
    fputs("DSD ", file), put(file, size, 8), fwrite(sound, 1, size, file);
    if (size % 2) put(file, 0, 1);
    return !fclose(file);
}

static void print_total(unsigned __int128 total) {
    char digits[40];
    int at = 39;
    digits[at] = 0;
    do digits[--at] = (char)('0' + (int)(total % 10)), total /= 10;
    while (total);
    printf("edited total %s\n", digits + at);
}

int main(int given, char **arguments) {
    if (given != 3 && given != 4) return 2;
    read_plan(arguments[1]);
    uint32_t channels = takes[0].channels;
    FILE *cert = NULL;
    uint64_t count = 0, entries = 0;
    for (int k = 0; k < number; k++) {
        count += cues[k].stop - cues[k].start + (uint64_t)cues[k].bridge;
        if (cues[k].bridge) entries += channels;
    }
    if (count % 8) return 2;
    uint8_t *sound = room(count / 8 * channels);
    if (given == 4) {
        if (!(cert = fopen(arguments[3], "wb"))) return 2;
        setvbuf(cert, NULL, _IOFBF, 1 << 20);
        fputs("DSPC", cert), put(cert, 2, 2), put(cert, (uint64_t)width, 2), put(cert, entries, 4);
    }

    unsigned __int128 total = 0;
    uint64_t place = 0;
    for (int k = 0; k < number; k++) {
        const struct cue *cue = &cues[k];
        uint64_t length = cue->stop - cue->start;
        for (uint32_t c = 0; c < channels; c++) {
            for (uint64_t i = 0; i < length; i++) put_bit(sound, c, place + i, bit_at(takes[cue->take].bits[c], cue->start + i));
            if (cue->bridge) total += join(k, c, cert);
            for (int i = 0; i < cue->bridge; i++) put_bit(sound, c, place + length + (uint64_t)i, found[i]);
        }
        place += length + (uint64_t)cue->bridge;
    }
    print_total(total);
    if (cert && (ferror(cert) | fclose(cert))) return 2;
    return write_master(arguments[2], sound, count / 8 * channels) ? 0 : 2;
}
