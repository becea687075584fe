/* Tries the calls that need no player: over indexes of filters and over headers, as they come and at random.
 *
 * It is compiled with the sources of these calls and AddressSanitizer. Each buffer ends where its bytes do. */
#include <dsdarc.h>
#include <stdio.h>
#include <stdlib.h>
#include <string.h>

static int failed;

#define IS(holds) \
    do { \
        if (!(holds)) printf("FOUND: line %d: %s\n", __LINE__, #holds), failed = 1; \
    } while (0)

static void *copy(const void *bytes, size_t size) {
    void *made = malloc(size ? size : 1);
    if (size) memcpy(made, bytes, size);
    return made;
}

/* The name that is found for a wish, or the text of the status. */
static const char *found(const char *text, uint32_t rate_in, uint32_t rate, uint32_t width, uint32_t gain) {
    static char name[64];
    dsdarc_wish wish = {rate_in, rate, width, gain};
    char *index = copy(text, strlen(text));
    dsdarc_status status = dsdarc_filter_find(index, strlen(text), &wish, name, sizeof name);
    free(index);
    return status == DSDARC_OK ? name : dsdarc_status_text(status);
}

static const char *rates(const char *text, const char *name) {
    static char said[64];
    uint32_t each[3] = {0};
    size_t count = 9;
    char *index = copy(text, strlen(text));
    dsdarc_status status = dsdarc_filter_rates(index, strlen(text), name, each, 2, &count);
    free(index);
    snprintf(said, sizeof said, "%zu %u %u %u", count, each[0], each[1], each[2]);
    return status == DSDARC_OK ? said : dsdarc_status_text(status);
}

static void try_index(void) {
    const char *text = "# name rates\n\na.toml 2822400 32 24 0\r\nb.toml 2822400 32 24 6\n\tc.toml  11289600,12288000\t128 24 0\n"
                       "# d.toml 100 10 24 0\nfour 100 10 24\nsix 100 10 24 0 0\nno 100 0 24 0\nbad 1x,100 10 24 0\n"
                       "huge 4294967297,99999999999 1 24 0\nlast 48000 4 16 0";
    const char *twelve = "wraps 4294967295 4294967295 16 0\n";
    char name[8] = "is left";
    dsdarc_wish wish = {48000, 12000, 16, 0};
    size_t count;
    IS(strcmp(found(text, 2822400, 88200, 24, 0), "a.toml") == 0);
    IS(strcmp(found(text, 2822400, 88200, 24, 6), "b.toml") == 0);
    IS(strcmp(found(text, 11289600, 88200, 24, 0), "c.toml") == 0);
    IS(strcmp(found(text, 12288000, 96000, 24, 0), "c.toml") == 0);
    IS(strcmp(found(text, 100, 10, 24, 0), "bad") == 0);
    IS(strcmp(found(text, 48000, 12000, 16, 0), "last") == 0);
    IS(strcmp(found(text, 5644800, 88200, 24, 0), "NoFilter") == 0);
    IS(strcmp(found(text, 2822400, 88200, 16, 0), "NoFilter") == 0);
    IS(strcmp(found(text, 2822400, 88201, 24, 0), "NoFilter") == 0);
    IS(strcmp(found(text, 1, 1, 24, 0), "NoFilter") == 0);
    IS(strcmp(found("", 2822400, 88200, 24, 0), "NoFilter") == 0);
    IS(strcmp(found(twelve, 4294967295u, 1, 16, 0), "wraps") == 0);
    IS(strcmp(found(twelve, 1, 4294967295u, 16, 0), "NoFilter") == 0);
    IS(strcmp(rates(text, "a.toml"), "1 2822400 0 0") == 0);
    IS(strcmp(rates(text, "c.toml"), "2 11289600 12288000 0") == 0);
    IS(strcmp(rates("x 1,2,3,4 5 16 0", "x"), "4 1 2 0") == 0);
    IS(strcmp(rates(text, "toml"), "NoFilter") == 0);
    IS(strcmp(rates(text, "four"), "NoFilter") == 0);
    IS(strcmp(rates(text, "#"), "NoFilter") == 0);
    IS(dsdarc_filter_find(text, strlen(text), &wish, name, 4) == DSDARC_SIZE && strcmp(name, "is left") == 0);
    IS(dsdarc_filter_find(text, strlen(text), &wish, name, 5) == DSDARC_OK && strcmp(name, "last") == 0);
    IS(dsdarc_filter_find(NULL, 1, &wish, name, 5) == DSDARC_NULL);
    IS(dsdarc_filter_find(NULL, 0, &wish, name, 5) == DSDARC_NO_FILTER);
    IS(dsdarc_filter_find(text, 9, NULL, name, 5) == DSDARC_NULL);
    IS(dsdarc_filter_find(text, 9, &wish, NULL, 5) == DSDARC_NULL);
    IS(dsdarc_filter_find(text, SIZE_MAX, &wish, name, 5) == DSDARC_SIZE);
    IS(dsdarc_filter_rates(text, strlen(text), "c.toml", NULL, 0, &count) == DSDARC_OK && count == 2);
    IS(dsdarc_filter_rates(text, strlen(text), "c.toml", NULL, 1, &count) == DSDARC_NULL);
    IS(dsdarc_filter_rates(text, strlen(text), NULL, NULL, 0, &count) == DSDARC_NULL);
    IS(dsdarc_filter_rates(text, SIZE_MAX, "x", NULL, 0, &count) == DSDARC_SIZE);
}

/* The mask of a DSF file of a channel type and a number of channels, or -1. */
static long of_dsf(int type, int count, size_t size) {
    unsigned char header[80] = "DSD \x1c", *own;
    uint32_t mask = 9;
    long is;
    memcpy(header + 28, "fmt \x34", 5);
    header[40] = 1, header[48] = (unsigned char)type, header[52] = (unsigned char)count;
    own = copy(header, size);
    is = dsdarc_channel_mask(own, size, &mask) == DSDARC_OK ? (long)mask : mask == 0 ? -1 : -2;
    free(own);
    return is;
}

/* The mask of a DSDIFF file whose channels have IDs of four letters, or -1. */
static long of_dsdiff(const char *ids, size_t cut) {
    unsigned char header[200] = "FRM8\0\0\0\0\0\0\1\0DSD FVER\0\0\0\0\0\0\0\3\1\5\0\0", *own;
    size_t count = strlen(ids) / 4, at = 32;
    uint32_t mask = 9;
    long is;
    memcpy(header + at, "PROP\0\0\0\0\0\0\0\0SND ", 16), header[at + 11] = (unsigned char)(4 + 12 + 4 + 12 + 2 + 4 * count);
    at += 16;
    memcpy(header + at, "FS  \0\0\0\0\0\0\0\4\0\x2b\x11\0", 16), at += 16;
    memcpy(header + at, "CHNL\0\0\0\0\0\0\0\0\0", 13), header[at + 11] = (unsigned char)(2 + 4 * count), at += 13;
    header[at++] = (unsigned char)count;
    memcpy(header + at, ids, 4 * count), at += 4 * count - cut;
    own = copy(header, at);
    is = dsdarc_channel_mask(own, at, &mask) == DSDARC_OK ? (long)mask : mask == 0 ? -1 : -2;
    free(own);
    return is;
}

/* By the channel types of DSF File Format 1.01 (3: with centre; 4: quad; 5: with centre and low; 6: 5; 7: 5.1), the IDs of
 * DSDIFF 1.5, and the bits of WAVE's channel mask. */
static void try_channels(void) {
    uint32_t mask;
    IS(of_dsf(1, 1, 80) == 0x4 && of_dsf(2, 2, 80) == 0x3 && of_dsf(3, 3, 80) == 0x7 && of_dsf(4, 4, 80) == 0x33);
    IS(of_dsf(5, 4, 80) == 0xf && of_dsf(6, 5, 80) == 0x37 && of_dsf(7, 6, 80) == 0x3f);
    IS(of_dsf(2, 6, 80) == 0x3f && of_dsf(99, 2, 80) == 0x3 && of_dsf(5, 5, 80) == 0x37);
    IS(of_dsf(7, 7, 80) == -1 && of_dsf(1, 0, 80) == -1 && of_dsf(7, 6, 55) == -1 && of_dsf(7, 6, 56) == 0x3f);
    IS(of_dsdiff("SLFTSRGT", 0) == 0x3 && of_dsdiff("MLFTMRGT", 0) == 0x3 && of_dsdiff("C   ", 0) == 0x4);
    IS(of_dsdiff("MLFTMRGTC   LS  RS  ", 0) == 0x37 && of_dsdiff("MLFTMRGTC   LFE LS  RS  ", 0) == 0x3f);
    IS(of_dsdiff("MLFTMRGTLS  RS  ", 0) == 0x33 && of_dsdiff("LS  RS  ", 0) == 0x30 && of_dsdiff("MLFTMRGTC   LFE ", 0) == 0xf);
    IS(of_dsdiff("SRGTSLFT", 0) == 0 && of_dsdiff("MLFTMRGTLS  RS  C   LFE ", 0) == 0 && of_dsdiff("MLFTMLFT", 0) == 0);
    IS(of_dsdiff("C000", 0) == 0x4 && of_dsdiff("C000C001", 0) == 0x3 && of_dsdiff("C000C001C002C003C004C005", 0) == 0x3f);
    IS(of_dsdiff("MLFTC001", 0) == 0 && of_dsdiff("C000MRGT", 0) == 0 && of_dsdiff("XXXXYYYYZZZZ", 0) == 0);
    IS(of_dsdiff("MLFTMRGT", 1) == -1 && of_dsdiff("MLFTMRGT", 9) == -1 && of_dsdiff("MLFTMRGT", 40) == -1);
    IS(of_dsdiff("", 0) == -1 && of_dsdiff("C000C001C002C003C004C005C006", 0) == -1);
    IS(dsdarc_channel_mask(NULL, 1, &mask) == DSDARC_NULL && dsdarc_channel_mask("", 0, NULL) == DSDARC_NULL);
    IS(dsdarc_channel_mask(NULL, 0, &mask) == DSDARC_NOT_YET && dsdarc_channel_mask("", SIZE_MAX, &mask) == DSDARC_SIZE);
}

static void put(unsigned char *at, uint64_t number, int step) {
    for (int k = 0; k < 8; k++, number >>= 8) at[step > 0 ? k : 7 - k] = (unsigned char)number;
}

/* The head of a DSDIFF file of two channels that states so many bytes of sound; it has 94 bytes. */
static void form_of(unsigned char *at, uint64_t form, uint64_t sound) {
    memcpy(at, "FRM8\0\0\0\0\0\0\0\0DSD FVER\0\0\0\0\0\0\0\4\1\5\0\0PROP\0\0\0\0\0\0\0\x2aSND ", 48);
    memcpy(at + 48, "FS  \0\0\0\0\0\0\0\4\0\x2b\x11\0CHNL\0\0\0\0\0\0\0\12\0\2SLFTSRGT", 38);
    memcpy(at + 86, "DSD \0\0\0\0\0\0\0", 12);
    put(at + 4, form, -1), put(at + 90, sound, -1);
}

/* The same of a DSF file of two channels and so many bits, which has 92 bytes. */
static void blocks_of(unsigned char *at, uint64_t bits, uint64_t data, uint64_t tag) {
    memset(at, 0, 92);
    memcpy(at, "DSD \x1c", 5), memcpy(at + 28, "fmt \x34", 5), memcpy(at + 80, "data", 4);
    at[40] = 1, at[48] = at[52] = 2, at[60] = 1, at[73] = 16;
    memcpy(at + 56, "\0\x11\x2b\0", 4);
    put(at + 20, tag, 1), put(at + 64, bits, 1), put(at + 84, data, 1);
}

/* Mends a header, of which only `size` bytes are given: whether the status is this one, and what is there is this. A header
 * that isn't changed is as it was. */
static int mends(const unsigned char *header, size_t size, uint64_t file, dsdarc_status status, dsdarc_mended wanted) {
    unsigned char *own = copy(header, size);
    dsdarc_mended it = {77, 0, 0, 0, 0, 0};
    int is = dsdarc_mend_header(own, size, file, &it, sizeof it) == status;
    if (status != DSDARC_OK) is = is && it.start == 77;
    else is = is && memcmp(&it, &wanted, sizeof it - sizeof it.changed) == 0 && it.changed == wanted.changed;
    is = is && (memcmp(own, header, size) != 0) == (status == DSDARC_OK && wanted.changed);
    /* What was mended states what is there. */
    if (is && it.changed)
        is = dsdarc_mend_header(own, size, it.stop + it.fill, &it, sizeof it) == DSDARC_OK && !it.changed && it.bits == wanted.bits;
    free(own);
    return is;
}

static void try_mending(void) {
    enum { START = 98, FORM = 86 };
    unsigned char at[200];
    const dsdarc_mended none = {0, 0, 0, 0, 0, 0};
    dsdarc_mended it;
    form_of(at, FORM + 20, 20);
    IS(mends(at, START, START + 20, DSDARC_OK, (dsdarc_mended){START, START + 20, 0, 80, 80, 0}));
    IS(mends(at, START, START + 15, DSDARC_OK, (dsdarc_mended){START, START + 14, 0, 56, 80, 1}));
    IS(mends(at, START, START + 30, DSDARC_OK, (dsdarc_mended){START, START + 20, 0, 80, 80, 0}));
    IS(mends(at, START, START + 1, DSDARC_FILE_REFUSED, none) && mends(at, START - 1, START + 20, DSDARC_NOT_YET, none));
    IS(mends(at, START - 1, START - 1, DSDARC_FILE_REFUSED, none) && mends(at, 9, 10, DSDARC_NOT_YET, none));
    form_of(at, FORM + 20, 0), memset(at + START, 0x69, 20);
    IS(mends(at, START + 12, START + 20, DSDARC_OK, (dsdarc_mended){START, START + 20, 0, 80, 0, 1}));
    IS(mends(at, START + 11, START + 20, DSDARC_NOT_YET, none));
    form_of(at, FORM + 20, 0), memcpy(at + START, "MANF\0\0\0\0\0\0\0\10", 12);
    IS(mends(at, START + 20, START + 20, DSDARC_OK, (dsdarc_mended){START, START, 0, 0, 0, 0}));
    form_of(at, UINT64_MAX, UINT64_MAX);
    IS(mends(at, START, START + 20, DSDARC_OK, (dsdarc_mended){START, START + 20, 0, 80, 0, 1}));
    form_of(at, FORM, 0);
    IS(mends(at, START, START, DSDARC_OK, (dsdarc_mended){START, START, 0, 0, 0, 0}));
    form_of(at, FORM + 60, 20);
    IS(mends(at, START, START + 20, DSDARC_OK, (dsdarc_mended){START, START + 20, 0, 80, 80, 1}));
    blocks_of(at, 9 * 8, 12 + 8192, 0);
    IS(mends(at, 92, 92 + 8192, DSDARC_OK, (dsdarc_mended){92, 92 + 8192, 0, 72, 72, 0}));
    IS(mends(at, 92, 92 + 4096 + 9, DSDARC_OK, (dsdarc_mended){92, 92 + 4096 + 9, 4096 - 9, 72, 72, 1}));
    IS(mends(at, 92, 92 + 4096 + 5, DSDARC_OK, (dsdarc_mended){92, 92 + 4096 + 5, 4096 - 5, 40, 72, 1}));
    IS(mends(at, 92, 92 + 4096, DSDARC_FILE_REFUSED, none) && mends(at, 91, 92 + 4096, DSDARC_NOT_YET, none));
    blocks_of(at, 9 * 8, 12 + 8192, 92 + 8192);
    IS(mends(at, 92, 92 + 8192 + 30, DSDARC_OK, (dsdarc_mended){92, 92 + 8192, 0, 72, 72, 0}));
    blocks_of(at, 9 * 8, 12 + 4096 + 9, 92 + 4096 + 9);
    IS(mends(at, 92, 92 + 9000, DSDARC_OK, (dsdarc_mended){92, 92 + 4096 + 9, 4096 - 9, 72, 72, 1}));
    blocks_of(at, 0, 0, 92 + 4096 + 9);
    IS(mends(at, 92, 92 + 9000, DSDARC_OK, (dsdarc_mended){92, 92 + 4096 + 9, 4096 - 9, 72, 0, 1}));
    blocks_of(at, 9 * 8, 12 + 8192, 100);
    IS(mends(at, 92, 92 + 8192, DSDARC_OK, (dsdarc_mended){92, 92 + 8192, 0, 72, 72, 1}));
    IS(dsdarc_mend_header(NULL, 1, 1, &it, sizeof it) == DSDARC_NULL && dsdarc_mend_header(at, 0, 0, NULL, 0) == DSDARC_NULL);
    IS(dsdarc_mend_header(at, 92, 91, &it, sizeof it) == DSDARC_SIZE);
    IS(dsdarc_mend_header(at, SIZE_MAX, UINT64_MAX, &it, sizeof it) == DSDARC_SIZE);
    IS(dsdarc_mend_header(at, 92, UINT64_MAX, &it, sizeof it) == DSDARC_TOO_LONG);
    IS(dsdarc_mend_header(NULL, 0, 1, &it, sizeof it) == DSDARC_NOT_YET);
    IS(dsdarc_mend_header(NULL, 0, 0, &it, sizeof it) == DSDARC_FILE_REFUSED);
    IS(mends((const unsigned char *)"RIFF\0\0\0\0WAVEfmt ", 16, 99, DSDARC_FILE_REFUSED, none));
}

static uint64_t state = 0x9E3779B97F4A7C15u;

static size_t below(size_t n) {
    state ^= state << 13, state ^= state >> 7, state ^= state << 17;
    return (size_t)(state % n);
}

static void try_random(void) {
    static const char letters[] = "0123456789,,   \n\n\r\t#ax", header[] = "FRM8PROPSND CHNLDSD FVERMLFTMRGT\0\0\0\0\0\0\0\0\0\4\xff\xff";
    for (int turn = 0; turn < 20000; turn++) {
        size_t size = below(90), count;
        char *bytes = malloc(size ? size : 1), name[20];
        uint32_t mask, some[2];
        dsdarc_wish wish = {(uint32_t)below(100), (uint32_t)below(10), (uint32_t)below(20), (uint32_t)below(3)};
        for (size_t k = 0; k < size; k++) bytes[k] = letters[below(sizeof letters - 1)];
        dsdarc_filter_find(bytes, size, &wish, name, below(20));
        dsdarc_filter_rates(bytes, size, "a", some, 2, &count);
        for (size_t k = 0; k < size; k += 4) memcpy(bytes + k, header + below(sizeof header / 4) * 4, size - k < 4 ? size - k : 4);
        if (size > 16 && below(2)) memcpy(bytes, "FRM8", 4), memcpy(bytes + 12, "DSD ", 4);
        dsdarc_channel_mask(bytes, size, &mask);
        free(bytes);
    }
}

/* Headers of which some bytes are changed: what is mended is in the file, and states what is there. */
static void try_random_headers(void) {
    static const uint64_t sizes[] = {0, 1, 12, 41, 92, 4096, 8192, 1 << 20, UINT64_C(1) << 36, UINT64_MAX, UINT64_MAX - 11};
    for (int turn = 0; turn < 200000; turn++) {
        unsigned char at[98], *own;
        uint64_t file = below(3) ? below(40000) : sizes[below(9)], size = below(4) ? sizeof at : below(sizeof at + 1);
        dsdarc_mended it, again;
        if (below(2)) form_of(at, sizes[below(11)], sizes[below(11)]);
        else blocks_of(at, sizes[below(11)], sizes[below(11)], sizes[below(11)]);
        while (below(2)) put(at + below(sizeof at - 7), sizes[below(11)], below(2) ? 1 : -1);
        while (below(3) == 0) at[below(sizeof at)] = (unsigned char)below(256);
        if (size > file) size = file;
        own = copy(at, size);
        if (dsdarc_mend_header(own, size, file, &it, sizeof it) == DSDARC_OK) {
            IS(it.start <= it.stop && it.start <= size && it.stop <= file && it.fill < 6 * 4096 && it.bits <= UINT64_C(1) << 36);
            IS(!it.changed || dsdarc_mend_header(own, size, it.stop + it.fill, &again, sizeof again) == DSDARC_OK);
            IS(!it.changed || (!again.changed && again.bits == it.bits && again.start == it.start));
        }
        free(own);
    }
}

int main(void) {
    try_index();
    try_channels();
    try_mending();
    try_random();
    try_random_headers();
    return failed;
}
