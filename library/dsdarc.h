/* dsdarc: frames of DSDIFF and DSF files, decimated by the filter of a project text.
 *
 * The caller reads the file and pushes its bytes; the library takes them and gives frames. It opens nothing, prints
 * nothing, starts no thread and never aborts. A player holds the bytes before the sound, the frames of at most one
 * piece of 65,536 bytes of the sound, and what its filter still reads. It also keeps what a DSDIFF form has after the
 * sound. It holds at most 256 MiB (2^28 bytes) of what comes before the sound, and as much of what it keeps after it,
 * which is far more than real files have. A push with which it would hold more returns DSDARC_TOO_MUCH_HELD.
 *
 *     dsdarc_player *player;
 *     if (dsdarc_player_new(text, text_size, &player) != DSDARC_OK) ...
 *     while ((size = fread(bytes, 1, sizeof bytes, file)) > 0)
 *         for (at = 0; at < size; at += taken) {
 *             if (dsdarc_player_push(player, bytes + at, size - at, &taken) != DSDARC_OK) ...
 *             while (dsdarc_player_pull(player, pcm, 1024, DSDARC_PACKED, &given) == DSDARC_OK && given > 0)
 *                 write(pcm, given);
 *         }
 *     if (dsdarc_player_end(player) != DSDARC_OK) ...
 *     dsdarc_player_drop(player);
 *
 * What was pulled is a prefix of the frames that `dsdarc play` writes, whatever the sizes of pushes and pulls. Once the
 * last byte of the sound was pushed, all frames can be pulled. After a seek this holds for the frames from that one on.
 * A frame has one sample of each channel, in the order of the file.
 *
 * Ownership. A player is made by dsdarc_player_new and freed by dsdarc_player_drop. All other memory is the caller's,
 * and is read or written only during the call. Buffers of one call must not overlap each other.
 * Threads. A player may be used by one call at a time; different players are independent of each other.
 * Statuses. Each call that can fail returns one. Any call may return DSDARC_NULL or DSDARC_SIZE, which say that the
 * call itself is wrong: the player stays as it was, and so does what the call would have written, unless it says
 * otherwise. DSDARC_NULL: a pointer is NULL that may not be. DSDARC_SIZE: a size that no object has (more than
 * PTRDIFF_MAX bytes), or what a call names. The other statuses are named at each call.
 * Faults. DSDARC_FILE_REFUSED, DSDARC_RATE_NOT_DIVIDED, DSDARC_TOO_LONG and DSDARC_TOO_MUCH_HELD of a push, a next or
 * an end are faults, and so is DSDARC_MEMORY of these, of a choice or of a seek: the player plays no more of its file.
 * Frames that wait can still be pulled, and dsdarc_player_info, _describe, _mark and _marks report what they reported
 * before. A push takes nothing while frames wait, as always; then it returns DSDARC_AFTER_FAULT, also one of no bytes.
 * So do an end and a seek, and a next and a choice where these could be made at all. Of a player that joins files some
 * are no faults: dsdarc_player_new_joined says which.
 */
#ifndef DSDARC_H
#define DSDARC_H

#include <stddef.h>
#include <stdint.h>

#ifdef __cplusplus
extern "C" {
#endif

#define DSDARC_VERSION_MAJOR 0
#define DSDARC_VERSION_MINOR 2
#define DSDARC_VERSION_PATCH 0

/* The version as a number that can be compared, such as 200 for 0.2.0. */
#define DSDARC_VERSION (DSDARC_VERSION_MAJOR * 10000 + DSDARC_VERSION_MINOR * 100 + DSDARC_VERSION_PATCH)

#if defined __GNUC__ && defined DSDARC_BUILD
#define DSDARC_API __attribute__((visibility("default")))
#else
#define DSDARC_API
#endif

/* A player. Opaque handle. */
typedef struct dsdarc_player dsdarc_player;

/* What a call returns. The names of faults are those that the program prints. */
typedef enum dsdarc_status {
    DSDARC_OK = 0,
    DSDARC_NULL = 1,             /* a required pointer is NULL */
    DSDARC_SIZE = 2,             /* an invalid size or format */
    DSDARC_MEMORY = 3,           /* out of memory */
    DSDARC_AFTER_FAULT = 4,      /* an earlier call returned a fault of the file */
    DSDARC_NOT_YET = 5,          /* the pushed bytes don't describe the sound yet */
    DSDARC_PAST_END = 6,         /* there is no such frame */
    DSDARC_FILE_REFUSED = 7,     /* neither a DSDIFF 1.5 nor a DSF 1.01 file that holds a recording */
    DSDARC_RATE_NOT_DIVIDED = 8, /* the filter's factor doesn't divide the file's sample rate */
    DSDARC_TOO_LONG = 9,         /* more than 2^62 bytes; or a joined recording of 2^36 bits of each channel or more */
    DSDARC_NO_DECIMATION = 10,   /* the project text has no filter */
    DSDARC_NOT_TOML = 11,        /* the project text is not TOML */
    DSDARC_UNKNOWN_KEY = 12,     /* the project text has a key that no project has */
    DSDARC_MISSING_KEY = 13,     /* the project text lacks a key */
    DSDARC_WRONG_KIND = 14,      /* a value of the project text is of another kind, such as a text for a number */
    DSDARC_OUT_OF_LIMIT = 15,    /* a number of the project text is beyond its limits */
    DSDARC_NO_TAKE = 16,         /* the project text also has cues: one is of a take that isn't listed, */
    DSDARC_SHORT_CUE = 17,       /* one is too short, */
    DSDARC_LAST_BRIDGE = 18,     /* or the last one has a bridge */
    DSDARC_PROCESSOR = 19,     /* the library was built for processors that can do more than this one */
    DSDARC_TOO_MUCH_HELD = 20, /* more than 256 MiB come before the sound, or after it in a DSDIFF form */
    DSDARC_NO_FILTER = 21,     /* there is no such ready filter */
    DSDARC_NO_CHOICE = 22,     /* how the sound is given must be chosen first */
    DSDARC_CHOSEN = 23,        /* how the sound is given was chosen before */
    DSDARC_NO_MARK = 24,       /* there is no such mark */
    DSDARC_NOT_JOINED = 25,    /* the file can't be joined to those before it; or the player joins no files */
    DSDARC_NO_SEEK = 26        /* a player that joins files doesn't seek */
} dsdarc_status;

/* How samples are written. In the planar formats the samples of a channel come one after the other, and not those of a
 * frame: the first `frames` places of `pcm` are for channel 0, the next `frames` places for channel 1, and so on, where
 * `frames` is what the pull asks for. */
typedef enum dsdarc_format {
    DSDARC_PACKED = 0, /* as in a WAVE file: 2 or 3 bytes, the lowest first; bits as bytes: 1 byte */
    DSDARC_S32 = 1,    /* 32-bit integers with the same values, from -2^(width-1) to 2^(width-1) - 1 */
    DSDARC_F32 = 2,    /* 32-bit floating-point numbers: the same values divided by 2^(width-1), exactly */
    DSDARC_PLANAR = 16,
    DSDARC_PACKED_PLANAR = 16,
    DSDARC_S32_PLANAR = 17,
    DSDARC_F32_PLANAR = 18
} dsdarc_format;

/* How bits are given as bytes: which bit of a byte is the earliest. */
typedef enum dsdarc_bit_order {
    DSDARC_BITS_MSB = 0, /* the most significant, as in DSDIFF files */
    DSDARC_BITS_LSB = 1  /* the least significant, as in most DSF files */
} dsdarc_bit_order;

/* What is played. */
typedef struct dsdarc_info {
    uint64_t frames;   /* how many frames there are */
    uint32_t rate_in;  /* hertz: the sample rate of the file */
    uint32_t rate;     /* hertz: the sample rate of the frames */
    uint32_t channels; /* 1 to 6 */
    uint32_t width;    /* bits of a sample: 16 or 24; bits as bytes: 8 */
} dsdarc_info;

/* Makes a player with the filter of a project text (`size` bytes of TOML, such as a file of filters/). It plays one
 * file, and its first push has the first bytes of that. *player is the caller's to drop; after any status but DSDARC_OK
 * it is NULL. Statuses: DSDARC_PROCESSOR, before the text is read; from DSDARC_NO_DECIMATION to DSDARC_LAST_BRIDGE for
 * the first fault of the text; DSDARC_MEMORY. */
DSDARC_API dsdarc_status dsdarc_player_new(const void *project, size_t size, dsdarc_player **player);

/* Makes a player without a filter. Push the bytes of a file: they are taken up to where the sound starts, and then
 * dsdarc_player_push returns DSDARC_NO_CHOICE, until one of the four calls after dsdarc_player_next chooses how the
 * sound is given. Before that, dsdarc_player_describe reports what the file holds. A player that was made with a filter
 * has its choice. *player is the caller's to drop; after any status but DSDARC_OK it is NULL. Statuses:
 * DSDARC_PROCESSOR, DSDARC_MEMORY. */
DSDARC_API dsdarc_status dsdarc_player_new_empty(dsdarc_player **player);

/* Makes a player of files that follow each other, such as the tracks of an album. It gives the recording that they make
 * one after the other: nothing is put between them, a filter reads on from one into the next, and DoP markers go on
 * alternating.
 *
 *     dsdarc_player_new_joined(&player);
 *     for each file: if it isn't the first, dsdarc_player_next(player);
 *                    push its bytes, and pull what is due
 *     dsdarc_player_end(player), and pull the last frames
 *
 * How it is given is chosen once, where the sound of the first file starts (DSDARC_NO_CHOICE), by one of the four calls
 * after dsdarc_player_next. What was pulled is always a prefix of the frames of the joined recording: of the bits of
 * the first file, then those of the second one, and so on. By a filter they are the frames that `dsdarc play` writes of
 * that recording. The last frames of a file come with bits of the next one, and after the last file once
 * dsdarc_player_end was called. Of the sound it holds what the filter still reads, also of the file before.
 *
 * Files are joined if they have the same rate and channels and each ends on a whole byte. Where the sound of one starts
 * that can't be joined, dsdarc_player_push returns DSDARC_NOT_JOINED; for the first one the choice does. Nothing has
 * changed then: dsdarc_player_end ends the recording with the file before, whose last frames can be pulled; use another
 * player for this file. DSDARC_TOO_LONG says the same of a recording of 2^36 bits of each channel or more (6.7 hours at
 * 2.8 MHz). A later file whose header is refused is left out, by any status but DSDARC_MEMORY: the player is as before
 * its first byte, so that another file can be pushed. All other faults are those of any player.
 *
 * dsdarc_player_info reports the frames of the recording up to the end of the last file whose sound started, and
 * dsdarc_player_describe what the file holds that is being pushed. A seek returns DSDARC_NO_SEEK, and changes nothing.
 * *player is the caller's to drop; after any status but DSDARC_OK it is NULL. Statuses: DSDARC_PROCESSOR,
 * DSDARC_MEMORY. */
DSDARC_API dsdarc_status dsdarc_player_new_joined(dsdarc_player **player);

/* Says that the file ends here, and that the bytes of the next one are pushed from here on. Call it once all bytes of
 * the file were pushed. Frames that wait can still be pulled. A file whose sound has not started is left out, and
 * DSDARC_OK is returned: dsdarc_player_describe, called before, returns DSDARC_NOT_YET for one that ends inside its
 * header. Of any other the status says whether it holds a recording, as that of dsdarc_player_end does:
 * DSDARC_FILE_REFUSED and DSDARC_MEMORY are faults. Before the choice it returns DSDARC_NO_CHOICE, and after the end,
 * or for a player that dsdarc_player_new_joined didn't make, DSDARC_NOT_JOINED: these change nothing. */
DSDARC_API dsdarc_status dsdarc_player_next(dsdarc_player *player);

/* Chooses the filter of a project text (`size` bytes of TOML): what follows is as with dsdarc_player_new. A text that
 * is refused has the statuses of that call.
 *
 * Each of these four calls returns DSDARC_NOT_YET before the sound is known, DSDARC_CHOSEN after another choice, and
 * DSDARC_AFTER_FAULT after a fault. DSDARC_RATE_NOT_DIVIDED: a frame isn't a whole part of the file's rate. Of a player
 * that joins files also DSDARC_NOT_JOINED and DSDARC_TOO_LONG, for its first file. DSDARC_MEMORY is a fault. After any
 * other status but DSDARC_OK nothing has changed, so that another choice can be made. */
DSDARC_API dsdarc_status dsdarc_player_filter(dsdarc_player *player, const void *project, size_t size);

/* Chooses the ready filter to frames of this rate (hertz), width (bits: 16 or 24) and gain (decibels: 0 or 6) for the
 * rate of the file. DSDARC_NO_FILTER is returned if there is none, also after another choice; it changes nothing. */
DSDARC_API dsdarc_status dsdarc_player_filter_ready(dsdarc_player *player, uint32_t rate, uint32_t width, uint32_t gain);

/* Chooses the bits themselves, as bytes of this order; of any other the status is DSDARC_SIZE. A frame is then 8 bits
 * of each channel: one byte of each, and dsdarc_player_info reports the width 8 and the rate of the file divided by 8.
 * What the sound doesn't fill of the last frame is silence: the bits that the byte 0x69 has at these places. Only
 * DSDARC_PACKED and DSDARC_PACKED_PLANAR can be pulled. */
DSDARC_API dsdarc_status dsdarc_player_bits(dsdarc_player *player, dsdarc_bit_order order);

/* Chooses the bits as DoP 1.1: a frame has a sample of 24 bits for each channel. Its highest byte is 0x05 in frame 0,
 * 0xFA in frame 1 and so on in turn; the other 16 bits are bits of the file, the earliest the most significant, and
 * silence after the last one as above. The rate is that of the file divided by 16; if that isn't a whole number,
 * DSDARC_RATE_NOT_DIVIDED is returned. */
DSDARC_API dsdarc_status dsdarc_player_dop(dsdarc_player *player);

/* Takes bytes of the file, from the next one on. *taken says how many: at most 65,536, and at most up to where the
 * sound starts or ends. None are taken while frames wait to be pulled; otherwise at least one is, if size isn't 0.
 * Bytes before and after the sound are taken and give no frames. `bytes` may be NULL if size is 0: then nothing is
 * taken, and nothing changes.
 *
 * Faults: DSDARC_FILE_REFUSED as soon as no recording begins with the bytes that came; DSDARC_RATE_NOT_DIVIDED where
 * the sound starts, by the filter that dsdarc_player_new got; DSDARC_TOO_LONG; DSDARC_TOO_MUCH_HELD; DSDARC_MEMORY.
 * DSDARC_NO_CHOICE where the sound starts and nothing is chosen changes nothing, and for DSDARC_NOT_JOINED see
 * dsdarc_player_new_joined. *taken is 0 after any status but DSDARC_OK, and after DSDARC_NULL as it was. */
DSDARC_API dsdarc_status dsdarc_player_push(dsdarc_player *player, const void *bytes, size_t size, size_t *taken);

/* Reports what is played, once enough bytes were pushed, also after a fault. Before that it returns DSDARC_NOT_YET, or
 * DSDARC_NO_CHOICE if the sound is known and nothing was chosen, and *info is unchanged. The player never changes. */
DSDARC_API dsdarc_status dsdarc_player_info(dsdarc_player *player, dsdarc_info *info);

/* Gives at most `frames` frames that are due, and these are due no more. *given says how many: 0 if more bytes are
 * needed, all were given, or the sound isn't known yet. pcm has room for frames * channels samples: of 2 or 3 bytes for
 * DSDARC_PACKED (1 for bits as bytes), otherwise of 4. pcm may be NULL if frames is 0. What is after the frames that
 * were given stays as it was, in the planar formats in each plane.
 *
 * DSDARC_SIZE is returned for a format that isn't one of these; for samples of 4 bytes if pcm isn't aligned like an
 * int32_t, or if bits as bytes were chosen; and if so many frames have more than PTRDIFF_MAX bytes. Then *given is 0,
 * and no frame is lost. There is no other status but DSDARC_NULL, also after a fault. */
DSDARC_API dsdarc_status dsdarc_player_pull(dsdarc_player *player, void *pcm, size_t frames, dsdarc_format format,
                                            size_t *given);

/* Tells the player that the file ends here. The status says whether the file holds a recording, as `dsdarc play`
 * decides it: a DSDIFF form must be whole, and the tag of a DSF file must be where its header says. DSDARC_FILE_REFUSED
 * says that it holds none, also if nothing was pushed; that and DSDARC_MEMORY are faults. Where the sound starts and
 * nothing was chosen, DSDARC_NO_CHOICE changes nothing: choose, and call it again. Frames that wait can still be
 * pulled. DSDARC_OK changes nothing: the caller may still push and seek.
 *
 * A player that joins files ends the recording: the last frames can be pulled then, and a push returns
 * DSDARC_NOT_JOINED. Where the sound of a file after the first has not started, the recording ends with the file
 * before, and DSDARC_OK is returned, as it is once more after that. */
DSDARC_API dsdarc_status dsdarc_player_end(dsdarc_player *player);

/* Goes to a frame, from 0 to the number of frames, once the sound is known. *offset is the byte of the file from which
 * the caller pushes next. Frames that wait are dropped. DSDARC_NOT_YET, DSDARC_NO_CHOICE, DSDARC_PAST_END (there is no
 * such frame) and DSDARC_NO_SEEK change nothing; DSDARC_MEMORY is a fault. *offset is unchanged after any status but
 * DSDARC_OK. */
DSDARC_API dsdarc_status dsdarc_player_seek(dsdarc_player *player, uint64_t frame, uint64_t *offset);

/* What a file holds, and what is played of it. */
typedef struct dsdarc_description {
    uint64_t bits;     /* how many bits each channel has */
    uint64_t frames;   /* how many frames there are; 0 before the choice */
    uint64_t tag;      /* the byte of the file at which an ID3 tag starts; 0 if none is known */
    uint64_t tag_size; /* its bytes; of a DSF file as its header says, whose tag goes to the end of the file */
    uint32_t rate_in;  /* hertz: the sample rate of the file */
    uint32_t rate;     /* hertz: the sample rate of the frames; 0 before the choice */
    uint32_t width;    /* bits of a sample: 8, 16 or 24; 0 before the choice */
    uint32_t channels; /* 1 to 6 */
    uint32_t mask;     /* the loudspeakers, as dsdarc_channel_mask reports them */
    uint32_t form;     /* 1 for DSDIFF, 2 for DSF */
    uint32_t type;     /* the channel type of a DSF file; 0 for DSDIFF */
    uint32_t marks;    /* how many marks are known */
    char ids[6][4];    /* the IDs of the channels of a DSDIFF file, such as SLFT; zeros for DSF */
} dsdarc_description;

/* Reports what a file holds, once the sound is known, also before the choice and after a fault. `size` is
 * sizeof(dsdarc_description): a program that was compiled with an older header gets the fields that it knows. The tag
 * and the marks that come after the sound are known once they were pushed. DSDARC_NOT_YET, before the sound is known,
 * leaves *description unchanged. The player never changes, here and in the next two calls. Of a player that joins files
 * it reports the file that is being pushed, but `frames` are those of the recording. */
DSDARC_API dsdarc_status dsdarc_player_describe(dsdarc_player *player, dsdarc_description *description, size_t size);

/* A mark of a DSDIFF file, such as the start of a track. */
typedef struct dsdarc_mark {
    int64_t place;    /* bits from the start of the sound */
    uint32_t type;    /* its markType: 0 for the start of a track, 1 for its end, 2 for the start of the programme, 4 for an index */
    uint32_t channel; /* 0 for all channels, otherwise the channel, from 1 on */
    uint32_t flags;   /* its TrackFlags */
    uint32_t length;  /* bytes of its title */
    uint64_t title;   /* the byte of the file at which its title starts */
} dsdarc_mark;

/* Reports a mark, from 0 on in the order of the file, among those that are known. `title` gets its title, cut off to
 * room - 1 bytes, with a zero after it; it may be NULL if room is 0. mark->length is that of the whole title. Statuses:
 * DSDARC_NO_MARK if there is none, also of a DSF file, and DSDARC_NOT_YET before the sound is known; they leave *mark
 * and `title` unchanged. */
DSDARC_API dsdarc_status dsdarc_player_mark(dsdarc_player *player, uint32_t index, dsdarc_mark *mark, char *title,
                                            size_t room);

/* Reports the marks from `index` on, at most `room` of them; *count says how many: 0 if there are none, also of a DSF
 * file. `marks` may be NULL if room is 0. Of many marks it is faster than a call for each, which looks through those
 * before it. DSDARC_NOT_YET, before the sound is known, leaves `marks` unchanged, and *count is 0. */
DSDARC_API dsdarc_status dsdarc_player_marks(dsdarc_player *player, uint32_t index, dsdarc_mark *marks, size_t room,
                                             size_t *count);

/* Frees a player, in whatever state it is. NULL is ignored. Its pointer may not be used after that. */
DSDARC_API void dsdarc_player_drop(dsdarc_player *player);

/* Which ready filter is wanted. */
typedef struct dsdarc_wish {
    uint32_t rate_in; /* hertz: the sample rate of the file */
    uint32_t rate;    /* hertz: the sample rate of the frames */
    uint32_t width;   /* bits of a sample: 16 or 24 */
    uint32_t gain;    /* decibels: 0 or 6 */
} dsdarc_wish;

/* Finds a ready filter in an index (`size` bytes, the content of filters/index.txt). `name` gets the name of its file,
 * with a zero after it. It has room for `room` bytes; if they are too few, the status is DSDARC_SIZE. DSDARC_NO_FILTER
 * is returned if there is no such filter. `name` is unchanged after any status but DSDARC_OK. */
DSDARC_API dsdarc_status dsdarc_filter_find(const void *index, size_t size, const dsdarc_wish *wish, char *name,
                                            size_t room);

/* Reports the sample rates, in hertz, of the files that a filter of an index is for. *count says how many there are,
 * and `rates` gets the first `room` of them; it may be NULL if room is 0. `name` is the name of the filter's file,
 * without folders, with a zero after it. DSDARC_NO_FILTER is returned if the index doesn't list it: then *count is 0,
 * and `rates` is unchanged. */
DSDARC_API dsdarc_status dsdarc_filter_rates(const void *index, size_t size, const char *name, uint32_t *rates,
                                             size_t room, size_t *count);

/* Reports the loudspeakers that the channels of a file belong to, as the bits of a WAVE file's channel mask. `header`
 * has the first `size` bytes of the file, at least up to where its sound starts. *mask is 0 if the file doesn't name
 * the loudspeakers, or has them in another order than the bits. Channels that are only numbered (C000, C001) get the
 * usual mask for that many channels. DSDARC_NOT_YET is returned if the bytes don't contain the channels, also if they
 * are of no such file; then *mask is 0. The bits are 0x1 for front left, 0x2 for front right, 0x4 for front centre, 0x8
 * for low frequency, 0x10 for back left and 0x20 for back right. */
DSDARC_API dsdarc_status dsdarc_channel_mask(const void *header, size_t size, uint32_t *mask);

/* What is there of a file, as dsdarc_mend_header finds it. */
typedef struct dsdarc_mended {
    uint64_t start;   /* the byte of the file at which its sound starts */
    uint64_t stop;    /* the byte after the last one of its sound that is there */
    uint64_t fill;    /* how many bytes of zeros are pushed after it; 0 for DSDIFF */
    uint64_t bits;    /* how many bits of each channel are there */
    uint64_t stated;  /* how many bits of each channel the header stated; 0 if it stated none that there can be */
    uint32_t changed; /* 1 if the header was changed, and so the file is damaged; otherwise 0 */
} dsdarc_mended;

/* Has the header of a file that was cut off, or that states wrong sizes, state what is there. `header` has the first
 * `size` bytes of the file, at least up to where its sound starts, and `file` is how many the whole file has.
 * DSDARC_NOT_YET is returned if `size` is too small. Only numbers in the header change, so each byte keeps its place.
 *
 *     push the bytes before mended.start from `header`, those from there to mended.stop from the file, and mended.fill
 *     bytes of zeros; or if the header wasn't changed, all bytes of the file
 *     pull all frames; if mended.changed or dsdarc_player_end(player) != DSDARC_OK, the file is damaged after them
 *
 * All frames of the bits that are there are given so, the last ones as if silence followed. A header that states what
 * is there is unchanged. The call reads no byte after the header: where the size of the sound of a DSDIFF file is
 * wrong, the chunks after it are played as sound. DSDARC_FILE_REFUSED says that no bit is there, or that no sound is
 * found. DSDARC_TOO_LONG says that `file` is more than 2^62, and DSDARC_SIZE that `size` is more than `file`. Whatever
 * else is wrong with a header, a push refuses. `room` is sizeof(dsdarc_mended). After any status but DSDARC_OK neither
 * the header nor *mended has changed. */
DSDARC_API dsdarc_status dsdarc_mend_header(void *header, size_t size, uint64_t file, dsdarc_mended *mended, size_t room);

/* The name of a status, such as "FileRefused"; "Unknown" for any other number. It is never freed. */
DSDARC_API const char *dsdarc_status_text(dsdarc_status status);

/* The version of the library, such as "0.2.0". It is never freed. */
DSDARC_API const char *dsdarc_version(void);

#ifdef __cplusplus
}
#endif

#endif
