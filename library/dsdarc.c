/* The calls of dsdarc.h that a player has: null pointers and sizes are tested here, and the rest is done by the proved
 * crate dsdarc_c. formats.c has the pulls, describing.c what a file holds, and ready.c the ready filters; filters.c and
 * channels.c have the calls that need no player.
 *
 * A pointer of a player is the one that dsdarc_c_new wrote; it is passed on as it is, until dsdarc_c_drop. */
#include "inside.h"

#ifndef DSDARC_VERSION_TEXT
#define DSDARC_VERSION_TEXT "0.2.0"
#endif

/* No object is larger, and no slice of the proved crate. */
static const size_t most = PTRDIFF_MAX;

/* Whether this processor has what the proved part was built for: the level of x86-64 that bin/library names. */
static int runs_here(void) {
#if defined __x86_64__ && defined DSDARC_LEVEL && DSDARC_LEVEL >= 3
#if defined __clang__ || __GNUC__ < 12
    return __builtin_cpu_supports("avx2") && __builtin_cpu_supports("bmi") && __builtin_cpu_supports("bmi2") &&
           __builtin_cpu_supports("fma");
#else
    return __builtin_cpu_supports("x86-64-v3");
#endif
#elif defined __x86_64__ && defined DSDARC_LEVEL && DSDARC_LEVEL == 2
    return __builtin_cpu_supports("ssse3") && __builtin_cpu_supports("sse4.2") && __builtin_cpu_supports("popcnt");
#else
    return 1;
#endif
}

dsdarc_status dsdarc_player_new(const void *project, size_t size, dsdarc_player **player) {
    uint8_t *made = NULL;
    dsdarc_status status;
    if (!player) return DSDARC_NULL;
    *player = NULL;
    if (!project && size > 0) return DSDARC_NULL;
    if (size > most) return DSDARC_SIZE;
    if (!runs_here()) return DSDARC_PROCESSOR;
    status = (dsdarc_status)dsdarc_c_new(bytes_of(project), size, &made);
    if (status == DSDARC_OK) *player = (dsdarc_player *)made;
    return status;
}

dsdarc_status dsdarc_player_new_empty(dsdarc_player **player) {
    uint8_t *made = NULL;
    dsdarc_status status;
    if (!player) return DSDARC_NULL;
    *player = NULL;
    if (!runs_here()) return DSDARC_PROCESSOR;
    status = (dsdarc_status)dsdarc_c_new_bare(&made);
    if (status == DSDARC_OK) *player = (dsdarc_player *)made;
    return status;
}

dsdarc_status dsdarc_player_new_joined(dsdarc_player **player) {
    uint8_t *made = NULL;
    dsdarc_status status;
    if (!player) return DSDARC_NULL;
    *player = NULL;
    if (!runs_here()) return DSDARC_PROCESSOR;
    status = (dsdarc_status)dsdarc_c_new_joined(&made);
    if (status == DSDARC_OK) *player = (dsdarc_player *)made;
    return status;
}

dsdarc_status dsdarc_player_next(dsdarc_player *player) {
    if (!player) return DSDARC_NULL;
    return (dsdarc_status)dsdarc_c_next(handle_of(player));
}

dsdarc_status dsdarc_player_filter(dsdarc_player *player, const void *project, size_t size) {
    if (!player || (!project && size > 0)) return DSDARC_NULL;
    if (size > most) return DSDARC_SIZE;
    return (dsdarc_status)dsdarc_c_filter(handle_of(player), bytes_of(project), size);
}

dsdarc_status dsdarc_player_bits(dsdarc_player *player, dsdarc_bit_order order) {
    if (!player) return DSDARC_NULL;
    if (order != DSDARC_BITS_MSB && order != DSDARC_BITS_LSB) return DSDARC_SIZE;
    return (dsdarc_status)dsdarc_c_bits(handle_of(player), (uint32_t)order);
}

dsdarc_status dsdarc_player_dop(dsdarc_player *player) {
    if (!player) return DSDARC_NULL;
    return (dsdarc_status)dsdarc_c_bits(handle_of(player), 2);
}

dsdarc_status dsdarc_player_push(dsdarc_player *player, const void *bytes, size_t size, size_t *taken) {
    if (!player || !taken || (!bytes && size > 0)) return DSDARC_NULL;
    *taken = 0;
    if (size > most) return DSDARC_SIZE;
    return (dsdarc_status)dsdarc_c_push(handle_of(player), bytes_of(bytes), size, taken);
}

dsdarc_status dsdarc_player_info(dsdarc_player *player, dsdarc_info *info) {
    if (!player || !info) return DSDARC_NULL;
    return (dsdarc_status)dsdarc_c_info(handle_of(player), info);
}

dsdarc_status dsdarc_player_end(dsdarc_player *player) {
    if (!player) return DSDARC_NULL;
    return (dsdarc_status)dsdarc_c_end(handle_of(player));
}

dsdarc_status dsdarc_player_seek(dsdarc_player *player, uint64_t frame, uint64_t *offset) {
    if (!player || !offset) return DSDARC_NULL;
    return (dsdarc_status)dsdarc_c_seek(handle_of(player), frame, offset);
}

void dsdarc_player_drop(dsdarc_player *player) {
    if (player) dsdarc_c_drop(handle_of(player));
}

const char *dsdarc_status_text(dsdarc_status status) {
    static const char *const texts[] = {
        "Ok",          "Null",           "Size",      "Memory",       "AfterFault", "NotYet",     "PastEnd",
        "FileRefused", "RateNotDivided", "TooLong",   "NoDecimation", "NotToml",    "UnknownKey", "MissingKey",
        "WrongKind",   "OutOfLimit",     "NoTake",    "ShortCue",     "LastBridge", "Processor",  "TooMuchHeld",
        "NoFilter",    "NoChoice",       "Chosen",    "NoMark",       "NotJoined",  "NoSeek",
    };
    const char *text = (unsigned)status < sizeof texts / sizeof *texts ? texts[status] : NULL;
    return text ? text : "Unknown";
}

const char *dsdarc_version(void) { return DSDARC_VERSION_TEXT; }
