/* Chooses a ready filter: those of filters/ are compiled in (inside.h). */
#include "inside.h"

#include <stdio.h>
#include <stdlib.h>
#include <string.h>

enum { MOST_NAME = 64, MOST_TAP = 13 };

/* Reads the next tap as the sum of what was read before and of the next number. */
static int32_t next_tap(const uint8_t **from, int32_t last) {
    uint32_t number = 0;
    int shift = 0;
    uint8_t byte;
    do {
        byte = *(*from)++;
        number |= (uint32_t)(byte & 127) << shift;
        shift += 7;
    } while (byte & 128);
    return number % 2 ? last - (int32_t)(number / 2) - 1 : last + (int32_t)(number / 2);
}

/* The project text of a filter, which the caller frees; NULL if memory runs out. */
static char *text_of(const ready_filter *filter, size_t *size) {
    uint32_t half = filter->symmetric ? (filter->count + 1) / 2 : filter->count, k;
    size_t room = strlen(filter->rest) + (size_t)filter->count * MOST_TAP + 64;
    int32_t *taps = malloc(filter->count * sizeof *taps), last = 0;
    char *text = malloc(room), *at = text;
    const uint8_t *from = filter->taps;
    if (!taps || !text) return free(taps), free(text), NULL;
    for (k = 0; k < half; k++) taps[k] = last = next_tap(&from, last);
    for (; k < filter->count; k++) taps[k] = taps[filter->count - 1 - k];
    at += sprintf(at, "[decimate]\n%staps = [", filter->rest);
    for (k = 0; k < filter->count; k++) at += sprintf(at, k + 1 < filter->count ? "%d, " : "%d]\n", (int)taps[k]);
    free(taps);
    *size = (size_t)(at - text);
    return text;
}

dsdarc_status dsdarc_player_filter_ready(dsdarc_player *player, uint32_t rate, uint32_t width, uint32_t gain) {
    dsdarc_wish wish = {0, rate, width, gain};
    dsdarc_status status;
    sound it;
    char name[MOST_NAME], *text;
    size_t k, size;
    if (!player) return DSDARC_NULL;
    status = (dsdarc_status)dsdarc_c_sound(handle_of(player), &it);
    if (status != DSDARC_OK) return status;
    wish.rate_in = it.rate;
    status = dsdarc_filter_find(dsdarc_ready_index, dsdarc_ready_index_size, &wish, name, sizeof name);
    if (status != DSDARC_OK) return status;
    for (k = 0; k < dsdarc_ready_count && strcmp(dsdarc_ready[k].name, name) != 0;) k++;
    if (k == dsdarc_ready_count) return DSDARC_NO_FILTER;
    if (!(text = text_of(dsdarc_ready + k, &size))) return DSDARC_MEMORY;
    status = dsdarc_player_filter(player, text, size);
    free(text);
    return status;
}
