/* Calls over the bytes of an index of ready filters, as filters/index.txt: they read it alone, and need no player.
 *
 * A line has the name of a file, the rates of the sound that it is for with commas between them, the factor by which it
 * divides them, the width of its samples and its gain. A line of another form, and one that begins with #, is passed
 * over. */
#include "dsdarc.h"

#include <string.h>

/* Bytes from one place to another. */
typedef struct span {
    const char *at, *stop;
} span;

typedef struct row {
    span name, rates;
    uint64_t factor, width, gain;
} row;

/* Takes what comes before the next of two separators, or before the end. */
static span part(span *from, char one, char other) {
    span it = {from->at, from->at};
    while (it.stop < from->stop && *it.stop != one && *it.stop != other) it.stop++;
    from->at = it.stop < from->stop ? it.stop + 1 : it.stop;
    return it;
}

/* Takes the next word of a line; it is empty at the line's end. */
static span word(span *line) {
    while (line->at < line->stop && (*line->at == ' ' || *line->at == '\t' || *line->at == '\r')) line->at++;
    span it = part(line, ' ', '\t');
    while (it.stop > it.at && it.stop[-1] == '\r') it.stop--;
    return it;
}

/* Reads a number of at most 32 bits. */
static int is_number(span text, uint64_t *number) {
    *number = 0;
    if (text.at == text.stop || text.stop - text.at > 10) return 0;
    for (; text.at < text.stop; text.at++) {
        if (*text.at < '0' || *text.at > '9') return 0;
        *number = *number * 10 + (uint64_t)(*text.at - '0');
    }
    return *number <= UINT32_MAX;
}

/* Takes the next row of an index; there may be none. */
static int next_row(span *index, row *it) {
    while (index->at < index->stop) {
        span line = part(index, '\n', '\n');
        it->name = word(&line);
        it->rates = word(&line);
        span factor = word(&line), width = word(&line), gain = word(&line), more = word(&line);
        if (it->name.at < it->name.stop && *it->name.at != '#' && is_number(factor, &it->factor) && it->factor > 0 &&
            is_number(width, &it->width) && is_number(gain, &it->gain) && more.at == more.stop)
            return 1;
    }
    return 0;
}

/* Takes the next of a row's rates; there may be none. */
static int next_rate(span *rates, uint64_t *rate) {
    while (rates->at < rates->stop)
        if (is_number(part(rates, ',', ','), rate)) return 1;
    return 0;
}

static int is_wished(row it, const dsdarc_wish *wish) {
    uint64_t rate;
    if (it.width != wish->width || it.gain != wish->gain || it.factor * wish->rate != wish->rate_in) return 0;
    while (next_rate(&it.rates, &rate))
        if (rate == wish->rate_in) return 1;
    return 0;
}

static span index_of(const void *index, size_t size) {
    span it = {index, index};
    if (size > 0) it.stop += size;
    return it;
}

dsdarc_status dsdarc_filter_find(const void *index, size_t size, const dsdarc_wish *wish, char *name, size_t room) {
    span left;
    row it;
    if (!wish || !name || (!index && size > 0)) return DSDARC_NULL;
    if (size > PTRDIFF_MAX) return DSDARC_SIZE;
    left = index_of(index, size);
    while (next_row(&left, &it)) {
        size_t length = (size_t)(it.name.stop - it.name.at);
        if (!is_wished(it, wish)) continue;
        if (length >= room) return DSDARC_SIZE;
        memcpy(name, it.name.at, length);
        name[length] = 0;
        return DSDARC_OK;
    }
    return DSDARC_NO_FILTER;
}

dsdarc_status dsdarc_filter_rates(const void *index, size_t size, const char *name, uint32_t *rates, size_t room,
                                  size_t *count) {
    span left;
    row it;
    uint64_t rate;
    if (!name || !count || (!index && size > 0) || (!rates && room > 0)) return DSDARC_NULL;
    *count = 0;
    if (size > PTRDIFF_MAX) return DSDARC_SIZE;
    left = index_of(index, size);
    while (next_row(&left, &it)) {
        size_t length = (size_t)(it.name.stop - it.name.at);
        if (strlen(name) != length || memcmp(name, it.name.at, length) != 0) continue;
        for (; next_rate(&it.rates, &rate); ++*count)
            if (*count < room) rates[*count] = (uint32_t)rate;
        return DSDARC_OK;
    }
    return DSDARC_NO_FILTER;
}
