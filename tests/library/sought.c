/* How much memory a seek asks for: sought PROJECT FILE
 *
 * It pushes FILE, and prints how many bytes of memory a seek in its sound asks for, and one after it. It is linked with
 * --wrap=malloc and --wrap=realloc. */
#include <dsdarc.h>
#include <stdio.h>
#include <stdlib.h>

#include "reading.h"

static size_t asked;

void *__real_malloc(size_t size);
void *__real_realloc(void *block, size_t size);

void *__wrap_malloc(size_t size) {
    asked += size;
    return __real_malloc(size);
}

void *__wrap_realloc(void *block, size_t size) {
    asked += size;
    return __real_realloc(block, size);
}

/* The bytes that a seek to the first frame asks for; AT is where the file is pushed on. */
static size_t seek(dsdarc_player *player, uint64_t *at) {
    asked = 0;
    if (dsdarc_player_seek(player, 0, at)) exit(4);
    return asked;
}

int main(int count, char **arguments) {
    static unsigned char pcm[65536];
    size_t text_size, size, taken, given, inside;
    unsigned char *text, *bytes;
    dsdarc_player *player;
    uint64_t at;
    if (count != 3) return 3;
    text = whole(arguments[1], &text_size), bytes = whole(arguments[2], &size);
    if (dsdarc_player_new(text, text_size, &player)) return 3;
    if (dsdarc_player_push(player, bytes, size, &taken)) return 4;
    inside = seek(player, &at);
    for (; at < size; at += taken) {
        if (dsdarc_player_push(player, bytes + at, size - at, &taken) || taken == 0) return 4;
        do
            if (dsdarc_player_pull(player, pcm, sizeof pcm / 18, DSDARC_PACKED, &given)) return 4;
        while (given > 0);
    }
    printf("%zu %zu\n", inside, seek(player, &at));
    dsdarc_player_drop(player);
    return 0;
}
