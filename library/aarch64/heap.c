/* The heap of the proved part over malloc. The toolchain has one for x86-64 alone (liblibc_c.a, which bin/library links
 * there); its contracts of these calls are in its libc/src/heap.rt.
 *
 * The alignments that are asked for divide 16, and so do those of malloc's blocks. A block of no bytes is freed as any
 * other, so it gets as many bytes as its alignment has. A pointer is never null, also where there is no memory. */
#include <stdbool.h>
#include <stddef.h>
#include <stdint.h>
#include <stdlib.h>

_Static_assert(_Alignof(max_align_t) >= 16, "malloc's blocks are aligned to 16 bytes");

typedef struct answer {
    bool is_made;
    uint8_t *block;
} answer;

answer rattle_alloc(size_t size, size_t alignment);
answer rattle_realloc(uint8_t *block, size_t kept, size_t size, size_t alignment);
void rattle_dealloc(uint8_t *block);

static answer answer_of(void *block) {
    static uint8_t none;
    answer it = {block != NULL, block ? block : &none};
    return it;
}

answer rattle_alloc(size_t size, size_t alignment) { return answer_of(malloc(size ? size : alignment)); }

/* Where there is no memory the old block stays as it was, as realloc leaves it. */
answer rattle_realloc(uint8_t *block, size_t kept, size_t size, size_t alignment) {
    (void)kept;
    return answer_of(realloc(block, size ? size : alignment));
}

void rattle_dealloc(uint8_t *block) { free(block); }
