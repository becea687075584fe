/* Preloaded into a program, it refuses growths: the one whose number, counted from 1, is in GROWTH, and with
   GROWTH_ON all later ones too. To the file of number GROWTH_LOG it writes the size that it refused first, and that of
   the next growth, eight bytes each. */
#include <errno.h>
#include <stdint.h>
#include <stdlib.h>
#include <unistd.h>

extern void *__libc_malloc(size_t size);
extern void *__libc_calloc(size_t count, size_t size);
extern void *__libc_realloc(void *block, size_t size);

static long refused_growth = -1;
static long growths = 0;

static long number(const char *name)
{
    const char *text = getenv(name);
    return text ? strtol(text, NULL, 10) : 0;
}

static void note(uint64_t size)
{
    if (write((int)number("GROWTH_LOG"), &size, sizeof size) != sizeof size)
        _exit(125);
}

static int is_refused(size_t size)
{
    if (refused_growth < 0)
        refused_growth = number("GROWTH");
    growths += 1;
    if (growths < refused_growth || refused_growth == 0)
        return 0;
    if (growths <= refused_growth + 1)
        note(size);
    if (growths > refused_growth && !number("GROWTH_ON"))
        return 0;
    errno = ENOMEM;
    return 1;
}

void *malloc(size_t size)
{
    return is_refused(size) ? NULL : __libc_malloc(size);
}

void *calloc(size_t count, size_t size)
{
    return is_refused(count * size) ? NULL : __libc_calloc(count, size);
}

void *realloc(void *block, size_t size)
{
    return is_refused(size) ? NULL : __libc_realloc(block, size);
}
