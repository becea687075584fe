/* Preloaded into a program, it notes the calls that put a file in place, and fails one of them. To the file of number
   ORDER_LOG it writes a line for each call that makes a file, syncs a file or a folder, or renames, in their order,
   and one for the writes to a file, however many come in a row: the call, the file's mode after it, and its paths.
   ORDER_FAILS names the call that fails, as its line has it, and ORDER_WHICH counts it from 1: it is noted, and
   not made; but one that would make a file isn't noted. Calls that open a folder or read from a file aren't noted
   either, but can be failed (folder, read).

   With ORDER_OPENS each opening of a file by a name in the current folder is noted too, and can be failed (open). From
   opening number ORDER_OTHER on it opens the file `changed` in its place. With ORDER_MOST each read of a file gives at
   most that many bytes, and is noted. With ORDER_ROOM no more than that many bytes are written to files in all. A file
   that is renamed gets the name ORDER_ALIAS too, as on a disk that takes both names for one. */
#define _GNU_SOURCE
#include <dlfcn.h>
#include <errno.h>
#include <fcntl.h>
#include <stdarg.h>
#include <stdio.h>
#include <stdlib.h>
#include <string.h>
#include <sys/stat.h>
#include <unistd.h>

static char last_line[9000];
static int met = 0, opened = 0;
static size_t written = 0;

static long number(const char *name)
{
    const char *text = getenv(name);
    return text ? strtol(text, NULL, 10) : 0;
}

static ssize_t write_on(int file, const void *bytes, size_t size)
{
    return ((ssize_t (*)(int, const void *, size_t))dlsym(RTLD_NEXT, "write"))(file, bytes, size);
}

/* Notes a call. The same line twice in a row is one. */
static void note(const char *call, unsigned mode, const char *first, const char *second)
{
    char line[9000];
    int size = snprintf(line, sizeof line, "%s\t%o\t%s\t%s\n", call, mode, first, second);
    if (size >= (int)sizeof line || (strcmp(call, "write") == 0 && strcmp(line, last_line) == 0))
        return;
    strcpy(last_line, line);
    if (write_on((int)number("ORDER_LOG"), line, (size_t)size) != size)
        _exit(125);
}

static int is_failed(const char *call)
{
    const char *name = getenv("ORDER_FAILS");
    if (!name || strcmp(name, call) != 0)
        return 0;
    met += 1;
    errno = EIO;
    return met == number("ORDER_WHICH");
}

/* Notes a call on an open file. */
static void note_open(const char *call, int file)
{
    char link[64], path[4096];
    struct stat found;
    snprintf(link, sizeof link, "/proc/self/fd/%d", file);
    ssize_t size = readlink(link, path, sizeof path - 1);
    path[size < 0 ? 0 : size] = 0;
    note(call, fstat(file, &found) ? 0 : found.st_mode & 07777, path, "");
}

static int is_folder(int file)
{
    struct stat found;
    return fstat(file, &found) == 0 && S_ISDIR(found.st_mode);
}

static int is_regular(int file)
{
    struct stat found;
    return fstat(file, &found) == 0 && S_ISREG(found.st_mode);
}

static int sync_as(const char *name, int file)
{
    const char *call = is_folder(file) ? "sync folder" : "sync";
    note_open(call, file);
    return is_failed(call) ? -1 : ((int (*)(int))dlsym(RTLD_NEXT, name))(file);
}

int fdatasync(int file)
{
    return sync_as("fdatasync", file);
}

int fsync(int file)
{
    return sync_as("fsync", file);
}

ssize_t write(int file, const void *bytes, size_t size)
{
    if (file > 2 && is_regular(file)) {
        size_t room = getenv("ORDER_ROOM") ? (size_t)number("ORDER_ROOM") - written : size;
        note_open("write", file);
        if (size > 0 && room == 0) {
            errno = ENOSPC;
            return -1;
        }
        size = size < room ? size : room;
        written += size;
    }
    return write_on(file, bytes, size);
}

ssize_t read(int file, void *bytes, size_t size)
{
    size_t most = (size_t)number("ORDER_MOST");
    if (is_failed("read"))
        return -1;
    if (most && is_regular(file)) {
        note_open("read", file);
        size = size < most ? size : most;
    }
    return ((ssize_t (*)(int, void *, size_t))dlsym(RTLD_NEXT, "read"))(file, bytes, size);
}

int rename(const char *from, const char *to)
{
    struct stat found;
    note("rename", stat(from, &found) ? 0 : found.st_mode & 07777, from, to);
    if (is_failed("rename"))
        return -1;
    int failed = ((int (*)(const char *, const char *))dlsym(RTLD_NEXT, "rename"))(from, to);
    if (!failed && getenv("ORDER_ALIAS") && link(to, getenv("ORDER_ALIAS")))
        _exit(125);
    return failed;
}

/* Whether a file in the current folder is opened by its name to be read. */
static int is_read(const char *path, int how)
{
    struct stat found;
    return getenv("ORDER_OPENS") && !(how & O_CREAT) && !strchr(path, '/') && stat(path, &found) == 0
        && S_ISREG(found.st_mode);
}

/* Opens a file, and notes it where it was made. */
static int open_as(int folder, const char *path, int how, mode_t mode)
{
    struct stat found;
    if (is_read(path, how)) {
        opened += 1;
        note("open", 0, path, "");
        if (is_failed("open"))
            return -1;
        if (getenv("ORDER_OTHER") && opened >= number("ORDER_OTHER"))
            path = "changed";
    }
    if (how & O_CREAT && is_failed("create"))
        return -1;
    if (!(how & O_CREAT) && fstatat(folder, path, &found, 0) == 0 && S_ISDIR(found.st_mode) && is_failed("folder"))
        return -1;
    int file = ((int (*)(int, const char *, int, ...))dlsym(RTLD_NEXT, "openat"))(folder, path, how, mode);
    if (file >= 0 && how & O_CREAT)
        note_open("create", file);
    return file;
}

static mode_t mode_in(int how, va_list arguments)
{
    return how & O_CREAT ? va_arg(arguments, mode_t) : 0;
}

int openat(int folder, const char *path, int how, ...)
{
    va_list arguments;
    va_start(arguments, how);
    mode_t mode = mode_in(how, arguments);
    va_end(arguments);
    return open_as(folder, path, how, mode);
}

int open(const char *path, int how, ...)
{
    va_list arguments;
    va_start(arguments, how);
    mode_t mode = mode_in(how, arguments);
    va_end(arguments);
    return open_as(AT_FDCWD, path, how, mode);
}
