/* Loaded before the C library: of the calls of the kind FAIL_CALL (read, write, open, rename, unlink or statx) the one with the number
   FAIL_AT, from 1, fails by the error FAIL_HOW; or it takes no byte where that is 0, and only one where it is -1. The descriptor that it
   was made on is then written to the file FAILED. Where FAIL_THEN is set, the next call of that kind fails behind it, too. Where ONE_BYTE
   is set, each read and each write takes one byte. DELAY is how many microseconds pass before each write. */
#define _GNU_SOURCE
#include <dlfcn.h>
#include <errno.h>
#include <fcntl.h>
#include <stdarg.h>
#include <stdatomic.h>
#include <stdio.h>
#include <stdlib.h>
#include <string.h>
#include <sys/stat.h>
#include <sys/types.h>
#include <time.h>

static atomic_long calls;
static atomic_int is_second;

static long number_of(const char *name)
{
    const char *number = getenv(name);
    return number ? atol(number) : 0;
}

/* Whether this call, of this kind and on this descriptor, is one that fails. */
static int fails(const char *kind, int descriptor)
{
    const char *counted = getenv("FAIL_CALL"), *then = getenv("FAIL_THEN"), *name = getenv("FAILED");
    if (then && !strcmp(then, kind) && atomic_exchange(&is_second, 0))
        return 1;
    if (!counted || strcmp(counted, kind) || atomic_fetch_add(&calls, 1) + 1 != number_of("FAIL_AT"))
        return 0;
    atomic_store(&is_second, 1);
    FILE *told = name ? fopen(name, "w") : NULL;
    if (told) {
        fprintf(told, "%d\n", descriptor);
        fclose(told);
    }
    return 1;
}

static int fault(void)
{
    errno = (int)number_of("FAIL_HOW");
    return -1;
}

/* How many of so many bytes a call takes. */
static size_t taken(size_t size, int is_short)
{
    return size && (is_short || getenv("ONE_BYTE")) ? 1 : size;
}

ssize_t read(int file, void *to, size_t size)
{
    static ssize_t (*next)(int, void *, size_t);
    if (!next)
        next = dlsym(RTLD_NEXT, "read");
    int is_failing = fails("read", file);
    long how = number_of("FAIL_HOW");
    if (is_failing && how >= 0)
        return how ? fault() : 0;
    return next(file, to, taken(size, is_failing));
}

ssize_t write(int file, const void *from, size_t size)
{
    static ssize_t (*next)(int, const void *, size_t);
    struct timespec delay = {0, number_of("DELAY") * 1000};
    if (!next)
        next = dlsym(RTLD_NEXT, "write");
    if (delay.tv_nsec)
        nanosleep(&delay, NULL);
    int is_failing = fails("write", file);
    long how = number_of("FAIL_HOW");
    if (is_failing && how >= 0)
        return how ? fault() : 0;
    return next(file, from, taken(size, is_failing));
}

int open(const char *path, int flags, ...)
{
    static int (*next)(const char *, int, ...);
    if (!next)
        next = dlsym(RTLD_NEXT, "open");
    va_list more;
    va_start(more, flags);
    mode_t mode = flags & O_CREAT ? va_arg(more, mode_t) : 0;
    va_end(more);
    return fails("open", 0) ? fault() : next(path, flags, mode);
}

int rename(const char *from, const char *to)
{
    static int (*next)(const char *, const char *);
    if (!next)
        next = dlsym(RTLD_NEXT, "rename");
    return fails("rename", 0) ? fault() : next(from, to);
}

int unlink(const char *path)
{
    static int (*next)(const char *);
    if (!next)
        next = dlsym(RTLD_NEXT, "unlink");
    return fails("unlink", 0) ? fault() : next(path);
}

int statx(int folder, const char *path, int flags, unsigned int mask, struct statx *found)
{
    static int (*next)(int, const char *, int, unsigned int, struct statx *);
    if (!next)
        next = dlsym(RTLD_NEXT, "statx");
    return fails("statx", 0) ? fault() : next(folder, path, flags, mask, found);
}
