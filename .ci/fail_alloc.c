/* Loaded before the C library: the Nth allocation of the program fails, N from FAIL_ALLOC, and the Nth start of a thread, N from
   FAIL_THREAD; at the end the numbers of allocations and of starts are written to the file ALLOCS. */
#define _GNU_SOURCE
#include <dlfcn.h>
#include <errno.h>
#include <pthread.h>
#include <stdatomic.h>
#include <stdio.h>
#include <stdlib.h>

static atomic_long allocations, starts;
/* what is told at the end takes memory itself, which is there */
static atomic_int is_told;

static int fails(atomic_long *count, const char *name)
{
    const char *number = getenv(name);
    return !is_told && atomic_fetch_add(count, 1) + 1 == (number ? atol(number) : 0);
}

void *malloc(size_t size)
{
    static void *(*next)(size_t);
    if (!next)
        next = dlsym(RTLD_NEXT, "malloc");
    return fails(&allocations, "FAIL_ALLOC") ? NULL : next(size);
}

void *realloc(void *old, size_t size)
{
    static void *(*next)(void *, size_t);
    if (!next)
        next = dlsym(RTLD_NEXT, "realloc");
    return fails(&allocations, "FAIL_ALLOC") ? NULL : next(old, size);
}

void *aligned_alloc(size_t align, size_t size)
{
    static void *(*next)(size_t, size_t);
    if (!next)
        next = dlsym(RTLD_NEXT, "aligned_alloc");
    return fails(&allocations, "FAIL_ALLOC") ? NULL : next(align, size);
}

int posix_memalign(void **made, size_t align, size_t size)
{
    static int (*next)(void **, size_t, size_t);
    if (!next)
        next = dlsym(RTLD_NEXT, "posix_memalign");
    return fails(&allocations, "FAIL_ALLOC") ? ENOMEM : next(made, align, size);
}

int pthread_create(pthread_t *made, const pthread_attr_t *attributes, void *(*start)(void *), void *argument)
{
    static int (*next)(pthread_t *, const pthread_attr_t *, void *(*)(void *), void *);
    if (!next)
        next = dlsym(RTLD_NEXT, "pthread_create");
    return fails(&starts, "FAIL_THREAD") ? EAGAIN : next(made, attributes, start, argument);
}

static void tell(void)
{
    long made = allocations, started = starts;
    const char *name = getenv("ALLOCS");
    is_told = 1;
    FILE *file = name ? fopen(name, "w") : NULL;
    if (file) {
        fprintf(file, "%ld %ld\n", made, started);
        fclose(file);
    }
}

__attribute__((destructor)) static void at_end(void)
{
    tell();
}

/* a program of tests ends so */
void _exit(int status)
{
    void (*next)(int) = dlsym(RTLD_NEXT, "_exit");
    tell();
    next(status);
    abort();
}
