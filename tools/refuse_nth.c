// Refuses requests for memory: put in front of the C library by LD_PRELOAD, it counts the requests of
// a program from 1, and those from REFUSE_FIRST to REFUSE_LAST get no memory (0: none is refused). At
// the end the number of requests is written to the file that REFUSE_COUNT names. One thread is taken
// for granted.
#define _GNU_SOURCE
#include <dlfcn.h>
#include <errno.h>
#include <stddef.h>
#include <stdio.h>
#include <stdlib.h>

static unsigned long asked, first, last;
static void *(*real_malloc)(size_t);
static void *(*real_calloc)(size_t, size_t);
static void *(*real_realloc)(void *, size_t);
static int (*real_posix_memalign)(void **, size_t, size_t);
static void *(*real_aligned_alloc)(size_t, size_t);

static unsigned long number(const char *name)
{
    const char *text = getenv(name);
    return text ? strtoul(text, NULL, 10) : 0;
}

// Runs before main. What the loader asked for before is the loader's, and isn't counted.
__attribute__((constructor)) static void start(void)
{
    real_malloc = dlsym(RTLD_NEXT, "malloc");
    real_calloc = dlsym(RTLD_NEXT, "calloc");
    real_realloc = dlsym(RTLD_NEXT, "realloc");
    real_posix_memalign = dlsym(RTLD_NEXT, "posix_memalign");
    real_aligned_alloc = dlsym(RTLD_NEXT, "aligned_alloc");
    first = number("REFUSE_FIRST");
    last = number("REFUSE_LAST");
    asked = 0;
}

__attribute__((destructor)) static void end(void)
{
    const char *name = getenv("REFUSE_COUNT");
    unsigned long count = asked;
    first = 0;
    FILE *file = name ? fopen(name, "w") : NULL;
    if (file) {
        fprintf(file, "%lu\n", count);
        fclose(file);
    }
}

static int refused(void)
{
    asked++;
    return first && first <= asked && asked <= last;
}

static void *none(void)
{
    errno = ENOMEM;
    return NULL;
}

void *malloc(size_t size)
{
    if (!real_malloc)
        real_malloc = dlsym(RTLD_NEXT, "malloc");
    return refused() ? none() : real_malloc(size);
}

void *calloc(size_t count, size_t size)
{
    // dlsym itself may ask for memory before `start` has found the library's calloc.
    return refused() || !real_calloc ? none() : real_calloc(count, size);
}

void *realloc(void *old, size_t size)
{
    if (!real_realloc)
        real_realloc = dlsym(RTLD_NEXT, "realloc");
    return refused() ? none() : real_realloc(old, size);
}

int posix_memalign(void **place, size_t alignment, size_t size)
{
    return refused() ? ENOMEM : real_posix_memalign(place, alignment, size);
}

void *aligned_alloc(size_t alignment, size_t size)
{
    return refused() ? none() : real_aligned_alloc(alignment, size);
}
