/*
 * Refuses requests for memory. Preloaded into a program, it numbers its calls of malloc, calloc,
 * realloc, aligned_alloc and posix_memalign from 1, those of the C library included, and refuses
 * those from REFUSE_FIRST to REFUSE_LAST (two numbers in the environment; none where they are 0 or
 * missing). How many calls were made is written to the file that REFUSE_COUNT names, if any, when
 * the program ends.
 */
#define _GNU_SOURCE
#include <dlfcn.h>
#include <errno.h>
#include <stdlib.h>
#include <stdio.h>

static unsigned long requests, first, last;

static unsigned long number_in(const char *name) {
    const char *text = getenv(name);
    return text ? strtoul(text, NULL, 10) : 0;
}

__attribute__((constructor)) static void begin(void) {
    first = number_in("REFUSE_FIRST");
    last = number_in("REFUSE_LAST");
}

__attribute__((destructor)) static void end(void) {
    unsigned long made = requests;
    const char *path = getenv("REFUSE_COUNT");
    FILE *file = path ? fopen(path, "w") : NULL;
    if (file) {
        fprintf(file, "%lu\n", made);
        fclose(file);
    }
}

static int is_refused(void) {
    requests++;
    return first <= requests && requests <= last;
}

static void *refusal(void) {
    errno = ENOMEM;
    return NULL;
}

/* The function of this name that the program would have called. */
#define NEXT(function, name) \
    if (!function) \
        *(void **)&function = dlsym(RTLD_NEXT, name)

void *malloc(size_t size) {
    static void *(*next)(size_t);
    NEXT(next, "malloc");
    return is_refused() ? refusal() : next(size);
}

void *calloc(size_t count, size_t size) {
    static void *(*next)(size_t, size_t);
    NEXT(next, "calloc");
    return is_refused() ? refusal() : next(count, size);
}

void *realloc(void *block, size_t size) {
    static void *(*next)(void *, size_t);
    NEXT(next, "realloc");
    return is_refused() ? refusal() : next(block, size);
}

void *aligned_alloc(size_t alignment, size_t size) {
    static void *(*next)(size_t, size_t);
    NEXT(next, "aligned_alloc");
    return is_refused() ? refusal() : next(alignment, size);
}

int posix_memalign(void **block, size_t alignment, size_t size) {
    static int (*next)(void **, size_t, size_t);
    NEXT(next, "posix_memalign");
    return is_refused() ? ENOMEM : next(block, alignment, size);
}
