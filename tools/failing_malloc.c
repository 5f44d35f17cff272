// Loaded before the C library (LD_PRELOAD): the allocation with the number in FAIL_AT, counted from 1, finds no memory.
// How many were asked for in all is written to the file that FAIL_COUNT names.
#define _GNU_SOURCE
#include <dlfcn.h>
#include <stddef.h>
#include <stdio.h>
#include <stdlib.h>

static unsigned long asked, fail_at;
static void *(*next_malloc)(size_t);
static void *(*next_calloc)(size_t, size_t);
static void *(*next_realloc)(void *, size_t);
static int (*next_memalign)(void **, size_t, size_t);

__attribute__((constructor)) static void begin(void) {
    const char *number = getenv("FAIL_AT");
    next_malloc = dlsym(RTLD_NEXT, "malloc");
    next_calloc = dlsym(RTLD_NEXT, "calloc");
    next_realloc = dlsym(RTLD_NEXT, "realloc");
    next_memalign = dlsym(RTLD_NEXT, "posix_memalign");
    fail_at = number ? strtoul(number, NULL, 10) : 0;
    asked = 0;
}

__attribute__((destructor)) static void end(void) {
    const char *name = getenv("FAIL_COUNT");
    unsigned long all = asked;
    FILE *file = name ? fopen(name, "w") : NULL;
    if (file) {
        fprintf(file, "%lu\n", all);
        fclose(file);
    }
}

static int fails(void) { return fail_at && ++asked == fail_at; }

void *malloc(size_t size) { return next_malloc && !fails() ? next_malloc(size) : NULL; }

void *realloc(void *old, size_t size) { return next_realloc && !fails() ? next_realloc(old, size) : NULL; }

void *calloc(size_t count, size_t size) { return next_calloc && !fails() ? next_calloc(count, size) : NULL; }

int posix_memalign(void **out, size_t align, size_t size) { return !fails() ? next_memalign(out, align, size) : 12; }
