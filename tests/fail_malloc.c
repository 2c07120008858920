/* Loaded before the C library: makes requests for memory fail. FAIL_AT is the number of the request that
   fails, counted from 1, and with FAIL_ON all later ones fail too. FAIL_COUNT names a file
   into which the number of requests is written at the end. A request to grow counts as a request. */
#define _GNU_SOURCE
#include <dlfcn.h>
#include <errno.h>
#include <stdio.h>
#include <stdlib.h>

static unsigned long count, at;
static int on;

__attribute__((constructor)) static void begin(void) {
    const char *n = getenv("FAIL_AT");
    at = n ? strtoul(n, NULL, 10) : 0;
    on = getenv("FAIL_ON") != NULL;
    count = 0;
}

static int refused(void) {
    count++;
    return at != 0 && (count == at || (on && count > at));
}

__attribute__((destructor)) static void end(void) {
    const char *name = getenv("FAIL_COUNT");
    unsigned long requests = count;
    at = 0;
    FILE *file = name ? fopen(name, "w") : NULL;
    if (file) {
        fprintf(file, "%lu\n", requests);
        fclose(file);
    }
}

void *malloc(size_t size) {
    static void *(*next)(size_t);
    if (!next) next = (void *(*)(size_t))dlsym(RTLD_NEXT, "malloc");
    if (refused()) {
        errno = ENOMEM;
        return NULL;
    }
    return next(size);
}

void *realloc(void *old, size_t size) {
    static void *(*next)(void *, size_t);
    if (!next) next = (void *(*)(void *, size_t))dlsym(RTLD_NEXT, "realloc");
    if (refused()) {
        errno = ENOMEM;
        return NULL;
    }
    return next(old, size);
}
