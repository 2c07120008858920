/* Loaded before the C library: changes the file SWAP_PATH once while a program reads it. SWAP_BEFORE says when:
   before its open, before its first read, or before the read that sees its end (`open`, `read`, `end`). SWAP_HOW
   says how: SWAP_WITH is moved over it (`move`), or its contents are written into it (`write`). */
#define _GNU_SOURCE
#include <dlfcn.h>
#include <fcntl.h>
#include <stdarg.h>
#include <stdio.h>
#include <stdlib.h>
#include <string.h>
#include <sys/types.h>
#include <unistd.h>

static int is_done, reads, opened = -1;

static const char *value_of(const char *name) {
    const char *value = getenv(name);
    return value ? value : "";
}

static int is_before(const char *event) {
    return !is_done && strcmp(value_of("SWAP_BEFORE"), event) == 0;
}

static void swap(void) {
    char bytes[4096];
    FILE *from, *to;
    size_t size;
    is_done = 1;
    if (strcmp(value_of("SWAP_HOW"), "move") == 0) {
        if (rename(value_of("SWAP_WITH"), value_of("SWAP_PATH")) != 0) abort();
        return;
    }
    from = fopen(value_of("SWAP_WITH"), "r");
    to = fopen(value_of("SWAP_PATH"), "r+");
    if (!from || !to) abort();
    while ((size = fread(bytes, 1, sizeof bytes, from)) > 0) fwrite(bytes, 1, size, to);
    fclose(from);
    fclose(to);
}

int open(const char *path, int flags, ...) {
    static int (*next)(const char *, int, ...);
    int is_it = !is_done && strcmp(path, value_of("SWAP_PATH")) == 0;
    int mode, file;
    va_list rest;
    va_start(rest, flags);
    mode = flags & O_CREAT ? va_arg(rest, int) : 0;
    va_end(rest);
    if (!next) next = (int (*)(const char *, int, ...))dlsym(RTLD_NEXT, "open");
    if (is_it && is_before("open")) swap();
    file = next(path, flags, mode);
    if (is_it) {
        opened = file;
        reads = 0;
    }
    return file;
}

ssize_t read(int file, void *bytes, size_t size) {
    static ssize_t (*next)(int, void *, size_t);
    if (!next) next = (ssize_t(*)(int, void *, size_t))dlsym(RTLD_NEXT, "read");
    if (file == opened && is_before(reads == 0 ? "read" : "end")) swap();
    if (file == opened) reads++;
    return next(file, bytes, size);
}
