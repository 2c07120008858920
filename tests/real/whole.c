/* Loaded before the C library: times of files below the directory WHOLE_UNDER are those of a file system that keeps
   whole seconds. */
#define _GNU_SOURCE
#include <dlfcn.h>
#include <fcntl.h>
#include <limits.h>
#include <stdio.h>
#include <stdlib.h>
#include <string.h>
#include <sys/stat.h>
#include <unistd.h>

static int is_under(const char *path) {
    const char *top = getenv("WHOLE_UNDER");
    size_t length = top ? strlen(top) : 0;
    return length && strncmp(path, top, length) == 0 && (path[length] == '/' || !path[length]);
}

/* Whether a path from a directory is below WHOLE_UNDER: a relative one is that from the directory. */
static int is_whole(int directory, const char *path) {
    char name[64], place[PATH_MAX + 1];
    if (path && path[0] == '/')
        return is_under(path);
    if (directory == AT_FDCWD)
        return getcwd(place, PATH_MAX) && is_under(place);
    snprintf(name, sizeof name, "/proc/self/fd/%d", directory);
    ssize_t length = readlink(name, place, PATH_MAX);
    place[length < 0 ? 0 : length] = 0;
    return is_under(place);
}

static int cut(int status, int whole, struct stat *found) {
    if (status == 0 && whole)
        found->st_atim.tv_nsec = found->st_mtim.tv_nsec = found->st_ctim.tv_nsec = 0;
    return status;
}

int fstatat(int directory, const char *path, struct stat *found, int flags) {
    static int (*next)(int, const char *, struct stat *, int);
    if (!next) next = (int (*)(int, const char *, struct stat *, int))dlsym(RTLD_NEXT, "fstatat");
    return cut(next(directory, path, found, flags), is_whole(directory, *path ? path : NULL), found);
}

int stat(const char *path, struct stat *found) {
    return fstatat(AT_FDCWD, path, found, 0);
}

int lstat(const char *path, struct stat *found) {
    return fstatat(AT_FDCWD, path, found, AT_SYMLINK_NOFOLLOW);
}

int fstat(int file, struct stat *found) {
    static int (*next)(int, struct stat *);
    if (!next) next = (int (*)(int, struct stat *))dlsym(RTLD_NEXT, "fstat");
    return cut(next(file, found), is_whole(file, NULL), found);
}

int stat64(const char *path, struct stat64 *found) {
    return stat(path, (struct stat *)found);
}

int lstat64(const char *path, struct stat64 *found) {
    return lstat(path, (struct stat *)found);
}

int fstat64(int file, struct stat64 *found) {
    return fstat(file, (struct stat *)found);
}

int fstatat64(int directory, const char *path, struct stat64 *found, int flags) {
    return fstatat(directory, path, (struct stat *)found, flags);
}

int statx(int directory, const char *path, int flags, unsigned mask, struct statx *found) {
    static int (*next)(int, const char *, int, unsigned, struct statx *);
    if (!next) next = (int (*)(int, const char *, int, unsigned, struct statx *))dlsym(RTLD_NEXT, "statx");
    int status = next(directory, path, flags, mask, found);
    if (status == 0 && is_whole(directory, *path ? path : NULL))
        found->stx_atime.tv_nsec = found->stx_mtime.tv_nsec = found->stx_ctime.tv_nsec = 0;
    return status;
}
