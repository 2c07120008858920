// A library for LD_PRELOAD that appends the name of each variable that a program asks for to the file that
// CCK_GETENV_LOG names, a line each: the program and the name.
#define _GNU_SOURCE
#include <dlfcn.h>
#include <errno.h>
#include <fcntl.h>
#include <stdio.h>
#include <unistd.h>

static char *asked(const char *function, const char *name) {
    char *(*next)(const char *) = (char *(*)(const char *))dlsym(RTLD_NEXT, function);
    const char *path = next("CCK_GETENV_LOG");
    int file = path ? open(path, O_WRONLY | O_APPEND | O_CREAT, 0666) : -1;
    if (file >= 0) {
        char line[512];
        int length = snprintf(line, sizeof line, "%s %s\n", program_invocation_short_name, name);
        if (length < 0 || length >= (int)sizeof line || write(file, line, length) != length)
            _exit(125);
        close(file);
    }
    return next(name);
}

char *getenv(const char *name) {
    return asked("getenv", name);
}

char *secure_getenv(const char *name) {
    return asked("secure_getenv", name);
}
