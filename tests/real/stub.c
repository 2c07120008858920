/* A program that runs the script beside it, which has its own path and `.sh` at the end. In the place of a compiler or
   an assembler it is no script itself. */
#include <limits.h>
#include <stdlib.h>
#include <string.h>
#include <unistd.h>

int main(int count, char **words) {
    char path[PATH_MAX + 4];
    char **line = calloc(count + 2, sizeof *line);
    ssize_t length = readlink("/proc/self/exe", path, PATH_MAX);
    if (!line || length < 0)
        return 125;
    strcpy(path + length, ".sh");
    line[0] = "sh";
    line[1] = path;
    for (int i = 1; i < count; i++)
        line[i + 1] = words[i];
    execvp("sh", line);
    return 125;
}
