# Sourced by the benchmarks that want 64 MB of one translation unit as users have it: sets `size`, and
# writes to $folder/unit.i, unless it is there, what gcc -E leaves of a C file of /work/project with
# a dozen headers of the system and 2000 lines of its own, over and over.
size=67108864
mkdir -p "$folder"
if [ ! -s "$folder/unit.i" ]; then
    {
        for header in assert ctype errno fcntl inttypes limits stdbool stdio stdlib string time unistd; do
            echo "#include <$header.h>"
        done
        awk 'BEGIN {
            for (n = 1; n <= 100; n++) {
                printf "/* The items of list %d, by rising weight. */\nstruct item%d {\n", n, n
                printf "    const char *name;\n    uint32_t weight;\n    struct item%d *next;\n};\n\n", n
                printf "static int add_item%d(struct item%d **list, const char *name, uint32_t weight)\n{\n", n, n
                printf "    struct item%d *item = malloc(sizeof(*item));\n    if (item == NULL)\n", n
                printf "        return -%d;\n    item->name = name;\n    item->weight = weight + %d;\n", n, n
                printf "    while (*list && (*list)->weight < item->weight)\n        list = &(*list)->next;\n"
                printf "    item->next = *list;\n    *list = item;\n    return 0;\n}\n"
            }
        }'
    } > "$folder/unit.c"
    gcc -E -x c - < "$folder/unit.c" | sed 's|"<stdin>"|"/work/project/main.c"|' > "$folder/once.i"
    : > "$folder/all.i"
    while [ "$(wc -c < "$folder/all.i")" -lt $size ]; do
        cat "$folder/once.i" >> "$folder/all.i"
    done
    head -c $size "$folder/all.i" > "$folder/unit.i"
    rm "$folder/unit.c" "$folder/once.i" "$folder/all.i"
fi
