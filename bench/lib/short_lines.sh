# Makes $folder/feeds.i, hashes.i, underscores.i and digits.i of $size bytes each, where they aren't
# there: line feeds alone, and lines of `#`, of `_` and of `# 1 2 3 4`. Sourced by benchmarks of markers,
# after headers.sh.
short_lines() {
    [ -s "$folder/$1.i" ] || yes "$2" | head -c $size > "$folder/$1.i"
}
short_lines feeds ''
short_lines hashes '#'
short_lines underscores '_'
short_lines digits '# 1 2 3 4'
