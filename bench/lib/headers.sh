# Sourced by the benchmarks that want 64 MB of preprocessed text: sets `size`, and writes the text of
# the system headers, as gcc -E leaves them, to $folder/headers.i, unless it is there.
size=67108864
mkdir -p "$folder"
if [ ! -s "$folder/headers.i" ]; then
    for header in /usr/include/*.h /usr/include/linux/*.h; do
        gcc -E -D_GNU_SOURCE "$header" 2>/dev/null || true
    done > "$folder/once.i"
    : > "$folder/all.i"
    while [ "$(wc -c < "$folder/all.i")" -lt $size ]; do
        cat "$folder/once.i" >> "$folder/all.i"
    done
    head -c $size "$folder/all.i" > "$folder/headers.i"
    rm "$folder/once.i" "$folder/all.i"
fi
