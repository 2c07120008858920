# Sourced by the benchmarks that have a program. They set $here, the directory bench, $top, the one
# above it, and $folder, in which all is made. What counts needs valgrind.

# Proves and builds the program of bench/$1, over a copy of the crates $2 of this repository. $3 are
# the libraries that it uses. Its path is $program afterwards. What was built in $folder from the same
# files is kept.
build_program() {
    program="$folder/work/crates/$1_bench/out/$1_bench"
    sources=$(cd "$top" && git ls-files -co --exclude-standard $(printf 'crates/%s ' $2) "bench/$1" HANDLES |
        sort | while IFS= read -r file; do [ ! -f "$file" ] || sha256sum "$file"; done | sha256sum)
    if [ -x "$program" ] && [ "$(cat "$folder/built")" = "$sources" ]; then
        return
    fi
    mkdir -p "$folder"
    rm -rf "$folder/work"
    mkdir -p "$folder/work/crates/$1_bench/src"
    for crate in $2; do
        cp -rp "$top/crates/$crate" "$folder/work/crates/"
        grep "^$crate:" "$top/crates.txt" >> "$folder/work/crates.txt"
    done
    echo "$1_bench: $3" >> "$folder/work/crates.txt"
    cp "$here/$1/main.rt.in" "$folder/work/crates/$1_bench/src/main.rt"
    cp "$top/HANDLES" "$folder/work/"
    if ! (cd "$folder/work/crates/$1_bench" && rt run < /dev/null > "$folder/build.log" 2>&1); then
        tail -20 "$folder/build.log" >&2
        exit 1
    fi
    echo "$sources" > "$folder/built"
}

# Prints how many instructions these words take, by callgrind.
instructions() {
    valgrind --tool=callgrind --callgrind-out-file=/dev/null "$@" 2> "$folder/said" > /dev/null
    sed -n 's/.*Collected : //p' "$folder/said"
}

# Prints how often these words take memory, by memcheck.
allocations() {
    valgrind --tool=memcheck "$@" 2> "$folder/said" > /dev/null
    sed -n 's/.*total heap usage: \([0-9,]*\) allocs.*/\1/p' "$folder/said" | tr -d ,
}

# Prints what the measures of $program take, beside the first one: their times on the text $1, their
# instructions and allocations on the text $2. Without words the program prints the name and the
# nanoseconds of each; with the name of one it makes this one once, and with `nothing` only what comes
# before each, which is taken off from the instructions and allocations.
print_measures() {
    "$program" < "$1" > "$folder/times"
    for name in nothing $(cut -d ' ' -f 1 "$folder/times"); do
        echo "$name $(instructions "$program" "$name" < "$2") $(allocations "$program" "$name" < "$2")"
    done > "$folder/counts"
    printf '%-40s %12s %6s %20s %6s %11s\n' what milliseconds ratio 'million instructions' ratio allocations
    awk '
        NF < 2 { print; exit 1 }
        FNR == NR { time[$1] = $2; next }
        $1 == "nothing" { count = $2; allocations = $3; next }
        {
            if (!unit) { first = $1; unit = $2 - count }
            printf "%-40s %12.3f %6.3f %20.3f %6.3f %11d\n", $1, time[$1] / 1e6, time[$1] / time[first],
                ($2 - count) / 1e6, ($2 - count) / unit, $3 - allocations
        }' "$folder/times" "$folder/counts"
}
