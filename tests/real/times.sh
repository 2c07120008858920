# Times of builds. The caller has read common.sh, is in the directory of the C files, and has set `flags`, and `files`
# to patterns of the C files, where these are not all of the directory.

# Builds by the compiler $2, and notes the nanoseconds under the label $1.
timed() {
    make -s -f "$top/tests/real/objects.mk" FILES="${files:-*.c}" clean
    before=$(date +%s%N)
    make -s -j "${JOBS:-1}" -f "$top/tests/real/objects.mk" FILES="${files:-*.c}" CC="$2" \
        CFLAGS="$flags"
    echo "$(($(date +%s%N) - before)) $1" >>"$room/times"
}

# Prints the least time of each label, and its ratio to that of the label $1.
print_times() {
    awk -v unit="$1" '{
        time = $1; label = substr($0, length($1) + 2)
        if (!(label in least)) { labels[++number] = label; least[label] = time }
        if (time < least[label]) least[label] = time
        rounds[label]++
    } END {
        for (i = 1; i <= number; i++) {
            label = labels[i]
            printf "%-32s %8.3f s  %6.3f x  (least of %d)\n", label, least[label] / 1e9, least[label] / least[unit], rounds[label]
        }
    }' "$room/times"
}
