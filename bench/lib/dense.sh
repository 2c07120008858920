# Makes $folder/dense.i of $size bytes, where it isn't there: a text with a marker at every other
# line. Sourced by benchmarks of markers, after headers.sh.
if [ ! -s "$folder/dense.i" ]; then
    yes '# 33 "/usr/include/x86_64-linux-gnu/bits/types.h" 3 4
int total(int a, int b) { return (a + b) / 2 - a * b; }' |
        head -c $size > "$folder/dense.i"
fi
