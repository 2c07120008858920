# With CCK_RECHECK: runs a call by the cache, and after a hit by the compiler too, and compares what the two made.
# bin/cckcc sources this script, with the compiler's words, and has set `cck_script`, its path, `cck_compiler`,
# `cck_program`, `cck_store`, the directory, `cck_server` and `cck_secret`, the address of a server and a password or nothing,
# and `cck_color`, which is an option of the compiler or nothing. It returns where there is nothing to compare by: a standard
# stream is closed, or there is no temporary directory.
#
# The compiler gets the words as they are, since other names of its files would change what it makes. So what the hit
# wrote is put aside first, and what the call leaves is the compiler's.

# Writes a line to standard error and to the log.
tell() {
    echo "cckcc: $*" >&2
    [ -z "$CCK_LOG" ] || { echo "cckcc: $*" >> "$CCK_LOG"; } 2>/dev/null
}

# Counts an event of this name in the directory of the store.
count() { { mkdir -p "$cck_store/counts" && printf . >> "$cck_store/counts/$1"; } 2>/dev/null; }

# Runs the call by the cache, and returns its status. What it writes to standard error and to the log goes to files. Its
# environment has what bin/cckcc keeps from the compiler.
run_by_cache() {
    true > "$cck_room/log"
    (
        CCK_RECHECK=0 CCK_RECHECK_COLOR=$cck_color CCK_DEBUG='' CCK_LOG=$cck_room/log
        export CCK_RECHECK CCK_RECHECK_COLOR CCK_DEBUG CCK_LOG
        if [ -n "$cck_server" ]; then export CCK_STORE="$cck_server" REDISCLI_AUTH="$cck_secret"; fi
        exec "$cck_wrapper" "$cck_compiler" "$@"
    ) 2> "$cck_room/messages"
}

# Sets the paths of the call. The program prints them, quoted for a shell, in the second line of a miss: that of a new
# store, which has nothing but the programs of compilers.
find_paths() {
    mkdir "$cck_room/store" && cp -R "$cck_store/compilers" "$cck_room/store" || return 1
    cck_found=$("$cck_program" look "$cck_room/store" --driver="$cck_compiler" ${CCK_BASEDIR:+--base="$CCK_BASEDIR"} \
        --directory="$PWD" -- $cck_color "$@" | sed -n 2p)
    [ -n "$cck_found" ] && eval "paths $cck_found"
}

# Takes the words of that line: the input, the object, the dependency file or nothing, and more.
paths() { cck_out=$2 cck_dependencies=$3; }

# Puts aside what the hit wrote. A dependency file that is there is written in place by the compiler. The command `:` would
# end the shell where the file can't be opened.
put_aside() {
    mv -- "$cck_out" "$cck_room/object" || return 1
    [ -z "$cck_dependencies" ] || { cp -- "$cck_dependencies" "$cck_room/dependencies" && true > "$cck_dependencies"; }
}

# Runs the compiler, and sets `cck_differing` to the words for what it made otherwise.
compare() {
    cck_differing=
    "$cck_compiler" $cck_color "$@" > "$cck_room/output" 2> "$cck_room/said" || cck_differing=" status-$?"
    cat "$cck_room/output"
    cat "$cck_room/said" >&2
    [ ! -s "$cck_room/output" ] || cck_differing="$cck_differing output"
    cmp -s "$cck_room/messages" "$cck_room/said" || cck_differing="$cck_differing messages"
    cmp -s -- "$cck_room/object" "$cck_out" || cck_differing="$cck_differing object"
    [ -z "$cck_dependencies" ] || cmp -s -- "$cck_room/dependencies" "$cck_dependencies" ||
        cck_differing="$cck_differing dependencies"
}

# Keeps what the hit wrote beside what the compiler made.
keep_both() {
    cp -- "$cck_room/object" "$cck_out.cached"
    cp -- "$cck_room/messages" "$cck_out.cached-messages"
    [ -z "$cck_dependencies" ] || cp -- "$cck_room/dependencies" "$cck_dependencies.cached"
}

# Ends by a signal, as the compiler does.
end_by() {
    trap - EXIT "$1"
    rm -rf "$cck_room"
    kill -"$1" $$
}

{ { true 3>&1; } 2>/dev/null && true 3>&2; } || return 0
# A link that is called as a compiler would take the compiler for an argument.
cck_wrapper=${cck_script%/*}/../../bin/cckcc
[ -x "$cck_wrapper" ] || cck_wrapper=$(readlink -f "$0")
cck_room=$(mktemp -d 2>/dev/null) || return 0
trap 'rm -rf "$cck_room"' EXIT
for cck_signal in HUP INT PIPE QUIT TERM; do trap "end_by $cck_signal" $cck_signal; done
run_by_cache "$@"
cck_status=$?
[ -z "$CCK_LOG" ] || { cat "$cck_room/log" >> "$CCK_LOG"; } 2>/dev/null
cck_hit=$(tail -n 1 "$cck_room/log")
case $cck_hit in
'cckcc: hit '*) ;;
*) cat "$cck_room/messages" >&2; exit $cck_status ;;
esac
cck_hit=${cck_hit#cckcc: }
if ! find_paths "$@" || ! put_aside; then
    tell "not rechecked: $cck_hit"
    rm -rf "$cck_room"
    exec "$cck_compiler" $cck_color "$@"
fi
compare "$@"
if [ -n "$cck_differing" ]; then
    keep_both
    count recheck-differs
    tell "recheck:$cck_differing differ, $cck_out.cached is of the cache: $cck_hit"
    exit 1
fi
count recheck
exit 0
