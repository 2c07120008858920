# What the tests over real files share. The caller has set `top`, the top of the repository.
# CCK_PROGRAM is the program, by default the one that was proved and built here; CCK_SOURCES is a
# directory with the archives of Debian's source packages, which are downloaded where it is not set.
room=$(mktemp -d)
trap 'rm -rf "$room"' EXIT
trap 'exit 130' INT TERM HUP
CCK_PROGRAM=${CCK_PROGRAM:-$top/crates/cck_cache/out/cck_cache}
CCK_STORE=$room/store
CCK_LOG=$room/log
XDG_CONFIG_HOME=$room/no_configuration
export CCK_PROGRAM CCK_STORE CCK_LOG XDG_CONFIG_HOME
unset XDG_CACHE_HOME CCK_DISABLE CCK_RECHECK
PATH=$top/bin:$PATH
faults=0

# Fails with a message.
fault() {
    echo "FAILED: $*"
    faults=$((faults + 1))
}

# Ends the test: its last line says how it went.
finish() {
    if [ $faults -ne 0 ]; then
        echo "$faults failed"
        exit 1
    fi
    echo 'all passed'
}

# Downloads the archives of these source packages into the room.
download() {
    packages=$*
    mkdir -p "$room/apt/lists/partial" "$room/sources"
    echo 'deb-src http://deb.debian.org/debian stable main' >"$room/apt/sources.list"
    set -- -o Dir::Etc::sourcelist="$room/apt/sources.list" -o Dir::Etc::sourceparts=- \
        -o Dir::State::lists="$room/apt/lists"
    apt-get "$@" update >"$room/apt.log" 2>&1
    (cd "$room/sources" && apt-get "$@" source --download-only --tar-only $packages >>"$room/apt.log" 2>&1)
    CCK_SOURCES=$room/sources
}

# Unpacks the original archive of the package $1 into the directory $2 of the room.
unpack() {
    mkdir -p "$room/$2"
    tar -xf "$(ls "$CCK_SOURCES/$1"_*.orig.tar.* | head -1)" -C "$room/$2" --strip-components 1
}

# The number of lines of the log that begin with this word, after the name of the wrapper.
logged() {
    grep -c "^cckcc: $1" "$CCK_LOG" || :
}
