# The options of the wrapper itself. bin/cckcc sources this script, with its words, and has set `cck_program`,
# `cck_store`, the directory, `cck_server`, the address of a server or nothing, `cck_home`, the default of the directory,
# `cck_configuration` and `cck_origins`, which says what the configuration file set.

print_usage() {
    cat <<END
usage: cckcc COMPILER ARG..    runs a compiler by way of the cache
       cckcc OPTION

  -s, --show-stats [--json]    counts of calls, and the size of the store
  -z, --zero-stats             resets the counts
  -c, --cleanup                removes what was used longest ago, down to the limit
  -C, --clear                  removes all entries and objects
  -v, --verify                 removes damaged files
  -i, --inspect FILE|KEY       what a file of the store says
  -p, --show-config            the variables, and where each is from
  -M, --max-size SIZE          sets the limit in the configuration file, as 20G
  -V, --version
  -h, --help

The manual page cckcc has the variables.
END
}

# Sets CCK_STORE to the address of the server as it may be shown: `***` is in the place of a password.
hide_password() {
    find_script server.sh || exit 2
    . "$cck_script"
    divide_address
    CCK_STORE=$cck_server cck_rest=${cck_server#*://}
    case $cck_user in
    *:*) CCK_STORE=${cck_server%"$cck_rest"}${cck_user%%:*}:***${cck_rest#"$cck_user"} ;;
    esac
}

# Prints each variable, its value, and where it is from. The list has the values of those that nothing sets.
show_config() {
    [ -z "$cck_server" ] || hide_password
    while read -r cck_name cck_value; do
        cck_from=default
        case $cck_origins in
        *" $cck_name:"*)
            cck_from=${cck_origins##*" $cck_name:"}
            cck_from=$cck_configuration:${cck_from%% *}
            ;;
        *) if eval "[ -n \"\${$cck_name+set}\" ]"; then cck_from=environment; fi ;;
        esac
        [ "$cck_from" = default ] || eval "cck_value=\$$cck_name"
        printf '(%s) %s = %s\n' "$cck_from" "$cck_name" "$cck_value"
    done <<END
CCK_STORE $cck_home
CCK_MAXSIZE 5G
CCK_PROGRAM $cck_program
CCK_LOG
CCK_READ
CCK_BASEDIR
CCK_DISABLE
CCK_RECHECK
CCK_COMPILER_CHECK content
CCK_UMASK
CCK_DIR
CCK_SECRET_FILE
CCK_CACERT
CCK_CERT
CCK_KEY
CCK_SIGN_KEY
CCK_VERIFY_KEY
CCK_COMPRESS
CCK_REMOTE_MODE write
CCK_REMOTE_MAX 100000000
CCK_TTL 2592000
CCK_TIMEOUT 2
CCK_DEBUG
END
}

# Calls the program with these words, and sets `cck_found` to what it prints and `cck_status` to its status. If standard
# error is a terminal, the seconds that this takes are shown there, from the first one on.
call() {
    cck_timer=
    if [ -t 2 ] && [ "${TERM-dumb}" != dumb ]; then
        (cck_seconds=0
        while sleep 1 && kill -0 $$ 2>/dev/null; do
            cck_seconds=$((cck_seconds + 1))
            printf '\rcckcc: %s: %d s' "$1" $cck_seconds >&2
        done) > /dev/null &
        cck_timer=$!
    fi
    cck_found=$("$cck_program" "$@")
    cck_status=$?
    if [ -n "$cck_timer" ]; then
        kill $cck_timer 2>/dev/null
        wait $cck_timer 2>/dev/null
        printf '\r\033[K' >&2
    fi
    return $cck_status
}

# Prints what the call printed, and ends with its status.
print_found() {
    [ -z "$cck_found" ] || printf '%s\n' "$cck_found" || exit 1
    exit $cck_status
}

# Makes a table of what `stats` printed. Of the compilations that could be found some were, directly, by their texts or at a
# server; the others were recorded or not. The rate is of these.
cck_table='
    function line(name, value) { printf "%-24s %s\n", name, value }
    function size(bytes, unit) {
        for (unit = 1; bytes >= 999.95 && unit < 5; unit++) bytes /= 1000
        return unit == 1 ? sprintf("%.0f bytes", bytes) : sprintf("%.1f %s", bytes, substr("  kBMBGBTB", 2 * unit - 1, 2))
    }
    function sum(pattern, name, all) {
        for (name in counts) if (name ~ pattern) all += counts[name]
        return all + 0
    }
    function list(pattern, begun, name, best) {
        while (1) {
            best = ""
            for (name in counts) if (name ~ pattern && !(name in listed))
                if (best == "" || counts[name] > counts[best] || (counts[name] == counts[best] && name < best)) best = name
            if (best == "") return
            listed[best]
            name = best
            sub(begun, "", name)
            line("  " name, sprintf("%.0f", counts[best]))
        }
    }
    $1 == "count" { counts[$2] = $3; next }
    NF == 3 { files[$1] = $2; next }
    { values[$1] = $2 }
    END {
        found = "^(server-)?hit(-text)?$"
        missed = "^(recorded|refused-.*|not-recorded-.*|record-error)$"
        passed = "^(passed-.*|no-key)$"
        hits = sum(found)
        all = hits + sum(missed)
        line("store", ENVIRON["cck_store"])
        if (ENVIRON["cck_since"] != "") line("since", ENVIRON["cck_since"])
        line("hits", sprintf("%.0f of %.0f", hits, all) (all ? sprintf(" (%.1f %%)", 100 * hits / all) : ""))
        list(found)
        line("misses", sprintf("%.0f", all - hits))
        list(missed)
        line("passed on", sprintf("%.0f", sum(passed)))
        list(passed, "^passed-")
        listed["miss"]
        listed["unpacked"]
        if (sum("^server-") > sum("^server-hit")) { line("server", ""); list("^server-") }
        for (name in counts) if (!(name in listed)) others = 1
        if (others) { line("others", ""); list("") }
        limit = values["limit"] == "none" ? "no limit" : size(values["limit"])
        line("size", size(values["size"]) " of " limit)
        line("  entries", files["entries"] + 0)
        line("  objects", files["objects"] + 0)
    }'

# Prints this table.
print_table() {
    cck_zeroed=$cck_store/zeroed
    [ -f "$cck_zeroed" ] || cck_zeroed=$cck_store/VERSION
    cck_since=$(date -r "$cck_zeroed" '+%Y-%m-%d %H:%M' 2>/dev/null)
    printf '%s\n' "$cck_found" | cck_store=$cck_store cck_since=$cck_since LC_ALL=C awk "$cck_table"
}

# Prints what the store has, and the counts: a table, or with --json an object, in which a store without a limit has `null`.
show_stats() {
    case $#:$2 in
    1:) call stats "$cck_store" || print_found; print_table; exit ;;
    2:--json) call stats "$cck_store" || print_found >&2 ;;
    *) reject_words "after $1 comes nothing or --json" ;;
    esac
    printf '%s\n' "$cck_found" | LC_ALL=C awk '
        $1 == "count" { counts = counts (counts == "" ? "" : ", ") "\"" $2 "\": " $3; next }
        NF == 3 { printf "%s\"%s\": {\"files\": %s, \"bytes\": %s}", NR == 1 ? "{" : ", ", $1, $2, $3; next }
        { printf ", \"%s\": %s", $1, $2 == "none" ? "null" : $2 }
        END { print ", \"counts\": {" counts "}}" }'
}

# Removes what was used longest ago, until the directory keeps its limit, which is the program's to say.
clean_up() {
    call stats "$cck_store" || print_found
    cck_limit=$(printf '%s\n' "$cck_found" | sed -n 's/^limit //p')
    case $cck_limit in
    none) cck_limit=18446744073709551615 ;;
    esac
    call prune "$cck_store" --max-size "$cck_limit"
    print_found
}

# Resets the counts, and notes when.
zero_stats() {
    rm -rf "$cck_store/counts" || exit 1
    if [ -f "$cck_store/VERSION" ]; then true > "$cck_store/zeroed" || exit 1; fi
    exit 0
}

# Empties the directory. The program makes a store of one that is not yet one: what is called `inputs` there stays.
clear_store() {
    cck_was_store=
    [ ! -f "$cck_store/VERSION" ] || cck_was_store=1
    call clear "$cck_store"
    if [ -n "$cck_was_store" ] && [ "$cck_status" -eq 0 ]; then rm -rf "$cck_store/inputs"; fi
    print_found
}

# Prints what the word names: a file, or the files of a key or of the name of an object. The program takes a word with a slash
# for a path.
inspect() {
    [ $# -eq 2 ] || reject_words "$1 takes one file, key or name"
    case $2 in
    */*) ;;
    *) [ ! -f "$2" ] || set -- "$1" "./$2" ;;
    esac
    call inspect "$cck_store" "$2" || print_found >&2
    print_found
}

# Writes the size into each line of the configuration file for one, or after all lines. The new file is made beside its
# place and renamed, and a link to the file stays one.
set_max_size() {
    find_script size.sh || exit 2
    . "$cck_script"
    if ! is_size "$1"; then
        echo "cckcc: not a size: $1 (a number, and k, M, G, T, Ki, Mi, Gi, Ti or nothing after it, as 20G)" >&2
        exit 2
    fi
    cck_file=$(readlink -m "$cck_configuration") cck_line='^[[:blank:]]*CCK_MAXSIZE[[:blank:]]*='
    cck_new=$cck_file.new$$
    trap 'rm -f "$cck_new"' EXIT
    mkdir -p "${cck_file%/*}" && { [ -f "$cck_file" ] || touch "$cck_file"; } && cp -p "$cck_file" "$cck_new" &&
        sed -e "s/$cck_line.*/CCK_MAXSIZE = $1/" -e '$a\' "$cck_file" > "$cck_new" &&
        { grep -q "$cck_line" "$cck_new" || echo "CCK_MAXSIZE = $1" >> "$cck_new"; } &&
        mv "$cck_new" "$cck_file" || exit 1
    case $cck_origins:${CCK_MAXSIZE+set} in
    *" CCK_MAXSIZE:"*|*:) ;;
    *) echo "cckcc: CCK_MAXSIZE of the environment counts more: $CCK_MAXSIZE" >&2 ;;
    esac
    case $1 in
    0|*[!0-9]*|???????*) ;;
    *) echo "cckcc: the limit is $1 bytes; $1G would be gigabytes" >&2 ;;
    esac
    echo "CCK_MAXSIZE = $1 in $cck_configuration"
}

# Ends with what is wrong with the words.
reject_words() {
    echo "cckcc: $1" >&2
    echo 'cckcc --help lists the options' >&2
    exit 2
}

# Ends where words follow an option that stands alone: those of a compiler's call come after the compiler.
stand_alone() {
    [ $# -eq 1 ] || reject_words "$1 takes no words; a compiler comes before its arguments, as in cckcc gcc -c x.c"
}

# Ends where the program is not there.
find_program() {
    if command -v "$cck_program" > /dev/null; then return; fi
    echo "cckcc: there is no program $cck_program (CCK_PROGRAM, or PATH)" >&2
    exit 127
}

case ${1-} in
-V|--version|-z|--zero-stats|-c|--cleanup|-C|--clear|-v|--verify|-p|--show-config|-h|--help) stand_alone "$@" ;;
esac
case ${1-} in
-V|--version|-s|--show-stats|-c|--cleanup|-C|--clear|-v|--verify|-i|--inspect) find_program ;;
esac
case ${1-} in
-V|--version) exec "$cck_program" --version ;;
-s|--show-stats) show_stats "$@" ;;
-z|--zero-stats) zero_stats ;;
-c|--cleanup) clean_up ;;
-C|--clear) clear_store ;;
-v|--verify) call verify "$cck_store"; print_found ;;
-i|--inspect) inspect "$@" ;;
-p|--show-config) show_config ;;
-M|--max-size) [ $# -eq 2 ] || reject_words "$1 takes a size, as 20G"; set_max_size "$2" ;;
--max-size=*) stand_alone "$@"; set_max_size "${1#*=}" ;;
-h|--help) print_usage ;;
'') reject_words 'there is no compiler' ;;
*) reject_words "no such option: $1" ;;
esac
exit 0
