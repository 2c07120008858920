# Asks the server of a team's store by redis-cli or curl: lib/cckcc/miss.sh sources this script where CCK_STORE is an
# address. lib/cckcc/server.sh has read the address. `converse` answers what the program asks for, and `put` puts values.

# Whether the server may be asked: not after a failure in this call, nor for some seconds after a request of another
# call took too long.
is_up() {
    [ -z "$cck_failed" ] || return 1
    [ -e "$cck_store/down-$cck_mark" ] || return 0
    if [ -z "$(find "$cck_store/down-$cck_mark" -newermt '-10 seconds' 2>/dev/null)" ]; then
        rm -f "$cck_store/down-$cck_mark" 2>/dev/null
        return 0
    fi
    cck_failed=1
    note "server: not asked, it was slow some seconds ago"
    return 1
}

# Notes and counts a request $1 that failed, for the reason $2.
fail() {
    note "server: $1 failed: $2"
    count server-failed
    return 1
}

# Notes that a request took too long.
mark_slow() {
    cck_said='no reply in time'
    # The command `:` would end the shell where the file can't be made.
    true > "$cck_store/down-$cck_mark"
} 2>/dev/null

# Says that the request for a hit took too long (lib/cckcc/server.sh).
fail_slow() {
    mark_slow
    cck_failed=1
    fail GET "$cck_said"
}

# Runs a client with these words. It fails if the client does, or says something. It can't write much more than a value
# may have. A password is in the environment of redis-cli and of `timeout`, which runs it.
run_client() {
    cck_said=
    (
        trap '' XFSZ
        ulimit -S -f $((cck_max / 512 + 1)) 2>/dev/null
        if [ "$cck_protocol" = redis ] && [ -n "$cck_secret" ]; then export REDISCLI_AUTH="$cck_secret"; fi
        exec timeout "${CCK_TIMEOUT:-2}" "$@"
    ) 2> "$cck_scratch/said"
    cck_status=$?
    [ $cck_status -ne 0 ] || [ -s "$cck_scratch/said" ] || return 0
    read -r cck_said < "$cck_scratch/said"
    [ $cck_status -ne 124 ] || mark_slow
    return 1
}

# Sends a command to a Redis server, with what is to be read on standard input. The words are the command and options.
# Where the server rejects a user or a database redis-cli says so, and continues as the default user, in database 0.
ask_redis() {
    cck_command=$1
    [ "$1" != SETEX ] || set -- -x "$@"
    set -- -n "${cck_database:-0}" ${cck_user:+--user "$cck_user"} --no-auth-warning -e -D '' "$@"
    case $cck_scheme in
    redis+unix) set -- -s "$cck_address" "$@" ;;
    *) set -- -h "$cck_host" -p "${cck_port:-6379}" "$@" ;;
    esac
    if [ "$cck_scheme" = rediss ]; then
        set -- --tls --cacert "$CCK_CACERT" ${CCK_CERT:+--cert "$CCK_CERT"} ${CCK_KEY:+--key "$CCK_KEY"} "$@"
        case $cck_host in
        *[!0-9.]*) set -- --sni "$cck_host" "$@" ;;
        esac
    fi
    run_client redis-cli "$@" && return
    case $cck_said in
    NOPERM*) ;;
    *) cck_failed=1 ;;
    esac
    fail "$cck_command" "$cck_said"
}

# Gets the file of the kind $1 and the key $2, and writes it to $3.
get_redis() { ask_redis GET "cck:$cck_formats:$1:$2" > "$3"; }

# Puts it.
put_redis() { ask_redis SETEX "cck:$cck_formats:$1:$2" "${CCK_TTL:-2592000}" < "$3" > "$cck_scratch/reply"; }

# A command for this would need a permission more.
has_redis() { return 1; }

# Sends a request of the method $1 for the file of the kind $2 and the key $3, and sets `cck_code` to the status of the
# reply. The other words are options of curl, which reads what has a secret from standard input, and no file of options
# of the user.
ask_http() {
    cck_method=$1 cck_path=$cck_formats/$2/${3%"${3#??}"}/$3
    shift 3
    if [ "$cck_scheme" = https ]; then
        set -- ${CCK_CACERT:+--cacert "$CCK_CACERT"} ${CCK_CERT:+--cert "$CCK_CERT"} ${CCK_KEY:+--key "$CCK_KEY"} "$@"
    fi
    if run_client curl -q --silent --show-error --globoff --proto "=$cck_scheme" --max-filesize "$cck_max" \
        --header Expect: --write-out '%{http_code}' --config - "$@" > "$cck_scratch/code" << CONFIG
url = "$cck_url/$cck_path"
$cck_header
CONFIG
    then
        read -r cck_code < "$cck_scratch/code"
        return 0
    fi
    cck_failed=1
    fail "$cck_method" "$cck_said"
}

# Counts a status by its number. Of one that forbids a request the next request may be allowed.
reject() {
    count "server-status-$cck_code"
    case $cck_code in
    403|405|413) ;;
    *) cck_failed=1 ;;
    esac
    fail "$cck_method" "status $cck_code"
}

get_http() {
    ask_http GET "$1" "$2" --output "$3" || return 1
    case $cck_code in
    200) ;;
    404) return 1 ;;
    *) reject ;;
    esac
}

put_http() {
    ask_http PUT "$1" "$2" --upload-file "$3" --output "$cck_scratch/reply" || return 1
    case $cck_code in
    200|201|204) ;;
    *) reject ;;
    esac
}

has_http() {
    ask_http HEAD "$1" "$2" --head --output "$cck_scratch/reply" || return 1
    case $cck_code in
    200) ;;
    404) return 1 ;;
    *) reject ;;
    esac
}

# Writes the file of the kind $1 and the key $2 that the server has to $3, which is empty where it has none.
get() {
    true > "$3"
    is_up || return 1
    "get_$cck_protocol" "$@" || { true > "$3"; return 1; }
    [ -s "$3" ]
}

# Whether files may be put to the server.
writes() {
    case $CCK_REMOTE_MODE in
    ''|write) ;;
    *) return 1 ;;
    esac
}

# Puts the mark of the sums $1, as the file $2 has it. It has no signature: a mark decides no more than whether a text is made
# before the compiler runs.
put_mark() {
    if ! writes || ! is_up; then return 1; fi
    "put_$cck_protocol" mark "$1" "$2"
}

# Whether the server has the object $1 that this call did not ask for. One that is damaged was asked for.
has_object() {
    case $cck_sought in
    *" $1 "*) return 1 ;;
    esac
    if ! writes || ! is_up; then return 1; fi
    "has_$cck_protocol" object "$1" || return 1
    count server-had-object
}

# Writes the bytes of the frame `frame`, in the scratch directory, to `value`. It fails where they are not $1 bytes.
expand() {
    [ "$1" -le "$cck_max" ] 2>/dev/null || return 1
    true > "$cck_scratch/expanded"
    { zstd -dcq < "$cck_scratch/frame" && echo expanded > "$cck_scratch/expanded"; } 2>/dev/null |
        head -c "$(($1 + 1))" > "$cck_scratch/value"
    [ -s "$cck_scratch/expanded" ] && [ "$(wc -c < "$cck_scratch/value")" -eq "$1" ]
}

# Replies to the line of the program that has these words, on stream 3. A frame follows the line on stream 4. A program that
# has ended ends `cat` alone.
reply() {
    case $1 in
    get)
        [ "$2" != object ] || cck_sought="$cck_sought $3 "
        get "$2" "$3" "$cck_scratch/value" 3>&- 4<&-
        ;;
    expand) head -c "$3" <&4 > "$cck_scratch/frame" && expand "$2" 3>&- 4<&- ;;
    esac
    if [ $? -eq 0 ]; then
        wc -c < "$cck_scratch/value" > "$cck_scratch/length"
        cat "$cck_scratch/length" "$cck_scratch/value" >&3 2>/dev/null
    else
        echo - > "$cck_scratch/length"
        cat "$cck_scratch/length" >&3 2>/dev/null
    fi
}

# Runs the program on these words, which ask for values of the server, and sets `cck_found` to its answer. It reads replies
# from a pipe, and writes to another one: both are opened to read and write first, which waits for no process. The shell
# keeps no end of the program's, so that it sees where that dies.
converse() {
    cck_found=
    rm -f "$cck_scratch/asked" "$cck_scratch/replied"
    mkfifo "$cck_scratch/asked" "$cck_scratch/replied" || return
    {
        { trap '' XFSZ; exec "$cck_program" "$@"; } <&5 >&6 3>&- 4<&- 5<&- 6>&- 7>&- 8>&- &
        cck_talker=$!
        exec 5<&- 6>&- 7>&- 8>&-
        while IFS= read -r cck_found <&4; do
            case $cck_found in
            get\ *|expand\ *) reply $cck_found ;;
            *) cck_found=$cck_found$cck_newline$(cat <&4); break ;;
            esac
        done
    } 7<> "$cck_scratch/replied" 3> "$cck_scratch/replied" 5< "$cck_scratch/replied" \
        8<> "$cck_scratch/asked" 4< "$cck_scratch/asked" 6> "$cck_scratch/asked"
    wait "$cck_talker" 2>/dev/null
    cck_talker= cck_found=${cck_found%"$cck_newline"}
}

# Notes the values of the server that were not used, by the words of an answer that is no hit, and what was asked for: it is
# not there, or not used, and will be put.
note_unused() {
    while [ $# -gt 1 ]; do
        case $1:$2 in
        object:*) cck_sought="$cck_sought $2 " ;;
        damaged:entry:*|damaged:object:*|forged:entry:*|forged:object:*)
            cck_sought="$cck_sought ${2#*:} "
            note "server: the ${2%%:*} ${2#*:} is $1"
            ;;
        esac
        shift
    done
}

# Sets `cck_value` to a file with the value of the file $3, of the kind $1 and the key $2: compressed where that makes it
# smaller, and signed.
seal() {
    cck_value=$3 cck_size=
    if [ "$CCK_COMPRESS" = zstd ] && zstd -1cq < "$3" > "$cck_scratch/frame" 2>/dev/null; then
        cck_size=$(wc -c < "$3")
        if [ "$(wc -c < "$cck_scratch/frame")" -lt "$((cck_size - 64))" ]; then
            cck_value=$cck_scratch/frame
        else
            cck_size=
        fi
    fi
    [ -n "$CCK_SIGN_KEY$cck_size" ] || return 0
    "$cck_program" seal "$1" "$2" ${CCK_SIGN_KEY:+--sign-key="$CCK_SIGN_KEY"} ${cck_size:+--expanded="$cck_size"} \
        < "$cck_value" > "$cck_scratch/sealed" 2>/dev/null || return 1
    cck_value=$cck_scratch/sealed
}

# Puts the file $3 of the kind $1 and the key $2 to the server. The limit is also that of what a reader expands.
put() {
    if ! writes || ! is_up; then return 1; fi
    if [ "$(wc -c < "$3")" -gt "$cck_max" ]; then
        note "server: not put, too large: the $1 $2"
        count server-too-large
        return 1
    fi
    if ! seal "$@"; then
        note "server: not put, not signed: the $1 $2"
        count server-key
        return 1
    fi
    "put_$cck_protocol" "$1" "$2" "$cck_value" || return 1
    count "server-put-$1"
}
