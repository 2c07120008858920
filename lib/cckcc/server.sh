# The address of a team's store, and hits there: bin/cckcc sources this script where CCK_STORE is an address, which is
# `cck_server`. The scheme of the address is decided in `read_server` alone, which chooses the functions that read the
# rest of the address and ask the server. What is asked for, and what is put, does not depend on the scheme.

# The names at a server have this number, which changes with the formats of the values.
cck_formats=5

# Sets why the server can't be asked: a word under which this is counted, and what the log says.
unusable() { cck_unusable=$1 cck_why=$2; }

# Reads the address, and what decides of values. What has a secret is in no message: of an unknown scheme the log has the
# name alone.
read_server() {
    cck_unusable= cck_sought=
    test_key "$CCK_SIGN_KEY"
    test_key "$CCK_VERIFY_KEY"
    case $CCK_COMPRESS in
    ''|0|zstd) ;;
    *) unusable compress 'CCK_COMPRESS is not zstd' ;;
    esac
    case $CCK_REMOTE_MAX in
    ''|0*|*[!0-9]*) cck_max=100000000 ;;
    *) cck_max=$CCK_REMOTE_MAX ;;
    esac
    divide_address
    case $cck_scheme in
    redis|rediss|redis+unix) cck_protocol=redis ;;
    http|https) cck_protocol=http ;;
    *[!A-Za-z0-9+.-]*|'') unusable scheme 'no scheme'; return ;;
    *) unusable scheme "unknown scheme $cck_scheme"; return ;;
    esac
    case $cck_server in
    "$cck_scheme"://*) read_secret; "read_$cck_protocol" ;;
    *) unusable address "no // after $cck_scheme:" ;;
    esac
}

# Reads the secret of a file. It is kept in a variable that is not exported, and is no word of a process.
read_secret() {
    [ -n "$CCK_SECRET_FILE" ] || return 0
    cck_secret=
    { IFS= read -r cck_secret < "$CCK_SECRET_FILE"; } 2>/dev/null
    [ -n "$cck_secret" ] || unusable secret "no line in the file of CCK_SECRET_FILE"
}

# Tests the file of a key, if one is named. The program decides, where the first line alone is not long enough.
test_key() {
    [ -n "$1" ] || return 0
    unset cck_line
    { IFS= read -r cck_line < "$1"; } 2>/dev/null
    [ ${#cck_line} -ge 16 ] || "$cck_program" seal entry 0 --sign-key="$1" < /dev/null > /dev/null 2>&1 ||
        unusable key "no key of 16 bytes in $1"
    cck_line=
}

# Divides the address into a user, with a password if it has one, and the rest: at the last `@`, or before the path of a
# socket. `cckcc --show-config` calls it too.
divide_address() {
    cck_scheme=${cck_server%%:*} cck_address=${cck_server#*://} cck_user=
    case $cck_scheme:$cck_address in
    redis+unix:/*) ;;
    redis+unix:*@/*) cck_user=${cck_address%%@/*} cck_address=/${cck_address#*@/} ;;
    *@*) cck_user=${cck_address%@*} cck_address=${cck_address##*@} ;;
    esac
}

# Reads the rest of the address of a Redis server.
read_redis() {
    cck_host= cck_port= cck_database=
    case $cck_user in
    *:*) cck_secret=${cck_user#*:} cck_user=${cck_user%%:*} ;;
    esac
    case $cck_scheme in
    redis+unix) read_socket ;;
    *) read_host ;;
    esac
    case $cck_port$cck_database in
    *[!0-9]*) unusable address 'a port or a database that is not a number' ;;
    esac
    # redis-cli does not test the name in a certificate.
    [ "$cck_scheme" != rediss ] || [ -n "$CCK_CACERT" ] || unusable cacert 'CCK_CACERT does not name an authority'
}

# Reads HOST[:PORT][/DB].
read_host() {
    case $cck_address in
    */*) cck_database=${cck_address#*/} cck_address=${cck_address%%/*} ;;
    esac
    cck_host=${cck_address%%:*}
    case $cck_address in
    *:*) cck_port=${cck_address##*:} ;;
    esac
    cck_mark=$cck_host-$cck_port
    case $cck_host in
    ''|-*) unusable address 'no host' ;;
    esac
}

# Reads /PATH[?db=DB].
read_socket() {
    case $cck_address in
    /*) ;;
    *) unusable address 'no absolute path of a socket' ;;
    esac
    case $cck_address in
    *\?db=*) cck_database=${cck_address##*\?db=} cck_address=${cck_address%\?db=*} ;;
    esac
    cck_mark=$cck_address
    while [ "$cck_mark" != "${cck_mark#*/}" ]; do cck_mark=${cck_mark%%/*}-${cck_mark#*/}; done
}

# Reads HOST[:PORT][/PREFIX]. curl reads the whole address again, in a file of options, where `"` and `\` are special.
# The token is that of a file: the variable of redis-cli is of another server.
read_http() {
    cck_url=${cck_server%/} cck_header= cck_mark=${cck_address%%/*}
    case $cck_mark in
    ''|[-:]*) unusable address 'no host' ;;
    esac
    case $cck_url in
    *[![:graph:]]*|*[\"\\?#]*) unusable address 'a character that has to be encoded' ;;
    esac
    case $cck_user in
    */*) unusable address 'a / before an @' ;;
    esac
    [ -n "$CCK_SECRET_FILE" ] || return 0
    cck_header="header = \"Authorization: Bearer $cck_secret\""
    case $cck_secret in
    *[!A-Za-z0-9._~+/=-]*) unusable secret 'a token has letters, digits and ._~+/=- alone' ;;
    esac
}

# Whether a program of this name is there, and standard output and standard error are open.
is_there() { { command -v "$1" 3>&1 > /dev/null; } 4>&2 2>/dev/null; }

# Whether the program itself may ask the server for this call: what connects it knows no TLS, no proxy and no password of an
# HTTP server, and each parameter is a line. What it can't do lib/cckcc/client.sh does. `cck_script` is the script by
# which perl connects, or empty where bash does: it starts in less time, and knows no Unix socket and no compressed value.
is_plain() {
    case $cck_scheme:$cck_user$http_proxy$all_proxy$ALL_PROXY:$cck_address in
    redis:*|redis+unix:*) ;;
    http::*[!A-Za-z0-9.:/_-]*|http::*:*:*|http::*/.*) return 1 ;;
    http::*) ;;
    *) return 1 ;;
    esac
    case $cck_user$cck_secret$cck_address$cck_server in
    *"$cck_newline"*) return 1 ;;
    esac
    case ${CCK_TIMEOUT:-2} in
    0*|*[!0-9]*) return 1 ;;
    esac
    if [ -n "$cck_has_specs${GLIBC_TUNABLES+set}" ] || [ -e "$cck_store/down-$cck_mark" ]; then return 1; fi
    cck_script=
    case $cck_scheme:$CCK_COMPRESS in
    redis+unix:*|*:zstd) ;;
    *) ! is_there bash || return 0 ;;
    esac
    [ -z "$PERL5OPT$PERL5DB$PERL_UNICODE$PERLIO" ] && is_there perl && find_script connect.pl
}

# Sets what the program has to know of the server beside the scheme, the user and the secret: `cck_host`, `cck_port` and
# `cck_database`.
describe_server() {
    case $cck_scheme in
    redis) cck_port=${cck_port:-6379} ;;
    redis+unix) cck_host=$cck_address cck_port=0 ;;
    http)
        cck_host=${cck_mark%%:*} cck_port=80 cck_database=${cck_url#http://"$cck_mark"}
        case $cck_mark in
        *:*) cck_port=${cck_mark#*:} ;;
        esac
        [ -n "$CCK_SECRET_FILE" ] || cck_secret=
        ;;
    esac
}

# What bash does, whose words are a number of seconds, the host, the port and the words of the program: a child connects, and
# becomes the program. It has the other end of a pipe, which is read until it ends, or for that time. Then it gets SIGALRM.
# An older bash may not tell the number of this child.
cck_connect='[ "${BASH_VERSINFO[0]}" -ge 5 ] || exit 1
    exec 6<&0 7>&1
    exec 4< <(exec 8>&1 5<> "/dev/tcp/$2/$3" && shift 3 && exec "$@" <&5 >&5 2>&3)
    read -rt "$1" _ <&4
    [ $? -le 128 ] || kill -ALRM $!
    wait $!'

# Has the program ask the server, and sets `cck_found` to what it prints, and `cck_slow` if it took too long. The words are the
# command and its options. The shell that takes what is printed becomes bash, whose child becomes the program, or perl, which
# does itself, and a here-document needs no process. The last three lines are those of bash: perl has its own in their place.
ask_server() {
    describe_server
    cck_command=$1
    shift
    {
        cck_found=$(
            trap '' XFSZ
            set -- "$cck_store" --server="$cck_mode" ${CCK_VERIFY_KEY:+--verify-key="$CCK_VERIFY_KEY"} "$@"
            [ -n "$cck_script" ] || exec bash -p -c "$cck_connect" bash "${CCK_TIMEOUT:-2}" "$cck_host" "$cck_port" \
                "$cck_program" "$cck_command" --address=/dev/fd/6 "$@"
            set -- "${LC_ALL+=$LC_ALL}" "${CCK_TIMEOUT:-2}" "$CCK_COMPRESS" "$cck_program" "$cck_command" "$@"
            export LC_ALL=C
            exec perl "$cck_script" "$@"
        )
    } 3>&2 2>/dev/null <<LINES
$cck_scheme
$cck_host
$cck_port
$cck_database
$cck_user
$cck_secret
$cck_formats
$cck_max
/dev/fd/7


LINES
    # The status of SIGALRM.
    case $?:$cck_found in
    142:*) cck_slow=1 ;;
    *:late"$cck_newline"*) cck_slow=1 cck_found=${cck_found#*"$cck_newline"} ;;
    esac
}

# Takes a hit of the server, and ends, if all is plain. Otherwise `cck_found` is the answer of the program, or nothing if
# the server has to be asked again, by a client that says what failed. The words are the compiler's. A hit of the directory
# starts no other process.
take_hit() {
    cck_slow= cck_mode=only
    [ -z "$CCK_DIR" ] || cck_mode=keep
    if [ -n "$cck_unusable" ] || ! is_plain; then return; fi
    set -- --driver="$cck_compiler" --digests="$cck_digests" ${CCK_BASEDIR:+--base="$CCK_BASEDIR"} --directory="$PWD" -- \
        $cck_color "$@"
    if [ -n "$CCK_DIR" ]; then
        cck_found=$(trap '' XFSZ; exec "$cck_program" look "$cck_store" "$@")
        case $cck_found in
        hit*) end_by_hit ;;
        miss*) ;;
        *) return ;;
        esac
    fi
    ask_server look "$@"
    case $cck_found in
    hit*) end_by_hit ;;
    miss*|none*|passed*) ;;
    *) cck_found= ;;
    esac
}

# Ends after a hit.
end_by_hit() {
    [ -z "$CCK_LOG" ] || { trap '' XFSZ; echo "cckcc: ${cck_found%%"$cck_newline"*}" >> "$CCK_LOG"; } 2>/dev/null
    exit 0
}
