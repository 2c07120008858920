# What tests and benchmarks with a Redis server share. The caller has read common.sh.
unset CCK_DIR CCK_BASEDIR CCK_TTL CCK_TIMEOUT CCK_DEBUG
database=3
user=
admin=
mapped=1
depends=

# Waits until the command succeeds, for 10 seconds.
wait_until() {
    for _ in $(seq 200); do
        "$@" >/dev/null 2>&1 && return 0
        sleep 0.05
    done
    return 1
}

# Starts an empty server on a free port, or on that of the server before.
start_server() {
    [ -n "${port-}" ] || port=$(python3 -c 'import socket; s = socket.socket(); s.bind(("127.0.0.1", 0)); print(s.getsockname()[1])')
    redis-server --port "$port" --bind 127.0.0.1 --save '' --appendonly no --dir "$room" \
        --pidfile "$room/server.pid" --daemonize yes >/dev/null
    wait_until redis-cli -p "$port" PING || fault 'the server does not start'
}

# Waits until the server has ended.
wait_for_end() {
    server=$(cat "$room/server.pid" 2>/dev/null) || return 0
    for _ in $(seq 200); do
        kill -0 "$server" 2>/dev/null || break
        sleep 0.05
    done
    rm -f "$room/server.pid"
}

# Stops the server.
stop_server() {
    [ ! -s "$room/server.pid" ] || kill -9 "$(cat "$room/server.pid")" 2>/dev/null || :
    wait_for_end
}

# Starts a proxy to the server that does this to its replies.
start_proxy() {
    python3 "$top/tests/real/team.py" proxy "$port" "$@" >"$room/proxy" &
    proxy=$!
    wait_until test -s "$room/proxy" || fault 'the proxy does not start'
    proxy_port=$(cat "$room/proxy")
}

# Stops the proxy.
stop_proxy() {
    [ -z "${proxy-}" ] || kill "$proxy" 2>/dev/null || :
    proxy=
}

# Starts an HTTP server that is empty, on a free port.
start_http() {
    http_port=$(python3 -c 'import socket; s = socket.socket(); s.bind(("127.0.0.1", 0)); print(s.getsockname()[1])')
    mkdir -p "$room/http/files"
    cat >"$room/http/config" <<CONFIG
daemon off; master_process off; pid $room/http/pid; error_log $room/http/errors; events {}
http {
    access_log off; client_body_temp_path $room/http/body; proxy_temp_path $room/http/proxy;
    fastcgi_temp_path $room/http/fastcgi; uwsgi_temp_path $room/http/uwsgi; scgi_temp_path $room/http/scgi;
    server { listen 127.0.0.1:$http_port; root $room/http/files; dav_methods PUT; create_full_put_path on;
        client_max_body_size 200m; }
}
CONFIG
    nginx -c "$room/http/config" -e "$room/http/errors" &
    http_server=$!
    wait_until curl -s "http://127.0.0.1:$http_port/" || fault 'nginx does not start'
}

# Stops all that was started.
stop_servers() {
    stop_proxy
    stop_server
    [ -z "${http_server-}" ] || kill "$http_server" 2>/dev/null || :
}

# Sends a command to the server.
ask_server() {
    redis-cli -p "$port" -n "$database" ${admin:+--user admin --pass admin} --no-auth-warning "$@"
}

# Makes the server empty.
empty() {
    ask_server FLUSHALL >/dev/null
    ask_server CONFIG RESETSTAT >/dev/null
}

# The number of values of this kind.
count_of() { ask_server --scan --pattern "cck:5:$1:*" | wc -l; }

# A number that the server says of itself.
info() { ask_server INFO | tr -d '\r' | sed -n "s/^$1://p"; }

# Gives the server this much memory more than it has, or any where it is 0, and this policy.
limit_memory() {
    limit=0
    [ "$1" = 0 ] || limit=$(($(info used_memory) + $1))
    ask_server CONFIG SET maxmemory-policy "$2" >/dev/null
    ask_server CONFIG SET maxmemory "$limit" >/dev/null
}

# The flags for the checkout $1.
flags_of() {
    echo "-O2 -g -Wall -DLUA_COMPAT_5_3 -DLUA_USE_POSIX${mapped:+ -ffile-prefix-map=$room/$1=.}"
}

# Compiles the C files of the checkout $1 by the compiler $2, with dependency files if $depends is set.
compile() {
    make -s -C "$room/$1/src" -f "$top/tests/real/objects.mk" clean
    make -s -C "$room/$1/src" -f "$top/tests/real/objects.mk" -j "${JOBS:-4}" CC="$2" \
        CFLAGS="$(flags_of "$1")${depends:+ -MD -MP -MF \$*.d}"
}

# Keeps the plain compiler's objects and dependency files of a checkout.
plain() {
    compile "$1" gcc 2>/dev/null
    rm -rf "$room/plain_$1"
    mkdir -p "$room/plain_$1"
    cp "$room/$1"/src/*.o "$room/plain_$1"
    [ -z "$depends" ] || cp "$room/$1"/src/*.d "$room/plain_$1"
}

# Builds the checkout $1 by the wrapper and the server. Each checkout is on a machine of its own.
build() {
    CCK_STORE=redis://${user}127.0.0.1:$port/$database CCK_BASEDIR=$room/$1 CCK_LOG=$room/log_$1 \
        HOME=$room/${home:-home_$1} compile "$1" 'cckcc gcc'
}

# Compares the objects and the dependency files of the checkout $2 with the plain compiler's, after the step $1,
# and says what the log has.
compared() {
    number=0
    for file in "$room/plain_$2"/*.[od]; do
        [ "${file%.d}" != "$file" ] || number=$((number + 1))
        cmp -s "$file" "$room/$2/src/${file##*/}" || fault "$1: ${file##*/} differs"
    done
    hits=$(grep -c '^cckcc: hit' "$room/log_$2" || :)
    misses=$(grep -c '^cckcc: look: miss' "$room/log_$2" || :)
    texts=$(grep -c '^cckcc: hit.*by its text' "$room/log_$2" || :)
    failures=$(grep -c '^cckcc: server: .* failed' "$room/log_$2" || :)
    damaged=$(grep -c '^cckcc: server: .* damaged' "$room/log_$2" || :)
    compiled=$((number - hits))
    echo "$1: $number objects, $hits hits, of which $texts by their text, $compiled compiled;" \
        "$failures requests failed, $damaged values damaged"
}

# Builds the checkout $2 for the step $1. There are $3 hits, and $4 objects that were compiled, or any where
# it is `-`.
built() {
    : >"$room/log_$2"
    case ${5-} in
    home=*) home=${5#home=} ;;
    *) home= ;;
    esac
    build "$2" 2>"$room/stderr" || fault "$1: the build failed"
    home=
    compared "$1" "$2"
    [ "$3" = - ] || [ "$hits" = "$3" ] || fault "$1: not $3 hits"
    [ "$4" = - ] || [ "$compiled" = "$4" ] || fault "$1: not $4 compilations"
}

# Compiles in the directory $2 of the checkout $1 by gcc and by the wrapper with these arguments, for the step
# $label, and compares the objects, the dependency files x.d, if there are any, and the messages.
compile_in() {
    checkout=$1 directory=$2
    shift 2
    for argument; do
        shift
        case $argument in
        second=*) continue ;;
        esac
        set -- "$@" "$(printf '%s' "$argument" | sed "s|BASE|$room/up/$checkout|g; s|UP|$room/up|g")"
    done
    : >"$room/log_in"
    (
        cd "$room/up/$checkout/$directory"
        rm -f x.d "$room/plain.d" "$room/got.d"
        gcc "$@" -o "$room/plain.o" 2>"$room/plain_messages"
        [ ! -e x.d ] || mv x.d "$room/plain.d"
        CCK_STORE=redis://127.0.0.1:$port/$database CCK_BASEDIR=$room/up/$checkout CCK_LOG=$room/log_in \
            HOME=$room/home_in cckcc gcc "$@" -o "$room/got.o" 2>"$room/got_messages"
        [ ! -e x.d ] || mv x.d "$room/got.d"
    ) || fault "$label: a compilation failed"
    cmp -s "$room/plain.o" "$room/got.o" || fault "$label: the object differs"
    [ ! -e "$room/plain.d" ] || cmp -s "$room/plain.d" "$room/got.d" || fault "$label: the dependency file differs"
    cmp -s "$room/plain_messages" "$room/got_messages" || fault "$label: other messages"
}

# Whether two checkouts share the object of a compilation with these arguments: $1 is `yes` or `no`.
shared() {
    wanted=$1 label=$2
    shift 2
    second=src
    for argument; do
        case $argument in
        second=*) second=${argument#second=} ;;
        esac
    done
    compile_in a src "$@"
    compile_in b "$second" "$@"
    got=no
    ! grep -q '^cckcc: hit.*by its text' "$room/log_in" || got=yes
    echo "two checkouts, $label: shared: $got"
    [ $got = "$wanted" ] || fault "$label: shared: $got"
}
