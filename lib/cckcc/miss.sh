# What bin/cckcc does with a call that is no hit: a compilation that is recorded, a call that is not cached, the first call
# of a compiler, and a call by a server that the program can't ask itself. bin/cckcc sources this script, and has set
# `cck_compiler`, `cck_program`, `cck_store`, `cck_server`, the address of a server or nothing, with what lib/cckcc/server.sh
# sets, `cck_digests`, the directory of the compilers' digests or nothing, `cck_color`, which is an option of the compiler
# or nothing, and `cck_found`, what the program printed of the call, if it was called. The words are the compiler's
# arguments. A compiler is asked for its programs by programs.sh, and the preprocessed text is made and judged by text.sh.

# Appends a line to the log. A limit of the size of files ends no call: the signal is left to the compiler.
log() { [ -z "$CCK_LOG" ] || (trap '' XFSZ; echo "cckcc: $*" >> "$CCK_LOG") 2>/dev/null; }

# Appends a line to the log, and writes it to standard error for who looks for a fault.
note() {
    log "$*"
    [ -z "$CCK_DEBUG" ] || echo "cckcc: $*" >&2
}

# An empty file is made by `true > FILE`: the command `:` ends the shell where it can't be made.

# Sets the umask for files of a directory that users share: that of CCK_UMASK, or the caller's without the bits of the group
# where the directory has the set-group-ID bit and its group may write. It fails where the directory is not shared. It is
# for a shell that writes no output of the call.
share() {
    case $CCK_UMASK in
    [0-7]|[0-7][0-7]|[0-7][0-7][0-7]|0[0-7][0-7][0-7]) umask "$CCK_UMASK" ;;
    *) [ -g "$cck_store" ] && [ -n "$(find "$cck_store" -prune -perm -2020)" ] && umask g=rwx ;;
    esac
}

# Counts an event of the name $1, as cck_cache does.
count() {
    (trap '' XFSZ; share; [ -d "$cck_store/counts" ] || mkdir -p "$cck_store/counts"; printf . >> "$cck_store/counts/$1") 2>/dev/null
}

# Whether a link on the way to a path leads to nothing. Where links go round in a circle a compiler looks for a program no
# further, and a shell does.
leads_nowhere() {
    cck_next=$1
    while [ -n "$cck_next" ]; do
        if [ -h "$cck_next" ] && ! [ -e "$cck_next" ]; then return 0; fi
        cck_next=${cck_next%/*}
    done
    return 1
}

# Sets `cck_located` to the absolute path of a program, as the shell finds it, or to nothing. It starts no process.
# The program does the same (crates/cck_cache_files/src/programs.rt). Where it is not known which one a compiler finds
# `cck_doubtful` is set.
locate() {
    cck_directories=$PATH:
    while [ -n "$cck_directories" ]; do
        cck_directory=${cck_directories%%:*}
        case $1 in
        */*) cck_located=$1 cck_directories= ;;
        *) cck_located=${cck_directory:-.}/$1 cck_directories=${cck_directories#*:} ;;
        esac
        case $cck_located in
        /*) ;;
        *) cck_located=$PWD/$cck_located ;;
        esac
        if [ -f "$cck_located" ] && [ -x "$cck_located" ]; then return; fi
        if ! [ -e "$cck_located" ] && leads_nowhere "$cck_located"; then cck_doubtful=1; fi
    done
    cck_located=
}

# Whether the tools are there that decide what is recorded. It starts no process, but where the shell is bash.
has_tools() {
    set -- awk cat cksum cmp cp grep head ldd mkdir mktemp mv readlink rm sed sha256sum stat touch ${cck_server:+mkfifo}
    for cck_tool do
        command -v "$cck_tool" > /dev/null || return 1
    done
    [ -n "$BASH_VERSION" ] || return 0
    # Bash takes functions from the environment, also one that is named as a program or a command of the shell.
    cck_exported=$(declare -F -x 2> /dev/null)$cck_newline
    for cck_tool in "$cck_compiler" "$cck_program" "$@" command echo find printf read test wait; do
        case $cck_exported in
        *" $cck_tool$cck_newline"*) return 1 ;;
        esac
    done
}

# Where a directory keeps objects.
cck_keeps=1 cck_failed=
if [ -n "$cck_server" ]; then
    cck_keeps=$CCK_DIR
    if find_script client.sh; then
        . "$cck_script"
        [ -z "$cck_slow" ] || fail_slow
    else
        cck_unusable=script cck_why="can't read client.sh"
    fi
fi

# Why the call is not cached, whatever the program says of it. A reason is a word under which it is counted.
cck_reason=
# A stream that is closed stays closed for the compiler, whose files may take its number.
{ { true 3>&1; } 2>/dev/null && true 3>&2; } || cck_reason=stream
command -v "$cck_program" > /dev/null || cck_reason=no-program
has_tools || cck_reason=no-tool
[ -z "$cck_has_specs${GLIBC_TUNABLES+set}" ] || cck_reason=variable
# The list of directories that the compiler prints has one in each line.
case $CPATH$C_INCLUDE_PATH$CPLUS_INCLUDE_PATH in
*"$cck_newline"*) cck_reason=variable ;;
esac
cck_doubtful=
locate as
cck_assembler=$cck_located
locate "$cck_compiler"
[ -z "$cck_doubtful" ] || cck_reason=variable
# A shell reads options after this sign (crates/cck_cache/src/environment.rt tests none that is not UTF-8).
case $PATH in
*%*) cck_reason=variable ;;
esac
[ -n "$cck_located" ] || cck_reason=no-compiler
# Files that the caller's mask closes for the caller can't be read again.
case $(umask) in
0??|?0??) ;;
*) cck_reason=no-scratch ;;
esac
# Without the server the call goes on by the directory that keeps objects, if there is one.
if [ -n "$cck_unusable" ]; then
    note "server: not asked: $cck_why"
    count "server-$cck_unusable"
    cck_server=
    [ -n "$cck_keeps" ] || cck_reason=$cck_unusable
fi
if [ -n "$cck_reason" ]; then
    log "passed on ($cck_reason): $*"
    count "passed-$cck_reason"
    if [ "$cck_reason" = no-compiler ] && [ ! -e "$cck_compiler" ]; then
        echo "cckcc: there is no compiler $cck_compiler" >&2
        exit 127
    fi
    exec "$cck_compiler" "$@"
fi

# Calls the compiler for a call that is not cached, as it came, and ends. After an error the programs are asked
# for again, for one of them may be gone.
pass_on() {
    while [ "$1" != -- ]; do shift; done
    shift
    [ -z "$cck_color" ] || shift
    cck_found=${cck_found%%"$cck_newline"*}
    case $cck_found in
    passed\ compiler) log "passed on (compiler): $cck_compiler $*" ;;
    *) log "passed on (${cck_found#passed }): $*" ;;
    esac
    case $cck_found in
    none*) ;;
    passed*) count "passed-${cck_found#passed }" ;;
    no\ scratch) count passed-no-scratch ;;
    *) count passed-error; name_list; rm -f "$cck_list" 2>/dev/null ;;
    esac
    [ -z "$cck_scratch" ] || rm -rf "$cck_scratch"
    exec "$cck_compiler" "$@"
}

# A new directory for files, whose path has no space: a compiler takes what is after one for a target
# (SUNPRO_DEPENDENCIES). It is absolute: awk takes other names of files with `=` for variables. The shell of this function
# becomes the program that makes it.
make_directory() {
    case $TMPDIR in
    *[[:space:]]*|[!/]*) exec mktemp -d /tmp/cckcc.XXXXXX 2>/dev/null ;;
    *) exec mktemp -d "${TMPDIR:-/tmp}/cckcc.XXXXXX" 2>/dev/null ;;
    esac
}

# A directory for the files of this call.
make_scratch() {
    [ -z "$cck_scratch" ] || return 0
    cck_scratch=$(make_directory) || return 1
    trap 'rm -rf "$cck_scratch"' EXIT
    for cck_signal in HUP INT PIPE QUIT TERM; do trap "end_by $cck_signal" $cck_signal; done
}

# Ends by a signal, as the compiler does. A preprocessor in the background ignores that of the terminal.
end_by() {
    trap - EXIT "$1"
    for cck_next in $cck_text $cck_talker; do kill "$cck_next" 2>/dev/null; done
    rm -rf "$cck_scratch"
    kill -"$1" $$
}

# The programs that a compilation runs, and what they load, are kept in a list in the store, for each compiler, PATH and
# what is found in it, and variables of libraries. The program reads it, and tests whether it counts
# (crates/cck_cache_files/src/programs.rt). It has the lines of the context, the file that the compiler is, which a link
# leads to, the paths on which this depends, the programs, or `-` if the compiler is not known, and what the system says of
# these paths: that of another machine says something else.
cck_context=$cck_located$cck_newline$cck_assembler$cck_newline$PATH$cck_newline
cck_context=$cck_context$LD_LIBRARY_PATH$cck_newline$LD_PRELOAD$cck_newline

# Sets `cck_list` to the path of the list, whose name has the length of the context in bytes.
name_list() { cck_list=$cck_store/compilers/${cck_compiler##*/}-$(LC_ALL=C; echo ${#cck_context}); }

# Sets the fields of the line `miss PKEY STAMP [object NAME]` that `look` printed.
fields() {
    cck_key=$2 cck_since=$3 cck_object=
    [ "$4" != object ] || cck_object=$5
}

# Sets the paths of a call, the programs that it runs, and how the text shows macros: all (-dD), or those that are used
# (-dU).
paths() { cck_input=$1 cck_out=$2 cck_dependencies=$3 cck_programs=$4 cck_macros=$5; }

# Whether the compiler of these programs is clang.
is_clang() {
    cck_next=${cck_programs#*:}
    case ${cck_next%%:*} in
    */clang|*/clang++) return 0 ;;
    esac
    return 1
}

# Divides what `look` printed: a line with the answer, one for `paths`, and one with the arguments of
# the preprocessor. The last two are quoted for a shell.
divide() {
    cck_preprocessed=${cck_found#*"$cck_newline"} cck_found=${cck_found%%"$cck_newline"*}
    eval "paths ${cck_preprocessed%%"$cck_newline"*}"
    cck_preprocessed=${cck_preprocessed#*"$cck_newline"}
    # clang shows all macros or none.
    ! is_clang || cck_macros=-dD
}

# Whether clang, called with these words, is to list the headers that it enters: its dependency file also has those that it did
# not open again. With -MMD the list would add system headers to that file.
lists_headers() {
    is_clang || return 1
    case " $* " in
    *' -MMD '*) return 1 ;;
    esac
}

# Becomes the compiler on the compiler's words of a call, and has the assembler say what it reads, and the compiler
# what it opens, unless its dependency file does. In clang the assembler is a part of the compiler, which says nothing of
# it: what is assembled is judged (`judge_text`).
compile() {
    while [ "$1" != -- ]; do shift; done
    shift
    if lists_headers "$@"; then
        export CC_PRINT_HEADERS=1 CC_PRINT_HEADERS_FILE="$cck_scratch/headers"
    elif ! is_clang; then
        set -- "$@" -Xassembler --MD -Xassembler "$cck_scratch/assembled"
        [ -n "$cck_dependencies" ] || export SUNPRO_DEPENDENCIES="$cck_scratch/opened"
    fi
    exec "$cck_compiler" "$@"
}

# Writes what clang opened, and what it assembled, as dependency files.
write_rules() {
    printf '%s\n' 'object: {standard\ input}' > "$cck_scratch/assembled"
    [ ! -e "$cck_scratch/headers" ] || LC_ALL=C awk '
        BEGIN { printf "object:" }
        { gsub(/[ #]/, "\\\\&"); gsub(/[$]/, "$$"); printf " %s", $0 }
        END { print "" }' "$cck_scratch/headers" > "$cck_scratch/opened"
}

# Sets `cck_place` to the directory of the store for a file of the kind $1 and the key $2.
find_place() { cck_place=$cck_store/$1/${2%"${2#??}"}; }

# Keeps the file $3 in the directory, under the kind $1 and the key $2.
keep() {
    [ -n "$cck_keeps" ] || return 0
    find_place "$1" "$2"
    (share; mkdir -p "$cck_place" && { cp "$3" "$cck_place/$2.new$$" && mv "$cck_place/$2.new$$" "$cck_place/$2" ||
        rm -f "$cck_place/$2.new$$"; }) 2>/dev/null
}

# Records what was made of the text. The words are options of `record`, and those of the request. The shell of this function
# becomes the program. A look-up, which writes outputs too, has the caller's umask: others may use what it made in a
# directory that is shared from here on, as far as the umask lets them.
record() {
    if share 2>/dev/null; then
        find "$cck_store" -maxdepth 2 ! -perm -060 -exec chmod +rwX {} + 2>/dev/null
    fi
    exec "$cck_program" record "$cck_store" --since="$cck_since" --preprocessor-key="$cck_key" \
        --search="$cck_scratch/text-search" "$@" 2>/dev/null < "$cck_scratch/text"
}

# Keeps what was recorded with a server, and puts it there: the entry only once the object is there.
send() {
    keep objects "$cck_object" "$cck_scratch/packed"
    keep entries "$cck_key" "$cck_scratch/entry"
    has_object "$cck_object" || put object "$cck_object" "$cck_scratch/packed" || return
    put entry "$cck_key" "$cck_scratch/entry"
}

# Takes the object of the text from the server, which the program asks, or a client where that can't or has no answer.
take_text_from_server() {
    is_up || return 1
    cck_found=
    set -- --name="$cck_object" --out="$cck_out" ${cck_dependencies:+--dependencies="$cck_dependencies"}
    if is_plain; then ask_server unpack "$@"; fi
    if [ -n "$cck_slow" ]; then
        fail_slow
        return 1
    fi
    case $cck_found in
    unpacked*|absent*|damaged*|forged*) ;;
    *)
        converse unpack "$cck_store" --server="$cck_mode" ${CCK_VERIFY_KEY:+--verify-key="$CCK_VERIFY_KEY"} "$@"
        ;;
    esac
    case $cck_found in
    unpacked*) ;;
    *) note_unused $cck_found; return 1 ;;
    esac
    keep entries "$cck_key" "$cck_scratch/entry"
    put entry "$cck_key" "$cck_scratch/entry"
    count server-hit-text
}

# Takes the object of the text, which other arguments or base directories share, from the directory. The words are those
# of `record`.
take_text_from_directory() {
    find_place objects "$cck_object"
    [ -e "$cck_place/$cck_object" ] || return 1
    case $("$cck_program" unpack "$cck_store" --name="$cck_object" --packed="$cck_place/$cck_object" --out="$cck_out" \
        ${cck_dependencies:+--dependencies="$cck_dependencies"}) in
    unpacked*) ;;
    *) note "the object $cck_object is damaged"; return 1 ;;
    esac
    cck_found=$(record "$@")
    count hit-text
}

# Looks for the object of the text, and ends if it is there. The object's name depends on the entry, so this is made
# first, and kept only where the object is there.
look_for_text() {
    cck_found=$(record --entry-out="$cck_scratch/entry" "$@")
    case $cck_found in
    recorded*) cck_object=${cck_found#recorded } ;;
    *) return 1 ;;
    esac
    if [ -n "$cck_server" ]; then
        take_text_from_server || return 1
    else
        take_text_from_directory "$@" || return 1
    fi
    log "hit $cck_object $cck_input, by its text"
    exit 0
}

# Whether the object of the text may be that of another directory. Where the call names directories of system headers,
# gcc may name a header by its real path, if that is shorter, so that two directories differ.
shares_text() {
    [ -z "$C_INCLUDE_PATH$CPLUS_INCLUDE_PATH" ] || return 1
    case $cck_preprocessed in
    *-isystem*|*-idirafter*|*-isysroot*|*--sysroot*) return 1 ;;
    esac
}

# Sets `cck_seen` to the path of a file with marks of recorded calls: a line for each, with the sums of the call and of its
# input, how the text showed macros and, in the directory, the preprocessor key. There it is for inputs of this name and, with
# a base directory, also of another directory. A server has marks by these sums.
name_mark() {
    cck_seen=
    [ -z "$cck_server$CCK_BASEDIR" ] || shares_text || return 0
    if [ -n "$cck_server" ]; then
        cck_seen=$cck_scratch/marks
        return
    fi
    case $cck_input in
    /*) cck_above=${cck_input%/*} ;;
    */*) cck_above=$PWD/${cck_input%/*} ;;
    *) cck_above=$PWD ;;
    esac
    [ -z "$CCK_BASEDIR" ] || cck_above=${cck_above#"$CCK_BASEDIR"}
    cck_seen=$cck_store/inputs/${cck_above##*/}-${cck_input##*/}
}

# Writes the sums of a call, the words of which these are, and of its input. The name of an object does not depend on
# definitions, for which the text stands, nor on the paths of outputs; of what maps prefixes each directory has its own.
sum_call() {
    while [ "$1" != -- ]; do shift; done
    shift
    cck_counted=${PWD#"$CCK_BASEDIR"}$cck_newline$cck_programs cck_is_value=
    for cck_argument do
        case $cck_is_value:$cck_argument in
        1:*|:-c) cck_is_value= ;;
        :-[DUo]|:-MF) cck_is_value=1 ;;
        :-[DUo]*|:-MF*|:-f*-prefix-map=*) ;;
        *) cck_counted=$cck_counted$cck_newline$cck_argument ;;
        esac
    done
    cksum -- - "$cck_input" > "$cck_scratch/sum" 2>/dev/null <<END
$cck_counted
END
}

# Sets `cck_sum` to both sums, each with the number of bytes. It fails where there are not both.
read_sum() {
    { read -r cck_sum cck_size cck_next && read -r cck_input_sum cck_input_size cck_next; } < "$cck_scratch/sum" || return
    cck_sum=$cck_sum-$cck_size-$cck_input_sum-$cck_input_size
} 2>/dev/null

# Whether the store may have the object of the text, by the marks of calls with the same sums, which are `cck_marks`. Where the
# call has an entry in the directory, a header has changed, and with it the name of the object, but for what another
# directory has: then marks of the same key do not count. The words are those of the call.
may_have_text() {
    [ -n "$cck_seen" ] || return 1
    cck_without='no key'
    if [ -z "$cck_server" ]; then
        [ -e "$cck_seen" ] || return 1
        find_place entries "$cck_key"
        if [ -e "$cck_place/$cck_key" ]; then
            [ -n "$CCK_BASEDIR" ] || return 1
            cck_without=$cck_key
        fi
    fi
    sum_call "$@" && read_sum || return
    [ -z "$cck_server" ] || get mark "$cck_sum" "$cck_seen" || return
    cck_marks=$(grep -F -e "$cck_sum " "$cck_seen" 2>/dev/null | grep -v -e "$cck_without")
}

# Whether the store may have an object of a text that shows macros by the option $1.
is_marked() {
    case $cck_marks in
    *" $1"*) return 0 ;;
    esac
    return 1
}

# Marks this call, before the last 15 others.
write_mark() {
    [ -n "$cck_seen" ] && read_sum || return 0
    cck_next="$cck_sum ${cck_macros%% *}"
    [ -n "$cck_server" ] || cck_next="$cck_next $cck_key"
    cck_marks=$cck_next cck_number=1
    [ ! -e "$cck_seen" ] || while [ $cck_number -lt 16 ] && IFS= read -r cck_line; do
        [ "$cck_line" != "$cck_next" ] || continue
        cck_marks=$cck_marks$cck_newline$cck_line cck_number=$((cck_number + 1))
    done < "$cck_seen"
    if [ -n "$cck_server" ]; then
        printf '%s\n' "$cck_marks" > "$cck_seen" && put_mark "$cck_sum" "$cck_seen"
        return
    fi
    (share; [ -d "$cck_store/inputs" ] || mkdir -p "$cck_store/inputs"; printf '%s\n' "$cck_marks" > "$cck_seen") 2>/dev/null
}

# Has the program look for the call's object.
look_up() {
    if [ -n "$cck_server" ]; then
        converse look "$cck_store" --server="$cck_mode" ${CCK_VERIFY_KEY:+--verify-key="$CCK_VERIFY_KEY"} "$@"
    else
        cck_found=$("$cck_program" look "$cck_store" "$@")
    fi
}

# From here on the words are those of a call for cck_cache. The first one says which programs the compiler runs.
set -- --directory="$PWD" -- $cck_color "$@"
[ -z "$CCK_BASEDIR" ] || set -- --base="$CCK_BASEDIR" "$@"
[ -z "$cck_digests" ] || set -- --digests="$cck_digests" "$@"
set -- --driver="$cck_compiler" "$@"
cck_scratch= cck_text= cck_talker=
if [ -n "$cck_server" ]; then make_scratch || { cck_found='no scratch'; pass_on "$@"; }; fi
[ -n "$cck_found" ] || look_up "$@"
case $cck_found in
'passed programs-unknown')
    { find_script programs.sh && . "$cck_script"; } || { cck_found='passed no-tool'; pass_on "$@"; }
    find_programs || { cck_found='passed no-scratch'; pass_on "$@"; }
    [ "$cck_programs" != - ] || { cck_found='passed compiler'; pass_on "$@"; }
    shift
    set -- --compiler="$cck_programs" "$@"
    look_up "$@"
    ;;
'passed variable'|'passed compiler') pass_on "$@" ;;
esac
case $cck_found in
hit*) log "${cck_found%%"$cck_newline"*}"; exit 0 ;;
miss*"$cck_newline"*"$cck_newline"*) divide; fields $cck_found ;;
*) pass_on "$@" ;;
esac
# A call has the programs of its look-up, also if the store has another list by now.
shift
set -- --compiler="$cck_programs" "$@"
[ -z "$cck_server" ] || note_unused $cck_found
log "look: $cck_found $cck_input"
# With a log, what keeps an entry of the directory from matching.
if [ -n "$CCK_LOG" ] && [ -n "$cck_keeps" ]; then
    "$cck_program" why "$cck_store" "$@" | while IFS= read -r cck_line; do
        case $cck_line in
        preprocessor-key*|result*) ;;
        *) log "why $cck_input: $cck_line" ;;
        esac
    done
fi

# Whether the input is assembler code that is preprocessed.
is_assembler() {
    case $cck_input in
    *?.S|*?.sx) return 0 ;;
    esac
    return 1
}

# Whether the input is in C++, by the compiler or by its name.
is_cplusplus() {
    ! is_assembler || return 1
    cck_next=${cck_programs#*:}
    case ${cck_next%%:*} in
    */cc1plus|*/clang++) return 0 ;;
    esac
    case $cck_input in
    *?.cc|*?.cp|*?.cxx|*?.cpp|*?.CPP|*?.c++|*?.C) return 0 ;;
    esac
    return 1
}

# Whether the program for the language of the input is among those that count. A compiler may find one by PATH alone, and that
# for C, which preprocesses assembler code, is not among those of a compiler for C++.
has_proper() {
    if is_assembler; then
        cck_next=${cck_programs#*:}
        case ${cck_next%%:*} in
        */cc1) return 0 ;;
        esac
        return 1
    fi
    if is_clang || ! is_cplusplus; then return; fi
    case $cck_programs: in
    *:/*/cc1plus:*) ;;
    *) return 1 ;;
    esac
}

# Whether no line of these files matches the pattern $1. It fails too where one can't be read.
lacks() {
    cck_pattern=$1
    shift
    grep -q -- "$cck_pattern" "$@" 2>/dev/null
    [ $? -eq 1 ]
}

# Holds the object that is there, so that no other file takes its place on the disk. A descriptor of the caller stays: then
# the object is not held, and nothing is recorded.
hold_object() {
    cck_held=
    [ -f "$cck_out" ] || return
    cck_held=unread
    [ ! -e /proc/self/fd/7 ] || return
    { command exec 7< "$cck_out"; } 2>/dev/null && cck_held=1
}

# Runs the compiler without the descriptor of what is held, and keeps what it prints. What the shell says of it is apart.
compile_anew() {
    (
        [ "$cck_held" != 1 ] || exec 7<&-
        compile "$@"
    ) > "$cck_scratch/output" 2> "$cck_scratch/messages"
}

# Whether the compiler made an object: each makes it anew, so one that was there, and still is, is of another call.
made_object() {
    case $cck_held in
    '') ;;
    1) ! [ "$cck_out" -ef /proc/self/fd/7 ] ;;
    *) return 1 ;;
    esac
}

# Whether the dependency file may be that of this call, and not of another one that ran at the same time: its first target has
# the name of the object, where no argument names one.
has_target() {
    [ -n "$cck_dependencies" ] || return 0
    case " $* " in
    *' -M'[QT]*|*' -Wp,'*) return 0 ;;
    esac
    case $cck_out in
    *[!A-Za-z0-9_./+-]*) return 0 ;;
    esac
    IFS= read -r cck_line 2>/dev/null < "$cck_dependencies"
    case $cck_line in
    "${cck_out##*/}:"*|*/"${cck_out##*/}:"*) ;;
    *) return 1 ;;
    esac
}

# Whether the object has no code for another device: sections for one have random names.
has_plain_names() {
    case " $* " in
    *' -fopenmp '*|*' -fopenacc '*) lacks '\.gnu\.offload_lto_' "$cck_out" ;;
    esac
}

# Whether the assembler says that it read nothing but assembler code that was preprocessed, by its list: a word that ends in a
# colon is the object.
reads_preprocessed_alone() {
    LC_ALL=C awk '
        { for (i = 1; i <= NF; i++) if ($i !~ /:$|^\\$|\/cc[A-Za-z0-9][A-Za-z0-9][A-Za-z0-9][A-Za-z0-9][A-Za-z0-9][A-Za-z0-9]\.s$/) others = 1 }
        END { exit others || !NR }' "$cck_scratch/assembled"
}

# Whether the compilation had room for its temporary files: no message names one, and there still is room.
has_room() {
    trap '' XFSZ
    { printf x > "$cck_scratch/room"; } 2>/dev/null
    cck_written=$?
    trap - XFSZ
    [ $cck_written -eq 0 ] || return 1
    [ ! -s "$cck_scratch/messages" ] || lacks "$cck_scratch/" "$cck_scratch/messages"
}

# Prints a file, if it has anything.
show() { [ ! -s "$1" ] || cat "$1" 2>/dev/null; }

# Whether what the arguments include are regular files: a pipe can't be read by two.
includes_files() {
    while [ $# -gt 0 ]; do
        cck_included=
        case $1 in
        -include|-imacros) cck_included=$2 ;;
        -include?*) cck_included=${1#-include} ;;
        -imacros?*) cck_included=${1#-imacros} ;;
        esac
        if [ -e "$cck_included" ] && ! [ -f "$cck_included" ]; then return 1; fi
        shift
    done
}

eval "includes_files $cck_preprocessed" || { cck_found='passed pipe'; pass_on "$@"; }
has_proper || { cck_found='passed compiler'; pass_on "$@"; }
make_scratch || { cck_found='no scratch'; pass_on "$@"; }
# With a server, what is recorded is first in the scratch directory.
cck_entry_out=
[ -z "$cck_server" ] || cck_entry_out=$cck_scratch/entry
{ find_script text.sh && . "$cck_script"; } || { cck_found='passed no-tool'; pass_on "$@"; }
# The preprocessor runs beside the compiler, unless the object of its text may be there.
name_mark
if may_have_text "$@"; then
    write_text "$@" 2>/dev/null
    find_text "$@"
else
    write_text "$@" 2>/dev/null &
    cck_text=$!
fi
hold_object
# The shell says that a program was killed, but for two signals. Without that the compiler ended itself with this status, as
# clang does after a crash.
{ compile_anew "$@" 2> "$cck_scratch/killed"; } 2>/dev/null
cck_status=$? cck_signal=
if [ $cck_status -gt 128 ] && [ -s "$cck_scratch/killed" ]; then cck_signal=$(kill -l $cck_status 2>/dev/null); fi
# Where there was none the compiler runs again, as the call came: messages may be lost. So it does where they can't be written,
# since a compiler may end by that. The assembler writes standard output at its end.
if ! has_room || ! show "$cck_scratch/messages" >&2 || ! show "$cck_scratch/output"; then
    wait
    cck_found='no scratch'
    pass_on "$@"
fi
wait
cck_text=
cck_refused=
[ -e "$cck_scratch/failed" ] || { read -r cck_refused && read -r cck_macros; } 2> /dev/null < "$cck_scratch/refused" ||
    cck_refused=other-file
if [ -s "$cck_scratch/messages" ] && [ "$cck_status:$cck_refused:$cck_macros" = 0::-dU ]; then
    take_all_macros "$@" 2>/dev/null
fi
# What an assembler prints there is not kept, nor a message that names a temporary file.
[ ! -s "$cck_scratch/output" ] || cck_refused=output
made_object && has_target "$@" || cck_refused=output
if [ -s "$cck_scratch/messages" ] && ! lacks '/cc[A-Za-z0-9]\{6\}\.s' "$cck_scratch/messages"; then
    cck_refused=temporary-name
fi
has_plain_names "$@" || cck_refused=offload
# The assembler may have included a file of the name that it has for its input.
[ ! -e '{standard input}' ] || cck_refused=assembler-include
# Assembler code can include its own file, and its object can name the preprocessed one, as with STABS.
if is_assembler; then
    lacks '/cc[A-Za-z0-9]\{6\}\.s' "$cck_out" || cck_refused=temporary-name
    # Debug information may have the name, without line markers, and does not show it where it is compressed.
    case " $* " in *' -P '*|*' -gz'*) cck_refused=temporary-name ;; esac
    reads_preprocessed_alone 2>/dev/null || cck_refused=assembler-include
fi
if [ $cck_status -ne 0 ] || [ -e "$cck_scratch/failed" ]; then
    log "not recorded (status $cck_status): $cck_input"
    count not-recorded-status
    [ -z "$cck_signal" ] || end_by "$cck_signal"
    exit $cck_status
fi
if [ -n "$cck_refused" ]; then
    log "refused-$cck_refused $cck_input"
    count "refused-$cck_refused"
    exit 0
fi
cck_opened=$cck_scratch/opened
! is_clang || write_rules
if [ -n "$cck_dependencies" ] && ! lists_headers "$@"; then cck_opened=; fi
cck_found=$(record --compiled="$cck_out" --messages="$cck_scratch/messages" --assembled="$cck_scratch/assembled" \
    ${cck_dependencies:+--dependencies="$cck_dependencies"} ${cck_opened:+--opened="$cck_opened"} \
    ${cck_entry_out:+--entry-out="$cck_entry_out" --packed-out="$cck_scratch/packed"} "$@")
log "$cck_found $cck_input"
case $cck_found in
recorded*)
    cck_object=${cck_found#recorded }
    [ -z "$cck_server" ] || send || exit 0
    write_mark
    ;;
refused*) ;;
*) count record-error ;;
esac
exit 0
