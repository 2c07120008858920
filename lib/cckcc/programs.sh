# Which programs a compiler runs, asked of the compiler itself: lib/cckcc/miss.sh sources this script for the first call of a
# compiler, and where the list that the store has does not count any more. It has set `cck_compiler`, `cck_located`, its path,
# `cck_assembler`, that of an assembler in PATH, and `cck_context`, on which the list depends.

# Whether an assembler says what it read, tried in a directory.
says_what_it_read() {
    "$1" --MD "$2/read" -o "$2/object" /dev/null 2>/dev/null && [ -s "$2/read" ]
}

# Whether the table of options is the compiler's: it is gcc 12. A script, or a program of another name that links lead to,
# as ccache, may call a compiler with more options, or keep objects itself.
is_known() {
    case ${cck_driver##*/} in
    *gcc*|*g++*) ;;
    *) return 1 ;;
    esac
    case $("$cck_compiler" -dumpversion 2>/dev/null) in
    12|12.*) ;;
    *) return 1 ;;
    esac
    case $cck_proper in
    /*) head -c 4 "$cck_driver" | grep -q ELF ;;
    *) return 1 ;;
    esac
}

# Whether clang finds no installation of gcc below a directory, and a new one there changes the status of a directory that is
# tested: none is there, and no link to nothing is in the place of a directory of libraries. Below /usr there may be one.
has_no_installation() {
    [ "$1" -ef /usr ] && return
    for cck_next in "$1"/lib "$1"/lib32 "$1"/lib64 "$1"/libx32 "$1"/lib*/gcc "$1"/lib*/gcc-cross; do
        if [ -h "$cck_next" ] && ! [ -e "$cck_next" ]; then return 1; fi
        case $cck_next in
        */gcc|*/gcc-cross) [ ! -e "$cck_next" ] || return 1 ;;
        esac
    done
}

# Whether clang has one directory of headers of its own, beside the directory $1 of its program.
has_headers() {
    set -- "$1"/../lib/clang/*/include
    [ $# -eq 1 ] && [ -d "$1" ]
}

# Sets `cck_installation` to a file of the installation of gcc whose headers and libraries clang takes. It fails where that is not
# one of the system by its own name.
find_installation() {
    case :$PATH: in
    *::*) return 1 ;;
    esac
    has_no_installation "${cck_located%/*}/.." && has_no_installation "${cck_driver%/*}/.." && has_headers "${cck_driver%/*}" || return
    cck_next=$(LC_ALL=C "$cck_compiler" -v -E -x c /dev/null 2>&1 < /dev/null | sed -n 's/^Selected GCC installation: //p')
    cck_installation=$(readlink -f "$cck_next/crtbegin.o")
    [ "$cck_installation" = "/usr/lib/gcc/x86_64-linux-gnu/${cck_next##*/}/crtbegin.o" ] && [ -f "$cck_installation" ]
}

# The same of clang 14, which compiles and assembles in one process. By the name under which it is called it is a compiler
# for C or for C++, and `cck_proper` the program of that name beside it. It reads no configuration file, and takes headers of
# an installation of gcc, of which a file counts as a program.
knows_clang() {
    case ${cck_located##*/} in
    clang|clang-14|cc) cck_proper=${cck_driver%/*}/clang ;;
    clang++|clang++-14|c++) cck_proper=${cck_driver%/*}/clang++ ;;
    *) return 1 ;;
    esac
    cck_assembler= cck_plusplus=
    case $("$cck_compiler" -dumpversion 2>/dev/null) in
    14|14.*) ;;
    *) return 1 ;;
    esac
    find_installation || return
    for cck_next in paste sort xargs; do command -v "$cck_next" > /dev/null || return 1; done
    [ "$cck_proper" -ef "$cck_driver" ] && head -c 4 "$cck_driver" | grep -q ELF || return 1
    true > "$cck_tried/empty.c"
    case $(LC_ALL=C "$cck_compiler" '-###' -c "$cck_tried/empty.c" -o "$cck_tried/empty.o" 2>&1) in
    *'Configuration file'*) return 1 ;;
    *'(in-process)'*' "-cc1" '*) ;;
    *) return 1 ;;
    esac
    [ ! -e /opt/rh ] && [ ! -e /etc/env.d/gcc ] && has_plain_libraries
}

# Whether the libraries that the programs load are named by absolute paths, without a space or a variable of the linker.
# An empty element of LD_LIBRARY_PATH is the working directory.
has_plain_libraries() {
    case :$LD_PRELOAD in
    *[[:space:]\$]*|*:[!/:]*/*) return 1 ;;
    esac
    [ -n "$LD_LIBRARY_PATH" ] || return 0
    case :$LD_LIBRARY_PATH: in
    *[[:space:]\;\$]*|*:[!/]*) return 1 ;;
    esac
}

# Adds the libraries that the programs load to the programs, and the file that names some for all programs. It fails where
# they are not known.
add_loaded() {
    [ ! -e /etc/ld.so.preload ] || cck_programs=$cck_programs:/etc/ld.so.preload
    for cck_next in "$cck_driver" "$cck_proper" ${cck_assembler:+"$cck_assembler"} $cck_plusplus; do
        cck_loaded=$(LC_ALL=C ldd "$cck_next" 2>&1) || case $cck_loaded in
        *'not a dynamic executable'*) cck_loaded= ;;
        *) return 1 ;;
        esac
        # A library that is to be loaded into each program and can't be: each one says so.
        case $cck_loaded in
        *'ERROR: ld.so: '*) return 1 ;;
        esac
        cck_loaded=$(printf '%s\n' "$cck_loaded" | sed -n 's/^[[:space:]]\(.* => \)\{0,1\}\(\/[^ :]*\) (.*/\2/p') || return 1
        for cck_library in $cck_loaded; do
            case :$cck_programs: in
            *:"$cck_library":*) ;;
            *) cck_programs=$cck_programs:$cck_library ;;
            esac
        done
    done
}

# Whether the compiler reads a file of specs, in the directory of its version or in the one above it; or it does not say.
reads_specs() {
    cck_next=$("$cck_compiler" -print-file-name=specs 2>/dev/null) || return 0
    case $cck_next in
    /*) return 0 ;;
    esac
    for cck_next in "${cck_proper%/*}/specs" "${cck_proper%/*}/../specs"; do
        if [ -e "$cck_next" ] || [ -h "$cck_next" ]; then return 0; fi
    done
    return 1
}

# Adds a directory to those in which the compiler looks for programs, and the directory of each link on the way to it,
# which changes when that leads elsewhere.
add_searched() {
    case :$cck_searched: in
    *:"$1":*) return ;;
    esac
    cck_searched=$cck_searched:$1
    cck_next=$1
    while [ -n "$cck_next" ]; do
        cck_above=${cck_next%/*}
        if [ -h "$cck_next" ]; then add_searched "${cck_above:-/}"; cck_next=; else cck_next=$cck_above; fi
    done
}

# Adds the directories in which clang looks for installations of gcc, whose headers and libraries it takes, and those above
# them; and the files by which it knows the system, with their directory.
find_installations() {
    for cck_top in "${cck_located%/*}/.." "${cck_driver%/*}/.." /usr; do
        for cck_next in "$cck_top" "$cck_top"/lib "$cck_top"/lib32 "$cck_top"/lib64 "$cck_top"/lib*/gcc "$cck_top"/lib*/gcc-cross \
            "$cck_top"/lib*/gcc*/* "$cck_top"/lib*/gcc*/*/*; do
            [ ! -d "$cck_next/." ] || add_searched "$cck_next"
        done
    done
    add_searched /opt
    add_searched /etc
    for cck_next in /etc/*-release /usr/lib/os-release /etc/*_version; do
        [ ! -e "$cck_next" ] || cck_searched=$cck_searched:$cck_next
    done
}

# Whether there is something at the path of a program that may not be executed, or a link on the way to it leads to nothing.
# Either may become the program that a compiler runs, and no directory that is tested changes then.
may_become_program() {
    if [ -f "$1" ] && [ -x "$1" ]; then return 1; fi
    [ -e "$1" ] || leads_nowhere "$1"
}

# Whether all users may execute these programs and search these directories, if users share the store.
are_for_all() {
    [ -z "$CCK_UMASK" ] && ! [ -g "$cck_store" ] || [ -z "$(find -L "$@" -prune ! -perm -0111 2>&1)" ]
}

# Sets `cck_searched` to the directories in which the compiler looks for programs, with colons between them. One that is
# not there is named by the one above it, which changes when it comes. It fails where they are not known, or something in
# them may become a program.
find_searched() {
    cck_searched=${cck_proper%/*}
    cck_directories=$("$cck_compiler" -print-search-dirs 2>/dev/null | sed -n 's/^programs: =//p')
    [ -n "$cck_directories" ] || return 1
    cck_directories=$cck_directories:
    while [ -n "$cck_directories" ]; do
        cck_directory=${cck_directories%%:*} cck_directories=${cck_directories#*:}
        case $cck_directory in
        /*) ;;
        *) cck_directory=$PWD/$cck_directory ;;
        esac
        for cck_name in as cc1 cc1plus; do
            ! may_become_program "${cck_directory%/}/$cck_name" || return
        done
        [ ! -d "$cck_directory/." ] || are_for_all "$cck_directory" || return
        while [ -n "$cck_directory" ] && ! [ -d "$cck_directory/." ]; do
            case $cck_directory in
            */) cck_directory=${cck_directory%/} ;;
            */*) cck_directory=${cck_directory%/*} ;;
            *) cck_directory= ;;
            esac
        done
        add_searched "${cck_directory:-/}"
    done
    ! is_clang || find_installations
}

# Sets `cck_proper` to the program that makes assembler code of a source in C, which is that for C++ if the compiler takes the
# source for one in C++, and `cck_plusplus` to that for C++, or to nothing if there is none.
find_proper() {
    cck_proper=$("$cck_compiler" -print-prog-name=cc1 2>/dev/null)
    cck_plusplus=$("$cck_compiler" -print-prog-name=cc1plus 2>/dev/null)
    true > "$cck_tried/empty.c"
    case $(LC_ALL=C "$cck_compiler" '-###' -c "$cck_tried/empty.c" -o "$cck_tried/empty.o" 2>&1) in
    *" $cck_plusplus "*) cck_proper=$cck_plusplus ;;
    *" $cck_proper "*) ;;
    *) cck_proper= ;;
    esac
    case $cck_plusplus in
    *[!A-Za-z0-9_/.+-]*) cck_proper= ;;
    /*) ;;
    *) cck_plusplus= ;;
    esac
}

# Prints a line of what the system says of each of the paths `cck_tested` at which there is something, as the program does:
# device, inode, size and both times, the nanoseconds without zeros in front.
list_statuses() {
    set --
    cck_directories=$cck_tested:
    while [ -n "$cck_directories" ]; do
        set -- "$@" "${cck_directories%%:*}"
        cck_directories=${cck_directories#*:}
    done
    LC_ALL=C stat -L -c '%n %d %i %s %.9Y %.9Z' -- "$@" |
        sed 's/\.0*\([0-9][0-9]*\) \([0-9]*\)\.0*\([0-9][0-9]*\)$/.\1 \2.\3/'
}

# Writes the list. Its time is that at which the compiler was first asked: it does not count if a path changed since then. A
# program that loses the right to be executed changes.
write_list() {
    cck_tested=/etc/ld.so.cache:/etc/ld.so.preload
    if [ "$cck_programs" != - ]; then
        cck_tested=$cck_proper${cck_assembler:+:$cck_assembler}${cck_plusplus:+:$cck_plusplus}:$cck_searched:$cck_tested
    fi
    cck_tested=$cck_driver:$cck_tested
    (
        share
        mkdir -p "$cck_store/compilers" &&
            {
                printf '%s%s\n%s\n%s\n' "$cck_context" "$cck_driver" "$cck_tested" "$cck_programs"
                list_statuses
            } > "$cck_list.new$$" &&
            touch -r "$cck_tried/asked" "$cck_list.new$$" && mv "$cck_list.new$$" "$cck_list" || rm -f "$cck_list.new$$"
        [ -e "$cck_store/empty.h" ] || true > "$cck_store/empty.h"
    ) 2>/dev/null
}

# Whether a compilation by this compiler and its assembler can be recorded, by what they say of themselves.
knows_compiler() {
    cck_driver=$(readlink -f "$cck_located" 2>/dev/null)
    case ${cck_driver##*/} in
    *clang*) knows_clang; return ;;
    esac
    cck_assembler=$(command -v "$("$cck_compiler" -print-prog-name=as 2>/dev/null)")
    find_proper
    is_known && ! reads_specs && has_plain_libraries && says_what_it_read "$cck_assembler" "$cck_tried" &&
        are_for_all "$cck_driver" "$cck_proper" "$cck_assembler" $cck_plusplus
}

# Asks the compiler for the programs, and keeps them. Where a tool fails the compiler is unknown to this call alone. A program
# that is killed says nothing, so what is not known is asked for once more.
ask_compiler() {
    cck_programs=- cck_installation=
    if knows_compiler || knows_compiler; then
        cck_programs=$cck_located:$cck_proper${cck_assembler:+:$cck_assembler}${cck_plusplus:+:$cck_plusplus}
        cck_programs=$cck_programs${cck_installation:+:$cck_installation}
        add_loaded || { cck_programs=-; return; }
    fi
    name_list
    if find_searched; then write_list; else cck_programs=-; fi
}

# Sets the programs. It fails where there is no temporary directory.
find_programs() {
    cck_tried=$(make_directory) || return 1
    true > "$cck_tried/asked"
    ask_compiler
    rm -rf "$cck_tried"
}
