# What is rarely needed for a call: bin/cckcc sources this script where LIBRARY_PATH or LPATH is set, for a call with an
# option for `native`, and in a terminal for a compiler that is not gcc by its name. It has set `cck_compiler`.

# Sets `cck_has_specs` if a directory of LIBRARY_PATH or LPATH has a file of specs, which the compiler reads and no key has, and
# to nothing otherwise.
find_specs() {
    cck_has_specs=
    cck_directories=${LIBRARY_PATH+$LIBRARY_PATH:}${LPATH+$LPATH:}
    while [ -n "$cck_directories" ]; do
        cck_next=${cck_directories%%:*}
        cck_directories=${cck_directories#*:} cck_next=${cck_next:-.}
        for cck_next in "$cck_next"/specs "$cck_next"/*-*/*/specs; do
            [ ! -e "$cck_next" ] || cck_has_specs=1
        done
    done
}

# Sets CCK_NATIVE to what the compiler makes of the call's options of the processor, among them `native`: the program has it
# in the keys, and passes on a call of which it is not known.
find_native() {
    CCK_NATIVE=$(
        cck_count=$#
        for cck_next do
            case $cck_next in
            -m*) set -- "$@" "$cck_next" ;;
            esac
        done
        shift $cck_count
        LC_ALL=C exec "$cck_compiler" '-###' "$@" -E -x c /dev/null 2>&1 < /dev/null
    ) && export CCK_NATIVE || unset CCK_NATIVE
}

# Whether the compiler colours its messages in this terminal. gcc does so in each one but `dumb`. clang asks the terminal's
# description, and that of the system has colours for these names.
has_colors() {
    case $TERM in
    linux|rxvt|screen|screen-256color|tmux|tmux-256color|xterm|xterm-256color)
        cck_next=${TERM%"${TERM#?}"}/$TERM
        if [ -z "$TERMINFO$TERMINFO_DIRS" ] && [ ! -e "$HOME/.terminfo" ] && [ ! -e "/etc/terminfo/$cck_next" ] &&
            [ -e "/lib/terminfo/$cck_next" ]; then return; fi
        ;;
    esac
    case ${cck_compiler##*/} in
    *clang*) return 1 ;;
    esac
    cck_next=$(readlink -f "$(command -v "$cck_compiler")")
    case ${cck_next##*/} in
    *clang*) return 1 ;;
    *gcc*|*g++*) ;;
    *) return 1 ;;
    esac
}
