# Reads the configuration file `cck_configuration`. bin/cckcc sources this script only where the file is there.
#
# A line is `NAME = value`, empty, or a comment that begins with `#`. It sets the variable, if the environment has none of
# this name, not even an empty one; of several lines of a name the last one counts. The value is what is written, without
# the blanks around it: nothing in it is evaluated. `cck_origins` gets a word NAME:LINE for each variable that is set.
# No other process starts.

# Says what is wrong with the file. It ends an option of the wrapper, whose words these are. A compilation goes to
# the compiler: a build does not fail by the configuration of a cache.
reject_configuration() {
    echo "cckcc: $cck_configuration$cck_at: $cck_fault" >&2
    case ${0##*/}:${1-} in
    cckcc*:|cckcc*:-*) exit 2 ;;
    esac
    CCK_DISABLE=1
}

# Sets the variable `cck_name` to `cck_value`, unless the environment has it. The program reads two of them in the
# environment.
set_variable() {
    case $cck_origins in
    *" $cck_name:"*) ;;
    *) if eval "[ -n \"\${$cck_name+set}\" ]"; then return; fi ;;
    esac
    eval "$cck_name=\$cck_value"
    cck_origins="$cck_origins $cck_name$cck_at"
    case $cck_name in
    CCK_MAXSIZE|CCK_READ) export "$cck_name" ;;
    esac
}

# Divides `cck_line` into `cck_name` and `cck_value`. It fails where the line has no `=` or another name. A line may have a
# password: a message has no more of it than a name.
divide_line() {
    case $cck_line in
    *=*) ;;
    *) cck_fault="no '='"; return 1 ;;
    esac
    cck_name=${cck_line%%=*} cck_value=${cck_line#*=}
    cck_name=${cck_name%"${cck_name##*[! 	]}"} cck_value=${cck_value#"${cck_value%%[! 	]*}"}
    case $cck_name in
    CCK_STORE|CCK_MAXSIZE|CCK_PROGRAM|CCK_LOG|CCK_READ|CCK_BASEDIR|CCK_DISABLE|CCK_RECHECK|CCK_COMPILER_CHECK) ;;
    CCK_UMASK|CCK_DIR|CCK_TTL|CCK_TIMEOUT|CCK_DEBUG|CCK_REMOTE_MODE|CCK_REMOTE_MAX) ;;
    CCK_SECRET_FILE|CCK_CACERT|CCK_CERT|CCK_KEY|CCK_SIGN_KEY|CCK_VERIFY_KEY|CCK_COMPRESS) ;;
    ''|*[!A-Za-z0-9_]*) cck_fault="no name before '='"; return 1 ;;
    *) cck_fault="no such variable: $cck_name"; return 1 ;;
    esac
    test_value
}

# Fails for a value that would count otherwise than it looks: a limit that is no size, and a relative path, which would
# be another directory in each one from which the compiler is called.
test_value() {
    case $cck_name:$cck_value in
    CCK_MAXSIZE:?*)
        if ! find_script size.sh; then return; fi
        . "$cck_script"
        is_size "$cck_value" || { cck_fault="CCK_MAXSIZE is not a size, as 20G or 500Mi"; return 1; }
        ;;
    CCK_STORE:[!/]*)
        case ${cck_value%%/*} in
        *:*) ;;
        *) cck_fault="CCK_STORE is neither an absolute path nor an address"; return 1 ;;
        esac
        ;;
    CCK_DIR:[!/]*) cck_fault="CCK_DIR is not an absolute path"; return 1 ;;
    esac
}

# The compiler gets no line, also if its caller exported variables of these names.
unset cck_line cck_value
cck_number=0 cck_at= cck_fault=
if [ -r "$cck_configuration" ]; then
    while IFS=' 	' read -r cck_line || [ -n "$cck_line" ]; do
        cck_number=$((cck_number + 1))
        cck_at=:$cck_number
        case $cck_line in
        ''|'#'*) ;;
        *) divide_line || break; set_variable ;;
        esac
    done < "$cck_configuration"
else
    cck_fault="can't be read"
fi
[ -z "$cck_fault" ] || reject_configuration "$@"
