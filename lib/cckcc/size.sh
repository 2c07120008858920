# A size, as the program reads it. The scripts that read a limit source this one.

# Whether a word is a size: a number, a suffix or none, and less than 10^18 bytes.
is_size() {
    cck_digits=${1%%[!0-9]*}
    case ${1#"$cck_digits"} in
    '') cck_most=18 ;;
    k|Ki) cck_most=15 ;;
    M|Mi) cck_most=12 ;;
    G|Gi) cck_most=9 ;;
    T|Ti) cck_most=6 ;;
    *) return 1 ;;
    esac
    [ -n "$cck_digits" ] && [ ${#cck_digits} -le $cck_most ]
}
