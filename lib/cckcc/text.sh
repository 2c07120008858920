# The preprocessed text of a call, and why it is not recorded: lib/cckcc/miss.sh sources this script for each call that may be
# recorded. It has set `cck_preprocessed`, the arguments of the preprocessor, `cck_input`, `cck_programs`, `cck_macros`, how
# the text shows macros, and `cck_scratch`, the directory in which the text is written. judge.awk judges
# it, with the functions of sources.awk and assembler.awk.

for cck_next in sources assembler judge; do find_script $cck_next.awk || return; done
cck_scripts=${cck_script%/*}

# Runs gcc 12 as the preprocessor on these words, and takes -pedantic-errors for -pedantic: there it differs in errors alone,
# and no test asks for it. What is in system headers, of which it is to warn, would be errors. A word before it shows that it
# is no value of an option.
preprocess_pedantic() {
    cck_before=
    for cck_argument do
        shift
        if [ "$cck_argument" = -pedantic-errors ]; then
            case $cck_before in
            ''|-[OWfg]*|-[DI]?*|-std=*|-pedantic) cck_argument=-pedantic ;;
            esac
        fi
        cck_before=$cck_argument
        set -- "$@" "$cck_argument"
    done
    LC_ALL=C "$cck_compiler" "$@"
}

# Preprocesses the input of the call into the file $1, with these further words of a shell. The list of directories is
# read in the locale C. The preprocessor warns of each time macro that it expands, however that is spelled and wherever it
# is: what a text shows of the time is in no key. Extensions are not errors in system headers; in C++ by gcc -Wno-pedantic
# would define macros, as __cpp_runtime_arrays. It names system headers as they are looked for, and not by a shorter path that
# links lead to: a header that the compiler names so is not recorded. It also writes each directive that includes a header
# (-dI), since it may pass over a copy of a header that was read, and the definitions of macros, since the key of an object
# has no -D and -U. In C++ it warns of what follows a literal and is a macro when it is read, and not a suffix, which shows in
# no other way. clang also lists the headers that it passes over (-MD), and warns of nothing but time macros: with
# -pedantic-errors other warnings, of which some are not of -pedantic, would be errors. It says that it builds or imports a
# module, which no line of the text shows; colours would stand between these words. What is on standard input is for the
# compiler.
preprocess() {
    cck_warnings='-fno-canonical-system-headers -Wno-pedantic'
    ! is_cplusplus || cck_warnings='-fno-canonical-system-headers -Wno-error=pedantic -Wliteral-suffix'
    ! is_clang || cck_warnings='-Wno-everything -Wdate-time -Rmodule-build -Rmodule-import -fno-color-diagnostics -MD -MT listed -MF "$cck_scratch/$1-listed"'
    cck_preprocessor='LC_ALL=C "$cck_compiler"'
    case $cck_preprocessed in
    *-pedantic-errors*) is_clang || cck_preprocessor=preprocess_pedantic ;;
    esac
    eval "$cck_preprocessor $cck_preprocessed" \
        '-Wdate-time -Wsystem-headers -Wno-error' "$cck_warnings $cck_macros $2" \
        '-dI -E -v -o "$cck_scratch/$1"' < /dev/null 2> "$cck_scratch/$1-search" || true > "$cck_scratch/failed"
}

# Sets `cck_own` to the compiler's own directory of headers, which is beside its programs. Where clang may have two it is none.
find_own() {
    cck_own=${cck_programs#*:} cck_own=${cck_own%%:*}
    cck_own=${cck_own%/*}
    if is_clang; then
        set -- "${cck_own%/*}"/lib/clang/*/include/
        cck_own=/dev/null/
        [ $# -ne 1 ] || cck_own=$1
    else
        cck_own=$cck_own/include/
    fi
}

# Sets `cck_lines` to the path of a file with the lines of the text that count for gcc, or to that of the text, where there are
# none or grep fails.
list_lines() {
    cck_lines=$cck_scratch/text
    [ -z "$cck_is_clang" ] || return 0
    GREP_OPTIONS= LC_ALL=C grep -a -e '^# [0-9]' -e '^[[:blank:]]*#[[:blank:]]*pragma' -e '^#.*struct' -e '^#.*__has_include' \
        -e 'R"' -e target "$cck_scratch/text" > "$cck_scratch/lines" && cck_lines=$cck_scratch/lines
}

# Writes five lines: `alone` if the text names no file beside the input; why the compiler may read another text than this, or
# have other names for its files; what it may read in another way; `all` if more may depend on macros than the text, where it
# shows those that are used; and `end`. The compiler expands macros in pragmas that the preprocessor leaves as they are,
# pragmas that save macros hide uses, and warnings may name others.
judge_text() {
    true > "$cck_scratch/left-out"
    true > "$cck_scratch/left"
    true > "$cck_scratch/ignored"
    list_lines
    cck_own=$cck_own cck_extended=$cck_extended cck_targets=$cck_targets cck_is_c=$cck_is_c cck_is_assembler=$cck_is_assembler \
        cck_is_clang=$cck_is_clang cck_scratch=$cck_scratch cck_place=${cck_is_clang:+$(pwd -P)} cck_preprocessed=$cck_preprocessed GREP_OPTIONS= LC_ALL=C \
        awk -f "$cck_scripts/sources.awk" -f "$cck_scripts/assembler.awk" -f "$cck_scripts/judge.awk" \
        ${cck_is_clang:+is_rule=1 "$cck_scratch/text-listed" is_rule=0} "$cck_scratch/text-search" is_text=1 "$cck_lines" < /dev/null
}

# Refuses a text of clang of which two files are one, or may become one: clang knows a file by its inode, passes it over by that,
# and names it as it was called last. So no two have one inode or the same contents, and none is reached by a link. The list of
# files is sorted, and without `.` and `..`, so no directory that a name leaves by `..` is reached by a link. Files
# `<stdin>` and `<built-in>` are not in clang's list.
judge_files() {
    if [ -e '<stdin>' ] || [ -e '<built-in>' ]; then cck_refused=other-file; fi
    [ ! -s "$cck_scratch/left" ] || xargs -d '\n' readlink -f -- < "$cck_scratch/left" | cmp -s - "$cck_scratch/left-places" ||
        cck_refused=other-file
    sort "$cck_scratch/entered" > "$cck_scratch/names"
    xargs -d '\n' readlink -f -- < "$cck_scratch/names" | cmp -s - "$cck_scratch/names" || cck_refused=other-file
    xargs -d '\n' stat -c '%d:%i %s' -- < "$cck_scratch/names" > "$cck_scratch/sizes" || cck_refused=other-file
    paste -d ' ' "$cck_scratch/sizes" "$cck_scratch/names" | LC_ALL=C awk '
        $1 in inodes { exit 1 }
        { inodes[$1]; place = $0; sub(/^[^ ]* [^ ]* /, "", place) }
        $2 in first && $2 > 0 { if (first[$2] != "") print first[$2]; first[$2] = ""; print place; next }
        { first[$2] = place }' > "$cck_scratch/equal" || cck_refused=other-file
    [ -s "$cck_scratch/equal" ] || return 0
    xargs -d '\n' sha256sum -- < "$cck_scratch/equal" |
        LC_ALL=C awk '$1 in sums { same = 1 } { sums[$1] } END { exit same || !NR }' || cck_refused=other-file
}

# Refuses a text of clang where a path of the list of directories is a file, which may become a map of headers.
judge_ignored() {
    [ ! -s "$cck_scratch/ignored" ] || while IFS= read -r cck_directory; do
        [ ! -e "$cck_directory" ] || [ -d "$cck_directory" ] || cck_refused=other-file
    done < "$cck_scratch/ignored"
}

# Adds to the list of directories what `judge_text` found to be left out.
add_left_out() {
    [ -s "$cck_scratch/left-out" ] || return 0
    cat "$cck_scratch/left-out" "$cck_scratch/text-search" > "$cck_scratch/joined" &&
        mv "$cck_scratch/joined" "$cck_scratch/text-search" || cck_refused=other-file
}

# Sets what the arguments say beside the text: `cck_extended` if the call has OpenMP or OpenACC; `cck_targets` if an argument
# may have the name of a builtin function of x86; and `cck_hidden` to why the compiler may read another text. The driver
# hands no parameter to the preprocessor, and two are in macros. With -undef the text of clang does not show the language.
# `cck_is_c` is empty in C++, where the compiler preprocesses the whole text before it parses it: no declaration and no pragma of
# a target counts for the preprocessor. So it is for assembler code, in which no test for a header is judged.
judge_arguments() {
    cck_extended= cck_targets= cck_hidden= cck_is_c=1 cck_is_assembler= cck_is_clang=
    ! is_clang || cck_is_clang=1
    ! is_cplusplus || cck_is_c=
    ! is_assembler || cck_is_c= cck_is_assembler=1
    case $cck_preprocessed in
    *-fopenmp*|*-fopenacc*) cck_extended=1 ;;
    esac
    case $cck_preprocessed in
    *a32*|*builtin_ia*) cck_targets=1 ;;
    esac
    case $cck_preprocessed in
    *structive-interference-size*) cck_hidden=other-file ;;
    *-undef*) ! is_clang || cck_hidden=other-file ;;
    esac
}

# Whether a file of the project, or an argument, defines or undefines what may be a macro of the target, by a text that
# has these directives (-dD). A name that ends as that of a guard is none. The compiler leaves __MMX_WITH_SSE__ defined after
# its own headers for 64 bits without SSE2, and where the text does not say what the target is (-undef), it may. The status
# is 1 if there is none.
changes_targets() {
    cck_own=$cck_own LC_ALL=C awk '
        BEGIN { own = "\"" ENVIRON["cck_own"] }
        /^#define __i386__ / { is_narrow = 1 }
        /^#define __MMX_WITH_SSE__ / { has_sse = 1 }
        /^# [0-9]+ "/ {
            is_other = $3 == "\"<built-in>\"" || index($3, own) == 1 || index($3, "\"/usr/include/") == 1
            if ($3 ~ /\/\.\.\//) is_other = 0
        }
        !is_other && /^#(define|undef) __[A-Za-z0-9_]*__/ && $2 !~ /^[A-Za-z0-9_]*_[Hh]__$/ { found = 1; exit }
        END { exit !found && (has_sse || is_narrow) }' "$1"
}

# Whether the compilation declares a builtin function, which `__has_builtin` then denies: the compiler lists the functions
# that it declares, and the preprocessor is asked for each word of the list, and for each word of the text that begins with
# two underscores and is not called, as where there are no builtin functions of C. The compiler warns of a builtin function
# that is declared as something else. The status is 1 if there is none.
declares_builtin() {
    eval "LC_ALL=C \"\$cck_compiler\" $cck_preprocessed" \
        '-Wshadow -Wsystem-headers -Wno-error -fsyntax-only -aux-info "$cck_scratch/declared"' \
        < /dev/null > "$cck_scratch/declaring" 2>&1 || return 2
    LC_ALL=C awk '
        !is_text { $0 = substr($0, index($0, "*/") + 2) }
        is_text && /^#/ { next }
        is_text { gsub(/__malloc__ ?[(][^()]*[)]/, "") }
        {
            while (match($0, /[A-Za-z_][A-Za-z0-9_]*/)) {
                word = substr($0, RSTART, RLENGTH)
                $0 = substr($0, RSTART + RLENGTH)
                if (word in words || (is_text && (word !~ /^__/ || /^[ \t]*[(]/))) continue
                printf "#pragma push_macro(\"%s\")\n#undef %s\n", word, word
                printf "#if __has_builtin(%s)\n\"builtin\"\n#endif\n#pragma pop_macro(\"%s\")\n", word, word
                words[word]
            }
        }' "$cck_scratch/declared" is_text=1 "$cck_scratch/text" > "$cck_scratch/asked.h" || return 2
    preprocess asked '-fno-builtin -include "$cck_scratch/asked.h"'
    lacks '^"builtin"' "$cck_scratch/asked" || return 0
    lacks 'declared as non-function\|shadows a built-in' "$cck_scratch/declaring" || return 0
    return 1
}

# Writes the definitions of the words of a call, a line each.
list_definitions() {
    cck_is_value=
    for cck_argument do
        case $cck_is_value:$cck_argument in
        1:*|:-[DU]*) printf '%s\n' "$cck_argument" ;;
        esac
        case $cck_argument in
        -[DU]) cck_is_value=1 ;;
        *) cck_is_value= ;;
        esac
    done
}

# Has the text show all macros of the call. The preprocessor leaves out comments and blanks of definitions, which messages may
# depend on: so the text also has a digest of them, in a name that is undefined.
show_all_macros() {
    cck_digest=$(list_definitions "$@" | sha256sum)
    cck_macros="-dD -U__cck_definitions_${cck_digest%% *}"
    [ ${#cck_digest} -ge 64 ] || true > "$cck_scratch/failed"
}

# Refuses the text where `__has_builtin` may ask for a function, unless it is the same if there is none, and none is declared.
# In clang the answer depends on no declaration.
judge_builtins() {
    [ -n "$cck_is_c" ] && [ -z "$cck_is_clang" ] || return
    case $cck_doubts:$cck_preprocessed in
    *builtins*:*|*:*as_builtin*|*:*__ha*) ;;
    *) return ;;
    esac
    preprocess other "$cck_words -fno-builtin"
    cmp -s "$cck_scratch/text" "$cck_scratch/other" || cck_refused=other-file
    declares_builtin
    [ $? -eq 1 ] || cck_refused=other-file
}

# Refuses the text where a header of the compiler sets macros of the target, if the project or an argument does too.
judge_targets() {
    case $cck_doubts in
    *targets*) ;;
    *) return ;;
    esac
    preprocess macros -dD
    changes_targets "$cck_scratch/macros"
    [ $? -eq 1 ] || cck_refused=target-pragma
}

# Writes the text of the call, and two lines: why it is not recorded, or nothing, and how the text shows macros. No entry is
# made of a text that names no file beside the input: such a text names an empty one. The words are those of the call.
write_text() {
    [ "$cck_macros" != -dD ] || show_all_macros "$@"
    [ -z "$cck_seen" ] || [ -e "$cck_scratch/sum" ] || sum_call "$@"
    preprocess text ''
    [ ! -e "$cck_scratch/failed" ] || return
    find_own
    judge_arguments
    judge_text > "$cck_scratch/judged"
    cck_word= cck_refused= cck_doubts= cck_needs= cck_end=
    {
        read -r cck_word
        read -r cck_refused
        read -r cck_doubts
        read -r cck_needs
        read -r cck_end
    } < "$cck_scratch/judged"
    if [ "$cck_macros" = -dU ] && [ -n "$cck_needs" ]; then
        cck_macros=-dD
        write_text "$@"
        return
    fi
    cck_refused=${cck_refused:-$cck_hidden}
    [ "$cck_end" = end ] || cck_refused=other-file
    cck_words=
    if [ "$cck_word" = alone ]; then
        cck_words='-imacros "$cck_store/empty.h"'
        preprocess text "$cck_words"
    fi
    add_left_out
    if is_clang; then judge_files; judge_ignored; fi
    judge_builtins
    judge_targets
    printf '%s\n' "$cck_refused" "$cck_macros" > "$cck_scratch/refused"
}

# Looks for the object of the text where it may be, and ends if it is there. One with messages is kept under the name that a
# text with all macros gives: that text is `all` from then on, and `cck_refused_all` says why it is not recorded.
find_text() {
    if [ -e "$cck_scratch/failed" ] || [ -n "$cck_refused" ]; then return; fi
    if is_marked "${cck_macros%% *}"; then look_for_text "$@"; fi
    [ "$cck_macros" = -dU ] && is_marked -dD || return
    mv "$cck_scratch/text" "$cck_scratch/used" 2>/dev/null
    cck_macros=-dD
    write_text "$@" 2>/dev/null
    if [ ! -e "$cck_scratch/failed" ] && [ -z "$cck_refused" ]; then look_for_text "$@"; fi
    { mv "$cck_scratch/text" "$cck_scratch/all"; mv "$cck_scratch/used" "$cck_scratch/text"; } 2>/dev/null
    cck_macros=-dU cck_refused_all=$cck_refused cck_refused=
    printf '%s\n' '' -dU > "$cck_scratch/refused"
}

# Takes the text with all macros: messages may name some that are not used. The words are those of the call.
take_all_macros() {
    cck_macros=-dD
    if [ -e "$cck_scratch/all" ]; then
        mv "$cck_scratch/all" "$cck_scratch/text"
        cck_refused=$cck_refused_all
    else
        write_text "$@"
    fi
}
