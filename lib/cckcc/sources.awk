# What the sources of a preprocessed text have, the input and the headers that it names, that a compiler may take otherwise
# than the preprocessor. judge.awk calls `find_relevant` and `read_file`, and reads what these functions set:
#
# - `reason`, why the text is not recorded;
# - `asks`: the answer of a test for a builtin function may differ; `targets`: one of x86 may be named;
# - `tests`: there is a test for a header outside a directive;
# - `saves`: pragmas save macros, which hides uses of them; `hides`: of a macro whose name is not known;
# - `marks`: a line may be taken for a line marker;
# - `unread`: a file can't be read; `has_spaces`: a blank of clang alone may count.

BEGIN {
    # The beginnings of names of tests for headers, which may be pasted together with the rest.
    first_of_test = "__ha(s(_(i(n(c(l(u(de?)?)?)?)?)?|e(m(b(ed?)?)?)?)?)?)?([^A-Za-z0-9_$]|$)"
    # What clang takes for blanks where it compiles, and not where it preprocesses, also by their numbers: so an argument may
    # be empty, or a macro be called, for the compiler alone.
    spaces = "\302[\205\240]|\341\232\200|\341\240\216|\342\200[\200-\212\250\251\257]|\342\201\237|\343\200\200" \
        "|([\\\\]|[?][?]/)[uU](0000)?(00(85|[aA]0)|1680|180[eE]|20(0[0-9aA]|2[89fF]|5[fF])|3000)"
    letter_spaces = substr(spaces, 1, index(spaces, "|([") - 1)
    # No line of the text shows the header that `include_instead` names, and a word that `__is_identifier` asks for may be a
    # keyword for the preprocessor alone: neither name is there, nor one of two parts that may be pasted together.
    instead = "(^|[^A-Za-z0-9_$])include_(i(n(s(t(ea?)?)?)?)?)?([^A-Za-z0-9_$]|$)|_instead([^A-Za-z0-9_$]|$)"
    keyword = "(^|[^A-Za-z0-9_$])(__(i(s(_(i(d(e(n(t(i(f(ie?)?)?)?)?)?)?)?)?)?)?)?|_is_identifier)([^A-Za-z0-9_$]|$)|__is_identifier"
    # What may be a line marker, after blanks and comments.
    blank = "[ \t\r\f\013]"
    comment = "/[*]([^*]|[*]+[^*/])*"
    gap = "(" blank "|" comment "[*]+/)*"
    marker = "^(.*[*]/)?" gap "(#|%:|[?][?]=)" gap "([0-9]|\\\\" blank "*$|" comment "[*]*$)"
    # A file has nothing for `read_line` unless it has what this matches, with splices, or a byte that is zero, where grep takes
    # it apart: letters of a name may have others than letters between them.
    other = "[^A-Za-z_]*"
    telling = "[hp]" other "_" other "m" other "a" other "c" other "r" other "o" \
        "|a" other "s" other "_" other "b" other "u" other "i" other "l" other "t" other "i" other "n" \
        "|(^|[^A-Za-z0-9_$])__ha|a32|builtin_ia|[?][?]/|[A-Za-z0-9_?%\\][\\][[:cntrl:] ]" \
        "|(#|%:|[?][?]=)[[:space:]]*([0-9/]|[\\])"
}

# The path of a name, which no program takes for an option.
function path_of(name) { return name ~ /^\// ? name : "./" name }

# Sets `relevant` to the paths of those of these names whose files may have something for `read_line`, by a pattern. Returns 0
# where it does not know: then each file is read.
function find_relevant(names_of, pattern, files, size, name, command, line, state, counted) {
    for (name in names_of) {
        if (name ~ /^[A-Za-z0-9_.,+@%=\/-]+$/ && name !~ /^\/dev\// && length(files) < 50000) {
            files = files " " path_of(name)
            size++
        } else relevant[path_of(name)]
    }
    if (!size) return 1
    command = "{ grep -alzE '" pattern "'" files "; echo $?; grep -aHcz ''" files "; } 2>/dev/null"
    while ((command | getline line) > 0) {
        if (line ~ /^[0-9]+$/) state = line
        else if (state == "") relevant[line]
        else {
            counted++
            if (line !~ /:[01]$/) { sub(/:[0-9]+$/, "", line); relevant[line] }
        }
    }
    close(command)
    return (state == "0" || state == "1") && counted == size
}

# Reads a file without its splices. A file of a device is not read.
function read_file(name, file, line, held, is_later) {
    file = path_of(name)
    letters = ""
    is_spaced = 0
    if (name == "/dev/null") return
    if (name ~ /^\/dev\//) { asks = unread = 1; return }
    while ((getline line < file) > 0) {
        if (!is_later++) sub(/^\357\273\277/, "", line)
        if (index(line, "\\") && sub(/\\[ \t\r\f\013]*$/, "", line)) held = held line
        else { read_line(held line); held = "" }
    }
    read_line(held)
    if (opens) { asks = 1; opens = 0 }
    if (close(file) != 0) asks = unread = 1
    if (is_spaced) judge_spaces(file)
}

# Reads a line: looks for the name of a test for a header, or for a beginning of one; for builtin functions of x86; for
# pragmas that save macros; and for what may be a line marker.
function read_line(line, whole) {
    if (is_clang && line ~ spaces) is_spaced = 1
    if (is_clang && line ~ instead) reason = "other-file"
    if (is_clang && !is_c && !is_other && line ~ keyword) reason = "header-test"
    if (is_clang && !is_c && index(line, "R\"") && line ~ /#|%:|[?][?]=|[*]\// && goes_on(line)) reason = "header-test"
    if (is_assembler && (line ~ /as_inc|as_emb|HAS_INC/ || line ~ first_of_test)) reason = "header-test"
    if (calls && (index(line, "HAS_") || index(line, "INCLUDE") || index(line, "has_") || index(line, "include"))) {
        add_tested(line)
        add_parts(line)
    }
    if (is_other) return
    whole = line
    line = without_asked(line)
    if (line ~ /#|%:|[?][?]=/ && line ~ marker) marks = 1
    if (whole ~ /__ha|as_inc|as_emb|HAS_INC|a32|builtin_ia/) {
        if (line ~ /(^|[^A-Za-z0-9_$])__ha(s(_(b(u(i(l(ti?)?)?)?)?)?)?)?([^A-Za-z0-9_$]|$)/) asks = 1
        if (whole ~ /ia32|a32_|builtin_ia3?([^A-Za-z0-9_]|$)/) targets = 1
        if (match(whole, /__ha|as_inc|as_emb|HAS_INC/) && substr(whole, 1, RSTART - 1) !~ /#|%:|[?][?]=/) tests = 1
    }
    gsub(/[^A-Za-z_]+/, "", line)
    letters = substr(letters, length(letters) - 10) line
    if (index(letters, "as_builtin")) asks = 1
    if (letters !~ /[hp]_macro/) return
    saves = 1
    if (whole ~ /^[ \t]*#[ \t]*pragma[ \t]+(push|pop)_macro[(]"[a-z]+"[)][ \t]*$/) letters = ""
    else if (index(whole, "(")) hides = 1
}

# Whether a raw string may go on in the next line. What looks like its beginning counts in a string too. By clang a source is
# refused in which a directive goes on after one.
function goes_on(line, begun, place) {
    while (match(line, /(^|[^A-Za-z0-9_]|\\[uU][0-9A-Fa-f]+)(u8|u|U|L)?R"[^ ()\\\t]*\(/)) {
        begun = substr(line, RSTART, RLENGTH - 1)
        place = RSTART + index(begun, "R\"")
        begun = substr(begun, index(begun, "R\"") + 2)
        if (index(substr(line, RSTART + RLENGTH), ")" begun "\"") == 0) return 1
        line = substr(line, place)
    }
    return 0
}

# A line without its tests for a builtin function by name, which are kept: such a test has one answer for preprocessor and
# compiler if the text has the name nowhere (`has_asked`), neither as a macro nor in a declaration, and no attribute brings
# the function. In a definition the name may be a parameter.
function without_asked(line, rest, word, is_directive) {
    if (index(line, "??/") && line ~ ("[?][?]/" blank "*$")) has_trigraphs = 1
    if (opens && line !~ ("^" blank "*$")) { follow(line); opens = 0 }
    if (index(line, "_as_builtin")) gsub(/_as_builtin/, "", line)
    if (!index(line, "__has_builtin")) return line
    if (line ~ /^#[ \t]*define[ \t]+__has_builtin[(]x[)][ \t]+(0|[(]0[)])$/) return ""
    mentions = 1
    is_directive = line ~ /#|%:|[?][?]=/
    if (is_directive && line !~ /^[ \t]*#[ \t]*(if|elif|ifdef|ifndef)[^A-Za-z0-9_$]/) asks = 1
    if (is_directive) gsub(/def(ined)?[ \t]*[(]?[ \t]*__has_builtin/, "", line)
    while (match(line, "__has_builtin" blank "*([(]" blank "*[A-Za-z_][A-Za-z0-9_]*" blank "*[)])?")) {
        word = substr(line, RSTART, RLENGTH)
        rest = substr(line, RSTART + RLENGTH)
        line = substr(line, 1, RSTART - 1)
        if (line ~ /[*]\//) asks = 1
        if (sub(/.*[(]/, "", word)) {
            gsub(/[^A-Za-z0-9_]/, "", word)
            asked[word]
            if (word ~ /ia32/) asks = 1
        } else if (rest != "") follow(rest)
        else if (is_directive) asks = 1
        else opens = 1
        line = line " " rest
    }
    return line
}

# A word that follows a test for a builtin function may be a macro, by which the test has its name.
function follow(rest) {
    sub("^" blank "*", "", rest)
    if (rest ~ /^([(\/#%?\\]|_Pragma|[^ -~])/) asks = 1
    else if (match(rest, /^[A-Za-z_$][A-Za-z0-9_$]*/)) {
        followers[substr(rest, 1, RLENGTH)]
        if (substr(rest, RLENGTH + 1) ~ /^(\\|[^ -~])/) asks = 1
    }
}

# Whether a text has a name that is asked for, or defines a macro that follows such a test, or may do so.
function has_asked(file, line, word, is_any) {
    for (word in asked) is_any = 1
    for (word in followers) is_any = 1
    if (mentions && has_trigraphs) return 1
    if (!is_any) return 0
    while ((getline line < file) > 0) {
        if (line ~ /^# /) continue
        for (word in asked) if (index(line, word)) return 1
        if (line !~ /^#define /) continue
        word = substr(line, 9)
        sub(/[( ].*/, "", word)
        if (word in followers) return 1
    }
    return close(file) != 0
}

# Sets `has_spaces` where a file has such a blank in code. It is nothing in a comment or in a literal, if it is clear where
# these begin and end: what follows the name of a directive may be no code.
function judge_spaces(file, line, held, code) {
    in_comment = is_unclear = 0
    while ((getline line < file) > 0) {
        if (sub(/\\[ \t\r\f\013]*$/, "", line)) { held = held line; continue }
        line = held line
        held = ""
        code = code_of(line)
        if (line ~ /#|%:|[?][?]=/ && index(line, "/*")) is_unclear = 1
        if (code ~ /["']|R $/ || line ~ /R"|[?][?]\//) is_unclear = 1
        if ((is_unclear ? line : code) ~ spaces) has_spaces = 1
    }
    if (close(file) != 0 || held ~ spaces) has_spaces = 1
}

# A line without its comments and literals.
function code_of(line, code, part) {
    while (line != "") {
        if (in_comment) {
            if (!index(line, "*/")) return code
            line = substr(line, index(line, "*/") + 2)
            in_comment = 0
        }
        if (!match(line, /"([^"\\]|\\.)*"|'([^'\\]|\\.)*'|\/[*]|\/\//)) return code line
        part = substr(line, RSTART, RLENGTH)
        code = code substr(line, 1, RSTART - 1) " "
        line = substr(line, RSTART + RLENGTH)
        if (part == "//") return code
        if (part == "/*") in_comment = 1
        else if (part ~ /^'/ && (length(part) > 12 || code ~ /[0-9A-Fa-f] $/)) is_unclear = 1
    }
    return code
}

# The next ones are for macros that stand for a test for a header. Where one is used, a word of the header's name may be a
# macro too, which the text then shows unless it is one of the compiler, as `__LINE__`.

# Keeps the words of this, which may be macros.
function add_words(line) {
    while (match(line, /[A-Za-z_][A-Za-z0-9_]*/)) {
        expanded[substr(line, RSTART, RLENGTH)]
        line = substr(line, RSTART + RLENGTH)
    }
}

# Whether a text defines one of them, or can't be read.
function is_macro(file, line, word) {
    while ((getline line < file) > 0) {
        if (line !~ /^#define /) continue
        word = substr(line, 9)
        sub(/[( ].*/, "", word)
        if (word in expanded) return 1
    }
    return close(file) != 0
}

# Where the name is an argument of the macro, its words are those of all names that a file has in brackets after what may be
# such a macro.
function add_tested(line) {
    while (match(line, /(has_include|HAS_INCLUDE)[ \t\r\f\013]*[(][ \t\r\f\013]*</)) {
        line = substr(line, RSTART + RLENGTH)
        add_words(substr(line, 1, index(line ">", ">") - 1))
    }
}

# Keeps the words of a line, of which the name of such a macro may be pasted together.
function add_parts(line) {
    while (match(line, /[A-Za-z0-9_]+/)) {
        parts[substr(line, RSTART, RLENGTH)]
        line = substr(line, RSTART + RLENGTH)
    }
}

# Keeps each pair of parts of which the name of such a macro may be pasted together.
function add_call(name, size) {
    if (name !~ /^[A-Za-z0-9_]*(has_include|HAS_INCLUDE)$/) reason = "header-test"
    for (size = 1; size < length(name); size++) {
        first[name, size] = substr(name, 1, size)
        second[name, size] = substr(name, size + 1)
    }
    calls = 1
}

# Whether the sources have two words that make its name.
function is_pasted(size) {
    for (size in first) if (may_stand(first[size]) && may_stand(second[size])) return 1
    return 0
}

# Whether a part may be a word of the sources. Words are kept of lines that have a part of the end of such a name alone, so that
# a part without one counts as a word that is there.
function may_stand(word) { return word in parts || word !~ /HAS_|INCLUDE|has_|include/ }
