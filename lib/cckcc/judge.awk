# Judges a preprocessed text, by what the preprocessor printed on standard error and by the text: text.sh says what it writes.
# By clang the dependency file comes first (`is_rule`), then standard error, then the text (`is_text`).
#
# In C a pragma that sets macros of the target, or attributes that are known, is run by the compiler alone. The compiler's own
# headers set them back to what the target has, but for one macro (`changes_targets`), and include none of the project. The
# compiler knows declarations, by which `__has_builtin` is 0, and more builtin functions of the target after an attribute,
# whose names may be pasted. With OpenMP or OpenACC the compiler expands macros in a pragma, which an operator may make of any
# line. In a pragma of diagnostics or of visibility it expands none; one that turns a warning on may warn of a macro that the
# text does not show.

BEGIN {
    is_c = ENVIRON["cck_is_c"] != ""
    is_assembler = ENVIRON["cck_is_assembler"] != ""
    is_clang = ENVIRON["cck_is_clang"] != ""
    # An awk in which a string ends at a zero byte would not see what is after it, so that each text is refused.
    if (length(sprintf("%c", 0)) != 1) reason = "other-file"
}

# Takes what a line marker says after its number. One that says what the last one said changes nothing, if it is of a file and
# neither enters nor leaves one. After the input has begun, a marker with another name that neither enters nor leaves a file
# is of a line directive, which enters no file; one in a source, or in a raw string over lines, is not told from one of gcc. A
# file between `<` and `>` is named as what the compiler defines itself. clang enters a file for the macros that it defines
# itself and one for those of the arguments, and then returns to the input.
function read_marker(said, id, name, step) {
    if (said == settled) return
    if (!(said in ids)) add_marker(said)
    id = ids[said]
    name = names[id]
    step = step_of[id]
    settled = step == " 1" || step == " 2" || is_inner[id] ? "" : said
    if (is_clang && !in_input) {
        if (name ~ /^<(built-in|command line)>$/) { current = name; return }
        if (step == " 2") { in_input = 1; step = ""; current = name }
    }
    if (step == " 1") {
        found = 1
        if (owns[depth] && is_of_project[id]) leaves_own = 1
        owns[++depth] = is_own[id]
    } else if (step == " 2") {
        if (depth > 0) depth--
    } else if (name != current) {
        if (in_input || depth > 0) marks = 1
        else if (current == "<command-line>") in_input = 1
    }
    current = name
    if (is_inner[id] && ($2 != 0 || name !~ /^<(built-in|command-line)>$/)) reason = "other-file"
}

# Keeps what such a marker says. A backslash or a quote in a name has a backslash before it, which nothing takes away. A
# header of a framework may include one of a framework in it, for which the list of directories has no place. clang names
# headers of gcc by way of its own directory.
function add_marker(said, id, name, place, flags) {
    ids[said] = id = ++markers
    name = flags = said
    sub(/.*"/, "", flags)
    names[id] = name = substr(name, 2, length(name) - length(flags) - 2)
    step_of[id] = substr(flags, 1, 2)
    if (index(name, "\\") || (is_clang && index(name, ".framework/"))) reason = "other-file"
    place = name
    if (is_clang) sub(/^\/usr\/(bin\/\.\.\/)?lib\/gcc\/[^\/]+\/[0-9]+\/\.\.\/\.\.\/\.\.\/\.\.\/include\//, "/usr/include/", place)
    is_own[id] = index(place, ENVIRON["cck_own"]) == 1 && place !~ /\/\.\.\//
    is_of_project[id] = !is_own[id] && (index(place, "/usr/include/") != 1 || place ~ /\/\.\.\//)
    is_inner[id] = name ~ /^<.*>$/
    if (is_inner[id] || name ~ /\/\/$/) return
    if (is_of_project[id]) projects[name]; else others[name]
}

# Keeps the last part of the name in a directive that includes a header.
function add_included(line, end) {
    sub(/^#[a-z_]+ /, "", line)
    end = substr(line, 1, 1)
    if (end !~ /["<]/) reason = "other-file"
    if (end == "<") end = ">"
    line = substr(line, 2)
    if (!index(line, end)) reason = "other-file"
    line = substr(line, 1, index(line, end) - 1)
    sub(/.*\//, "", line)
    included[line]
}

# clang may expand macros in a pragma where it compiles alone, so that one with the name of a macro counts as one that may
# turn off the warning of a time macro.
function add_pragma(line) {
    if (index(line, "'")) shows_time = 1
    gsub(/"([^"\\]|\\.)*"/, "", line)
    if (line ~ /(^|[^A-Za-z0-9_])_[A-Z_]|[$\\]|[^\t -~]/) shows_time = 1
    add_words(line)
    expands = 1
}

# What clang printed.

# Reads a line that clang printed on standard error. It gives directories that are one the first of their names: of each other
# name it is written, as gcc does, that it is left out.
function read_search(line, size, words, at, name) {
    if (line ~ /^#include .* search starts here:$/) is_list = 1
    if (line == "End of search list.") is_list = 0
    if (is_list && line ~ /^ /) listed[substr(line, 2)]
    if (sub(/^ignoring nonexistent directory "/, "", line)) {
        listed[substr(line, 1, length(line) - 1)]
        print substr(line, 1, length(line) - 1) > (ENVIRON["cck_scratch"] "/ignored")
    }
    if (line ~ /^ [^ ].* -cc1 /) {
        size = split(line, words, " ")
        is_given = 1
        if (line ~ /[\t\r\f\013]/) reason = "other-file"
        has_system = line ~ / -internal-externc-isystem /
        has_plusplus = has_system && !is_c && line !~ / -nostdinc[+][+] /
        for (at = 1; at < size; at++) {
            name = ""
            if (words[at] ~ /^-(I|iquote|idirafter|isystem|internal-(externc-)?isystem)$/) name = words[at + 1]
            else if (words[at] == (is_c ? "-c-isystem" : "-cxx-isystem")) name = words[at + 1]
            else if (sub(/^-I/, "", words[at])) name = words[at]
            sub("/+$", "", name)
            if (name != "") given[name]
            if (name ~ /\/c[+][+]\/[0-9]+$/) plusplus++
        }
    }
}

# Reads a line of the dependency file, which also has the headers that were passed over. A tab in a name is not told from the
# end of one.
function read_rule(line, size, words, at) {
    sub(/ *\\$/, "", line)
    sub(/^listed: */, "", line)
    if (line ~ /[\\$\t]/) reason = "other-file"
    size = split(line, words, " ")
    for (at = 1; at <= size; at++) {
        passed[place_of(words[at])]
        add_left(words[at])
        if (index(words[at], ".framework/")) reason = "other-file"
    }
}

# Keeps the directories that a name leaves by `..`.
function add_left(name, at, size) {
    for (at = 2; (size = index(substr(name, at), "/../")); at++) {
        at += size - 1
        if (substr(name, 1, at - 1) !~ /(^|\/)\.\.$/) left[substr(name, 1, at - 1)]
    }
}

# Writes the places of the files of the text. A file that clang lists and did not enter was passed over by another name,
# unless a test asks for it. Another one may be a link to a file of the text, or become one. Directories that names leave are
# written too, with their places.
function write_places(name, place) {
    for (name in projects) entered[place_of(name)]
    for (name in others) entered[place_of(name)]
    for (place in entered) print place > (ENVIRON["cck_scratch"] "/entered")
    for (place in passed) if (!(place in entered) && !is_asked(place)) reason = "other-file"
    for (name in left) {
        print name > (ENVIRON["cck_scratch"] "/left")
        print place_of(name) > (ENVIRON["cck_scratch"] "/left-places")
    }
}

# Whether a place is that of a header of clang itself that no directive names: then a test asks for it.
function is_asked(place, name) {
    for (name in listed) if (index(place, place_of(name) "/") == 1) {
        name = place
        sub(/.*\//, "", name)
        return !(name in included) && index(place, place_of(ENVIRON["cck_own"]) "/") == 1
    }
    return 0
}

# The path of a name without `.`, `..` and double slashes.
function place_of(name, size, words, at, place) {
    if (name !~ /^\//) name = ENVIRON["cck_place"] "/" name
    size = split(name, words, "/")
    for (at = 1; at <= size; at++) {
        if (words[at] == "..") sub("/[^/]*$", "", place)
        else if (words[at] != "" && words[at] != ".") place = place "/" words[at]
    }
    return place
}

is_rule { read_rule($0); next }
!is_text {
    if (/warning: /) warns = 1
    if (/might prevent reproducible builds|time macro is not reproducible/) shows_time = 1
    if (is_clang && /(building|importing) module/) reason = "other-file"
    if (is_clang) read_search($0)
    next
}
# The directories of which clang printed nothing.
is_clang && !is_read++ {
    if (!is_given || (has_plusplus && plusplus < 2)) reason = "other-file"
    if (has_system && !("/usr/include/x86_64-linux-gnu" in given)) reason = "other-file"
    for (name in given) {
        if (!(name in listed)) print "ignoring duplicate directory \"" name "\"" > (ENVIRON["cck_scratch"] "/left-out")
        # The headers of C++ that clang takes first, where they are there.
        if (sub(/\/include\/c[+][+]\//, "/x86_64-linux-gnu/include/c++/", name) && name ~ /\/[0-9]+$/)
            print "ignoring nonexistent directory \"" name "\"" > (ENVIRON["cck_scratch"] "/left-out")
    }
}
# In C before C99 `//` begins a comment for the compiler, and not for the preprocessor alone, but in GNU C.
is_clang && is_c && current == "<built-in>" && /^#define __STRICT_ANSI__ / { is_strict = 1 }
is_clang && is_c && current == "<built-in>" && /^#define __STDC_VERSION__ / { version = $3 + 0 }
# Code for the assembler.
is_clang && standard == "" && /^#define __cplusplus / { standard = $3 + 0 }
is_clang { is_raw = raw_end != "" }
is_clang && $0 ~ letter_spaces { reason = "other-file" }
is_clang && !is_raw && (/^#(define|undef) / ? !/asm|R"|struct|target|__has_include/ : nesting == 0 && !waits && !/#|asm|R"|target|weakref|abi_tag/) { next }
is_clang && /weakref|abi_tag/ && names_freely($0) { has_names = 1 }
is_raw || (is_clang && !/^#([a-z_]| [0-9])/ && (nesting > 0 || waits || /asm|R"/)) { read_code($0) }
is_clang && !is_raw && /^#/ && index($0, "R\"") && begins_raw($0) { has_raw = has_code = 1 }
is_clang && has_raw && /^#/ && /asm/ { has_code = 1 }
is_clang && /[^\t -~](u8|u|U|L)?R"/ { has_raw = has_code = 1 }
/^# [0-9]+ "/ { read_marker(substr($0, index($0, "\""))); next }
is_clang && /^#(include|include_next|import|__include_macros) / { add_included($0) }
index($0, "R\"") && goes_on($0) { marks = 1 }
/target/ && /(^|[^A-Za-z0-9_$])(__)?target(_clones)?(__)?[ \t]*([(]|$)/ { sets_targets = 1 }
!/^[ \t]*#/ { next }
# Macros that stand for a test for a header.
/^#define [^ (]+ *__has_include(_next)? *\( *</ {
    name = substr($0, index($0, "<"))
    if (name !~ /^<[A-Za-z0-9_.\/+-]+>/ || name ~ /^<([^>]*[^A-Za-z0-9])?_/) reason = "header-test"
    add_words(name)
    stands = 1
}
/^#define [^ (]+[(].*[)] *__has_include(_next)? *[(]/ {
    add_call(substr($2, 1, index($2, "(") - 1))
    stands = 1
}
# What is pasted after `> struct` is the name of a class, unless `struct` is a macro, or a parameter of that definition.
/^#define struct[ (]/ { reason = "header-test" }
/^#define [^ (]+[(]([^)]*[ ,])?struct[ ,.)].*>[ \t]*struct/ { reason = "header-test" }
/^#(include|include_next|import)[ \t].*>[ \t]*struct[ \t]*[0-9]/ { reason = "header-test" }
!/^[ \t]*#[ \t]*pragma/ { next }
# A pragma takes effect when it preprocesses too, so that one that may turn off the warning of a time macro counts as one. So
# does another one than a few, and one of loops with more than words in parentheses, since it may have code.
is_clang && !/^[ \t]*#[ \t]*pragma[ \t]+(((GCC|clang)[ \t]+(diagnostic|system_header|poison|visibility|loop)|unroll|nounroll|weak|message|STDC|(push|pop)_macro)([ \t(]|$)|pack[ \t]*[(][a-z0-9_, \t]*[)][ \t]*$)/ {
    shows_time = 1
}
is_clang && !/^[ \t]*#[ \t]*pragma[ \t]+(GCC|clang)[ \t]+(diagnostic|system_header|poison)[ \t]/ { add_pragma($0) }
is_clang && /^[ \t]*#[ \t]*pragma[ \t]+(clang[ \t]+loop|unroll|nounroll)[^A-Za-z]/ && /[^A-Za-z0-9_()# \t]/ { shows_time = 1 }
is_clang && /diagnostic/ && (!/diagnostic[ \t]+(push|pop|[a-z]+[ \t]+"-W[A-Za-z0-9+=_-]+")[ \t]*$/ || /-Wdate-time|-Weverything/) {
    shows_time = 1
}
!/^[ \t]*#[ \t]*pragma[ \t]+GCC[ \t]+diagnostic[ \t]+(push|pop|ignored[ \t]+"-W[a-z0-9+=-]+")[ \t]*$/ &&
    !/^[ \t]*#[ \t]*pragma[ \t]+GCC[ \t]+visibility[ \t]+(push[(](default|hidden|internal|protected)[)]|pop)[ \t]*$/ {
    has_pragmas = 1
}
/^[ \t]*#[ \t]*pragma[ \t]+GCC[ \t]+diagnostic/ {
    if ($0 !~ /diagnostic[ \t]+(push|pop|[a-z]+[ \t]+"-W[a-z0-9+=-]+")[ \t]*$/) silences = 1
    if (/shadow|builtin|-Wall|-Wextra/) silences = 1
}
/^[ \t]*#[ \t]*pragma[ \t]+(omp|acc)/ { parallel = 1 }
/^[ \t]*#[ \t]*pragma[ \t]+GCC[ \t]+diagnostic[ \t]+ignored_attributes/ { reason = "target-pragma" }
is_c && /^[ \t]*#[ \t]*pragma[ \t]+GCC[ \t]+(target|optimize|pop_options|reset_options)/ {
    if (owns[depth]) doubts = " targets"; else reason = "target-pragma"
}
END {
    print found ? "" : "alone"
    text = ENVIRON["cck_scratch"] "/text"
    if (reason == "") {
        if (is_clang) telling = telling "|R\"|" instead "|" keyword "|" spaces
        reads_all = calls || is_assembler || ENVIRON["cck_extended"] != "" || !find_relevant(projects, telling)
        for (name in projects) if (reads_all || (path_of(name) in relevant)) read_file(name)
    }
    is_other = 1
    if (reason == "" && (calls || is_assembler || is_clang)) {
        telling = (is_c ? "" : "R\"|") instead "|" spaces
        reads_all = calls || is_assembler || !find_relevant(others, telling)
        for (name in others) if (!(name in projects) && (reads_all || (path_of(name) in relevant))) read_file(name)
    }
    if (unread && is_assembler) reason = "header-test"
    if (reason == "" && calls) {
        read_file(text)
        if (unread || is_pasted()) reason = "header-test"
    }
    if ((marks || hides || leaves_own) && doubts != "") reason = "target-pragma"
    if (ENVIRON["cck_targets"] != "") targets = 1
    if (!asks && is_c && reason == "" && has_asked(text)) asks = 1
    if (!is_c || is_clang) asks = 0
    if (asks && ((targets && sets_targets) || silences)) reason = "other-file"
    if (tests && parallel && ENVIRON["cck_extended"] != "") reason = "header-test"
    if (stands && is_macro(text)) reason = "header-test"
    else if (expands && is_macro(text)) shows_time = 1
    if (nesting > 0 || raw_end != "" || ((has_raw || has_names) && has_code)) reason = "assembler-include"
    if (has_spaces || (is_strict && version < 199901)) reason = "other-file"
    if (is_clang && ENVIRON["cck_preprocessed"] ~ (instead "|([\\\\]|[?][?]/)[uU]|" spaces)) reason = "other-file"
    if (is_clang && !is_c && ENVIRON["cck_preprocessed"] ~ keyword) reason = "header-test"
    if (is_clang) write_places()
    print shows_time ? "time-macro" : reason
    print doubts (asks ? " builtins" : "")
    print (warns || has_pragmas || saves ? "all" : "")
    print "end"
}
