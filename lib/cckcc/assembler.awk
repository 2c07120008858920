# Code for clang's assembler, which is a part of the compiler and says of no file that it read it: whether a text's code may
# have a directive that reads one. judge.awk calls `read_code`, `begins_raw` and `names_freely`. They set `reason`, and:
#
# - `has_code`: there is such code; `nesting`, `waits`, `raw_end`: a line ends in it, or in a raw string;
# - `has_raw`: what may begin a raw string may hide what is code. Raw strings of C++ are passed over, from C++11 on.

BEGIN {
    # The directives that read no file, beside those of debug information.
    known = "text|data|bss|previous|popsection|p2align|balign|align|byte|[248]byte|short|word|value|long|int|quad|ascii" \
        "|asciz|string|zero|skip|space|globl|global|weak|hidden|local|comm|type|size|set|symver|ident"
    # Words after which another statement may follow.
    prefixes = "lock|rep|repn?[ez]|[c-g]s|ss|rex64|data(16|32)|addr(16|32)|(x?acquire|x?release)|bnd|notrack"
    # What is replaced by an operand; and one that something else follows than what may follow it in an instruction: a directive
    # that reads a file is a name and a string.
    operand = "%[A-Za-z]?([0-9]|\\[)"
    followed = "%[A-Za-z]?([0-9]+|\\[[^]]*\\])[ \t]*[^ \t0-9,()+*:-]"
}

# Reads a line that may have code, or goes on in it or in a raw string. The strings of code before its operands are put
# together. A text in which a quote or a number near code may be read in another way is refused, and one with code in code,
# or a literal that has the word of such code.
function read_code(line) {
    line = begin_line(line)
    if (raw_end != "") {
        if (!leaves_raw(line)) return
        line = rest
    }
    while (next_word(line)) {
        line = rest
        if (is_doubtful(word, line)) reason = "assembler-include"
        if (word ~ /["']$/ && line ~ /^(u8|u|U|L)?R"/) reason = "assembler-include"
        if (word ~ /^(u8|u|U|L)?R$/ && line ~ /^"/) {
            if (nesting > 0) reason = "assembler-include"
            waits = 0
            if (!enters_raw(line)) { has_raw = 1; continue }
            if (!leaves_raw(rest)) return
            line = rest
        } else if (nesting > 0) {
            if (word == "\"" || word ~ /^(asm|__asm|__asm__)$/) reason = "assembler-include"
            if (word == "(") nesting++
            if (word == ":" && nesting == 1) has_operands = 1
            if (!has_operands && word ~ /^"./) code = code substr(word, 2, length(word) - 2)
            if (word == ")" && --nesting == 0) judge_code(code)
        } else if (word ~ /^(asm|__asm|__asm__)$/) waits = 1
        else if (waits && word == "(") { nesting = has_code = 1; waits = has_operands = 0; code = "" }
        else if (word !~ /^(volatile|__volatile|__volatile__|goto|inline|__inline|__inline__)$/) waits = 0
    }
}

# Judges code: it has known directives alone, and no macro, alternative or operand of it makes the name of one, nor does what
# follows one of a section, after which clang reads a word as a statement.
function judge_code(code, word, size, statements) {
    if (code ~ /\\[^nt"]|[{|]|[^\t -~]|\.$/) reason = "assembler-include"
    gsub(/\\n/, ";", code)
    gsub(/\\t/, " ", code)
    gsub(/%%/, "~", code)
    if (code ~ operand) {
        if (code ~ /["#]|\/[\/*]/) reason = "assembler-include"
        for (size = split(code, statements, ";"); size > 0; size--) judge_statement(statements[size])
    }
    if (code ~ /[^ \t;:][ \t]*\.(push)?section|section[ \t]+\.?inc/) reason = "assembler-include"
    gsub(/\.(push)?section[ \t]+[A-Za-z0-9_.$-]+/, " ", code)
    if (code ~ /\.(text|data|bss|previous|popsection)([ \t]+[^ \t;]|[^A-Za-z0-9_$ \t;])/) reason = "assembler-include"
    while (match(code, /\.[A-Za-z0-9_$%\\]*/)) {
        word = substr(code, RSTART + 1, RLENGTH - 1)
        code = substr(code, RSTART + RLENGTH)
        if (word !~ ("^(" known ")$") && word !~ /^(L[A-Za-z0-9_$%]*|[0-9]*|cfi_[a-z_]+)$/) reason = "assembler-include"
    }
}

# Judges a statement of code with operands: after labels and prefixes it is an instruction with a name of its own, in which
# no operand follows another one without a comma, or a directive without operands.
function judge_statement(text) {
    while (match(text, /^[ \t]*[A-Za-z0-9_.$%=]+[ \t]*:/)) {
        if (substr(text, 1, RLENGTH) ~ operand) reason = "assembler-include"
        text = substr(text, RLENGTH + 1)
    }
    if (text ~ followed) reason = "assembler-include"
    sub(/^[ \t]+/, "", text)
    while (match(tolower(text), "^(" prefixes ")[ \t]+")) text = substr(text, RLENGTH + 1)
    if (text ~ /^\./ ? text ~ operand : text !~ /^([A-Za-z_][A-Za-z0-9_.]*([ \t]|$)|$)/) reason = "assembler-include"
}

# Whether a line gives a symbol a name that may have more than letters, digits and `_`.
function names_freely(line) {
    gsub(/(weakref|abi_tag)(__)?[ \t]*[(][ \t]*"[A-Za-z0-9_]+"[ \t]*[)]/, "", line)
    return line ~ /weakref|abi_tag/
}

# The beginning of a line, whose rest is `ahead`: each word copies what is left of the piece that is read.
function begin_line(line) {
    ahead = substr(line, 4097)
    return substr(line, 1, 4096)
}

# A piece of a line with more of it.
function more_of(line) {
    line = line substr(ahead, 1, 4096)
    ahead = substr(ahead, 4097)
    return line
}

# Sets `word` to the next word of a line, and `rest` to what follows it. Returns 0 at the end.
function next_word(line) {
    if (ahead != "" && length(line) < 2048) line = more_of(line)
    if (!match(line, /"([^"\\]|\\.)*"|'([^'\\]|\\.)*'|[0-9]([eEpP][+-]|[A-Za-z0-9_.]|'[A-Za-z0-9_])*|[A-Za-z_$][A-Za-z0-9_$]*|[^ \t]/)) return 0
    word = substr(line, RSTART, RLENGTH)
    rest = substr(line, RSTART + RLENGTH)
    return 1
}

# Whether a word, which this follows, may be read in another way, or is a literal that has the word of code.
function is_doubtful(word, line) {
    if (word ~ /^["'\\]$/) return 1
    if (word ~ /^["']/) return word ~ /[^A-Za-z0-9_$](__)?asm(__)?[^A-Za-z0-9_$]/
    if (word !~ /^[0-9]/) return 0
    if (index(word, "asm")) return 1
    if (line ~ /^[^\t -\[\]-~]/) return 1
    return index(word, "'") && (is_c || standard < 201402 || word !~ /^(0[xX])?[0-9A-Fa-f]+('[0-9A-Fa-f]+)*[A-Za-z]*$/)
}

# Whether a line of a directive may begin a raw string that goes on after it.
function begins_raw(line) {
    line = begin_line(line)
    while (next_word(line)) {
        line = rest
        if (word == "\\" || (word ~ /["']$/ && line ~ /^(u8|u|U|L)?R"/)) return 1
        if (word !~ /^(u8|u|U|L)?R$/ || line !~ /^"/) continue
        if (!enters_raw(line) || !leaves_raw(rest)) return 1
        line = rest
    }
    return 0
}

# Enters a raw string after its prefix, in C++ from C++11 on. Returns 0 where it is none.
function enters_raw(line) {
    if (is_c || is_assembler || standard < 201103 || !match(line, /^"[^ ()\\\t\013\f]*\(/)) return 0
    raw_end = ")" substr(line, 2, RLENGTH - 2) "\""
    rest = substr(line, RLENGTH + 1)
    return 1
}

# Leaves a raw string. Returns 0 where the line does not end it.
function leaves_raw(line, size) {
    while (!(size = index(line, raw_end))) {
        if (ahead == "") return 0
        line = more_of(substr(line, length(line) - length(raw_end) + 2))
    }
    rest = substr(line, size + length(raw_end))
    raw_end = ""
    return 1
}
