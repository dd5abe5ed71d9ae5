# Writes where a refusal or trap is and what is wrong there, then the line with a marker below the bytes from `from` to `to`. Reads
# the bytes of the source from `start` on as numbers. The place stands in line `line`, and `before` is how many characters of
# that line end before `start`. A tab stands in the marker's line too; a byte that is no character, or that a terminal
# would act on, is shown as `?`; a line of more than `widest` characters is cut round the place.

BEGIN {
    from += 0; to += 0; at = start + 0; before += 0
    behind = missing = 0
    is_inside = before > 0 # whether what comes first may be the rest of a character
    widest = 80
    cut_to = 74 # characters, beside the dots
    token_most = 24 # characters that are shown of a token
    is_first = 1
    for (byte = 0; byte < 256; byte++) {
        spelled[byte] = byte ? sprintf("%c", byte) : "?"
        # how many bytes follow it in a character, and between which the first of them lies
        follow[byte] = byte < 194 ? 0 : byte < 224 ? 1 : byte < 240 ? 2 : byte < 245 ? 3 : 0
        least[byte] = byte == 224 ? 160 : byte == 240 ? 144 : 128
        most[byte] = byte == 237 ? 159 : byte == 244 ? 143 : 191
    }
}

{
    for (field = 1; field <= NF; field++) take($field + 0)
    if (is_ended) exit
}

END {
    drop_pending()
    if (!column) reach()
    print ENVIRON["file"] ":" line ":" column ": " sentence()
    write_line()
}

# ---- from bytes to characters

# Takes the next byte. Bytes that make no character of UTF-8 are characters by themselves.
function take(byte) {
    if (is_inside && byte >= 128 && byte < 192) { at++; return }
    is_inside = 0
    if (missing && (byte < lower || byte > upper)) drop_pending()
    if (at >= from && at < to) note(byte)
    at++
    if (missing) {
        pending = pending spelled[byte]
        lower = 128; upper = 191
        if (--missing == 0) add(is_control(pending) ? "?" : pending, begun, at)
    } else if (follow[byte]) {
        begun = at - 1
        pending = spelled[byte]
        missing = follow[byte]
        lower = least[byte]; upper = most[byte]
    } else {
        add(byte < 128 ? spelled[byte] : "?", at - 1, at)
    }
}

# Takes what was begun as a character and isn't one, byte by byte.
function drop_pending(    byte) {
    if (!missing) return
    missing = 0
    for (byte = begun; byte < at; byte++) add("?", byte, byte + 1)
}

# whether the character is one of U+0080 to U+009F, or a byte order mark
function is_control(text) {
    if (text == spelled[239] spelled[187] spelled[191]) return 1
    return length(text) == 2 && substr(text, 1, 1) == spelled[194] && substr(text, 2) < spelled[160]
}

# Takes the character of the bytes from `start` to `end`.
function add(text, start, end) {
    if (end > from && !column) reach()
    if (column) add_behind(text, start)
    else if (text == "\n") { before = 0; is_first = 1 }
    else {
        shown_before[before++ % widest] = text
        if (text !~ /[ \t\r]/) { last = text; is_first = 0 }
    }
}

# Comes to the place, or to the end of the source before it.
function reach() {
    column = before + 1
    above = before < widest ? before : widest
}

# Takes a character of the place or behind it.
function add_behind(text, start) {
    if (start < to && spelled_out < token_most) { token = token shown(text); spelled_out++ }
    if (text == "\n") is_ended = 1
    if (is_ended) return
    if (start < to) marks++
    if (behind < widest) shown_behind[behind] = text
    if (++behind > widest) is_ended = 1
}

# Takes notice of a byte of the place.
function note(byte) {
    if (at == from) first = byte
    if (byte < 48 || byte > 57) has_letters = 1
}

# ---- the line and its marker

function least_of(a, b) {
    return a < b ? a : b
}

# a character as it is shown
function shown(text) {
    return text < " " && text != "\t" || text == "\177" ? "?" : text
}

# Writes the line, or its part round the place, and the marker below. A CR at the end of a line belongs to its end.
function write_line(    left, right, text, marker, i) {
    if (behind && behind <= widest && shown_behind[behind - 1] == "\r") behind--
    right = behind
    left = above
    if (before + behind > widest) {
        if (right > cut_to / 2) right = least_of(behind, cut_to - least_of(left, cut_to / 2))
        left = least_of(left, cut_to - right)
    }
    if (left < before) { text = "..."; marker = "   " }
    for (i = before - left; i < before; i++) {
        text = text shown(shown_before[i % widest])
        marker = marker (shown_before[i % widest] == "\t" ? "\t" : " ")
    }
    marker = marker "^"
    for (i = 0; i < right; i++) {
        text = text shown(shown_behind[i])
        if (i > 0 && i < marks) marker = marker (shown_behind[i] == "\t" ? "\t" : "~")
    }
    print text (right < behind ? "..." : "")
    print marker
}

# ---- what is wrong

# the token as it is shown in a sentence
function quoted() {
    return first == 34 ? "this string" : "`" token (to - from > length(token) ? ".." : "") "`"
}

function sentence() {
    if (kind) return of_trap()
    if (number == 1) return of_byte()
    if (number == 2) return of_number()
    if (number == 3) return "this comment is not closed: `*/` is missing"
    if (number == 4) return "this string is not closed on its line: `\"` is missing"
    if (number == 5) return "unknown escape " quoted() ": strings have \\n, \\t, \\\\ and \\\""
    if (number == 6) return "a line that begins with `#` must go on as `include <`"
    if (number == 7) return "the file has more than 1,048,576 bytes"
    if (number == 9) return of_unbuilt()
    if (number == 10) return of_unexpected()
    if (number == 11) return "nested more than 64 deep"
    if (number == 12) return of_limit()
    if (number > 19) return of_types()
    return "refused"
}

function of_trap() {
    if (kind == "Null") return "this goes through a pointer that is NULL"
    if (kind == "Bounds") return "an index here is below 0, or not below the number of elements"
    if (kind == "DivZero") return "this divides by 0"
    if (kind == "BadSize") return "this asks for fewer than 1 element, or for more than 1,048,576 cells"
    return "a trap"
}

function of_byte() {
    if (first == 239 && from == 0) return "stray byte 0xEF: no byte order mark may stand before a program"
    if (first == 9) return "a tab in a string: write \\t"
    if (first == 13) return "a carriage return in a string"
    if (first < 32 || first == 127) return sprintf("stray control byte 0x%02X", first)
    if (first > 127 && token == "?") return sprintf("stray byte 0x%02X outside strings and comments", first)
    if (first > 127) return "stray `" token "` outside strings and comments"
    if (first == 35) return "stray `#`: it may only begin a line"
    if (first == 39) return "stray `'`: there are no character constants"
    return "stray `" token "` in the program"
}

function of_number() {
    if (has_letters) return quoted() " is no number: only digits may stand in it"
    if (first == 48) return quoted() " has needless zeros in front, and numbers are decimal"
    return quoted() " is too large: the largest number is 9223372036854775807"
}

function is_word() {
    return token ~ /^[A-Za-z_]/
}

function of_unbuilt() {
    if (token ~ /^(\{\^|forall)/) return "parallel sequences and foralls are not built yet"
    if (first == 34) return "only small programs run yet, and none has this string here"
    return "only small programs run yet, and none has " quoted() " here"
}

function of_unexpected(    hint) {
    if ((is_first || token == "}") && last ~ /[]0-9A-Za-z_")]/) hint = ": is a `;` missing?"
    return "syntax error: unexpected " (from == to ? "end of file" : first == 34 ? "string" : quoted()) hint
}

function of_types() {
    if (number == 20) return quoted() " isn't declared here"
    if (number == 21) return quoted() " is declared before"
    if (number == 22) return "types don't go together"
    if (number == 23) return "a local pointer is asked here"
    if (number == 24) return "a shared name may not stand here"
    if (number == 25) return "no return may stand in a branch or a forall"
    if (number == 26) return "nothing may be printed in a branch or a forall"
    if (number == 27) return "the file has no main that gives an int and takes ints"
    if (number == 28) return "a struct has at most 64 cells, an array 1 to 64"
    if (number == 29) return of_header()
    return "refused"
}

# a header's left side that isn't its variable, or a call or malloc in it
function of_header() {
    if (token ~ /\(/) return "no call or malloc may stand in the header of a forall"
    return "both assignments of a forall set one and the same variable"
}

function of_limit() {
    if (first == 34) return "this string stands for more than 255 bytes"
    if (is_word() && to - from > 64) return "this name has more than 64 bytes"
    return "one more than a limit allows: 'earthc --explain 12' has the limits"
}
