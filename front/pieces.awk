# What other files of awk stand on: pieces of a line of Statement List.

# A line whose comments, attributes, titles, names in quotes and texts are taken out, each byte by another.
function bare(line,    out, at, sign, rest, end) {
    out = ""
    while (match(line, /\/\/|["'{]|[Tt][Ii][Tt][Ll][Ee][ \t]*=/)) {
        at = RSTART
        sign = substr(line, at, 1)
        end = sign == "{" ? "}" : sign
        rest = substr(line, at + 1)
        if ((sign == "t" || sign == "T") && at > 1 && substr(line, at - 1, 1) ~ /[A-Za-z0-9_]/) {
            out = out substr(line, 1, at)
            line = rest
        } else if (sign ~ /[\/Tt]/ || !index(rest, end)) {
            return out substr(line, 1, at - 1) (sign ~ /[\/Tt]/ ? "" : sign)
        } else {
            end = index(rest, end)
            out = out substr(line, 1, at - 1) filled(sign == "{" ? " " : sign, end + 1)
            line = substr(rest, end + 1)
        }
    }
    return out line
}

function filled(sign, count,    out) {
    out = sprintf("%" count "s", "")
    if (sign != " ") gsub(/ /, sign, out)
    return out
}

# Where a word of a pattern begins from a column on, or 0; its length is in word_length.
function find_word(text, from, pattern,    rest, at) {
    rest = substr(text, from)
    while (match(rest, pattern)) {
        at = from + RSTART - 1
        word_length = RLENGTH
        if ((at == 1 || substr(text, at - 1, 1) !~ /[A-Za-z0-9_]/) && substr(text, at + word_length, 1) !~ /[A-Za-z0-9_]/) return at
        from = at + word_length
        rest = substr(text, from)
    }
    return 0
}

# The key of an address or a heading, as DB10, or nothing.
function key_of(words) {
    words = toupper(words)
    gsub(/[ \t\r]/, "", words)
    if (words !~ /^(OB|DB|FC|FB|UDT)[0-9]+$/) return ""
    match(words, /[0-9]/)
    return substr(words, 1, RSTART - 1) (substr(words, RSTART) + 0)
}
