# Writes the line of the instruction that is the step `step` of the block `block`, as OB1. Nothing is written
# where the block has jumps, calls, ends or labels, which make another order. It stands on front/pieces.awk.

# Reads the statements of a piece of the body.
function read_body(text,    count_of, parts, at) {
    count_of = split(text, parts, ";")
    for (at = 1; at <= count_of; at++) {
        sub(/^[ \t\r]+/, "", parts[at])
        if (statement == "") sub(/^NETWORK([ \t\r]+|$)/, "", parts[at])
        if (parts[at] !~ /^[ \t\r]*$/) {
            if (statement == "") begins = NR
            statement = statement " " parts[at]
        }
        if (at < count_of) end_statement()
    }
}

function end_statement() {
    if (statement == "") return
    if (statement ~ /^ (J[A-Z]+|LOOP|CALL|UC|CC|BE|BEC|BEU)([ \t\r]|$)/ || statement ~ /:/) is_straight = 0
    statement = ""
    if (++steps == step) answer = begins
}

# Whether the block of a heading is the one that is wanted: by its number, or by a name of the symbol table.
function is_wanted(rest,    name) {
    sub(/^[ \t]+/, "", rest)
    if (substr(rest, 1, 1) != "\"") return match(rest, /^[A-Za-z]+[ \t]*[0-9]+/) && key_of(substr(rest, 1, RLENGTH)) == wanted
    name = toupper(substr(rest, 2))
    return address[substr(name, 1, index(name "\"", "\"") - 1)] == wanted
}

BEGIN {
    wanted = key_of(block)
    is_straight = 1
}
{
    code = toupper(bare($0))
    if (!found && split($0, field, "\"") >= 4) {
        name = toupper(field[2])
        sub(/ +$/, "", name)
        address[name] = key_of(field[4])
    }
    from = 1
    if (!in_block && (at = find_word(code, 1, "ORGANIZATION_BLOCK")) && is_wanted(substr($0, at + word_length))) {
        in_block = found = 1
        from = at + word_length
    }
    if (in_block && !in_body && (at = find_word(code, from, "BEGIN"))) {
        in_body = 1
        from = at + word_length
    } else if (!in_body) next
    at = find_word(code, from, "END_ORGANIZATION_BLOCK")
    read_body(substr(code, from, at ? at - from : length(code)))
    if (at) exit
}
END { if (is_straight && answer) print answer }
