# Looks for the name NAME of the environment in the symbol tables of a text. For each symbol that has it a line
# is written: the line of the symbol, how its name is meant, and then its address or its name:
#   same  it is the name, letters of ASCII in any case, and its address follows
#   page  it is the name in another code page, Latin-1 for UTF-8 or the other way round
#   case  it is the name but for the case of letters beyond ASCII

# A text in Latin-1, where it is UTF-8.
function latin(text,    at) {
    if (!index(text, lead)) return text
    for (at = 128; at < 192; at++) gsub(lead byte[at], byte[at + 64], text)
    return text
}

function small(text,    at) {
    for (at = 192; at < 223; at++) gsub(byte[at], byte[at + 32], text)
    return text
}

BEGIN {
    for (at = 128; at < 256; at++) byte[at] = sprintf("%c", at)
    lead = byte[195]
    name = toupper(ENVIRON["NAME"])
    gsub(/^ +| +$/, "", name)
    is_plain = name !~ ("[" byte[128] "-" byte[255] "]")
}
toupper($0) ~ /^[ \t]*SYMBOL_TABLE/ { in_table = 1; next }
toupper($0) ~ /^[ \t]*END_SYMBOL_TABLE/ { in_table = 0 }
!in_table { next }
{
    if (split($0, field, "\"") < 4) next
    other = toupper(field[2])
    gsub(/^ +| +$/, "", other)
    gsub(/ +/, " ", field[4])
    sub(/^ /, "", field[4])
    sub(/ $/, "", field[4])
    if (other == name) { print NR, "same", field[4]; exit }
    if (is_plain) next
    if (latin(other) == latin(name)) { print NR, "page", field[2]; exit }
    if (small(latin(other)) == small(latin(name))) { print NR, "case", field[2]; exit }
}
