# Cuts a text of Statement List into its blocks, and writes for each block a text of its own to be judged: the
# symbols and the blocks that it names, and the block itself. It stands on front/pieces.awk.
#
#   room     the folder that the texts go to
#   refused  the numbers, with blanks around each, of data blocks that are not accepted
#   stage    data: texts for the symbols, data blocks and types; code: for the other blocks
#
# For each block of the stage a line is written: its number, its kind, its first line, the number of a block of
# its name that stands earlier or 0, and how it is shown. Its text is room/NUMBER.text, and
# room/NUMBER.map has for each piece of it the first line, that line in the whole text, and the block.
# room/NUMBER.alone is the text without other blocks of code, where it takes some along.

function open_block(kind_of_it, line, column) {
    count++
    kind[count] = kind_of_it
    first[count] = line
    first_column[count] = column
    open = count
}

function close_block(line, column) {
    last[open] = line
    last_column[open] = column
    open = 0
}

# Names the block by what follows its heading's word: number and symbol, as far as they are known.
function name_block(rest,    name, key) {
    sub(/^[ \t]+/, "", rest)
    if (substr(rest, 1, 1) == "\"") {
        name = substr(rest, 2)
        name = substr(name, 1, index(name "\"", "\"") - 1)
        key = address[toupper(name)]
        shown[open] = (key == "" ? "" : spaced(key) " ") "\"" name "\""
        uses(open, toupper(name))
    } else if (match(rest, /^[A-Za-z]+[ \t]*[0-9]+/)) {
        key = key_of(substr(rest, 1, RLENGTH))
        shown[open] = (key == "" ? kind[open] : spaced(key)) (key in symbol_of ? " \"" symbol_of[key] "\"" : "")
    } else shown[open] = kind[open] " without a number"
    if (key == "") return
    if (key in block_of) earlier[open] = block_of[key]
    else block_of[key] = open
}

function spaced(key) {
    match(key, /[0-9]/)
    return substr(key, 1, RSTART - 1) " " substr(key, RSTART)
}

# Notes what a piece of a line names: symbols, and numbers of blocks.
function note_names(block, from, to,    line, code, at, name, rest) {
    line = substr($0, from, to - from + 1)
    code = substr(bare_line, from, to - from + 1)
    rest = code
    while (match(rest, /"+/)) {
        # (two names without a blank between them are one run of signs)
        name = substr(line, length(code) - length(rest) + RSTART, RLENGTH)
        rest = substr(rest, RSTART + RLENGTH)
        while (match(name, /^"[^"]*"/)) {
            uses(block, toupper(substr(name, 2, RLENGTH - 2)))
            name = substr(name, RLENGTH + 1)
        }
    }
    code = toupper(code)
    at = 1
    while (at = find_word(code, at, "(DB|DI|FC|FB|UDT)[ \t]*[0-9]+")) {
        name = substr(code, at, word_length)
        sub(/^DI/, "DB", name)
        needs[block] = needs[block] " " key_of(name)
        at += word_length
    }
}

function uses(block, name) {
    if (!(name in symbol_lines) || (block, name) in uses_symbol) return
    uses_symbol[block, name]
    names_of[block] = names_of[block] symbol_lines[name]
    if (address[name] != "") needs[block] = needs[block] " " address[name]
}

function read_symbol(    part, name) {
    if (split($0, part, "\"") < 4) return
    name = toupper(part[2])
    sub(/^ +/, "", name)
    sub(/ +$/, "", name)
    symbol_lines[name] = symbol_lines[name] " " NR
    if (!(name in address)) address[name] = key_of(part[4])
    if (address[name] in symbol_of) return
    gsub(/^ +| +$/, "", part[2])
    symbol_of[address[name]] = part[2]
}

# What stands outside any block is a block of its own, so that it is judged too.
function read_outside(from,    at, begins, word) {
    at = find_word(toupper(bare_line), from, heading)
    begins = at ? substr(bare_line, from, at - from) : substr(bare_line, from)
    if (begins ~ /[^ \t\r;]/) {
        open_block("text", NR, from)
        shown[open] = "text outside the blocks"
        note_names(open, from, at ? at - 1 : length($0))
        close_block(NR, at ? at - 1 : length($0))
        find_word(toupper(bare_line), from, heading)
    }
    if (!at) return length($0) + 1
    word = toupper(substr(bare_line, at, word_length))
    open_block(short[word], NR, at)
    end_word = "END_" word
    name_block(substr($0, at + word_length))
    return at + word_length
}

# A heading at the start of a line ends a block that has no end.
function read_inside(from,    at) {
    at = find_word(toupper(bare_line), from, end_word)
    if (at) {
        at += word_length - 1
        note_names(open, from, at)
        close_block(NR, at)
        return at + 1
    }
    if (NR > first[open] && toupper(bare_line) ~ ("^[ \t]*" heading "[ \t]")) {
        close_block(NR - 1, 0)
        return from
    }
    note_names(open, from, length($0))
    return length($0) + 1
}

# The blocks that a block takes along, itself among them: own[..] is set for each.
function close_over(block, with_code,    list, number, at, parts) {
    split("", own)
    own[block]
    list = " " block
    while (split(list, parts, " ")) {
        list = ""
        for (at in parts) {
            number = parts[at]
            list = list taken(needs[number], with_code, earlier[block])
        }
    }
}

# Whether a block of code is among those that are taken along.
function takes_code(    number, count_of) {
    for (number in own) if (kind[number] !~ /^(DB|UDT)$/) count_of++
    return count_of > 1 || (kind[block] ~ /^(DB|UDT)$/ && count_of)
}

function taken(keys, with_code, former,    parts, count_of, at, other, list) {
    count_of = split(keys, parts, " ")
    list = ""
    for (at = 1; at <= count_of; at++) {
        other = block_of[parts[at]]
        if (!other || other == former || other in own || index(refused, " " other " ")) continue
        if (!with_code && kind[other] !~ /^(DB|UDT)$/) continue
        own[other]
        list = list " " other
    }
    return list
}

function write_text(block, file, map,    at, line, parts, used, text_line, number, from, to) {
    split("", used)
    for (number in own) {
        split(names_of[number], parts, " ")
        for (at in parts) used[parts[at] + 0]
    }
    text_line = 0
    printf "" > map
    printf "" > file
    for (at in used) { print "SYMBOL_TABLE" > file; text_line++; break }
    if (text_line) {
        for (line = 1; line < table_end; line++) if (line in used) {
            print lines[line] > file
            print ++text_line, line, 0 > map
        }
        print "END_SYMBOL_TABLE" > file
        text_line++
    }
    for (number = 1; number <= count; number++) if (number in own) {
        print text_line + 1, first[number], number > map
        for (line = first[number]; line <= last[number]; line++) {
            from = line == first[number] ? first_column[number] : 1
            to = line == last[number] && last_column[number] ? last_column[number] : length(lines[line])
            print substr(lines[line], from, to - from + 1) > file
            text_line++
        }
    }
    close(file)
    close(map)
}

function write_symbols(    line) {
    if (!table_end) return
    for (line = 1; line <= table_end; line++) print lines[line] > (room "/0.text")
    print 1, 1, 0 > (room "/0.map")
    print "0\tsymbols\t2\t0\tsymbols"
}

BEGIN {
    short["ORGANIZATION_BLOCK"] = "OB"
    short["DATA_BLOCK"] = "DB"
    short["FUNCTION_BLOCK"] = "FB"
    short["FUNCTION"] = "FC"
    short["TYPE"] = "UDT"
    heading = "(ORGANIZATION_BLOCK|DATA_BLOCK|FUNCTION_BLOCK|FUNCTION|TYPE)"
}
{ lines[NR] = $0 }
NR == 1 && /^SYMBOL_TABLE$/ { in_table = 1; next }
in_table && /^END_SYMBOL_TABLE$/ { in_table = 0; table_end = NR; next }
in_table { read_symbol(); next }
{
    bare_line = bare($0)
    column = 1
    while (column <= length($0)) column = open ? read_inside(column) : read_outside(column)
}
END {
    if (open) close_block(NR, 0)
    if (stage == "data") write_symbols()
    for (block = 1; block <= count; block++) {
        if ((kind[block] ~ /^(DB|UDT)$/) != (stage == "data")) continue
        close_over(block, 1)
        write_text(block, room "/" block ".text", room "/" block ".map")
        if (takes_code()) {
            close_over(block, 0)
            write_text(block, room "/" block ".alone", room "/" block ".alone.map")
        }
        gsub(/[\001-\037\177]/, "?", shown[block])
        print block "\t" kind[block] "\t" first[block] "\t" earlier[block] + 0 "\t" shown[block]
    }
}
