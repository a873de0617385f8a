# Reads the tables of docs/reference/refusals.md, whose head says what is relied on. `mode` is one of
#   names     the names of each section
#   whole     all that the page has of `name`
#   sentence  the first clause of the first column after the name, of the section `section` where it has one

function plain(cell) {
    gsub(/`/, "", cell)
    gsub(/\001/, "|", cell)
    gsub(/^ +| +$/, "", cell)
    return cell
}

# The name of a row: what stands in backticks, alone, in its first cell.
function name_of(cell) {
    return cell ~ /^ *`[A-Za-z]+` *$/ ? plain(cell) : ""
}

# A paragraph under a label, in lines of at most 78 characters.
function paragraph(label, text,    count, words, at, line) {
    count = split(text, words, " ")
    line = "    " label ":"
    for (at = 1; at <= count; at++) {
        if (length(line) + 1 + length(words[at]) > 78) {
            print line
            line = "       "
        }
        line = line " " words[at]
    }
    print line
}

function whole(    at) {
    print plain(cells[2]) " (" tolower(substr(section_here, 1, 1)) substr(section_here, 2) ")"
    for (at = 3; at <= columns; at++) {
        paragraph(labels[at], plain(cells[at]))
    }
}

function clause(cell) {
    sub(/[;.] .*/, "", cell)
    return plain(cell)
}

/^## / { section_here = substr($0, 4) }
!/^\|/ { columns = 0; next }
/^\|[-:| ]+\|$/ { next }
{
    row = $0
    gsub(/\\\|/, "\001", row)
    count = split(row, cells, "|") - 1
}
columns == 0 {
    columns = count
    for (at = 3; at <= count; at++) labels[at] = plain(cells[at])
    next
}
{ here = name_of(cells[2]) }
here == "" { next }
mode == "names" { list[section_here] = list[section_here] " " here; if (!(section_here in seen)) { seen[section_here]; order[++sections] = section_here } }
mode == "whole" && tolower(here) == tolower(name) { whole() }
mode == "sentence" && here == name && (found == "" || section_here == section) { found = clause(cells[3]) }
END {
    for (at = 1; at <= sections; at++) paragraph(order[at], list[order[at]])
    if (mode == "sentence") print found == "" ? name : found
}
