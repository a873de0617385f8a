# shellcheck shell=bash
# What the pages say of the definitions, and what bench/names counts. These cases read the repository itself.

# A script of bench ends with 0; where it doesn't, the first lines that it printed are shown.
agrees() {
    local name=$1 printed wrong=
    shift
    printed=$("$top/bench/$1" "${@:2}" 2>&1) || wrong="bench/$* ends with $?: $(head -n 5 <<< "$printed")"
    tell "$name" "$wrong"
}

agrees "the list of what must be believed is whole" believed --check
agrees "each definition says what it is held against" believed --against
agrees "the page has the definitions as their files say them" definitions --check

# What is excepted: the names that stay, with `|` between them, since they are public or those of a definition or a
# promise; and how many comments and lines there may be.
excepted_names="called|checked|closed|compared|converted|ended|jumped|left|listed|located|looped|negated|opened|put|read|saved|shifted|signed|stored|taken|typed|wrapped"
excepted_comments=0
excepted_proofs=6
excepted_specs=0

counts=$("$top/bench/names" 2>&1)

# A count of bench/names, by its words, is there and is no greater than it may be.
within() {
    local count wrong=
    count=$(sed -nE "s/^ *([0-9]+)  $2\$/\1/p" <<< "$counts")
    [[ -n $count ]] && ((count <= $3)) || wrong="${count:-no count} of '$2', where $3 may be"
    tell "$1" "$wrong"
}

participles=$(sed -nE 's/^ {8} *[0-9]+  ([a-z]+)$/\1/p' <<< "$counts" | grep -vxE "$excepted_names" | paste -sd ' ')
equal "no name is a bare participle but those that stay" "$participles" ""
within "no comment begins with 'The same'" "comments that begin with 'The same'" "$excepted_comments"
within "the lines of proofs are short" "lines of proofs over 160 columns" "$excepted_proofs"
within "the lines of specs are short" "lines of specs over 120 columns" "$excepted_specs"
