# shellcheck shell=bash
# Several files as one text: the symbols of a plant's export, and then its blocks.
#
# The text begins with one symbol table, of the lines of all SDF exports and of the tables in sources. What is
# left of each file follows in the order of the files. Each part of the text is noted with the file and the
# line that it comes from, so that a hint can name them.

joined=          # the file that has the text
joined_lines=0   # how many lines it has so far
part_first=()    # of each part its first line in the text,
part_from=()     # that line in its file,
part_name=()     # and how the file is shown
cut_name=()      # what is to be a part: how its file is shown,
cut_file=()      # where it is read,
cut_lines=()     # its lines, as sed names them,
cut_goes=()      # and where it goes: symbols or blocks

# Where a line of the text stands, as NAME:LINE.
place_of() {
    local at=$((${#part_first[@]} - 1))
    while [[ $at -ge 0 && ${part_first[at]} -gt $1 ]]; do at=$((at - 1)); done
    if [[ $at -lt 0 ]]; then
        echo "$text_name:$1"
    else
        echo "${part_name[at]}:$(($1 - part_first[at] + part_from[at]))"
    fi
}

# A folder of the front's own, which goes when it ends.
make_scratch() {
    [[ -z $scratch ]] || return 0
    scratch=$(mktemp -d -t stl2st-XXXXXX 2> /dev/null) \
        || fail 8 "no folder for the front's own files can be made in ${TMPDIR:-/tmp}: is the disk full?"
    trap clean_up EXIT
}

# The beginning of a file, without what marks its encoding.
beginning() {
    head -c 4096 -- "$1" | tr -d '\0' | LC_ALL=C sed '1s/^\xEF\xBB\xBF//; 1s/^\xFF\xFE//; 1s/^\xFE\xFF//'
}

# Symbols are exported in several forms, of which one can be read.
refuse_other_export() {
    local form='^[[:space:]]*(126,|TABLE[[:space:]])' beginning
    beginning=$(beginning "$2")
    [[ ${1,,} =~ \.(asc|seq|dif|csv|xls|xlsx|xml)$ || $beginning =~ $form ]] || return 0
    fail 7 "$(shown "$1") is an export of symbols in a form that is not read: export them as SDF (in the symbol editor: Symbol Table, Export, System Data Format)"
}

is_symbols() {
    local beginning
    beginning=$(beginning "$1")
    [[ $beginning =~ ^[[:space:]]*\" ]]
}

# Notes lines of a file as a part, where there are some.
note_part() {
    local name=$1 file=$2 from=$3 to=$4 goes=$5
    [[ $to == '$' || $from -le $to ]] || return 0
    cut_name+=("$name") cut_file+=("$file") cut_lines+=("$from,$to") cut_goes+=("$goes")
}

# Cuts a source at the lines of its symbol table: what stands in it, and the rest.
cut_source() {
    local number word from=1 goes=blocks
    while IFS=: read -r number word; do
        note_part "$1" "$2" "$from" $((number - 1)) "$goes"
        goes=symbols
        [[ ${word^^} != *END_* ]] || goes=blocks
        from=$((number + 1))
    done < <(LC_ALL=C grep -aniE '^[[:blank:]]*(END_)?SYMBOL_TABLE[[:space:]]*(//.*)?$' -- "$2")
    note_part "$1" "$2" "$from" '$' "$goes"
}

# Adds a part to the text, and a line end where its last line has none.
append() {
    local lines
    part_first+=($((joined_lines + 1))) part_from+=("${cut_lines[$1]%,*}") part_name+=("${cut_name[$1]}")
    lines=$(LC_ALL=C sed -n -- "${cut_lines[$1]}p" "${cut_file[$1]}" | tee -a -- "$joined" | wc -l)
    if [[ -s $joined && $(tail -c 1 -- "$joined" | wc -l) == 0 ]]; then
        echo >> "$joined"
        lines=$((lines + 1))
    fi
    joined_lines=$((joined_lines + lines))
} 2> /dev/null

# A line that stands in no file.
append_word() {
    echo "$1" >> "$joined"
    joined_lines=$((joined_lines + 1))
    part_first+=("$joined_lines") part_from+=("$joined_lines") part_name+=("the joined text")
}

append_all() {
    local at
    for at in "${!cut_goes[@]}"; do
        [[ ${cut_goes[at]} != "$1" ]] || append "$at"
    done
}

# Makes one text of the sources, which becomes the source.
join_sources() {
    local source file
    make_scratch
    joined=$scratch/joined
    : > "$joined"
    for source in "${sources[@]}"; do
        file=$source
        if [[ $source == - || ! -f $source ]]; then
            # (a stream is read once)
            file=$scratch/${#cut_name[@]}
            [[ $source != - ]] || source=/proc/$$/fd/0
            cat -- "$source" > "$file" 2> /dev/null || fail 7 "$(shown "$source") can't be read"
            source=${source/#"/proc/$$/fd/0"/"standard input"}
        fi
        refuse_other_export "$source" "$file"
        if is_symbols "$file"; then
            note_part "$(shown "$source")" "$file" 1 '$' symbols
        else
            cut_source "$(shown "$source")" "$file"
        fi
    done
    if [[ " ${cut_goes[*]} " == *" symbols "* ]]; then
        append_word SYMBOL_TABLE
        append_all symbols
        append_word END_SYMBOL_TABLE
    fi
    append_all blocks
    [[ -z $kept ]] || keep_joined
    files=("${sources[@]}")
    sources=("$joined")
}

keep_joined() {
    local to
    open_output "$kept"
    { cat -- "$joined" >&"$to" && name_output; } 2> /dev/null || fail 8 "$(shown "$kept") could not be written whole"
    exec {to}>&-
    beside=
}

# The size of each file that is part of the text.
say_sizes() {
    local file
    for file in "${files[@]}"; do
        [[ ! -f $file ]] || say "$(stat -Lc %s -- "$file") bytes: $(shown "$file")"
    done
}
