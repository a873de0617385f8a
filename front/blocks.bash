# shellcheck shell=bash
# The check of each block of a plant by itself, with the symbols and the blocks that it names.

block_name=()      # of each block by its number how it is shown
refused_data=" "   # the numbers of data blocks that are not accepted, with blanks around each
row_place=()       # of each line that is written: where its block or what is wrong with it stands,
row_name=()        # the block,
row_verdict=()     # accepted, or the reason,
row_text=()        # and the line that is refused

# A line for each block, and sums. Ends with 0 where all are accepted, else with the greatest status.
check_blocks() {
    local greatest=0
    local -A count=() words=() blocks_of=() well_of=()
    look_at_files
    join_sources
    build_where_needed
    text_file=$joined
    text_name="the joined text"
    warn_of_returns
    # (awk may end a line at a NUL, which is as bad a token as the byte that takes its place)
    LC_ALL=C tr '\0' '\1' < "$joined" > "$scratch/whole"
    judge_stage data
    judge_stage code
    [[ $greatest != 0 ]] || judge_whole
    [[ -n ${blocks_of[*]-} ]] || greatest=$((greatest > 1 ? greatest : 1))
    mapfile -t sums < <(write_sums)
    put "${sums[@]}"
    [[ -z $report ]] || write_report
    [[ ${#count[@]} == 0 ]] || say "'$self explain NAME' says what to change for a reason"
    exit "$greatest"
}

# Judges the data blocks, or then the others, which may name data blocks.
judge_stage() {
    local number kind first earlier name
    while IFS=$'\t' read -r number kind first earlier name; do
        block_name[number]=$name
        judge_block
    done < <(LC_ALL=C awk -v room="$scratch" -v refused="$refused_data" -v stage="$1" \
        -f "$top/front/pieces.awk" -f "$top/front/blocks.awk" "$scratch/whole")
}

# Runs the program on one of the texts: sets its status, the reason, and the line and the block that it is about.
judge_text() {
    local answer form='^line ([0-9]+): (.*)$' line from origin block
    answer=$("$program" check < "$1" | tr -d '\0'; exit "${PIPESTATUS[0]}")
    status=$?
    reason=${answer:-no answer} at=$first owner=$number
    [[ $status -le 128 ]] || end_by "$(kill -l "$status")"
    [[ $status != 10 ]] || reason="out of memory"
    [[ $status == 1 && $answer =~ $form ]] || return 0
    line=${BASH_REMATCH[1]} reason=${BASH_REMATCH[2]}
    while read -r from origin block; do
        [[ $from -le $line ]] || break
        at=$((origin + line - from)) owner=$block
    done < "$2"
}

# A text without an organization block breaks the last rule, and no other.
is_well() {
    [[ $status == 0 || ($reason == NoBlocks && $kind != text) ]]
}

# Judges a block. Where another block is to blame that it takes along, it may be to blame itself all the same.
judge_block() {
    local reason at owner text= base=$scratch/$number
    judge_text "$base.text" "$base.map"
    if ! is_well && [[ $owner != 0 && $owner != "$number" && -e $base.alone ]]; then
        local first_reason=$reason first_at=$at first_owner=$owner
        judge_text "$base.alone" "$base.alone.map"
        if is_well || [[ $owner != "$number" || $reason == UnknownBlock ]]; then
            status=1 reason=$first_reason at=$first_at owner=$first_owner
        fi
    fi
    # (the rule by which a block stands once is the one thing that its own text can't break)
    ! is_well || [[ $earlier == 0 ]] || { status=1 reason=DuplicateBlock at=$first owner=$number; }
    [[ $kind == symbols || $kind == text ]] || blocks_of[$kind]=$((${blocks_of[$kind]-0} + 1))
    if is_well; then
        status=0
        [[ $kind == symbols || $kind == text ]] || well_of[$kind]=$((${well_of[$kind]-0} + 1))
        note_row "$(place_of "$first")" "$name" accepted
    else
        note_refusal
    fi
}

note_refusal() {
    [[ $status -le $greatest ]] || greatest=$status
    [[ $kind != DB ]] || refused_data+="$number "
    count[$reason]=$((${count[$reason]-0} + 1))
    [[ $status != 1 ]] || text=$(line_of "$joined" "$at")
    [[ $reason != Unsupported* ]] || count_word "$text"
    if [[ $owner != "$number" && $owner != 0 ]]; then
        name+=" needs ${block_name[owner]}"
    elif [[ $reason == UnknownName ]]; then
        name+=$(refused_in "$text")
    fi
    note_row "$(place_of "$at")" "$name" "$reason" "$text"
    # (a report is in UTF-8 wherever it is written)
    [[ -z $report || -z $text ]] || row_text[-1]=$(shown_in=UTF-8 && line_of "$joined" "$at")
}

# A data block that a line names, and that is not accepted.
refused_in() {
    local number name
    for number in $refused_data; do
        name=${block_name[number]}
        [[ $name != *\"* || ${1^^} != *"\"$(cut -d '"' -f 2 <<< "${name^^}")\""* ]] || echo ", where $name is not accepted"
    done
}

note_row() {
    row_place+=("$1") row_name+=("$2") row_verdict+=("$3") row_text+=("${4-}")
    put "$1: $2: $3${4:+: $4}"
}

# Counts the first word of what is not supported: of several statements on a line that of the one that is it.
count_word() {
    local statement word form='^[[:blank:]]*([A-Za-z_][A-Za-z0-9_]*)[[:blank:]]*:[^=](.*)' statements parts
    statement=${1%%//*}
    statement=${statement%"${statement##*[! ]}"}
    IFS=';' read -r -a statements <<< "$statement"
    if [[ ${#statements[@]} -gt 2 || -n ${statements[1]-} ]]; then
        for statement in "${statements[@]}"; do
            [[ $("$program" check <<< "ORGANIZATION_BLOCK OB 1 BEGIN $statement; END_ORGANIZATION_BLOCK") != "line 1: $reason" ]] || break
            statement=${statements[0]}
        done
    fi
    # (behind a label, or the name of a declaration)
    [[ ! "$statement " =~ $form ]] || statement=${BASH_REMATCH[2]##* OF }
    read -r -a parts <<< "${statement//[(;]/ }"
    word=${parts[0]-nothing}
    word=${word^^}
    words[$word]=$((${words[$word]-0} + 1))
}

# Blocks that are accepted one by one may still break a rule together.
judge_whole() {
    local number=0 kind=whole first=1 reason at owner text= name="all together"
    echo "1 1 0" > "$scratch/whole.map"
    judge_text "$joined" "$scratch/whole.map"
    is_well || note_refusal
}

write_sums() {
    local kind all=0 well=0
    for kind in OB FB FC DB UDT; do
        [[ -n ${blocks_of[$kind]-} ]] || continue
        echo "$kind: ${well_of[$kind]-0} of ${blocks_of[$kind]} are accepted"
        all=$((all + blocks_of[$kind])) well=$((well + ${well_of[$kind]-0}))
    done
    echo "$well of $all blocks are accepted"
    [[ ${#count[@]} == 0 ]] || counted count
    [[ ${#words[@]} == 0 ]] || { echo "not supported, by the first word:" && counted words; }
}
