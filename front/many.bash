# shellcheck shell=bash
# Many sources, each by itself: which of a plant's are accepted, and the translation of those that are?

# Runs a command of the program on one source. Sets the program's status, or that of a file that can't be read,
# the line that stands for the source, and the reason under which it is counted.
run_each() {
    local why= text= form='^line ([0-9]+): (.*)$'
    [[ $2 == - ]] || why=$(unreadable "$2")
    if [[ -n $why ]]; then
        status=7 reason="can't be read" line="can't be read: $why"
        return
    fi
    [[ $is_ready == yes ]] || build_where_needed
    is_ready=yes
    "answer_to_$1" "$2"
    [[ $status -le 128 ]] || end_by "$(kill -l "$status")"
    if [[ $status == 10 ]]; then
        line="out of memory"
    elif [[ $status == 8 ]]; then
        line="can't be written"
    elif [[ -z $line ]]; then
        status=7 line="can't be read"
    fi
    reason=$line
    [[ $2 == - || ! -f $2 ]] || text_file=$2 text_name=$(shown "$2") warn_of_returns
    if [[ $line =~ $form ]]; then
        reason=${BASH_REMATCH[2]}
        [[ $2 == - || ! -f $2 ]] || text=$(line_of "$2" "${BASH_REMATCH[1]}")
        line+=${text:+: $text}
    fi
}

answer_to_check() {
    if [[ $1 == - ]]; then
        line=$("$program" check)
    else
        line=$("$program" check < "$1")
    fi
    status=$?
}

# The text goes to a file of the front's, which takes the name of the translation where there is one.
answer_to_translate() {
    local to target named
    find_target "$1"
    named=$target
    open_output "$target"
    "$program" translate < "$1" >&"$to"
    status=$?
    exec {to}>&-
    line=translated
    if [[ $status == 0 ]]; then
        name_output || status=8
    else
        line=$(head -n 1 -- "$beside" | tr -d '\0')
        [[ ! -e $target ]] || say "$(shown "$named") is from before, and stays as it is"
    fi
    rm -f -- "$beside"
    beside=
}

# The file in the folder of -o that a source's translation is written to.
find_target() {
    target=${1##*/}
    [[ $target != ?*.* ]] || target=${target%.*}
    target=${output%/}/$target.st
}

# Looks at the folder, and at the names of the files in it, before any of them is written.
look_at_folder() {
    local source why target
    local -A source_of=()
    for source in "${sources[@]}"; do
        [[ $source != - ]] || usage "standard input has no name for a text in a folder"
        find_target "$source"
        [[ -z ${source_of[$target]-} ]] \
            || usage "$(shown "${source_of[$target]}") and $(shown "$source") would both be $(shown "$target")"
        source_of[$target]=$source
        [[ ! $source -ef $target ]] || usage "$(shown "$target") would be written over, and is the source itself"
        why=
        if [[ -d $output ]]; then
            why=$(unwritable "$target")
        elif [[ -e $output ]]; then
            fail 8 "$(shown "$output") is no folder, which several texts need"
        else
            why=$(unwritable "${output%/}")
        fi
        [[ -z $why ]] || fail 8 "$(shown "$target") can't be written: $why"
    done
}

# One text for each source that is accepted, in the folder of -o.
translate_many() {
    look_at_folder
    [[ -d $output ]] || mkdir -- "$output" 2> /dev/null || fail 8 "the folder $(shown "$output") can't be made"
    many translate "are translated"
}

# A line for each source, or for each that is not translated; how many went well, and each reason with its
# number, most frequent first. Ends with the greatest status.
many() {
    local source line reason is_ready=no greatest=0 well=0
    local -A count=()
    for source in "${sources[@]}"; do
        run_each "$1" "$source"
        [[ $status == 0 && $1 == translate ]] || put "$(shown "$source"): $line"
        if [[ $status == 0 ]]; then
            well=$((well + 1))
        else
            count[$reason]=$((${count[$reason]-0} + 1))
        fi
        [[ $status -le $greatest ]] || greatest=$status
    done
    put "$well of ${#sources[@]} $2"
    if [[ ${#count[@]} -gt 0 ]]; then
        put "$(counted count)"
        say "'$self explain NAME' says what to change for a reason"
    fi
    exit "$greatest"
}

# What is counted in an array, most frequent first.
counted() {
    local -n number_of=$1
    local what
    for what in "${!number_of[@]}"; do echo "${number_of[$what]} $what"; done | LC_ALL=C sort -k1,1nr -k2
}
