# shellcheck shell=bash
# What is said on standard error after the run, by its status.

text_file=   # the file that the program read as its source, where it can be read again
text_name=   # how that file is shown
position=    # where standard input stood before the run, in bytes

# To be called before the run: a source on standard input is the whole file only where that is at its start.
note_position() {
    local info
    exec {info}< "/proc/$$/fdinfo/0" || return
    read -r -u "$info" _ position
    exec {info}<&-
} 2> /dev/null

# Finds the file that was the source, by its name or as standard input.
find_text() {
    local file
    if [[ $joins == yes ]]; then
        text_name="the joined text"
        text_file=$1
    elif [[ $1 != - ]]; then
        text_name=$(shown "$1")
        [[ ! -f $1 ]] || text_file=$1
    elif [[ $position == 0 ]] && file=$(readlink "/proc/$$/fd/0") && [[ -f $file && $file -ef /proc/$$/fd/0 ]]; then
        text_name=$(shown "${file#"$PWD/"}")
        text_file=$file
    fi
}

# The first line that the program writes, by a second run. There is none where an input can't be read twice,
# or where the run is a long one.
first_line() {
    local image=${arguments[3]-}
    if [[ -n $answer ]]; then
        [[ -z $text_file ]] || head -n 1 -- "$answer" | head -c 200 | tr -d '\0'
        return
    fi
    [[ -n $text_file && (! -e $image || -f $image) ]] || return 0
    timeout --foreground 5 "$program" "${arguments[@]}" < "$text_file" 2> /dev/null | head -n 1 | head -c 200 | tr -d '\0'
}

# A line of a file, to be shown on one line. Where it has nothing but ASCII that takes few processes.
line_of() {
    local LC_ALL=C IFS=$' \t' line words
    line=$(sed -n -- "$2{p;q;}" "$1" 2> /dev/null | tr -d '\0')
    line=${line%$'\r'}
    if [[ $line == *[![:print:][:blank:]]* ]]; then
        display <<< "$line"
    else
        read -r -a words <<< "$line"
        line=${words[*]}
        printf '%s\n' "${line:0:160}"
    fi
}

# Shows text on one line: blanks are squeezed, control characters left out, and Latin-1 is shown as the terminal
# wants it.
display() {
    local line
    line=$(tr '\t\r\n' '   ' | tr -s ' ' | tr -d '\000-\011\013-\037\177' | head -c 160)
    line=${line# }
    line=${line% }
    if [[ $shown_in != *[Uu][Tt][Ff]* ]]; then
        printf '%s\n' "$line" | tr '\200-\377' '?'
    elif printf '%s' "$line" | iconv -f UTF-8 -t UTF-8 > /dev/null 2>&1; then
        printf '%s\n' "$line"
    else
        printf '%s\n' "$line" | iconv -f ISO-8859-1 -t UTF-8
    fi
}

# Says what is wrong on a line of a file: NAME:LINE: sentence: text
say_where() {
    local place=$1 file=$2 line=$3 sentence=$4 text
    text=$(line_of "$file" "$line")
    printf '%s: %s%s\n' "$place" "$sentence" "${text:+: $text}" >&2
}

# A refusal of the source: its line, a sentence, and where more is said. A command over a Structured Text has a
# name that ends with -st.
hint_refused() {
    local form='^line ([0-9]+): ([A-Za-z]+)(\(([A-Za-z]+)\))?$' section="A source of Statement List" line name
    [[ ${arguments[0]} != *-st ]] || section="A Structured Text"
    if [[ $(first_line) =~ $form ]]; then
        line=${BASH_REMATCH[1]}
        name=${BASH_REMATCH[4]:-${BASH_REMATCH[2]}}
        say_where "$(place_of "$line")" "$text_file" "$line" "$(from_page sentence "$name" "$section")"
        say_cause "${BASH_REMATCH[2]}${BASH_REMATCH[3]}" "$line"
        say "'$self explain $name' says what to change"
    else
        say "the text breaks a rule, which standard output names with its line; '$self explain NAME' says what to change"
    fi
}

hint_image() {
    local form='^image line ([0-9]+): ([A-Za-z]+)$' image=${arguments[3]-} line name
    if [[ $(first_line) =~ $form ]]; then
        line=${BASH_REMATCH[1]}
        name=${BASH_REMATCH[2]}
        say_where "$(shown "$image"):$line" "$image" "$line" "$(from_page sentence "$name" "An image")"
        say "'$self explain $name' says what to change"
    else
        say "the image breaks a rule, which standard output names with its line; '$self explain NAME' says what to change"
    fi
}

hint_fault() {
    local form='^# FAULT ([A-Za-z]+)$' name
    if [[ $(first_line) =~ $form ]]; then
        name=${BASH_REMATCH[1]}
        say "the run ended with a fault: $(from_page sentence "$name")"
        say_step
        say "'$self explain $name' says what to change"
    else
        say "the run ended with the fault that the report's first line names; '$self explain NAME' says what to change"
    fi
}

# Which of the three arguments of a run is no such argument.
hint_usage() {
    if [[ ! ${arguments[1]-} =~ ^[0-9]{1,20}$ ]]; then
        say "'$(shown "${arguments[1]}")' is no number of one to twenty digits"
    elif [[ -z ${arguments[3]-} ]]; then
        say "the image needs a name"
    else
        say "a number up to 18446744073709551615 is needed, and then a call, as OB1, FC10(MW4,M0.0) or FB1/DB5: '$(shown "${arguments[1]}") $(shown "${arguments[2]}")'"
    fi
}

hint_going() {
    local bound
    read -r bound _ <<< "${takes[${arguments[0]}]}"
    say "the run has not ended within $(shown "${arguments[1]-}") ${bound,,}: give it more, or look for a loop that does not end"
}

# Which input could not be read. That a source is not there is said before the run.
hint_unread() {
    local image=${arguments[3]-} why=
    [[ -z $image ]] || why=$(unreadable "$image")
    if [[ -n $why ]]; then
        say "the image $(shown "$image") can't be read: $why"
    else
        say "${text_name:-standard input}${image:+, or the image $(shown "$image"),} could not be read"
    fi
}

is_longer() {
    [[ -f $1 && $(stat -Lc %s -- "$1") -gt $2 ]]
}

hint_too_long() {
    local image=${arguments[3]-}
    if is_longer "$image" 67108864 && ! is_longer "$text_file" 4194304; then
        say "the image $(shown "$image") has more than 67,108,864 bytes"
    elif [[ $joins == yes ]]; then
        say "the joined text has $(stat -Lc %s -- "$text_file") bytes, and 4,194,304 can be read: leave out blocks that the others do not name"
        say_sizes
    elif [[ -z $image ]] || is_longer "$text_file" 4194304; then
        say "${text_name:-the source} has more than 4,194,304 bytes: divide it"
    else
        say "the source has more than 4,194,304 bytes, or the image more than 67,108,864"
    fi
}

# Whether a file reads like a source.
is_source() {
    [[ -f $1 ]] && LC_ALL=C grep -aqiE '^[[:blank:]]*(ORGANIZATION_BLOCK|DATA_BLOCK|FUNCTION|SYMBOL_TABLE|PROGRAM|VAR_GLOBAL)' -- "$1"
}

# Where the image is left out, the source has its place, and the text is whatever standard input is.
say_forgotten_image() {
    local image=${arguments[3]-}
    ! is_source "$image" || say "$(shown "$image") stands in the place of the image, and is a source: is the image forgotten? The order is ${takes[${arguments[0]}]} FILE, and an empty file is an image of zeros"
}

# A CR alone ends no line for the program, and most editors show it as an end.
warn_of_returns() {
    local number
    number=$(LC_ALL=C grep -anm 1 $'//[^\r]*\r[^\r]' -- "$text_file" | cut -d : -f 1)
    [[ -z $number ]] || printf '%s: %s\n' "$(place_of "$number")" \
        "a CR without LF stands in a comment, and ends no line: what follows it up to the LF is comment too. Save the file with the line ends of Windows or of Unix" >&2
}

# Says what is to be said after a run.
say_after_run() {
    find_text "$1"
    [[ -z $text_file ]] || warn_of_returns
    [[ $status == 0 ]] || hint
}

# Says what a status that is not 0 means for this source.
hint() {
    [[ $status != [13] ]] || say_forgotten_image
    case $status in
        1) hint_refused ;;
        2) hint_usage ;;
        3) hint_image ;;
        4) say "the source has nothing that the call $(shown "${arguments[2]-}") fits: no such block or unit, or other parameters" ;;
        5) hint_fault ;;
        6) hint_going ;;
        7) hint_unread ;;
        8) say "$(shown "${output:-standard output}") could not be written whole" ;;
        9) hint_too_long ;;
        10) say "memory ran out, and nothing was written" ;;
    esac
    [[ -z $output || $status == 8 ]] || say "$(shown "$output") is not written"
}
