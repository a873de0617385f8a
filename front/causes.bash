# shellcheck shell=bash
# The usual cause of a refusal, by the table front/causes.txt. It is said after the program's own answer.

found=()      # what the pattern of a cause found, and what was found further
column=       # in which column of the line that begins, in bytes from 1
raw_line=     # the refused line
bare_line=    # the same without comments, titles, attributes and what stands in quotes

# Says the first cause that fits a reason and the line.
say_cause() {
    local reason=$1 line=$2 reasons= target= pattern= look= sentence= key value
    read_line "$text_file" "$line"
    while IFS=' ' read -r key value || [[ -n $key ]]; do
        case $key in
            on) reasons=$value target='' pattern='' look='' ;;
            line | bare) target=$key pattern=$value ;;
            look) look=$value ;;
            say)
                sentence=$value
                if fits; then
                    printf '%s: %s\n' "$(place_of "$line")" "$(filled_in "$sentence")" >&2
                    return
                fi
                ;;
        esac
    done < "$top/front/causes.txt"
}

# Whether the cause that was read fits.
fits() {
    [[ " $reasons " == *" $reason "* ]] || return
    found=() column=
    [[ -z $pattern ]] || is_like || return
    [[ -z $look ]] || "look_$look"
}

# Whether the line has the pattern: bytes, letters in any case.
is_like() {
    local LC_ALL=C text=$raw_line form before
    [[ $target == line ]] || text=$bare_line
    printf -v form %b "$pattern"
    shopt -s nocasematch
    if ! [[ $text =~ $form ]]; then
        shopt -u nocasematch
        return 1
    fi
    shopt -u nocasematch
    found=("${BASH_REMATCH[@]}")
    before=${text%%"${found[0]}"*}
    column=$((${#before} + 1))
    before=${found[0]%%"${found[1]-}"*}
    column=$((column + ${#before}))
}

# Reads a line of a file: a NUL becomes two bytes that stand in no text.
read_line() {
    local LC_ALL=C
    raw_line=$(sed -n -- "$2{s/\\x00/\\xC0\\x80/g;p;q;}" "$1" 2> /dev/null | head -c 4000)
    raw_line=${raw_line%$'\r'}
    take_out "$raw_line"
}

# Takes out what stands in comments, titles, attributes and quotes, each byte by a blank.
take_out() {
    local LC_ALL=C rest=$1 sign part title='^([Tt][Ii][Tt][Ll][Ee][[:blank:]]*=)'
    bare_line=
    while [[ $rest =~ ^([^\"\'\{/Tt]*)([\"\'\{/Tt])(.*)$ ]]; do
        bare_line+=${BASH_REMATCH[1]}
        sign=${BASH_REMATCH[2]} rest=${BASH_REMATCH[3]} part=
        case $sign in
            \" | \') [[ $rest != *"$sign"* ]] || part=${rest%%"$sign"*}$sign ;;
            \{) [[ $rest != *\}* ]] || part=${rest%%\}*}\} ;;
            /) [[ $rest != /* ]] || part=$rest ;;
            *) [[ $bare_line =~ [A-Za-z0-9_]$ || ! $sign$rest =~ $title ]] || part=$rest ;;
        esac
        if [[ -n $part ]]; then
            rest=${rest:${#part}}
            printf -v part '%*s' $((${#part} + 1)) ''
            bare_line+=$part
        else
            bare_line+=$sign
        fi
    done
    bare_line+=$rest
}

# The sentence with what was found.
filled_in() {
    local LC_ALL=C text=$1 at hex=
    if [[ -n $column ]]; then
        hex=$(printf '%s' "${found[1]-}" | od -An -v -tx1 | tr -d '\n')
        hex=${hex# }
        text=${text//%hex/${hex^^}}
        text=${text//%column/$(in_letters)}
    fi
    for at in 1 2 3 4 5 6 7 8 9; do
        [[ $text != *"%$at"* ]] || text=${text//%$at/$(display <<< "${found[at]-}")}
    done
    [[ $text != *%seen ]] || text=${text%"%seen"}$(seen "${hex^^}")
    printf '%s\n' "$text"
}

# The column in letters, as an editor counts it: in UTF-8 some have several bytes.
in_letters() {
    local LC_ALL=C before=${raw_line:0:column-1}
    if printf '%s' "$before" | iconv -f UTF-8 -t UTF-8 > /dev/null 2>&1; then
        before=${before//[$'\x80'-$'\xBF']/}
    fi
    echo $((${#before} + 1))
}

# The line with bytes that no editor shows as numbers.
seen() {
    local LC_ALL=C
    local before=${raw_line:0:column-1} behind=${raw_line:column-1+${#found[1]}}
    [[ $1 != "C0 80" ]] || set -- 00
    display <<< "$before<$1>$behind"
}

# The second bracket of a pattern is what was found, directly behind the first.
look_second() {
    column=$((${#found[1]} + 1))
    found[1]=${found[2]}
}

# Whether a line of a kind stands before the refused one, after the last of another kind.
stands_before() {
    local LC_ALL=C last
    last=$(head -n "$line" -- "$text_file" | grep -aiE "^[[:blank:]]*($1|$2)" | tail -n 1)
    shopt -s nocasematch
    [[ $last =~ ^[[:blank:]]*($1) ]]
    local is_so=$?
    shopt -u nocasematch
    return "$is_so"
}

look_in_body() {
    stands_before BEGIN 'ORGANIZATION_BLOCK|DATA_BLOCK|FUNCTION|END_|VAR|STRUCT|SYMBOL_TABLE'
}

look_in_code() {
    look_in_body && ! look_in_data
}

look_before_begin() {
    stands_before 'ORGANIZATION_BLOCK|FUNCTION|VAR|END_VAR' 'BEGIN|END_[OFD]'
}

look_in_data() {
    stands_before DATA_BLOCK 'ORGANIZATION_BLOCK|FUNCTION|TYPE[[:blank:]]'
}

look_before_heading() {
    [[ $bare_line == *\;* || ${bare_line^^} =~ ^[[:blank:]]*NETWORK ]] || return
    ! head -n "$line" -- "$text_file" | LC_ALL=C grep -aqiE '^[^/]*(ORGANIZATION_BLOCK|DATA_BLOCK|FUNCTION|TYPE[[:blank:]]|SYMBOL_TABLE)'
}

look_data_alone() {
    LC_ALL=C grep -aqiE '^[[:blank:]]*DATA_BLOCK' -- "$text_file"
}

look_no_table() {
    [[ $raw_line == *\"*\"* ]] && ! LC_ALL=C grep -aqiE '^[[:blank:]]*SYMBOL_TABLE' -- "$text_file"
}

# The timer that a time is for stands behind it, on the same line or on one of the next two.
look_timer_behind() {
    local LC_ALL=C number=0 text form='(^|;|[[:blank:]])(S[PEDSF])[[:blank:]]+(T[[:blank:]]*[0-9]+|"[^"]*")'
    while IFS= read -r text; do
        if [[ ${text^^} =~ $form ]]; then
            found=("" "${BASH_REMATCH[2]} ${BASH_REMATCH[3]}" $((line + number)))
            found[2]=$(place_of "$((line + number))")
            found[2]=${found[2]##*:}
            return
        fi
        number=$((number + 1))
    done < <(sed -n "$line,$((line + 2))p" -- "$text_file" | tr -d '\0')
    return 1
}

# Looks in the symbol table for the names in quotes of the line, until one is of the kind that is wanted: itself,
# or one that differs by its code page or by the case of umlauts. Sets its line, and what stands there.
find_symbol() {
    local LC_ALL=C rest=$raw_line number how rest_of_it
    while [[ $rest =~ \"([^\"]*)\"(.*)$ ]]; do
        name=${BASH_REMATCH[1]} rest=${BASH_REMATCH[2]}
        while read -r number how rest_of_it; do
            [[ $how == "$1" ]] || continue
            where=$(place_of "$number") what=$rest_of_it
            "${2:-true}" && return
        done < <(NAME=$name awk -f "$top/front/symbols.awk" "$text_file" 2> /dev/null)
    done
    return 1
}

look_code_page() {
    local name where what
    find_symbol page && found=("" "$name" "$where")
}

look_umlaut_case() {
    local name where what
    find_symbol case && found=("" "$name" "$where" "$what")
}

look_symbol_kind() {
    local name where what kind=
    find_symbol same name_kind && found=("" "$name" "$what" "$where" "$kind")
}

# What an address is that no operand can be, by its first letters.
name_kind() {
    case ${what^^} in
        T[\ 0-9]*) kind="a timer, and timers are not translated" ;;
        [CZ][\ 0-9]*) kind="a counter, and counters are not translated" ;;
        P[IQEA][BWD]*) kind="an address of the peripherals, which are not translated: copy them to I, Q or M in a block that stays in STL" ;;
        SF[CB]*) kind="a block of the system, and those are not translated" ;;
        UDT*) kind="a type of one's own, and those are not translated" ;;
        F[CB]*) kind="a block, which stands in headings and calls alone" ;;
        [EA][\ 0-9]* | [EA][BWD]*) kind="a German address: export the symbols with English mnemonics, which the SIMATIC Manager sets under Options, Customize, Language" ;;
        *) return 1 ;;
    esac
}
