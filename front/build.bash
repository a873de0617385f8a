# shellcheck shell=bash
# Whether the program is built from the sources as they stand, and building it.
#
# rt proves and builds the program in its crate. A copy of it stands in out/, beside a stamp with two
# checksums: that of the sources before the build, and the copy's own. So an edit during the build, another
# executable in its place and a file that is taken out all count as a change, and a checkout that only moved
# the times of files does not.

out=$top/out
program=$out/stl2st
stamp=$out/stl2st.sums
log=$out/build.log
crate=$top/crates/stl2st
first_build="half an hour to an hour on four processors"
progress_every=300   # seconds between two lines about a build that has no terminal

# A source that every version of the program accepts.
empty_block=$'ORGANIZATION_BLOCK OB 1\nBEGIN\nEND_ORGANIZATION_BLOCK'

# The crates that the program stands on, with its own: crates.txt has a line 'NAME: LIBRARY ..' for each.
# What it has no line for is the kit's.
crates_below() {
    local -A below=() seen=()
    local line name library left=(stl2st)
    while read -r line || [[ -n $line ]]; do
        line=${line%%#*}
        name=${line%%[: ]*}
        [[ -z $name ]] || below[$name]=${line#*:}
    done < "$top/crates.txt"
    while [[ ${#left[@]} -gt 0 ]]; do
        name=${left[0]}
        left=("${left[@]:1}")
        [[ -n ${below[$name]+is} && -z ${seen[$name]-} ]] || continue
        seen[$name]=yes
        for library in ${below[$name]}; do left+=("$library"); done
        echo "$name"
    done
}

# The checksum of the names and the contents of all that the program is made of.
sources_sum() {
    local name part folders=() sum
    for name in $(crates_below); do
        for part in src specs proofs; do
            [[ ! -d $top/crates/$name/$part ]] || folders+=("crates/$name/$part")
        done
    done
    sum=$(cd -- "$top" && find crates.txt HANDLES "${folders[@]}" -type f \
        \( -name '*.rt' -o -name '*.antt' -o -path crates.txt -o -path HANDLES \) -print0 \
        | LC_ALL=C sort -z | xargs -0 sha256sum -- | sha256sum)
    echo "${sum%% *}"
}

file_sum() {
    local sum
    sum=$(sha256sum < "$1")
    echo "${sum%% *}"
}

# Why the program does not count as built, or nothing.
why_not_built() {
    local sums
    if [[ ! -x $program || ! -r $stamp ]]; then
        echo "not built yet"
    else
        mapfile -t sums < "$stamp"
        if [[ ${sums[0]-} != "$(sources_sum)" ]]; then
            echo "built from other sources"
        elif [[ ${sums[1]-} != "$(file_sum "$program")" ]]; then
            echo "not the one that was built"
        fi
    fi
}

# What a build needs.
stop_where_unbuildable() {
    local tool
    command -v rt > /dev/null \
        || fail 125 "the program is $1, and the kit's command 'rt', which proves and builds it, is not on the path"
    for tool in flock setsid sha256sum; do
        command -v "$tool" > /dev/null || fail 125 "the program is $1, and '$tool', which a build needs, is not on the path"
    done
    { mkdir -p -- "$out" && [[ -w $out && -w $crate ]]; } 2> /dev/null \
        || fail 125 "the program is $1, and $top can't be written: build it in a checkout that can"
}

# The crate that is being proved: it stands in the arguments of a process that the builder started.
crate_of() {
    local child parts at
    for child in $(cat "/proc/$1/task"/*/children); do
        mapfile -d '' parts < "/proc/$child/cmdline"
        for at in "${!parts[@]}"; do
            [[ ${parts[at]} != --crate-name ]] || echo "${parts[at + 1]-}"
        done
        crate_of "$child"
    done 2> /dev/null
}

# One line on a terminal, which is written over.
show_progress() {
    local name what=preparing
    name=$(crate_of "$builder")
    [[ -z $name ]] || what="proving ${name%%$'\n'*}"
    printf '\r\033[Kstl2st: %s, %d min' "$what" $(((SECONDS - begun) / 60)) >&2
}

# How many crates are to be built still, of how many: one is built where its library is there, and no source of
# it is newer.
crates_left() {
    local name made left=0 all=0
    for name in $(crates_below); do
        all=$((all + 1))
        made=$top/crates/$name/out/rlib/$name.rlib
        [[ -e $made && -z $(find "$top/crates/$name"/{src,specs,proofs} -newer "$made" -print -quit) ]] || left=$((left + 1))
    done 2> /dev/null
    echo "$left of $all"
}

# A line every few minutes, where there is no terminal. What waits holds no stream, so that whoever reads the
# front's streams to their end does not wait for it.
tell_progress() {
    local name told=$SECONDS
    while sleep 1 <&- >&- 2>&-; kill -0 "$$" && kill -0 "$builder"; do
        [[ $((SECONDS - told)) -ge $progress_every ]] || continue
        told=$SECONDS
        name=$(crate_of "$builder")
        name=${name%%$'\n'*}
        say "still building after $(((SECONDS - begun) / 60)) min: ${name:+proving $name, and }$(crates_left) crates are left" 2>&3
    done 3>&2 2> /dev/null
}

clear_progress() {
    [[ $on_terminal == no ]] || printf '\r\033[K' >&2
}

# Ends all that the build started, and then the front. rt has two seconds to end by itself.
end_build() {
    {
        kill -TERM -- "-$builder"
        for _ in {1..20}; do
            kill -0 "$builder" || break
            sleep 0.1
        done
        kill -KILL -- "-$builder"
    } 2> /dev/null
    clear_progress
    say "the build was stopped; what is proved so far is kept"
    end_by "$1"
}

# Stops the build with the front, and goes on with it. rt first stops what it started in other groups.
pause_build() {
    kill -TSTP "$builder"
    sleep 0.3
    kill -STOP -- "-$builder"
    kill -STOP "$$"
    kill -CONT -- "-$builder"
} 2> /dev/null

# How many crates are proved at a time with so many processors and so many free KiB: a check has been seen to
# take 5 GB.
crates_at_once() {
    local fit=$(($2 / 5000000))
    [[ $fit -le $1 ]] || fit=$1
    echo $((fit > 1 ? fit : 1))
}

# The KiB of memory that are free, or 0 where that is not told.
free_memory() {
    local name free rest
    while read -r name free rest; do
        [[ $name != MemAvailable: ]] || break
    done < /proc/meminfo
    echo "${free:-0}"
} 2> /dev/null

# Runs rt in the program's crate, in a process group of its own, with an empty block to read. (Job control
# would give it a group too, and take the terminal from the pipe that the front stands in.)
run_rt() {
    local ended teller=
    bind_to_front TERM
    (cd -- "$crate" && exec "${bound[@]}" setsid rt "$@") \
        < <(echo "$empty_block") > "$out/answer" 2>> "$log" &
    builder=$!
    if [[ $on_terminal == no ]]; then
        tell_progress <&- >&- {lock}>&- &
        teller=$!
    fi
    while [[ $on_terminal == yes ]] && kill -0 "$builder" 2> /dev/null; do
        show_progress
        sleep 1 <&- >&- 2>&- &
        wait "$!"
    done
    # (a pause ends the wait, and not the build)
    until wait "$builder"; ended=$?; ! kill -0 "$builder" 2> /dev/null; do :; done
    [[ -z $teller ]] || { kill "$teller" && wait "$teller"; } 2> /dev/null
    return "$ended"
}

# Proves the crates side by side where there is room, and builds the program and tries it on an empty block.
# What the first call left open, for want of memory perhaps, the second one proves, a crate at a time.
run_build() {
    local signal on_terminal=no builder= ended at_once
    [[ ! -t 2 || ${TERM-dumb} == dumb ]] || on_terminal=yes
    for signal in HUP INT QUIT TERM; do
        # shellcheck disable=SC2064 # the signal is the one of this turn
        trap "end_build $signal" "$signal"
    done
    trap pause_build TSTP
    : > "$log"
    at_once=$(crates_at_once "$(nproc)" "$(free_memory)")
    [[ $at_once == 1 ]] || run_rt all check --jobs "$at_once"
    run_rt run -- check
    ended=$?
    trap - HUP INT QUIT TERM TSTP
    clear_progress
    [[ $ended == 0 && -x $crate/out/stl2st && $(tail -n 1 -- "$out/answer") == accepted ]]
}

# Moves the new program into place. Without its stamp a program does not count as built.
install_program() {
    cp -- "$crate/out/stl2st" "$program.new" \
        && printf '%s\n' "$1" "$(file_sum "$program.new")" > "$stamp.new" \
        && rm -f -- "$stamp" \
        && mv -f -- "$program.new" "$program" \
        && mv -f -- "$stamp.new" "$stamp"
} 2> /dev/null

# Builds until the sources stayed the same throughout. A failed build leaves the former program.
build() {
    local begun=$SECONDS sum
    [[ ! -t 2 || $1 != "not built yet" ]] || say "for a first look without this wait, '$self try COMMAND ..' runs it unproved in a minute or two"
    say "the program is $1: proving and building it takes $first_build the first time, and less after a change; the log is $log"
    while sum=$(sources_sum); do
        if ! run_build; then
            say "not built; the last lines of $log are"
            tail -n 20 -- "$log" "$out/answer" >&2
            exit 125
        fi
        [[ $(sources_sum) != "$sum" ]] || break
        say "the sources changed during the build, so it begins again"
    done
    install_program "$sum" || fail 125 "the program was built, and $out can't be written: is the disk full?"
    say "built in $(((SECONDS - begun) / 60)) min $(((SECONDS - begun) % 60)) s"
}

# Builds the program where it is not built; of several calls at a time one builds and the others wait.
build_where_needed() {
    local why lock
    why=$(why_not_built)
    [[ -n $why ]] || return 0
    stop_where_unbuildable "$why"
    { exec {lock}> "$out/lock"; } 2> /dev/null || fail 125 "$out/lock can't be written"
    if ! flock -n "$lock"; then
        say "another call is building the program; waiting for it"
        flock "$lock"
    fi
    why=$(why_not_built)
    [[ -z $why ]] || build "$why"
    exec {lock}>&-
}

build_now() {
    [[ -n $(why_not_built) ]] || say "the program is built from these sources already"
    build_where_needed
    exit 0
}
