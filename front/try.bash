# shellcheck shell=bash
# A command by an unproved build: `rt try` compiles the program with checks, which takes a minute and a half of
# processor time, and runs it. Nothing is kept of it, and nothing is proved.

# What a try needs; and it says each time what it is.
get_ready_to_try() {
    command -v rt > /dev/null || fail 125 "the kit's command 'rt', which compiles the program, is not on the path"
    make_scratch
    # (the program runs in another folder)
    [[ ${#arguments[@]} -lt 4 ]] || arguments[3]=$(readlink -m -- "${arguments[3]}")
    say "this is an unproved build with checks, for a first look: it takes a minute and a half of processor time, and nothing is proved of what it writes"
}

# Runs the program by rt, whose own words go to a file. What the program wrote is handed on at the end.
try_program() {
    local wanted=$to told=$scratch/told
    answer=$scratch/answer
    exec {to}> "$answer"
    bind_to_front TERM
    run_program bash -c 'cd -- "$1" && exec rt try -- "${@:3}" 2> "$2"' "" "$crate" "$told"
    exec {to}>&-
    if ! grep -q "^run=ended status=$status " "$told"; then
        say "not tried; the last lines of 'rt try' are"
        tail -n 20 -- "$told" >&2
        exit 125
    fi
    [[ $status == 7 || $status == 10 ]] || cat -- "$answer" >&"$wanted" 2> /dev/null || status=8
    to=$wanted
}
