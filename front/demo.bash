# shellcheck shell=bash
# The demo, which reads no source: the program makes one of as many networks as are asked for.

# Runs the demo. Many networks take seconds, so a terminal is told what is at work.
run_demo() {
    local to=1
    [[ $# == 1 ]] || usage "demo takes N alone, how many networks"
    [[ $1 =~ ^[0-9]{1,5}$ && 10#$1 -le 50000 ]] || usage "N is a number of one to five digits, up to 50000: '$(shown "$1")'"
    arguments=(demo "$1")
    build_where_needed
    [[ ! -t 2 ]] || say "at work: making $((10#$1)) networks, translating them, and running both texts"
    run_program < /dev/null
    [[ $status != 8 && $status != 10 ]] || hint
    exit "$status"
}
