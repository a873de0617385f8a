# shellcheck shell=bash
# At which step a run ends with its fault, and on which line that step is.

# The status of the run with another bound on its steps.
status_within() {
    timeout --foreground 5 "$program" run-stl "$1" "${arguments[2]}" "${arguments[3]}" < "$text_file" > /dev/null 2>&1
}

# Sets the step of the fault: the least bound with which the run comes to it. Ten seconds are spent at most.
find_step() {
    local going=0 end=$((SECONDS + 10)) middle
    step=1
    while status_within "$step"; [[ $? == 6 ]]; do
        going=$step step=$((step * 2))
        [[ $SECONDS -lt $end && $step -lt 1000000000000 ]] || return
    done
    while [[ $((step - going)) -gt 1 && $SECONDS -lt $end ]]; do
        middle=$(((going + step) / 2))
        status_within "$middle"
        case $? in
            5) step=$middle ;;
            6) going=$middle ;;
            *) return 1 ;;
        esac
    done
    [[ $((step - going)) == 1 ]] && { status_within "$step"; [[ $? == 5 ]]; }
}

# Says the step of the fault, and its line where each instruction of the block is one step after the other.
say_step() {
    local step line
    [[ ${arguments[0]} == run-stl && $tries == no && -n $text_file && -f ${arguments[3]} ]] && find_step || return 0
    line=$(LC_ALL=C awk -v block="${arguments[2]}" -v step="$step" -f "$top/front/pieces.awk" -f "$top/front/steps.awk" \
        "$text_file" 2> /dev/null)
    if [[ -n $line ]]; then
        say_where "$(place_of "$line")" "$text_file" "$line" "the fault comes at step $step, here"
    else
        say "the fault comes at step $step"
    fi
}
