# shellcheck shell=bash
# What a reason, a kind or a fault means, by docs/reference/refusals.md: the words stand there alone.

page=$top/docs/reference/refusals.md

# Reads the page: names; whole NAME; sentence NAME SECTION. Without the page a name stands for itself.
from_page() {
    awk -v mode="$1" -v name="${2-}" -v section="${3-}" -f "$top/front/refusals.awk" "$page" 2> /dev/null \
        || printf '%s\n' "${2-}"
}

# Prints what the page has of each name, in any case and also as in Unsupported(Timer); with no name the
# names that there are.
explain() {
    local asked name text whole=()
    [[ -r $page ]] || fail 7 "$page can't be read"
    [[ $# -gt 0 ]] || whole=("$(from_page names)")
    for asked; do
        name=${asked#*\(}
        name=${name%\)}
        [[ $name =~ ^[A-Za-z]+$ ]] && text=$(from_page whole "$name") && [[ -n $text ]] || unknown_name "$asked"
        whole+=("$text")
    done
    put "${whole[@]}"
    exit 0
}

unknown_name() {
    say "there is no name '$(shown "$1")'; there are"
    from_page names >&2
    exit 2
}
