# shellcheck shell=bash
# The report on the blocks of a plant, for a person to print: plain text, or a page without scripts.

# Writes the report beside its file, and then gives it the name.
write_report() {
    local to form=text
    [[ ! ${report,,} =~ \.html?$ ]] || form=page
    open_output "$report"
    { "report_as_$form" >&"$to" && exec {to}>&- && name_output; } 2> /dev/null \
        || fail 8 "$(shown "$report") could not be written whole"
    beside=
}

# Text as UTF-8, since a report is read elsewhere.
in_utf8() {
    local LC_ALL=C
    if [[ $1 != *[$'\200'-$'\377']* ]] || iconv -f UTF-8 -t UTF-8 <<< "$1" > /dev/null 2>&1; then
        printf '%s' "$1"
    else
        printf '%s' "$1" | iconv -f ISO-8859-1 -t UTF-8
    fi
}

# A line for each file: its checksum, its size and its name.
file_lines() {
    local file sum
    for file in "${files[@]}"; do
        if [[ -f $file ]]; then
            sum=$(sha256sum < "$file")
            echo "${sum%% *} $(stat -Lc %s -- "$file") $(in_utf8 "$(shown "$file")")"
        else
            echo "a stream, without a checksum: $(shown "$file")"
        fi
    done
}

report_as_text() {
    local at
    printf '%s\n' "The check of each block by itself" "" "made: $(date '+%Y-%m-%d %H:%M %z')"
    version_lines
    printf '%s\n' "" "The files: SHA-256, bytes, name"
    file_lines
    printf '%s\n' "" "The blocks"
    for at in "${!row_place[@]}"; do
        in_utf8 "${row_place[at]}: ${row_name[at]}: ${row_verdict[at]}${row_text[at]:+: ${row_text[at]}}"
        echo
    done
    printf '%s\n' "" "The sums" "${sums[@]}"
}

# A text as it stands in a page.
escaped() {
    local text
    text=$(in_utf8 "$1")
    text=${text//'&'/'&amp;'}
    text=${text//'<'/'&lt;'}
    printf '%s' "${text//'>'/'&gt;'}"
}

report_as_page() {
    local at line kind
    cat <<'END'
<!DOCTYPE html>
<html lang="en"><head><meta charset="utf-8"><title>The check of each block</title>
<style>
body { font: 10pt sans-serif; margin: 2em }
table { border-collapse: collapse }
td, th { border: 1px solid #999; padding: 2px 6px; text-align: left; vertical-align: top }
code { font: 9pt monospace }
tr.refused td { background: #eee }
</style></head><body>
<h1>The check of each block by itself</h1>
END
    echo "<p>made: $(date '+%Y-%m-%d %H:%M %z')"
    while IFS= read -r line; do echo "<br>$(escaped "$line")"; done < <(version_lines)
    echo "</p><h2>Sums</h2><p>"
    for line in "${sums[@]}"; do echo "$(escaped "$line")<br>"; done
    echo "</p><h2>Blocks</h2><table><tr><th>Block</th><th>Verdict</th><th>Where</th><th>Line</th></tr>"
    for at in "${!row_place[@]}"; do
        kind=refused
        [[ ${row_verdict[at]} != accepted ]] || kind=accepted
        echo "<tr class=\"$kind\"><td>$(escaped "${row_name[at]}")</td><td>$(escaped "${row_verdict[at]}")</td><td>$(escaped "${row_place[at]}")</td><td><code>$(escaped "${row_text[at]}")</code></td></tr>"
    done
    echo "</table><h2>Files: SHA-256, bytes, name</h2><pre>"
    while IFS= read -r line; do escaped "$line" && echo; done < <(file_lines)
    echo "</pre></body></html>"
}
