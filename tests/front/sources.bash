# shellcheck shell=bash
# Sources of each kind that STEP 7 writes. The program, where it is built, accepts each, and a run of it is equal
# to a run of its translation and has what its image says is wanted.
make_checkout
front build
cd "$here/sources" || exit 1
[[ ! -x $top/out/stl2st ]] || use_program "$top/out/stl2st"

# The files of a source: its symbols too, where it has some.
files_of() {
    files=("$1.awl")
    [[ ! -e $1.sdf ]] || files=(--join "$1.sdf" "$1.awl")
}

kinds=0
for source in *.awl; do
    name=${source%.awl}
    kinds=$((kinds + 1))
    files_of "$name"
    front translate "${files[@]}" -o "$room/$name.st"
    gives "$source is accepted" 0 ""
    silent "and nothing is said of $source"
    [[ -x $top/out/stl2st ]] || continue
    front run-stl 1000 OB1 "$name.img" "${files[@]}"
    mv "$room/out" "$room/report"
    wanted=$(sed -n 's/^# wants //p' "$name.img")
    equal "$source gives what is wanted" "$(grep -cFf <(echo "$wanted") "$room/report"): $status" "$(wc -l <<< "$wanted"): 0"
    front run-st 1000 OB1 "$name.img" "$room/$name.st"
    equal "a run of the translation of $source is the same" "$(cmp "$room/out" "$room/report" 2>&1)" ""
done
equal "there are fourteen kinds" "$kinds" 14
front check --blocks several.awl umlauts.sdf
equal "the blocks of several.awl are found" "$(sed -n 's/^several.awl:[0-9]*: //p' "$room/out" | tr '\n' ',')" "OB 100: accepted,OB 35: accepted,OB 1 \"Hauptprogramm\": accepted,"
cd "$room" || exit 1
