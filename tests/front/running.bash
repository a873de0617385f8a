# shellcheck shell=bash
# What the program gets, and what its caller gets from it.
make_checkout
front build

# Without a word of the front's own.
printf 'ECHO\na\0b\xff\r\nlast' > "$room/bytes"
front run-stl -o " $odd" --help < "$room/bytes"
printf '%s\0' run-stl -o " $odd" --help > "$room/wanted"
sed 1d "$room/bytes" >> "$room/wanted"
equal "arguments, input and output are handed on byte by byte" "$(cmp "$room/out" "$room/wanted")" ""
silent "and nothing is said"
for number in 0 1 3 4 5 6 7 8 9 10; do
    front check <<< "ANSWER $number text"
    gives "status $number is handed on" "$number" text
done
front run-st a OB1 image <<< "ANSWER 2 usage"
gives "a status 2 of the program is handed on" 2 usage
PATH=$path "$repo/stl2st" check <&- > "$room/out" 2> "$room/err"
equal "a closed standard input is handed on" "$?" 7
PATH=$path "$repo/stl2st" check <<< BLOCK 2> "$room/err" >&-
equal "a closed standard output is handed on" "$?" 8
PATH=$path "$repo/stl2st" check <<< "ANSWER 1 text" > "$room/out" 2>&-
status=$?
gives "a closed standard error costs nothing" 1 text
PATH=$path "$repo/stl2st" check <<< BLOCK > /dev/full 2> "$room/err"
equal "a full standard output is handed on" "$?" 8
for signal in KILL TERM PIPE ABRT; do
    { bash -c 'PATH=$1 "$2" check <<< "KILL $3"' "" "$path" "$repo/stl2st" "$signal"; } > "$room/out" 2> "$room/err"
    equal "SIG$signal of the program is handed on" "$(kill -l $?)" "$signal"
done
signals=(TERM HUP INT QUIT)
! can_bind || signals+=(KILL)
for signal in "${signals[@]}"; do
    rm -f "$room/number"
    PATH=$path env --default-signal=INT,QUIT "$repo/stl2st" check <<< "SLEEP $room/number" > "$room/out" 2> "$room/err" &
    caller=$!
    for _ in {1..50}; do [[ -s $room/number ]] && break; sleep 0.1; done
    kill -s "$signal" "$caller"
    { wait "$caller"; } 2> /dev/null
    ended=$?
    ended+=$(running "$(cat "$room/number")")
    equal "SIG$signal ends the front and the program" "$ended" "$((128 + $(kill -l "$signal")))"
done

# The demo reads no input, whatever there is.
front demo 00003 <<< "ANSWER 1 text"
gives "the demo gets its number as it is written" 0 "the summary of 00003"
silent "and nothing is said of it"
PATH=$path "$repo/stl2st" demo 3 > /dev/full 2> "$room/err"
equal "a full standard output is handed on from the demo" "$?" 8
says "and is named" "standard output could not be written whole"

# A source by its name.
source_of() {
    printf 'ECHO\n%s' "the text" > "$2"
    front check "${@:3}"
    equal "$1" "$status: $(tr '\0' ' ' < "$room/out")" "0: check the text"
}
source_of "a name with blanks" "$room/a b.awl" "a b.awl"
source_of "a name with a line end" "$room/$odd" "$odd"
source_of "a name with a dash, by its folder" "$room/-a.awl" ./-a.awl
source_of "a name with a dash, after --" "$room/-a.awl" -- -a.awl
printf 'ECHO\nthe text' > "$room/piped"
source_of "a source as a pipe" "$room/other" <(cat "$room/piped")
printf 'ECHO\nthe text' | PATH=$path "$repo/stl2st" check - > "$room/out"
equal "- is standard input" "$(tr '\0' ' ' < "$room/out")" "check the text"
echo "ECHO" > "$room/a.awl"
front run-stl 7 OB1 image a.awl
equal "a source after the arguments of a run" "$(tr '\0' ' ' < "$room/out")" "run-stl 7 OB1 image "

# An output by its name.
left() {
    equal "$1 leaves no file behind" "$(find "$room" "$room/folder" -maxdepth 1 -name '.stl2st*')" ""
}
mkdir -p "$room/folder"
echo BLOCK > "$room/a.awl"
(umask 027 && front translate a.awl -o folder/a.st)
equal "an output is written" "$(cat "$room/folder/a.st")" "the text of translate"
equal "with the mode of a new file" "$(stat -c %a "$room/folder/a.st")" 640
front translate -o folder/a.st a.awl
gives "the option stands anywhere" 0 ""
chmod 604 "$room/folder/a.st"
ln "$room/folder/a.st" "$room/folder/former.st"
echo former > "$room/folder/a.st"
front translate a.awl -o folder/a.st
equal "a former output is replaced and not written over" "$(cat "$room/folder/former.st")" former
echo "ANSWER 1 line 1: BadToken" > "$room/bad.awl"
front translate bad.awl -o folder/a.st
gives "a refusal goes to standard output" 1 "line 1: BadToken"
equal "and leaves the output" "$(cat "$room/folder/a.st")" "the text of translate"
says "and says so" "folder/a.st is not written"
front translate -o folder/a.st <<< BLOCK
equal "an output from standard input, with the old mode" "$status: $(stat -c %a "$room/folder/a.st")" "0: 604"
ln -sf a.st "$room/folder/link.st"
rm "$room/folder/a.st"
front translate a.awl -o folder/link.st
equal "a link is followed" "$(cat "$room/folder/a.st"): $(readlink "$room/folder/link.st")" "the text of translate: a.st"
front translate a.awl -o -
gives "an output - is standard output" 0 "the text of translate"
front translate a.awl -o "folder/$odd "
equal "an output with an odd name" "$(cat "$room/folder/$odd ")" "the text of translate"
front run-stl 1 OB1 a.awl a.awl -o /dev/null
gives "a device is not replaced" 8 ""
front translate a.awl -o folder/a.st > /dev/full
equal "an output needs no standard output" "$status" 0
rm -f "$room/number" "$room/folder/b.st"
PATH=$path "$repo/stl2st" translate -o folder/b.st <<< "SLEEP $room/number" &
caller=$!
for _ in {1..50}; do [[ -s $room/number ]] && break; sleep 0.1; done
kill "$caller"
{ wait "$caller"; } 2> /dev/null
equal "a run that is ended writes no output" "$([[ ! -e $room/folder/b.st ]] || echo "it is there")" ""
left "all of this"
