# shellcheck shell=bash
# A command by an unproved build.
make_checkout
unproved="stl2st: this is an unproved build with checks, for a first look: it takes a minute and a half of processor time, and nothing is proved of what it writes"

printf 'ECHO\nthe text' > "$room/a b.awl"
: > "$room/image"
front try check "a b.awl"
equal "try runs a command" "$status: $(tr '\0' ' ' < "$room/out")" "0: check the text"
equal "and says that it is unproved" "$(cat "$room/err")" "$unproved"
equal "by rt, in the program's crate" "$(tr '\n' ' ' < "$bin/tries")" "try -- check of $repo/crates/stl2st "
front try check < "$room/a b.awl"
equal "standard input is the source" "$status: $(tr '\0' ' ' < "$room/out")" "0: check the text"
front try run-stl 100 OB1 image -- "a b.awl"
equal "an image is named by its place" "$(tr '\0' ' ' < "$room/out")" "run-stl 100 OB1 $room/image the text"
printf 'ANSWER 1 line 3: BadOperand\n\nA MW 0;\n' > "$room/bad.awl"
front try translate bad.awl -o a.st
gives "a refusal is handed on" 1 "line 3: BadOperand"
says "with its hint" "bad.awl:3: an operand or a constant has the wrong width or kind: A MW 0;"
says "without an output" "a.st is not written"
echo BLOCK > "$room/good.awl"
front try translate good.awl -o a.st
equal "an output is written" "$status: $(cat "$room/a.st")" "0: the text of translate"
front try check --join good.awl bad.awl
gives "several files are one text" 0 accepted
for number in 2 3 4 5 6 7 8 9 10; do
    echo "ANSWER $number" > "$room/answer.awl"
    front try run-stl 1 OB1 image answer.awl
    gives "the status $number of a try is handed on" "$number" ""
done
PATH=$path "$repo/stl2st" try check good.awl > /dev/full 2> "$room/err"
equal "a try on a full output" "$?" 8
touch "$bin/fails"
front try check good.awl
gives "a try that can't be compiled" 125 ""
says "shows why" "error: no such function"
rm "$bin/fails"
for arguments in "" build help nonsense "check a b" "check --blocks a"; do
    # shellcheck disable=SC2086 # each word is an argument
    front try $arguments
    gives "usage for try $arguments" 2 "$usage"
done
rm -f "$room/number"
PATH=$path "$repo/stl2st" try check <<< "SLEEP $room/number" > "$room/out" 2> "$room/err" &
caller=$!
for _ in {1..50}; do [[ -s $room/number ]] && break; sleep 0.1; done
kill "$caller"
{ wait "$caller"; } 2> /dev/null
equal "a signal ends a try" "$?" 143
kill "$(cat "$room/number")" 2> /dev/null
equal "no try built the program" "$(builds)" 0
