# shellcheck shell=bash
# The translations of many sources in a folder.
make_checkout
front build

echo BLOCK > "$room/one.awl"
echo BLOCK > "$room/two.x.AWL"
echo BLOCK > "$room/a b"
echo BLOCK > "$room/-c.awl"
printf 'ANSWER 1 line 2: BadToken\n?\n' > "$room/bad.awl"
echo "ANSWER 10" > "$room/memory.awl"
front translate one.awl two.x.AWL "a b" -o st -- -c.awl
gives "all are translated" 0 "4 of 4 are translated"
silent "and nothing is said"
equal "each source has its text" "$(cd "$room/st" && tail -n 1 -- *)" "$(printf '==> %s <==\nthe text of translate\n\n' -c.st 'a b.st' one.st two.x.st)"
front translate one.awl bad.awl nowhere.awl memory.awl -o st/
gives "a line for each that is not, and the greatest status" 10 "bad.awl: line 2: BadToken: ?
nowhere.awl: can't be read: there is no such file
memory.awl: out of memory
1 of 4 are translated
1 BadToken
1 can't be read
1 out of memory"
equal "a refused source has no text" "$(ls "$room/st")" $'-c.st\na b.st\none.st\ntwo.x.st'
left_in_folder() {
    equal "$1 leaves no file of the front's" "$(find "$room/st" -name '.stl2st*')" ""
}
left_in_folder "that"
echo former > "$room/st/bad.st"
echo former > "$room/st/one.st"
ln "$room/st/one.st" "$room/former"
front translate bad.awl one.awl -o st
gives "with texts from before" 1 $'bad.awl: line 2: BadToken: ?\n1 of 2 are translated\n1 BadToken'
equal "a refused source leaves the text from before" "$(cat "$room/st/bad.st")" former
says "and says so" "st/bad.st is from before, and stays as it is"
equal "an accepted one replaces it, and writes over none" "$(cat "$room/st/one.st" "$room/former")" $'the text of translate\nformer'
front translate one.awl -o st
gives "one source goes into a folder that is there" 0 "1 of 1 are translated"
rm -f "$room/number"
echo "SLEEP $room/number" > "$room/sleeps.awl"
PATH=$path "$repo/stl2st" translate one.awl sleeps.awl -o st > "$room/out" 2> "$room/err" &
caller=$!
for _ in {1..50}; do [[ -s $room/number ]] && break; sleep 0.1; done
kill "$caller" "$(cat "$room/number")"
{ wait "$caller"; } 2> /dev/null
left_in_folder "a run that is ended"
equal "nor a text" "$([[ ! -e $room/st/sleeps.st ]] || echo "it is there")" ""
front translate one.awl two.x.AWL -o st > /dev/null
PATH=$path "$repo/stl2st" translate one.awl two.x.AWL -o st > /dev/full 2> "$room/err"
equal "many on a full output" "$?" 8
