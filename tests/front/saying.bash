# shellcheck shell=bash
# What is said after a run, and the check of many sources.
make_checkout
front build
explained() {
    says "$1" "explain $2' says"
}

printf 'ANSWER 1 line 3: Unsupported(SystemCall)\n\n  SP \t T  1; //F\xf6rderband\r\n' > "$room/a.awl"
LC_ALL=C.UTF-8 front check a.awl
gives "one source by name prints what the program prints" 1 "line 3: Unsupported(SystemCall)"
says "the line, a sentence and the text" "a.awl:3: blocks of the system are not translated: SP T 1; //Förderband"
explained "where more is said" SystemCall
LC_ALL=C front check a.awl
says "the text without umlauts where they can't be shown" "//F?rderband"
front check < "$room/a.awl"
equal "the same for standard input from a file" "$(head -c 39 "$room/err")" "a.awl:3: blocks of the system are not t"
front check < <(cat "$room/a.awl")
says "no text from a pipe" "explain NAME' says what to change"
printf '%s\n' 'ANSWER 1 line 1: NoBlocks' 'ANSWER 1 line 1: BadToken' > "$room/two.awl"
{ read -r && front check; } < "$room/two.awl"
says "no text from a file that is read from its middle" "the text breaks a rule, which standard output names"
printf 'ANSWER 1 line 9: BadStatement\n' > "$room/b.awl"
front translate b.awl
says "a line past the end has no text" "b.awl:9: this is no form of the language at its place"
printf 'ANSWER 1 line 2: BadToken\nx := ?;\33[31m\n' > "$room/c.st"
: > "$room/image"
front run-st 1 OB1 image c.st
says "a Structured Text has its own sentence, without control characters" "c.st:2: characters form no token, or a literal does not fit its type: x := ?;[31m"
printf '# all\nM 0: 0G\n' > "$room/image"
front run-stl 1 OB1 image - <<< "ANSWER 3 image line 2: BadByte"
says "an image from a pipe's run" "the image breaks a rule, which standard output names"
echo "ANSWER 3 image line 2: BadByte" > "$room/d.awl"
front run-stl 1 OB1 image d.awl
says "a line of an image" "image:2: a field is not exactly two hexadecimal digits: M 0: 0G"
front run-stl 1 OB7 image <<< "ANSWER 4 bad call"
says "a bad call" "nothing that the call OB7 fits"
printf '%s\n' 'ANSWER 5 # FAULT DivideByZero\nM 0: 01' > "$room/e.st"
front run-st 1 OB1 image e.st
says "a fault" "the run ended with a fault: a divisor is 0"
explained "where more is said of it" DivideByZero
front run-stl 1000 OB1 image <<< "ANSWER 6 # GOING"
says "a run that goes on" "the run has not ended within 1000 steps"
front run-stl 1 OB1 nowhere <<< "ANSWER 7"
says "an image that is not there" "the image nowhere can't be read: there is no such file"
front check <<< "ANSWER 8"
says "an output that is not written whole" "standard output could not be written whole"
front check <<< "ANSWER 9 too long"
says "a source that is too long" "4,194,304 bytes"
front check <<< "ANSWER 10"
says "no memory" "memory ran out"
PATH=$path "$repo/stl2st" check a.awl 2>&1 > "$room/out" | true
equal "hints that nobody reads cost nothing" "${PIPESTATUS[0]}" 1
front run-stl 1x OB1 image <<< "ANSWER 2 usage"
says "a number that is none" "'1x' is no number"
front run-stl 1 OB image <<< "ANSWER 2 usage"
says "a call that is none" "'1 OB'"
if has_terminal; then
    PATH=$path timeout 20 script -qec "'$repo/stl2st' check" /dev/null \
        < <(for _ in {1..30}; do sleep 0.3; printf '\4'; done) > "$room/err" 2>&1
    says "on a terminal it says that it waits" "waiting for the text on standard input"
    PATH=$path timeout 20 script -qec "'$repo/stl2st' demo 3" /dev/null < /dev/null > "$room/err" 2>&1
    says "on a terminal it says that the demo is at work" "at work: making 3 networks"
fi

# Many sources.
echo BLOCK > "$room/good.awl"
LC_ALL=C.UTF-8 front check good.awl a.awl a.awl nowhere.awl b.awl
gives "a line for each source, and a sum" 7 "good.awl: accepted
a.awl: line 3: Unsupported(SystemCall): SP T 1; //Förderband
a.awl: line 3: Unsupported(SystemCall): SP T 1; //Förderband
nowhere.awl: can't be read: there is no such file
b.awl: line 9: BadStatement
1 of 5 are accepted
2 Unsupported(SystemCall)
1 BadStatement
1 can't be read"
front check good.awl good.awl
gives "all accepted" 0 $'good.awl: accepted\ngood.awl: accepted\n2 of 2 are accepted'
silent "and nothing to say"
front check good.awl - <<< BLOCK
gives "standard input among many" 0 $'good.awl: accepted\n-: accepted\n2 of 2 are accepted'
cp "$room/good.awl" "$room/$odd"
front check "$odd" good.awl
equal "a name with a line end stays on one line" "$(head -n 1 "$room/out")" "two?lines: accepted"
PATH=$path "$repo/stl2st" check good.awl good.awl > /dev/full 2> "$room/err"
equal "many on a full output" "$?" 8
echo "KILL TERM" > "$room/killed.awl"
{ PATH=$path bash -c '"$1" check "$2" "$2"' "" "$repo/stl2st" killed.awl; } > "$room/out" 2> "$room/err"
equal "a signal ends the check of many" "$?" 143
