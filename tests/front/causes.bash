# shellcheck shell=bash
# The usual causes of refusals: each row of the table, and what is said of some byte by byte.
make_checkout
front build

# The parts of a sentence that stand there whatever is found.
parts_of() {
    sed -E 's/%(column|hex|seen|[1-9])/\n/g' <<< "$1" | grep -E '.{4}'
}

# Runs the front over a text whose refused line is marked; the stand-in is told the answer.
try_cause() {
    local text line
    printf -v text %b "$2" 2> /dev/null
    line=$(printf %b "$2" | LC_ALL=C grep -an -m 1 '^@' | cut -d : -f 1)
    printf %b "$2" | LC_ALL=C sed 's/^@//' > "$room/cause.awl"
    if [[ $3 == stand-in ]]; then
        { echo "ANSWER 1 line $((line + 1)): $1" && cat "$room/cause.awl"; } > "$room/answered"
        mv "$room/answered" "$room/cause.awl"
        line=$((line + 1))
    fi
    LC_ALL=C.UTF-8 front check cause.awl
    answer="line $line: $1"
}

try_row() {
    local sentence=$1 reasons=$2 text=$3 answer reason part wrong=
    try_cause "${reasons%% *}" "$text" "$kind"
    if [[ $kind == stand-in ]]; then
        [[ $(cat "$room/out") == "$answer" ]] || wrong="'$(cat "$room/out")' came"
    else
        reason=$(sed 's/^line [0-9]*: //' "$room/out")
        [[ " $reasons " == *" $reason "* && "line ${answer//[!0-9]/}: $reason" == "$(cat "$room/out")" ]] || wrong="'$(cat "$room/out")' came from the program"
    fi
    while IFS= read -r part; do
        grep -qF -- "$part" "$room/err" || wrong+=" '$part' is wanted in '$(cat "$room/err")'"
    done < <(parts_of "$sentence")
    tell "$kind: $reasons: $sentence" "$wrong"
}

# (the program itself answers where it is built)
kind=stand-in
if [[ -x $top/out/stl2st ]]; then
    kind=program
    use_program "$top/out/stl2st"
fi
while IFS=' ' read -r key value; do
    case $key in
        on) reasons=$value ;;
        say) sentence=$value ;;
        test) try_row "$sentence" "$reasons" "$value" ;;
    esac
done < "$top/front/causes.txt"
equal "each cause has its test" "$(grep -c '^say' "$top/front/causes.txt")" "$(grep -c '^test' "$top/front/causes.txt")"
use_program "$bin/program"

# What is said, word by word.
said_of() {
    try_cause "$1" "ORGANIZATION_BLOCK OB 1\nBEGIN\n$2\n" stand-in
    equal "$3" "$(sed -n 2p "$room/err")" "cause.awl:4: $3"
}
said_of BadToken '@A \xFC\xFC;  // \xC3\xA4' 'the bytes FC FC at column 3 stand outside comments, titles and quotes, where letters of ASCII alone may stand: A <FC FC>; // ä'
silent_of() {
    try_cause "$1" "ORGANIZATION_BLOCK OB 1\nBEGIN\n$2\n" stand-in
    equal "$3" "$(wc -l < "$room/err")" 2
}
silent_of BadToken '@A I 0.0; // \xC3\xA4 U E 0.0 %I0.0' "a comment is no cause"
silent_of BadToken '@A "\xC3\xA4\xA0"; // "' "what stands in quotes is no cause"
silent_of BadOperand '@A MW 0;' "an operand without a name has no symbol"
silent_of 'BadStatement' '@SLW 16;' "a number that is too great is left to the page"
silent_of BadStatement 'END_ORGANIZATION_BLOCK\nDATA_BLOCK DB 1\nSTRUCT\n x : INT;\nEND_STRUCT;\nBEGIN\n@x := y;\nEND_DATA_BLOCK' "an initial value is no label"
said_of BadToken '@A \xE2\x80\x9EF\xC3\xB6\xE2\x80\x9C;' 'the bytes E2 80 9E at column 3 are a typographic quote: put the plain " or '"'"' there: A <E2 80 9E>Fö“;'
said_of BadToken '@\tA "F\xC3\xB6";\xC2\xA0= M 0.0;' 'the bytes C2 A0 at column 9 are a no-break space: put a plain blank there: A "Fö";<C2 A0>= M 0.0;'
said_of BadToken '@A I\0 0.0;' 'the byte at column 4 is a NUL: delete it, or save the file as plain text: A I<00> 0.0;'
said_of 'BadStatement' '@= A 4.0; A I 0.0;' 'A 4.0 is a German address, of an input (E), an output (A) or a counter (Z): English mnemonics are needed. The SIMATIC Manager sets them under Options, Customize, Language; then generate the source once more'
said_of 'BadStatement' '@L EW 4;' 'EW 4 is a German address, of an input (E), an output (A) or a counter (Z): English mnemonics are needed. The SIMATIC Manager sets them under Options, Customize, Language; then generate the source once more'
said_of BadStatement '@UN E 1.0; SPB m1;' 'UN is a German mnemonic: English ones are needed. The SIMATIC Manager sets them under Options, Customize, Language; then generate the source once more'
said_of 'Unsupported(DateTime)' '@L S5T#2S;\nNOP 0;\nSE "Delay";' 'this is the time of SE "DELAY" on line 6: timers are not translated'
said_of UnknownName '@A "Start";' 'the text has no symbol table. Export the symbols as SDF, and name both files behind --join'

# What a name stands for.
printf '%s\r\n' '"Delay","T       5 ","TIMER",""' '"Zähler","Z 5","COUNTER",""' '"P","PIW 256","INT",""' '"F","SFC 20","SFC 20",""' \
    '"U","UDT 2","UDT 2",""' '"E","E 0.0","BOOL",""' '"Out","AW 4","WORD",""' '"FC","FB 1","FB 1",""' '"Fine","I 0.0","BOOL",""' > "$room/kinds.sdf"
name_is() {
    printf 'ORGANIZATION_BLOCK OB 1\nA "Fine"; A "%s"; // REFUSE BadOperand\nEND_ORGANIZATION_BLOCK\n' "$1" > "$room/named.awl"
    LC_ALL=C.UTF-8 front check --join kinds.sdf named.awl
    says "a name that is $2" "named.awl:2: \"$1\" stands for $2"
}
name_is delay "T 5 (kinds.sdf:1), a timer"
name_is Zähler "Z 5 (kinds.sdf:2), a counter"
name_is P "PIW 256 (kinds.sdf:3), an address of the peripherals"
name_is F "SFC 20 (kinds.sdf:4), a block of the system"
name_is U "UDT 2 (kinds.sdf:5), a type of one's own"
name_is E "E 0.0 (kinds.sdf:6), a German address"
name_is Out "AW 4 (kinds.sdf:7), a German address"
name_is FC "FB 1 (kinds.sdf:8), a block, which stands in headings and calls alone"
unknown_is() {
    printf 'ORGANIZATION_BLOCK OB 1\nA "%b"; // REFUSE UnknownName\nEND_ORGANIZATION_BLOCK\n' "$1" > "$room/named.awl"
    LC_ALL=C.UTF-8 front check --join kinds.sdf named.awl
    says "an unknown name: $2" "$2"
}
unknown_is 'Z\xE4hler' '"Zähler" stands in the symbol table (kinds.sdf:2), in another code page'
unknown_is 'Z\xC3\x84HLER' '"ZÄHLER" stands in the symbol table (kinds.sdf:2) as "Zähler": of umlauts capital and small ones are two letters'

# A CR alone, an image that is left out, and the step of a fault.
printf 'BLOCK\nA I 0.0; // x\rA I 0.1;\r\n' > "$room/return.awl"
front check return.awl
gives "a CR alone changes no answer" 0 accepted
says "a CR alone is warned of" "return.awl:2: a CR without LF stands in a comment, and ends no line"
front check return.awl return.awl
equal "and so in each of many" "$(grep -c 'a CR without LF' "$room/err")" 2
printf 'BLOCK // "\r\nA I 0.0; \rA I 0.1; // x\r\r\n' > "$room/return.awl"
front check return.awl
silent "other CRs are not"
echo "ORGANIZATION_BLOCK OB 1 // REFUSE NoBlocks" > "$room/image.awl"
front run-stl 1 OB1 image.awl < image.awl
says "an image that is left out" "image.awl stands in the place of the image, and is a source: is the image forgotten? The order is STEPS CALL IMAGE FILE"
echo "ANSWER 3 image line 1: BadLine" > "$room/three.awl"
front run-stl 1 OB1 image.awl three.awl
says "a source as the image" "is the image forgotten?"
: > "$room/empty.img"
printf 'FAULT 3\nORGANIZATION_BLOCK OB 2\nBEGIN\nL 1; L 2; L 3;\nEND_ORGANIZATION_BLOCK\nORGANIZATION_BLOCK OB 1\nBEGIN\nNETWORK\nTITLE = a; b\nL 1; ; // c; d\nL "x;y";\nA DBX 0.0; L 4;\nEND_ORGANIZATION_BLOCK\n' > "$room/fault.awl"
for steps in 3 100 18446744073709551615; do
    front run-stl "$steps" OB1 empty.img fault.awl
    says "a fault within $steps steps has its line" "fault.awl:12: the fault comes at step 3, here: A DBX 0.0; L 4;"
done
front run-stl 9 ob2 empty.img fault.awl
says "a fault of another block" "fault.awl:4: the fault comes at step 3, here: L 1; L 2; L 3;"
sed -i 's/^FAULT 3/FAULT 777/; s/L 4;/JU a;/' "$room/fault.awl"
front run-stl 1000 OB1 empty.img fault.awl
equal "a fault in a block with jumps has its step" "$(sed -n 2p "$room/err")" "stl2st: the fault comes at step 777"
