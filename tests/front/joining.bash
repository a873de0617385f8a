# shellcheck shell=bash
# Several files as one text.
make_checkout
front build
mkdir "$room/temporary"
export TMPDIR=$room/temporary

printf '"A","I 0.0","BOOL",""\r\n"B","T 5","TIMER","\xfc"' > "$room/symbols.sdf"
printf 'DATA_BLOCK DB 1\r\nEND_DATA_BLOCK' > "$room/data block.awl"
printf 'SYMBOL_TABLE // own\n"C","M 0.0","BOOL",""\nEND_SYMBOL_TABLE\nORGANIZATION_BLOCK OB 1\nEND_ORGANIZATION_BLOCK\n' > "$room/-ob.awl"
echo ECHO > "$room/echo.awl"
joined() {
    cat <<'WANTED'
SYMBOL_TABLE
"A","I 0.0","BOOL",""
"B","T 5","TIMER","ü"
"C","M 0.0","BOOL",""
END_SYMBOL_TABLE
DATA_BLOCK DB 1
END_DATA_BLOCK
ORGANIZATION_BLOCK OB 1
END_ORGANIZATION_BLOCK
WANTED
}
front check --join "data block.awl" --keep kept.awl -- symbols.sdf -ob.awl
gives "symbols and blocks are one text" 0 accepted
equal "the text is kept" "$(tr -d '\r' < "$room/kept.awl" | iconv -f ISO-8859-1 -t UTF-8)" "$(joined)"
equal "its bytes are those of the files" "$(grep -c $'\r' "$room/kept.awl")" 2
silent "and nothing is said"
front translate --join "$room/data block.awl" -o folder.st
equal "one file may be joined, and the text written" "$status: $(cat "$room/folder.st")" "0: the text of translate"
front check --join echo.awl - <<< "text"
equal "standard input is one of the files" "$status: $(tr '\0' ' ' < "$room/out")" "0: check text"
front check --join echo.awl <(cat "$room/data block.awl")
equal "a pipe is read once" "$(tr -d '\0' < "$room/out" | head -n 1)" $'checkDATA_BLOCK DB 1\r'
front run-stl 1 OB1 image --join echo.awl "data block.awl"
equal "a run takes several files" "$(tr '\0' ' ' < "$room/out" | head -n 1)" $'run-stl 1 OB1 image DATA_BLOCK DB 1\r'

# Each hint names the file and the line of the file.
hint_at() {
    printf 'ANSWER 1 line %s: BadOperand\n' "$1" > "$room/answer.awl"
    front check --join answer.awl "data block.awl" two.awl
    says "line $1 of the text is $2" "$2: "
}
printf 'ORGANIZATION_BLOCK OB 1\nBEGIN\nA MW 0;\nEND_ORGANIZATION_BLOCK\n' > "$room/two.awl"
hint_at 2 "data block.awl:1"
hint_at 3 "data block.awl:2"
hint_at 4 "two.awl:1"
hint_at 6 "two.awl:3"
says "with the text of the line" "two.awl:3: an operand or a constant has the wrong width or kind: A MW 0;"
hint_at 8 "two.awl:5"

# What can't be joined is answered before any build.
before=$(builds)
for form in asc ASC seq dif csv xlsx xml; do
    echo x > "$room/a.$form"
    front check --join "a.$form" two.awl
    gives "symbols as $form" 7 ""
    says "symbols as $form get a hint" "export them as SDF"
done
printf '126,Start                   I       0.0\n' > "$room/a.txt"
front check --join two.awl a.txt
says "symbols of that form by another name" "a.txt is an export of symbols in a form that is not read"
front check --join nowhere.awl
gives "a file that is not there" 7 ""
front run-st 1 OB1 image --join two.awl
says "a Structured Text is not joined" "--join goes with sources of Statement List"
front check --join
says "no file" "--join needs files"
front check two.awl --keep a
says "nothing to keep" "--keep goes with --join"
front check --join two.awl --keep two.awl
says "a source is not written over" "two.awl would be written over"
front check --join two.awl --keep nowhere/a
gives "a folder that is not there" 8 ""
equal "none of these built" "$(builds)" "$before"

# A text that is too long.
head -c 4194304 /dev/zero | tr '\0' ' ' > "$room/long.awl"
echo "ANSWER 9 too long" > "$room/nine.awl"
front check --join nine.awl long.awl
gives "a joined text that is too long" 9 "too long"
says "its size" "the joined text has 4194323 bytes, and 4,194,304 can be read"
says "the size of each file" "4194304 bytes: long.awl"
rm "$room/long.awl"
equal "no folder of the front's is left" "$(ls "$room/temporary")" ""
unset TMPDIR
