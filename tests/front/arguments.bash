# shellcheck shell=bash
# What is answered from the arguments alone, before any build.
make_checkout

for word in help --help -h; do
    front "$word"
    equal "$word prints the help" "$status: $(head -n 1 "$room/out")" "0: $(head -n 1 "$top/front/help.txt")"
done
front translate --help
equal "--help after a command prints the help" "$status: $(wc -l < "$room/out")" "0: $(wc -l < "$top/front/help.txt")"
front demo --help
equal "--help after demo prints the help" "$status: $(wc -l < "$room/out")" "0: $(wc -l < "$top/front/help.txt")"
front run-st -h
equal "-h after a command prints the help" "$status: $(wc -l < "$room/out")" "0: $(wc -l < "$top/front/help.txt")"
front --version
equal "--version names the kit, and that nothing is built" "$status: $(sed 1d "$room/out")" $'0: kit: stand-in kit\nprogram: not built yet'
front explain badstatement
equal "explain takes a name in any case" "$status: $(head -n 1 "$room/out")" "0: BadStatement (a source of Statement List)"
front explain 'Unsupported(SystemCall)'
equal "explain takes a reason as it is printed" "$status: $(head -n 1 "$room/out")" "0: SystemCall (the kinds of Unsupported)"
front explain BadToken
equal "explain gives a name that two texts have twice" "$(grep -c '^BadToken' "$room/out")" 2
front explain Nonsense
gives "an unknown name is refused" 2 ""
says "an unknown name gets the names" "TooManyBrackets"
front explain
equal "explain alone lists the names" "$status: $(grep -c DivideByZero "$room/out")" "0: 1"

# Each switch and each form stands in the help and in the page.
for word in "-o FILE" "-o FOLDER" --join --keep --blocks --report "demo N" "./stl2st try COMMAND" "check [FILE ..]" "translate FILE .."; do
    equal "$word stands in the help and in its page" "$(grep -qF -- "$word" "$top/front/help.txt" && grep -cqF -- "$word" "$top/docs/reference/commands.md"; echo "$?")" 0
done

# Each name of the code has its words, once or in both texts.
names=(Unsupported
    $(sed -n 's/.*::[A-Za-z]* => "\([A-Za-z]*\)",.*/\1/p' "$top/crates/s7_base/src/reason.rt")
    $(sed -n '/enum Fault/,/^}/s/^    \([A-Z][A-Za-z]*\),$/\1/p' "$top/crates/s7_base/src/outcome.rt")
    $(sed -n '/enum ImageRefusal/,/^}/s/^    \([A-Z][A-Za-z]*\)(Line),$/\1/p' "$top/crates/image_text/src/refusal.rt"))
front explain "${names[@]}"
equal "there are ${#names[@]} names in the code" "$([[ ${#names[@]} -ge 51 ]] || echo "too few")" ""
equal "each name of the code is explained" "$status: $(sed -n 's/^\([A-Za-z]*\) (.*/\1/p' "$room/out" | sort -u | tr '\n' ' ')" \
    "0: $(printf '%s\n' "${names[@]}" | sort -u | tr '\n' ' ')"
equal "each has its clause" "$(grep -c '^    When: ' "$room/out")" "$(grep -c '^[A-Z]' "$room/out")"

# Arguments that are no command get the program's usage line.
while read -r -a arguments; do
    front "${arguments[@]}"
    gives "usage for '${arguments[*]}'" 2 "$usage"
done <<'END'

foo
Translate a
demo
demo 50001
demo 000003
demo x
demo 3 a.awl
run-stl 1 OB1
run-st
translate a b
translate -x
check -o
check -o a -o b
check a b -o c
run-stl 1 OB1 image a b
--version x
build x
END
front check ""
gives "usage for an empty name" 2 "$usage"
front demo 50001
says "a number of networks that is too large is named" "up to 50000: '50001'"
front foo
says "a command that there is not is named" "there is no command 'foo'"

# Files that can't be used are answered before any build.
mkdir -p "$room/folder"
front check nowhere.awl
gives "a source that is not there" 7 ""
says "a source that is not there is named" "nowhere.awl can't be read: there is no such file"
front translate folder
gives "a folder as the source" 7 ""
says "a folder is named" "folder can't be read: it is a directory"
echo BLOCK > "$room/a.awl"
front translate a.awl -o nowhere/a.st
gives "an output in a folder that is not there" 8 ""
says "that output is named" "nowhere/a.st can't be written: there is no such folder"
front run-stl 1 OB1 a.awl a.awl -o folder
gives "a folder as the output of a run" 8 ""
front translate -o folder
gives "a folder for standard input" 8 ""
front translate a.awl nowhere.awl -o a.awl
gives "a file as the folder" 8 ""
says "that file is named" "a.awl is no folder, which several texts need"
front translate a.awl nowhere.awl -o nowhere/folder
gives "a folder in a folder that is not there" 8 ""
front translate a.awl folder/a.awl -o folder
gives "two sources of one name" 2 "$usage"
says "both are named" "a.awl and folder/a.awl would both be folder/a.st"
front translate a.awl - -o folder
says "standard input among sources has no name" "standard input has no name for a text in a folder"
echo BLOCK > "$room/a.st"
front translate a.st nowhere.awl -o .
says "a source is not written over" "./a.st would be written over, and is the source itself"
front translate a.awl b.awl
says "several sources need a folder" "several sources need -o FOLDER, or --join"
front translate a.awl -o /dev/full
gives "a device as the output" 8 ""
front translate a.awl -o ./a.awl
gives "the source as the output" 2 "$usage"
front check nowhere.awl folder
gives "many sources of which none can be read" 7 $'nowhere.awl: can\'t be read: there is no such file\nfolder: can\'t be read: it is a directory\n0 of 2 are accepted\n2 can\'t be read'
PATH=$path "$repo/stl2st" help > /dev/full 2> "$room/err"
equal "help that can't be written" "$?" 8
equal "none of these built the program" "$(builds)" 0
