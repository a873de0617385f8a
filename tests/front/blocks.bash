# shellcheck shell=bash
# Each block of a plant by itself.
make_checkout
front build
mkdir "$room/plant"
cd "$room/plant" || exit 1

printf '%s\r\n' '"Recipe","DB 10","DB 10",""' '"Bad","DB 11","DB 11",""' '"Sub","FC 3","FC 3",""' '"Start","I 0.0","BOOL",""' > s.sdf
cat > data.awl <<'END'
DATA_BLOCK "Recipe"
TITLE = END_DATA_BLOCK FUNCTION
STRUCT // END_DATA_BLOCK
END_STRUCT
BEGIN
END_DATA_BLOCK
DATA_BLOCK DB 11
x : REAL; // REFUSE Unsupported(Real)
END_DATA_BLOCK
END
cat > code.awl <<'END'
FUNCTION "Sub" : VOID
A T 1; // REFUSE Unsupported(Timer)
END_FUNCTION
FUNCTION_BLOCK FB 7
A "Start"; CALL FC 4;
END_FUNCTION_BLOCK FUNCTION FC 4 : VOID
CALL FB 7, DB 10;
END_FUNCTION
ORGANIZATION_BLOCK OB 1
CALL "Sub";
END_ORGANIZATION_BLOCK
ORGANIZATION_BLOCK OB 2
CALL "Sub"; // REFUSE Unsupported(SystemCall)
END_ORGANIZATION_BLOCK
ORGANIZATION_BLOCK OB 3
L "Bad".x; // REFUSE UnknownName
END_ORGANIZATION_BLOCK
A I 0.0; // REFUSE BadStatement
ORGANIZATION_BLOCK OB 3
OPN "Recipe";
END_ORGANIZATION_BLOCK
ORGANIZATION_BLOCK OB 4
m1: UC FC 99; // REFUSE Unsupported(SystemCall)
ORGANIZATION_BLOCK OB 5
BEGIN A I 0.0;
END
front check --blocks code.awl s.sdf data.awl
gives "each block has a line, and sums follow" 1 's.sdf:1: symbols: accepted
data.awl:1: DB 10 "Recipe": accepted
data.awl:8: DB 11 "Bad": Unsupported(Real): x : REAL; // REFUSE Unsupported(Real)
code.awl:2: FC 3 "Sub": Unsupported(Timer): A T 1; // REFUSE Unsupported(Timer)
code.awl:4: FB 7: accepted
code.awl:6: FC 4: accepted
code.awl:2: OB 1 needs FC 3 "Sub": Unsupported(Timer): A T 1; // REFUSE Unsupported(Timer)
code.awl:13: OB 2: Unsupported(SystemCall): CALL "Sub"; // REFUSE Unsupported(SystemCall)
code.awl:16: OB 3, where DB 11 "Bad" is not accepted: UnknownName: L "Bad".x; // REFUSE UnknownName
code.awl:18: text outside the blocks: BadStatement: A I 0.0; // REFUSE BadStatement
code.awl:19: OB 3: DuplicateBlock: ORGANIZATION_BLOCK OB 3
code.awl:23: OB 4: Unsupported(SystemCall): m1: UC FC 99; // REFUSE Unsupported(SystemCall)
code.awl:24: OB 5: accepted
OB: 1 of 6 are accepted
FB: 1 of 1 are accepted
FC: 1 of 2 are accepted
DB: 1 of 2 are accepted
4 of 11 blocks are accepted
2 Unsupported(SystemCall)
2 Unsupported(Timer)
1 BadStatement
1 DuplicateBlock
1 UnknownName
1 Unsupported(Real)
not supported, by the first word:
2 A
1 CALL
1 REAL
1 UC'
says "where more is said" "explain NAME' says what to change"

# What a block takes along stands in its text.
cat > "$bin/shows" <<'END'
#!/usr/bin/env bash
cat > "$0.text.$(find "${0%/*}" -name 'stl2st.text.*' | wc -l)"
echo accepted
END
chmod 755 "$bin/shows"
use_program "$bin/shows"
cat > ob.awl <<'END'
ORGANIZATION_BLOCK OB 1
CALL FB 7, DB 10; // FC 3
END_ORGANIZATION_BLOCK
END
sed 's/REFUSE//' code.awl | sed -n 1,8p > fc.awl
front check --blocks s.sdf data.awl fc.awl ob.awl
equal "an organization block takes along what it names, and no more" "$(tr -d '\r' < "$repo/out/stl2st.text.6")" 'SYMBOL_TABLE
"Recipe","DB 10","DB 10",""
"Start","I 0.0","BOOL",""
END_SYMBOL_TABLE
DATA_BLOCK "Recipe"
TITLE = END_DATA_BLOCK FUNCTION
STRUCT // END_DATA_BLOCK
END_STRUCT
BEGIN
END_DATA_BLOCK
FUNCTION_BLOCK FB 7
A "Start"; CALL FC 4;
END_FUNCTION_BLOCK
FUNCTION FC 4 : VOID
CALL FB 7, DB 10;
END_FUNCTION
ORGANIZATION_BLOCK OB 1
CALL FB 7, DB 10; // FC 3
END_ORGANIZATION_BLOCK'
use_program "$bin/program"

# All accepted, and none.
front check --blocks s.sdf ob.awl
gives "all are accepted" 0 's.sdf:1: symbols: accepted
ob.awl:1: OB 1: accepted
OB: 1 of 1 are accepted
1 of 1 blocks are accepted'
silent "and nothing is said"
head -n 6 data.awl > db.awl
front check --blocks s.sdf db.awl
equal "data blocks alone" "$status: $(tail -n 1 "$room/out")" "0: 1 of 1 blocks are accepted"
printf 'ORGANIZATION_BLOCK OB 2\nEND_ORGANIZATION_BLOCK\n// REFUSE TooLarge\n' > all.awl
front check --blocks ob.awl all.awl
equal "blocks that break a rule together" "$status: $(sed -n 3p "$room/out")" "1: all.awl:3: all together: TooLarge: // REFUSE TooLarge"
front check --blocks s.sdf
equal "no block at all" "$status: $(tail -n 1 "$room/out")" "1: 0 of 0 blocks are accepted"
front check --blocks nowhere.awl
gives "a file that is not there" 7 ""
printf 'ORGANIZATION_BLOCK OB 2\nA \0 REFUSE BadToken\nEND_ORGANIZATION_BLOCK\n' > nul.awl
front check --blocks nul.awl
equal "a NUL is in the text that is judged" "$status: $(sed -n 1p "$room/out" | cut -c -25)" "1: nul.awl:2: OB 2: BadToken"

# The report.
printf 'ORGANIZATION_BLOCK OB 2\nA <&>"F\xf6"; // REFUSE BadToken\nEND_ORGANIZATION_BLOCK\n' > "odd <name>.awl"
front check --blocks s.sdf ob.awl "odd <name>.awl" --report report.txt
equal "a report does not change what is written" "$status: $(tail -n 1 "$room/out")" "1: 1 BadToken"
sum=$(sha256sum < s.sdf)
for line in "made: $(date +%Y-%m-%d)" "kit: stand-in kit" "${sum%% *} $(stat -c %s s.sdf) s.sdf" "ob.awl:1: OB 1: accepted" \
    'odd <name>.awl:2: OB 2: BadToken: A <&>"Fö"; // REFUSE BadToken' "1 of 2 blocks are accepted"; do
    equal "a report as text has '$line'" "$(grep -cF -- "$line" report.txt)" 1
done
LC_ALL=C front check --blocks s.sdf ob.awl "odd <name>.awl" --report report.html
equal "a report is in UTF-8 where a terminal is not" "$(grep -c 'A <&>"F?";' "$room/out"): $(grep -c 'Fö' report.html)" "1: 1"
for line in '<code>A &lt;&amp;&gt;"Fö"; // REFUSE BadToken</code>' '<td>odd &lt;name&gt;.awl:2</td>' "1 of 2 blocks are accepted<br>" \
    '<tr class="accepted"><td>OB 1</td><td>accepted</td><td>ob.awl:1</td>'; do
    equal "a report as a page has '$line'" "$(grep -cF -- "$line" report.html)" 1
done
equal "a page has no script" "$(grep -ci '<script' report.html)" 0
front check --blocks ob.awl --report nowhere/report.txt
gives "a report that can't be written" 8 ""
front check --blocks ob.awl --report ob.awl
says "a source is not written over by a report" "ob.awl would be written over"
front check ob.awl --report a
says "a report goes with blocks" "--report goes with check --blocks"
front translate ob.awl --blocks
says "blocks go with check" "--blocks goes with check"
front check --blocks
says "blocks need files" "--blocks needs files"

# As many blocks and symbols as a plant has.
for ((at = 0; at < 5000; at++)); do printf '"Symbol_%d","M %d.%d","BOOL","a comment"\n' "$at" $((at / 8)) $((at % 8)); done > many.sdf
for ((at = 1; at <= 200; at++)); do
    printf 'ORGANIZATION_BLOCK OB %d\nBEGIN\nA "Symbol_%d"; = "Symbol_%d";\nEND_ORGANIZATION_BLOCK\n' "$at" $((at * 7)) $((at * 9))
done > many.awl
printf '%s\n' '#!/bin/sh' 'cat > /dev/null' 'echo accepted' > "$bin/accepts"
chmod 755 "$bin/accepts"
use_program "$bin/accepts"
begun=$SECONDS
front check --blocks many.sdf many.awl
equal "200 blocks with 5,000 symbols" "$status: $(tail -n 1 "$room/out")" "0: 200 of 200 blocks are accepted"
equal "they take no minute" "$((SECONDS - begun < 60))" 1
cd "$room" || exit 1
