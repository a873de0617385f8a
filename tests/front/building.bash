# shellcheck shell=bash
# When the program is built, and what is kept where a build goes wrong.
make_checkout
echo BLOCK > "$room/a.awl"

front check a.awl
gives "the first run builds" 0 accepted
says "it says so" "the program is not built yet: proving and building it takes half an hour to an hour"
says "it says where the log is" "$repo/out/build.log"
equal "two lines without a terminal" "$(wc -l < "$room/err")" 2
front check a.awl
silent "the second run does not"
front build
says "build has nothing to do then" "built from these sources already"
equal "one build so far" "$(builds)" 1

# Crates are proved side by side first, as many as there is room for.
# shellcheck source=../../front/build.bash
. "$top/front/build.bash"
equal "a crate a processor" "$(crates_at_once 4 24000000)" 4
equal "a crate for each 5 GB" "$(crates_at_once 16 12000000)" 2
equal "one crate where memory is short" "$(crates_at_once 4 3000000)" 1
equal "one crate where memory is not told" "$(crates_at_once 4 0)" 1
equal "side by side or not at all" "$(cat "$bin/proofs" 2> /dev/null | grep -cvxE 'all check --jobs [1-9][0-9]*')" 0

touch "$repo"/crates/*/src/* "$repo/crates.txt"
front check a.awl
equal "a new time alone builds nothing" "$(builds)" 1
echo "// more" >> "$repo/crates/base_rows/src/lib.rt"
echo "notes" > "$repo/crates/stl2st/src/notes.md"
front check a.awl
equal "what the program does not stand on builds nothing" "$(builds)" 1

# Each change builds once.
changed() {
    local before
    before=$(builds)
    front check a.awl
    gives "$1" 0 accepted
    says "$1 says why" "${2-built from other sources}"
    front check a.awl
    equal "$1 builds once" "$(builds)" $((before + 1))
}
echo "// more" >> "$repo/crates/s7_base/src/lib.rt"
changed "an edit below"
touch -d '2001-01-01' "$repo/crates/stl2st/src/lib.rt"
sed -i 's/stl2st/STL2ST/' "$repo/crates/stl2st/src/lib.rt"
touch -d '2001-01-01' "$repo/crates/stl2st/src/lib.rt"
changed "an edit with an old time"
echo "-- b" > "$repo/crates/stl2st/specs/B.antt"
changed "a new file"
rm "$repo/crates/stl2st/specs/B.antt"
changed "a file that is gone"
mv "$repo/crates/stl2st/proofs/A.antt" "$repo/crates/stl2st/proofs/C.antt"
changed "a file of another name"
echo 'Handles allowed: Wait.' > "$repo/HANDLES"
changed "another line in HANDLES"
sed -i 's/^stl2st: s7_base itoa/& base_rows/' "$repo/crates.txt"
changed "a crate more in crates.txt"
cp "$bin/program" "$repo/out/stl2st"
echo "# another" >> "$repo/out/stl2st"
changed "another executable in its place" "not the one that was built"
echo "$repo/crates/s7_base/src/lib.rt" > "$bin/edits"
before=$(builds)
echo "// more" >> "$repo/crates/stl2st/src/lib.rt"
front check a.awl
gives "an edit during the build" 0 accepted
says "an edit during the build begins again" "the sources changed during the build"
front check a.awl
equal "an edit during the build costs one build more" "$(builds)" $((before + 2))

# A build that fails.
sum=$(cksum < "$repo/out/stl2st")
touch "$bin/fails"
echo "// broken" >> "$repo/crates/stl2st/src/lib.rt"
front check a.awl
gives "a build that fails" 125 ""
says "it shows the end of the log" "not proved"
says "it says that the program is that of others" "the program is built from other sources"
equal "the former program stays" "$(cksum < "$repo/out/stl2st")" "$sum"
rm "$bin/fails"
sed -i '$d' "$repo/crates/stl2st/src/lib.rt"
before=$(builds)
front check a.awl
equal "and counts again with its own sources" "$status: $(builds)" "0: $before"

# Two calls in a pipe.
echo "// pipe" >> "$repo/crates/stl2st/src/lib.rt"
echo 1 > "$bin/slow"
before=$(builds)
PATH=$path "$repo/stl2st" translate a.awl 2> "$room/err" | PATH=$path "$repo/stl2st" check > "$room/out" 2> "$room/err2"
equal "two calls in a pipe build once" "$(cat "$room/out"): $(builds)" "accepted: $((before + 1))"
equal "the other one says that it waits" "$(cat "$room/err" "$room/err2" | grep -c 'another call is building the program')" 1

# A build that is stopped. The shell of a test ignores SIGINT in what it starts beside it, hence env.
for signal in TERM HUP INT; do
    echo "// $signal" >> "$repo/crates/stl2st/src/lib.rt"
    echo 50 > "$bin/slow"
    : > "$bin/builds"
    PATH=$path env --default-signal=INT "$repo/stl2st" check a.awl > "$room/out" 2> "$room/err" &
    caller=$!
    for _ in {1..50}; do [[ -s $bin/builds ]] && break; sleep 0.1; done
    sleep 0.2
    kill -s "$signal" "$caller"
    { wait "$caller"; } 2> /dev/null
    equal "SIG$signal ends the front by it" "$(kill -l $?)" "$signal"
    group=$(cat "$bin/builds")
    equal "SIG$signal ends the build" "$(running_in "$group")" ""
    says "SIG$signal is told" "the build was stopped"
done
if can_bind; then
    : > "$bin/builds"
    PATH=$path "$repo/stl2st" check a.awl > "$room/out" 2> "$room/err" &
    caller=$!
    for _ in {1..50}; do [[ -s $bin/builds ]] && break; sleep 0.1; done
    kill -KILL "$caller"
    { wait "$caller"; } 2> /dev/null
    builder=$(cat "$bin/builds")
    equal "SIGKILL ends rt too" "$(running "$builder")" ""
    kill -KILL -- "-$builder" 2> /dev/null
fi
rm "$bin/slow"

# What a build needs.
path=$room/empty:/usr/bin:/bin
mkdir -p "$room/empty"
if ! PATH=$path command -v rt > /dev/null; then
    front check a.awl
    gives "without rt" 125 ""
    says "without rt it says so" "'rt', which proves and builds it, is not on the path"
fi
path=$bin:$PATH
front build
gives "build builds" 0 ""

# A checkout that can't be written, as nobody where the tests are root's.
nobody=()
[[ $(id -u) != 0 ]] || nobody=(setpriv --reuid=65534 --regid=65534 --clear-groups)
chmod -R a+rX,a-w "$repo"
if "${nobody[@]}" test -x "$repo/stl2st" 2> /dev/null; then
    PATH=$path "${nobody[@]}" "$repo/stl2st" check a.awl > "$room/out" 2> "$room/err"
    status=$?
    gives "a built program runs in a checkout that can't be written" 0 accepted
    silent "and says nothing"
    chmod u+w "$repo/crates/stl2st/src/lib.rt"
    echo "// more" >> "$repo/crates/stl2st/src/lib.rt"
    PATH=$path "${nobody[@]}" "$repo/stl2st" check a.awl > "$room/out" 2> "$room/err"
    status=$?
    gives "a checkout that can't be written is not built" 125 ""
    equal "and says so in one line" "$(cat "$room/err")" "stl2st: the program is built from other sources, and $repo can't be written: build it in a checkout that can"
fi
chmod -R u+w "$repo"

# Shells, places and a terminal.
front build
sh "$repo/stl2st" check a.awl > "$room/out" 2> "$room/err"
status=$?
gives "sh reads the front" 0 accepted
ln -s "$repo/stl2st" "$room/linked"
PATH=$path "$room/linked" check a.awl > "$room/out" 2> "$room/err"
status=$?
gives "a link to the front" 0 accepted
if has_terminal; then
    echo "// terminal" >> "$repo/crates/stl2st/src/lib.rt"
    echo 2 > "$bin/slow"
    PATH=$path TERM=xterm timeout 20 script -qec "'$repo/stl2st' check a.awl" /dev/null < /dev/null > "$room/err" 2>&1
    says "a terminal shows the crate that is proved" "proving s7_base, 0 min"
    equal "a later build does not name a first look" "$(grep -c 'try COMMAND' "$room/err")" 0
    mv "$repo/out/stl2st" "$room/kept"
    rm "$bin/slow"
    PATH=$path TERM=xterm timeout 20 script -qec "'$repo/stl2st' check a.awl" /dev/null < /dev/null > "$room/err" 2>&1
    says "a first build on a terminal names a first look" "stl2st try COMMAND ..' runs it unproved in a minute or two"
fi

# Without a terminal a line tells now and then how far the build is.
sed -i 's/^progress_every=300/progress_every=1/' "$repo/front/build.bash"
mkdir -p "$repo/crates/s7_base/out/rlib/s7_base.rlib"
echo "// progress" >> "$repo/crates/stl2st/src/lib.rt"
echo 3 > "$bin/slow"
front check a.awl
gives "a build that takes its time" 0 accepted
says "it tells how far it is" "still building after 0 min: proving s7_base, and 2 of 3 crates are left"
echo "// newer" >> "$repo/crates/s7_base/src/lib.rt"
touch -d '+1 minute' "$repo/crates/s7_base/src/lib.rt"
echo 2 > "$bin/slow"
front check a.awl
says "a source that is newer counts as left" "and 3 of 3 crates are left"
rm "$bin/slow"
