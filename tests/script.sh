#!/bin/sh
# Tries the script ./hminify in a small repository with an rt that proves nothing, and ends with 1 where it does otherwise
# than it should.
# shellcheck disable=SC2317 # what `wants` is given is called
set -u
here=$(CDPATH='' cd -- "$(dirname -- "$0")/.." && pwd -P)
room=$(mktemp -d) || exit 1
trap 'rm -rf "$room"' EXIT
failed=0

# The last call's status is $status, its output stands in the files out and err of the room.
call() {
    "$@" >"$room/out" 2>"$room/err"
    status=$?
}

wants() {
    what=$1
    shift
    if "$@"; then
        echo "ok      $what"
    else
        echo "failed  $what"
        sed 's/^/    /' "$room/out" "$room/err"
        failed=1
    fi
}

is() {
    [ "$1" = "$2" ]
}

says() {
    grep -qF -- "$1" "$room/err"
}

says_nothing() {
    [ ! -s "$room/err" ]
}

# How often all crates of the program were built.
builds() {
    grep -c '^ci hm_base hm_refs hm_tree hminify, ' "$room/calls"
}

# A repository of four crates and one that the program isn't made of, each with edits that must fail and with what an earlier build
# left. Its rt notes each call with the crates that it finds, fails at a crate with a file `bad`, leaves a broken program and fails at
# one with a file `worse`, sleeps for the seconds that a file `slow` has, and leaves a program. It tells of a crate that it met before
# that it is kept. With a file `calls.nameless` in the room it takes no names of crates, as some kits' rt. Its program prints its words and
# its folder, and ends with 3. What it tries prints its words, says a line on standard error, and ends with 3.
repository() {
    rm -rf "$room/a place"
    top="$room/a place/of mine"
    mkdir -p "$top/bin"
    cp "$here/hminify" "$top/hminify"
    printf '%s\n' '# crates' 'hm_tree: hm_base std' 'hm_cases: hm_tree' 'hminify may_abort=2: hm_tree hm_refs' 'hm_base:' 'hm_refs: hm_base' >"$top/crates.txt"
    for crate in hm_base hm_refs hm_tree hminify hm_cases; do
        mkdir -p "$top/crates/$crate/src" "$top/crates/$crate/must-fail" "$top/crates/$crate/out"
        echo '// a line' >"$top/crates/$crate/src/lib.rt"
        : >"$top/crates/$crate/must-fail/an.edit"
        touch -t 200101010000 "$top/crates/$crate/src/lib.rt"
    done
    touch -t 200101010000 "$top/crates.txt"
    echo 'Handles allowed: none.' >"$top/HANDLES"
    cat >"$top/bin/rt" <<'END'
#!/bin/sh
if [ "$1" = try ]; then
    echo "try $(basename "$PWD")" >>"$CALLS"
    if [ -e bad ]; then
        printf '%s\n' 'error: no such name' 'run=none proved=no' >&2
        exit 1
    fi
    shift 4
    printf '<%s>' "$@"
    printf '%s\n' 'a fault' 'checked: ended status=3' 'run=ended status=3 runners=1 proved=no' >&2
    exit 3
fi
if [ -e "$CALLS.nameless" ] && [ $# -gt 1 ]; then
    printf '%s\n' 'usage: rt new FOLDER   makes a crate' '       rt check|verdict|lib' >&2
    exit 2
fi
echo "$* $(cd crates && echo *), $(cat HANDLES), $(find . -name '*.edit' -o -name out | wc -l | tr -d ' ') more" >>"$CALLS"
echo 'rt: noise'
sed 's/#.*//; s/[ :].*//' crates.txt | while read -r crate; do
    [ ! -e "crates/$crate/slow" ] || sleep "$(cat "crates/$crate/slow")"
    if [ -e "crates/$crate/bad" ]; then
        echo "rt: $crate NOT PROVED"
        exit 1
    fi
    if [ -n "$crate" ] && grep -qs "^$crate$" "$CALLS.kept"; then
        echo "rt: $crate is kept: an earlier run proved it"
    elif [ -n "$crate" ]; then
        echo "$crate" >>"$CALLS.kept"
        echo "rt: $crate proved"
    fi
done || exit 1
mkdir -p crates/hminify/out
if [ -e crates/hminify/worse ]; then
    : >crates/hminify/out/hminify
    exit 1
fi
printf '#!/bin/sh\nprintf "<%%s>" "$@"; pwd; exit 3\n' >crates/hminify/out/hminify
chmod +x crates/hminify/out/hminify
END
    chmod +x "$top/bin/rt"
    : >"$room/calls"
    rm -f "$room/calls.kept" "$room/calls.nameless"
}

CALLS=$room/calls
PATH="$room/a place/of mine/bin:$PATH"
export CALLS PATH
cd "$room" || exit 1

repository
call "$top/hminify" tree 'a b' ''
wants 'the first call builds: exit status' is "$status" 3
wants 'the first call builds: output' is "$(cat out)" "<tree><a b><>$room"
wants 'in a copy, of the crates of the program, without edits and earlier builds' is "$(head -n 1 calls)" \
    'ci hm_base hm_base hm_refs hm_tree hminify, Handles allowed: none., 0 more'
wants 'first the lowest crate, then all but the last two, then all' is "$(sed 's/ hm_base hm_refs hm_tree hminify, .*//' calls | tr '\n' ';')" \
    'ci hm_base;ci hm_base hm_tree;ci;'
wants 'how many crates at a time' grep -qE 'proving 4 crates, [1-9][0-9]* at a time$' err
wants 'how many crates are proved is told' says 'hminify: proved hm_refs (4 of 4), 0:0'
call "$top/hminify" x
wants 'the next call builds nothing' is "$(builds)" 1
wants 'the next call says nothing' says_nothing
wants 'the next call: exit status' is "$status" 3

repository
: >"$room/calls.nameless"
call "$top/hminify" tree 'a b' ''
wants 'an rt that takes no names: output and status' is "$(cat out)$status" "<tree><a b><>${room}3"
wants 'an rt that takes no names: all crates at once' is "$(cat calls)" 'ci hm_base hm_refs hm_tree hminify, Handles allowed: none., 0 more'
wants 'an rt that takes no names: how many are proved is told' says 'hminify: proved hm_refs (4 of 4), 0:0'
wants 'an rt that takes no names: it is no fault' is "$(grep -c usage err)" 0
touch "$top/crates/hm_tree/bad"
call "$top/hminify" --build
wants 'an rt that takes no names: a build that fails' is "$status$(cat out)" 70
wants 'an rt that takes no names: what it said' says 'rt: hm_tree NOT PROVED'

# The lowest crate takes two seconds, which count for two thousand, and has most of the functions.
repository
awk 'BEGIN { for (i = 0; i < 60; i++) print "fn f() {}" }' >"$top/crates/hm_base/src/more.rt"
echo 2 >"$top/crates/hm_base/slow"
printf '%s\n' '#!/bin/sh' "echo \"\$($(command -v date) +%s)000\"" >"$top/bin/date"
chmod +x "$top/bin/date"
call "$top/hminify"
wants 'how long the rest will take is told' grep -qE 'proved hm[a-z_]+ \([1-3] of 4\), [0-9:]+, some [0-9]+ minutes to go$' err
wants 'when nothing is left it is not' is "$(grep -c '(4 of 4).*to go' err)" 0
call "$top/hminify" --build
wants 'nor of crates that are kept' is "$(grep -c 'to go' err)" 0

repository
call "$top/hminify" tree 'a b' ''
ln -s "$top/hminify" "$room/one"
mkdir -p "$room/links" && ln -s ../one "$room/links/two"
cd links || exit 1
call ./two y
wants 'through links' is "$(cat "$room/out")" "<y>$room/links"
mkdir -p "$room/decoy/of mine"
cd "$top/.." || exit 1
call env CDPATH="$room/decoy" 'of mine/hminify' z
wants 'from another folder, with CDPATH' is "$(cat "$room/out")" "<z>$room/a place"
call env CDPATH="$room/decoy" sh 'of mine/hminify' z
wants 'as the word of a shell' is "$(cat "$room/out")" "<z>$room/a place"
cd "$room" || exit 1

touch -t 200101010000 "$top/crates/hm_tree/src/lib.rt"
touch "$top/crates/hm_cases/src/lib.rt"
call "$top/hminify"
wants 'a newer source of another program: nothing is said' says_nothing
touch -t 209901010000 "$top/crates/hm_tree/src/lib.rt"
call "$top/hminify" x
wants 'a newer source: it is said' says "crates/hm_tree/src/lib.rt; to build it again: $top/hminify --build"
wants 'a newer source: nothing is built' is "$(builds)" 1
wants 'a newer source: output and status' is "$(cat out)$status" "<x>${room}3"
call "$top/hminify" --build
wants '--build builds and runs nothing' is "$(builds)$status$(cat out)" 20
wants '--build: a crate that is kept counts too' says 'hminify: proved hm_refs (4 of 4), 0:0'
call "$top/hminify" x
wants 'what changed since the build began is still newer' says 'crates/hm_tree/src/lib.rt; to build it again'
touch "$top/crates/hm_tree/src/lib.rt"
call "$top/hminify" x
wants 'what changed since the last build is newer' says 'crates/hm_tree/src/lib.rt; to build it again'
call "$top/hminify" --build
call "$top/hminify" x
wants 'after a build, nothing is newer' says_nothing
call "$top/hminify" --build x
wants '--build beside other words is a word of the program' is "$(cat out)$status" "<--build><x>${room}3"

mv "$top/crates/hminify/out/hminify" kept
printf '#!/bin/sh\ngrep "^SigIgn:" /proc/self/status\n' >"$top/crates/hminify/out/hminify"
chmod +x "$top/crates/hminify/out/hminify"
call "$top/hminify" x
wants 'a file that grows too large ends no program by a signal' grep -q '[13579bdf]......$' out
mv kept "$top/crates/hminify/out/hminify"

touch "$top/crates/hm_tree/bad" "$top/crates/hm_tree/src/lib.rt"
call "$top/hminify" --build
wants 'a build that fails: exit status' is "$status" 70
wants 'a build that fails: what rt said' says 'rt: hm_tree NOT PROVED'
wants 'a build that fails: no output' is "$(cat out)" ''
rm "$top/crates/hm_tree/bad"
touch "$top/crates/hminify/worse"
call "$top/hminify" --build
wants 'a build that leaves a broken program' is "$status" 70
call "$top/hminify" x
wants 'the program that was there stays' is "$(cat out)$status" "<x>${room}3"
rm "$top/crates/hminify/worse" "$top/crates/hminify/out/hminify"
touch "$top/crates/hminify/bad"
call "$top/hminify" x
wants 'a first build that fails' is "$(cat out)$status" 70

repository
echo 5 >"$top/crates/hm_tree/slow"
"$top/hminify" one >"$room/out1" 2>"$room/err1" &
until grep -q '^ci ' calls; do sleep 1; done
call "$top/hminify" two
wait
wants 'two at once: one waits, and says so' says 'hminify: another call builds the program; waiting for it'
wants 'two at once: one build' is "$(builds)" 1
wants 'two at once: both run' is "$(cat out1)$(cat out)$status" "<one>$room<two>${room}3"

repository
echo 2 >"$top/crates/hm_tree/slow"
"$top/hminify" one >"$room/out1" 2>"$room/err1" &
until grep -q '^ci ' calls; do sleep 1; done
kill -KILL $!
wait
call "$top/hminify" two
wants 'a build that was killed holds up no other' is "$(cat out)$status" "<two>${room}3"

repository
echo 2 >"$top/crates/hm_tree/slow"
mkdir "$room/tmp"
TMPDIR="$room/tmp" "$top/hminify" one >"$room/out1" 2>"$room/err1" &
until grep -q '^ci ' calls; do sleep 1; done
kill -TERM $!
wait $!
wants 'a build that is ended: exit status' is "$?" 143
wants 'a build that is ended leaves no copy' is "$(ls "$room/tmp")" ''

repository
call "$top/hminify" --try minify none 'a page' --omit none /tmp/cert ''
wants '--try: names of files from the root' is "$(cat out)" "<minify><none><$room/a page><--omit><$room/none></tmp/cert><>"
wants '--try: exit status' is "$status" 3
wants '--try: nothing is built' is "$(cat calls)" 'try hminify'
wants '--try: one line that nothing was proved' is "$(grep -c '^hminify: nothing is proved' err)" 1
wants '--try: and what the program says' is "$(sed 1d err)" 'a fault'
call "$top/hminify" --try measure table 7 20
wants '--try: numbers are no files' is "$(cat out)" "<measure><$room/table><7><20>"
call "$top/hminify" --try minifyjson none --omit tree.json out /tmp/cert
wants '--try: a tree is a file too' is "$(cat out)" "<minifyjson><none><--omit><$room/tree.json><$room/out></tmp/cert>"
call "$top/hminify" --try checkfragment none part.html out cert --omit
wants '--try: and a fragment' is "$(cat out)" "<checkfragment><none><$room/part.html><$room/out><$room/cert><--omit>"
call "$top/hminify" --try json table 7
wants '--try: a page may be named as a number is' is "$(cat out)" "<json><$room/table><$room/7>"
call "$top/hminify" --try tree html none
wants '--try: a page may be named as a table is' is "$(cat out)" "<tree><html><$room/none>"
call "$top/hminify" tree --try
wants '--try after another word is a word of the program' is "$(cat out)" "<tree><--try>$room"
touch "$top/crates/hminify/bad"
call "$top/hminify" --try tree none page
wants '--try: what rt refuses' is "$status$(cat out)" 70
wants '--try: what rt refuses is said' says 'error: no such name'

repository
mkdir "$room/no_rt"
for tool in sh awk basename cat chmod cp date dirname find flock grep head mkdir mktemp mv pwd readlink rm sed sleep sort tail touch tr wc; do
    ln -s "$(command -v "$tool")" "$room/no_rt/$tool"
done
call env PATH="$room/no_rt" "$top/hminify" x
wants 'without rt' is "$status" 70
wants 'without rt: it is said' says 'hminify: no rt: the Rattle toolchain'
rm "$room/no_rt/flock"
call env PATH="$room/no_rt" "$top/hminify" --try x
wants 'without rt: --try' is "$status" 70
cp "$top/bin/rt" "$room/no_rt/rt"
call env PATH="$room/no_rt" "$top/hminify" x
wants 'without flock it builds too' is "$(cat out)$status" "<x>${room}3"

exit "$failed"
