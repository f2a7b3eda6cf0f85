#!/bin/sh
# Runs the program once for each exit status that it can give, a second time onto longer files, and at the limits of files and
# numbers. Ends with 1 where a status, what is printed, or a file isn't as it should be. The program is the word of the call, or
# the one that was built last.
set -u
here=$(CDPATH='' cd -- "$(dirname -- "$0")/.." && pwd -P)
program=${1:-$here/crates/hminify/out/hminify}
room=$(mktemp -d) || exit 1
trap 'rm -rf "$room"' EXIT
failed=0
if [ ! -x "$program" ]; then
    echo "no program $program"
    exit 1
fi
cd "$room" || exit 1

# Says what isn't as it is wanted: a name, what is there, what is wanted.
same() {
    if [ "$2" = "$3" ]; then
        echo "ok      $1"
    else
        printf 'failed  %s\n    is:     %s\n    wanted: %s\n' "$1" "$2" "$3"
        failed=1
    fi
}

# Runs the program: a name, the wanted status, the wanted line, and the words. What is wanted on standard error stands in `told`,
# for one call.
told=
ends() {
    name=$1 status=$2 line=$3
    shift 3
    "$program" "$@" >said 2>err
    same "$name: status" $? "$status"
    same "$name: line" "$(cat said)" "$line"
    same "$name: standard error" "$(cat err)" "$told"
    told=
}

# The bytes of a file, with one line for its end, so that a line feed more or less shows.
bytes() {
    cat "$1"
    echo '|'
}

# A text that ends with one byte many times: what comes before, the number, and the byte.
fill() {
    printf '%s' "$1"
    head -c "$2" /dev/zero | tr '\0' "$3"
}

right_out='<!doctype html><p>a<p>b|'
right_cert=$(printf 'html-cert 2\nrules omit unquote\n23\n8\n8\n8\n8\n4\n0\n0\n0\n0\n|')
json='[["doctype","plain"],["start","html",[]],["start","head",[]],["end"],["start","body",[]],["start","p",[]],["text","a"],["end"],["start","p",[]],["text","b"],["end"],["end"],["end"]]'
usage='usage: hminify minify, check, fragment, checkfragment or minifyjson TABLE PAGE OUT CERT, tree, json or explain TABLE PAGE, measure TABLE NUMBER SIZE, help, version'
flags='hminify: flags and TABLE have to be those that OUT and CERT were written with'

printf '<!doctype html><p>a</p><p>b</p>' >page
printf '<!doctype html><p>a</i>' >wrong
printf '[]' >table
printf '<!doctype html>&amp;' >amp

# What was there is longer than what is written, so bytes of it would be left where a file isn't emptied.
head -c 5000 /dev/zero >out
head -c 5000 /dev/zero >cert
ends 'minify' 0 'length 23' minify none page out cert --omit --unquote
same 'minify: OUT' "$(bytes out)" "$right_out"
same 'minify: CERT' "$(bytes cert)" "$right_cert"
ends 'check' 0 'yes 23' check none page out cert --omit --unquote
told=$flags
ends 'check without the rules' 1 'no 1 rules differ' check none page out cert
told="hminify: there is no command
try 'hminify help'"
ends 'no words' 2 "$usage"
told="hminify: '--omitt' is no flag
try 'hminify help'"
ends 'a word that is no flag' 2 "$usage" tree none page --omitt
told="hminify: 'tree' wants TABLE PAGE, 2 words and not 1
try 'hminify help'"
ends 'a word too few' 2 "$usage" tree page
ends 'version' 0 "hminify $(cat "$here/VERSION")
$(sed -n 's/^\*\*Proved\*\* with `\([^`]*\)`.*/\1/p' "$here/README.md")" version
"$program" help >said 2>err
same 'help: status' $? 0
"$program" -h >said_too 2>err
same 'help: -h says the same' "$(cat said_too)" "$(cat said)"
ends 'a page that is refused' 3 'page refused: StrayEnd at 19' minify none wrong out cert --omit --unquote
ends 'a table that is refused' 4 'table refused: NotObject' minify table page out cert --omit --unquote
told='hminify: absent: No such file or directory'
ends 'no page' 5 'store fault' minify none absent out cert --omit --unquote
told='hminify: absent/out: No such file or directory'
ends 'OUT in no folder' 5 'store fault' minify none page absent/out cert --omit --unquote
ends 'json' 0 "$json" json none page
ends 'explain a page' 0 'page: settled, page 31 output 23' explain html page --omit --unquote
ends 'explain a page that is refused' 3 'wrong:1:20: StrayEnd: This end tag closes nothing, since no element of its name is open.
<!doctype html><p>a</i>
                   ^' explain html wrong
printf '%s' '{}' >html
ends 'the word html is no file' 0 'doctype
element html
  element head
  element body
    text "&"' tree html amp
ends 'a file of that name' 0 'doctype
element html
  element head
  element body
    text "&amp;"' tree ./html amp
printf '%s\n' "$json" >tree
printf '[["doctype","plain"],["start","html",[]],["end"]]' >unsettled
ends 'JSON that is refused' 8 'json refused: NotSettled event 2 point 2' minifyjson none unsettled out cert --omit --unquote
told='hminify: absent: No such file or directory'
ends 'no JSON' 5 'store fault' minifyjson none absent out cert --omit --unquote
same 'after all of these: OUT' "$(bytes out)" "$right_out"
same 'after all of these: CERT' "$(bytes cert)" "$right_cert"

head -c 5000 /dev/zero >out
head -c 5000 /dev/zero >cert
ends 'minifyjson' 0 'length 23' minifyjson none tree out cert --omit --unquote
same 'minifyjson: OUT' "$(bytes out)" "$right_out"
same 'minifyjson: CERT' "$(bytes cert)" "$right_cert"

# A fragment: its places and lengths count its own bytes, and its certificate those of its front too.
head -c 5000 /dev/zero >part_out
head -c 5000 /dev/zero >part_cert
printf '<p>a</p><p>b</p>' >part
printf 'a</body>' >closing
ends 'fragment' 0 'length 8' fragment none part part_out part_cert --omit --unquote
same 'fragment: OUT' "$(bytes part_out)" '<p>a<p>b|'
same 'fragment: CERT' "$(bytes part_cert)" "$(printf 'html-cert 2\nrules omit unquote frame\n29\n14\n14\n14\n4\n0\n0\n0\n0\n|')"
ends 'checkfragment' 0 'yes 8' checkfragment none part part_out part_cert --omit --unquote
told="hminify: 'fragment' needs '--omit'
try 'hminify help'"
ends 'a fragment without --omit' 2 "$usage" fragment none part part_out part_cert --unquote
ends 'a fragment that closes its body' 3 'page refused: FrameEnd at 1' fragment none closing part_out part_cert --omit --unquote
ends 'OUT closes its body' 1 'no 2 output refused: FrameEnd at 1' checkfragment none part closing part_cert --omit --unquote

# A full device: OUT and CERT are whole all the same.
if [ -c /dev/full ]; then
    rm out cert
    "$program" minify none page out cert --omit --unquote >/dev/full 2>err
    same 'a full standard output: status' $? 6
    same 'a full standard output: standard error' "$(cat err)" 'hminify: standard output: No space left on device'
    same 'a full standard output: OUT' "$(bytes out)" "$right_out"
    same 'a full standard output: CERT' "$(bytes cert)" "$right_cert"
    "$program" minify none page /dev/full cert --omit --unquote >said 2>err
    same 'a full OUT: status' $? 5
    same 'a full OUT: line' "$(cat said)" 'store fault'
    same 'a full OUT: standard error' "$(cat err)" 'hminify: /dev/full: No space left on device'
    same 'a full OUT: CERT' "$(bytes cert)" "$right_cert"
fi

# A limit on the size of files: a fault as any other, where the signal is ignored.
fill '<!doctype html>' 8000000 x >large
(
    trap '' XFSZ
    ulimit -f 8
    "$program" minify none large limited cert --omit --unquote >said 2>err
)
same 'a limit on the size of files: status' $? 5
same 'a limit on the size of files: line' "$(cat said)" 'store fault'
same 'a limit on the size of files: standard error' "$(cat err)" 'hminify: limited: File too large'
same 'a limit on the size of files: OUT' "$(cmp -n "$(wc -c <limited)" limited large && echo a prefix)" 'a prefix'
same 'a limit on the size of files: CERT' "$(bytes cert)" "$right_cert"

# Little memory: OUT and CERT are as before.
(
    # shellcheck disable=SC3045 # dash has it, and bash
    ulimit -v 16384
    "$program" minify none large out cert --omit --unquote >said 2>err
)
same 'little memory: status' $? 7
same 'little memory: line' "$(cat said)" ''
same 'little memory: OUT' "$(bytes out)" "$right_out"
same 'little memory: CERT' "$(bytes cert)" "$right_cert"
# At the limits, and one byte above. The page is written with the tags that it leaves out, 39 bytes.
fill '' 1048576 ' ' >table
ends 'a table of 1,048,576 spaces' 4 'table refused: NotJson' tree table page
fill '' 1048577 ' ' >table
ends 'a table of 1,048,577 spaces' 4 'table refused: TooLong' tree table page
fill '<!doctype html>' 16777201 a >large
ends 'a page of 16,777,216 bytes' 0 'length 16777255' minify none large out cert
fill '<!doctype html>' 16777202 a >large
ends 'a page of 16,777,217 bytes' 3 'page refused: TooLong at 16777216' minify none large out cert
# A certificate above what `check` reads: a long value of a character that several short names stand for.
{ fill '<!doctype html><p title="' 8600000 '>' && printf '">'; } >large
told='hminify: long_cert: 288777857 bytes, and the check reads at most 268435456'
ends 'a certificate of 288,777,857 bytes' 0 'length 8600027' minify html large long_out long_cert --omit --unquote --sparse
ends 'a certificate of 288,777,857 bytes: check' 1 'no 0 certificate too long' check html large long_out long_cert --omit --unquote --sparse
rm -f long_out long_cert
fill '' 16777216 a >large
ends 'a fragment of 16,777,216 bytes' 0 'length 16777216' fragment none large out cert --omit
fill '' 16777217 a >large
ends 'a fragment of 16,777,217 bytes' 3 'page refused: TooLong at 16777216' fragment none large out cert --omit
fill '' 67108843 a >large
told=$flags
ends 'OUT of a fragment of 67,108,843 bytes' 1 'no 3 trees differ at event 5' checkfragment none part large part_cert --omit --unquote
fill '' 67108844 a >large
ends 'OUT of a fragment of 67,108,844 bytes' 1 'no 2 output refused: TooLong at 67108843' checkfragment none part large part_cert --omit --unquote
printf '[' >large
fill '' 67108862 ' ' >>large
printf ']' >>large
ends 'JSON of 67,108,864 bytes' 8 'json refused: NotSettled event 0 point 1' minifyjson none large out cert
printf ' ' >>large
ends 'JSON of 67,108,865 bytes' 8 'json refused: TooLong' minifyjson none large out cert
{ fill '' 127 '[' && fill '' 127 ']'; } >large
ends 'JSON that nests 127 deep' 8 'json refused: BadEvent event 0' minifyjson none large out cert
{ fill '' 128 '[' && fill '' 128 ']'; } >large
ends 'JSON that nests 128 deep' 8 'json refused: NotJson' minifyjson none large out cert
for time in once twice; do
    ends "the greatest page that is made, $time" 0 'page 631773 output 704307 layers 325137 yes' measure none 7 20000
done
exit "$failed"
