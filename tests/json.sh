#!/bin/sh
# Takes the two programs that hand over a tree as JSON out of docs/FORMATS.md, runs them with the built program, and ends with 1
# where what they leave isn't as it should be, or where a case of a page that is minified comes out otherwise by way of JSON. What
# isn't installed is skipped, with a line.
# shellcheck disable=SC2317 # what `wants` is given is called
set -u
here=$(CDPATH='' cd -- "$(dirname -- "$0")/.." && pwd -P)
program=$here/crates/hminify/out/hminify
if [ ! -x "$program" ]; then
    echo 'crates/hminify/out/hminify is not there, so no tree was handed over'
    [ "${CI:-}" != true ]
    exit
fi
room=$(mktemp -d) || exit 1
trap 'rm -rf "$room"' EXIT
failed=0
mkdir "$room/bin" "$room/work"
ln -s "$program" "$room/bin/hminify"
PATH=$room/bin:$PATH
# Debian's node finds its packages there.
NODE_PATH=${NODE_PATH:-/usr/share/nodejs}
export PATH NODE_PATH
cd "$room/work" || exit 1

# The last call's status is $status, its output stands in the files out and err of the room.
call() {
    "$@" >"$room/out" 2>"$room/err"
    status=$?
}

wants() {
    what=$1
    shift
    if "$@"; then
        echo "ok      $what"
    else
        echo "failed  $what"
        sed 's/^/    /' "$room/out" "$room/err"
        failed=1
    fi
}

is() {
    [ "$1" = "$2" ]
}

# What a program has left: its line, its text, and that the certificate shows that no text of the same tree is shorter. OUT
# itself is the page of the check, in a copy.
try_left() {
    name=$1 text=$2
    wants "$name: exit status" is "$status" 0
    wants "$name: line" is "$(cat "$room/out")" "length ${#text}"
    wants "$name: OUT" is "$(cat out.html)" "$text"
    cp out.html copy.html
    call hminify check html copy.html out.html out.cert --omit --unquote --tight
    wants "$name: its certificate holds" is "$(cat "$room/out")" "yes ${#text}"
}

try_python() {
    call python3 teas.py out.html out.cert
    try_left teas.py '<!doctype html><html lang=en><title>Teas</title><ul><li id=tea0>Assam<li id=tea1>Earl Grey & milk<li id=tea2>&LTnone></ul>'
    call hminify json html out.html
    wants 'teas.py: OUT has the tree that was handed over' python3 -c 'import json, sys
sys.exit(json.load(open("teas.json")) != json.load(open(sys.argv[1])))' "$room/out"
}

try_parse5() {
    printf '<!DOCTYPE html><title>Two</title><ul><li><b>one</ul></i><p>two<svg viewBox="0 0 1 1"><linearGradient id=a /></svg>' >page.html
    call hminify minify html page.html out.html out.cert --omit --unquote --tight
    wants 'mended.mjs: the page is refused by itself' is "$(cat "$room/out")" 'page refused: NotCurrent at 47'
    call node mended.mjs page.html out.html out.cert
    try_left mended.mjs '<!doctype html><title>Two</title><ul><li><b>one</b></ul><p><b>two<svg viewbox="0 0 1 1"><lineargradient id=a /></svg></b>'
    printf '<!DOCTYPE HTML PUBLIC "-//W3C//DTD HTML 4.01//EN"><p>an old page</p>' >page.html
    call node mended.mjs page.html out.html out.cert
    wants 'mended.mjs: an old page is refused all the same' is "$status$(cat "$room/out")" '8json refused: BadEvent event 0'
}

awk '
    /^```/ && name != "" { close(name); name = ""; next }
    /^```[a-z]+ / { name = $2; next }
    name != "" { print >name }
' "$here/docs/FORMATS.md"
# The cases on real files, and each page that is minified by way of JSON.
try_cases() {
    call python3 "$here/compare/cases.py" "$program"
    wants 'the cases, and by way of JSON' is "$status" 0
    tail -n 1 "$room/out"
}

if command -v python3 >/dev/null; then
    try_python
    try_cases
else
    echo 'skipped teas.py and the cases: no Python'
fi
if ! command -v node >/dev/null; then
    echo 'skipped mended.mjs: no node'
elif ! node -e 'require("parse5")' 2>"$room/err"; then
    echo 'skipped mended.mjs: no parse5'
else
    try_parse5
fi
exit "$failed"
