#!/bin/sh
# Takes each recipe out of docs/USE.md, runs it over a few pages in a folder of its own with the built program, and ends with
# 1 where one does otherwise than it says. What isn't installed is skipped, with a line.
# shellcheck disable=SC2317 # what `wants` is given is called
set -u
here=$(CDPATH='' cd -- "$(dirname -- "$0")/.." && pwd -P)
program=$here/crates/hminify/out/hminify
if [ ! -x "$program" ]; then
    echo 'crates/hminify/out/hminify is not there, so no recipe was run'
    [ "${CI:-}" != true ]
    exit
fi
room=$(mktemp -d) || exit 1
trap 'rm -rf "$room"' EXIT
failed=0
mkdir "$room/bin" "$room/work"
ln -s "$program" "$room/bin/hminify"
PATH=$room/bin:$PATH
export PATH
cd "$room/work" || exit 1

# The last call's status is $status, its output stands in the files out and err of the room.
call() {
    "$@" >"$room/out" 2>"$room/err"
    status=$?
}

wants() {
    what=$1
    shift
    if "$@"; then
        echo "ok      $what"
    else
        echo "failed  $what"
        sed 's/^/    /' "$room/out" "$room/err"
        failed=1
    fi
}

is() {
    [ "$1" = "$2" ]
}

says() {
    grep -qF -- "$1" "$room/err"
}

has() {
    for it; do command -v "$it" >/dev/null || return 1; done
}

skip() {
    echo "skipped $1"
}

# Writes each block of the page that has a name into the file of that name, and makes the scripts executable as the page does.
recipes() {
    awk '
        /^```/ && name != "" { close(name); name = ""; next }
        /^```[a-z]+ / { name = $2; next }
        name != "" { print >name }
    ' "$here/docs/USE.md"
    sed -n 's/^    \(chmod +x .*\)/\1/p' "$here/docs/USE.md" >"$room/executable"
    # shellcheck disable=SC1091 # the line is that of the page
    . "$room/executable"
}

refused='<!DOCTYPE HTML PUBLIC "-//W3C//DTD HTML 4.01//EN"><p>an old page</p>'

# shellcheck disable=SC2016 # a name with what shells and ninja read in their own way
odd='a page: $1.html'

# A project: the recipes, two pages that can be written and one that is refused.
project() {
    rm -rf "$room/work"
    mkdir -p "$room/work/site/sub" "$room/work/.github/workflows"
    cd "$room/work" || exit 1
    recipes
    printf '<!DOCTYPE html>\n<title>One</title>\n<!-- a -->\n<p class="a">Fish &amp; Chips</p>\n<p>Tea</p>\n' >site/index.html
    printf '<!DOCTYPE html><ul> <li>a</li> <li>b</li> </ul>' >site/sub/two.html
    printf '%s' "$refused" >site/old.html
}

built() {
    [ "$(cat public/index.html)" = '<!doctype html><title>One</title><p class=a>Fish & Chips<p>Tea' ] &&
        [ "$(cat public/sub/two.html)" = '<!doctype html><ul><li>a<li>b</ul>' ] &&
        cmp -s site/old.html public/old.html &&
        [ -s public/index.html.cert ] && [ ! -e public/old.html.cert ] && [ -z "$(find public -name '*.new')" ]
}

# Tries a build by these words: once, again, with a page that was changed, and with a table that is refused.
try_build() {
    tool=$1 nothing=$2 stops=$3
    shift 3
    project
    if [ "$tool" = ninja ]; then
        cp site/index.html "site/$odd"
        ./configure-pages
    fi
    call "$@"
    wants "$tool: pages are built" is "$status" 0
    wants "$tool: what is shipped" built
    wants "$tool: a refused page is named" grep -q 'site/old.html: page refused: BadDoctype at 0; shipped as it is' "$room/err" "$room/out"
    [ "$tool" = make ] || wants "$tool: any name but one with line feeds" cmp -s public/index.html "public/$odd"
    call "$@"
    wants "$tool: then nothing is left to do" grep -q "$nothing" "$room/out"
    echo '{' >table.json
    find site -name '*.html' -exec touch -d '+1 minute' {} +
    call env HMINIFY_TABLE=table.json "$@"
    wants "$tool: a table that is refused stops it" is "$status" "$stops"
    wants "$tool: and that is said" grep -q 'table refused: NotJson (status 4)' "$room/err" "$room/out"
}

try_checks() {
    project
    ./minify-page site/index.html public/index.html
    ./minify-page site/sub/two.html public/sub/two.html
    ./minify-page site/old.html public/old.html 2>"$room/err"
    call ./check-all
    wants 'check: certificates hold' is "$status" 0
    printf '<!doctype html><ul><li>a</li><li>b</ul>' >public/sub/two.html
    call ./check-all
    wants 'check: a longer text is found' is "$status" 123
    wants 'check: and named' says 'public/sub/two.html: no 7 output 39 bytes, first price 34 (status 1)'
    printf 'x' >>site/index.html
    call ./check-page public/index.html.cert
    wants 'check: a page that was changed is found' is "$status" 1
    rm site/index.html
    call ./check-page public/index.html.cert
    wants 'check: a page that is gone is found' is "$status" 5
}

try_in_place() {
    project
    mv site public
    cp public/index.html 'public/a page
of mine.html'
    call ./in-place-all
    wants 'in place: exit status' is "$status" 0
    wants 'in place: a page' is "$(cat public/sub/two.html)" '<!doctype html><ul><li>a<li>b</ul>'
    wants 'in place: any name' cmp -s public/index.html 'public/a page
of mine.html'
    wants 'in place: a refused page is kept' is "$(cat public/old.html)" "$refused"
    wants 'in place: and named' says 'public/old.html: page refused: BadDoctype at 0; kept'
    wants 'in place: nothing else is left' is "$(find public -type f | wc -l)" 5
    cp -r public before
    call ./in-place-all
    wants 'in place: pages that are done come out the same' diff -r before public
    call env HMINIFY_TABLE=absent.json ./in-place-all
    wants 'in place: without a table it fails' is "$status" 123
    wants 'in place: and keeps the pages' diff -r before public
}

try_tree() {
    project
    hminify json none site/sub/two.html >two.json
    call ./minify-tree two.json public/two.html
    wants 'a tree: is written' is "$status" 0
    wants 'a tree: what is shipped' is "$(cat public/two.html)" '<!doctype html><ul><li>a<li>b</ul>'
    call ./check-tree public/two.html.cert
    wants 'a tree: its certificate holds' is "$status" 0
    printf '<!doctype html><ul><li>a</li><li>b</ul>' >public/two.html
    call ./check-tree public/two.html.cert
    wants 'a tree: a longer text is found' is "$status" 1
    wants 'a tree: and named' says 'public/two.html: no 7 output 39 bytes, first price 34 (status 1)'
    printf '[["doctype","plain"],["end"]]' >two.json
    call ./minify-tree two.json public/two.html
    wants 'a tree: one that is none stops it' is "$status" 1
    wants 'a tree: and that is said' says 'two.json: json refused: BadEvent event 1 (status 8)'
    wants 'a tree: no certificate is left' is "$(find public -type f)" public/two.html
}

try_part() {
    project
    mkdir parts
    printf '<p class="a">Fish &amp; Chips</p>\n<p>Tea</p>\n' >parts/list.html
    call ./minify-part parts/list.html shipped/list.html
    wants 'a part: is written' is "$status" 0
    wants 'a part: what is shipped' is "$(cat shipped/list.html)" '<p class=a>Fish & Chips<p>Tea'
    call ./check-part parts/list.html shipped/list.html
    wants 'a part: its certificate holds' is "$status" 0
    printf '<p class=a>Fish & Chips</p><p>Tea' >shipped/list.html
    call ./check-part parts/list.html shipped/list.html
    wants 'a part: a longer text is found' is "$status" 1
    wants 'a part: and named' says 'shipped/list.html: no 7 output 54 bytes, first price 50 (status 1)'
    printf '<p>Tea</p></body>' >parts/list.html
    call ./minify-part parts/list.html shipped/list.html
    wants 'a part: one that is refused stops nothing' is "$status" 0
    wants 'a part: and is shipped as it is' cmp -s parts/list.html shipped/list.html
    wants 'a part: and is named' says 'parts/list.html: page refused: FrameEnd at 10; shipped as it is'
    wants 'a part: no certificate is left' is "$(find shipped -type f)" shipped/list.html
    echo '--unquote' >hminify.flags
    call ./minify-part parts/list.html shipped/list.html
    wants 'a part: without --omit it stops' is "$status" 1
}

try_compressed() {
    project
    ./minify-page site/index.html public/index.html
    call ./precompress
    wants 'precompressed: exit status' is "$status" 0
    wants 'precompressed: gzip' is "$(gzip -dc public/index.html.gz)" "$(cat public/index.html)"
    if has brotli; then
        wants 'precompressed: brotli' is "$(brotli -dc public/index.html.br)" "$(cat public/index.html)"
    else
        skip 'precompressed: no brotli'
    fi
}

try_action() {
    project
    if python3 -c 'import yaml' 2>"$room/err"; then
        call python3 -c 'import yaml; print(*[it.get("run", "") for it in yaml.safe_load(open(".github/workflows/pages.yml"))["jobs"]["build"]["steps"]], sep="\n")'
        wants 'action: its steps call the recipes' is "$(grep -c -x -e 'make -j2' -e 'sh check-all' -e 'sh precompress' "$room/out")" 3
    else
        skip 'action: no reader of YAML'
    fi
}

if has make; then try_build make 'Nothing to be done' 2 make -j2; else skip 'make: not installed'; fi
if has ninja; then try_build ninja 'no work to do' 1 ninja; else skip 'ninja: not installed'; fi
try_checks
try_in_place
try_tree
try_part
try_compressed
try_action
project
if has shellcheck; then
    # shellcheck disable=SC2046 # the names are words
    call shellcheck $(sed 's/^chmod +x//' "$room/executable")
    wants 'the recipes for shellcheck' is "$status" 0
else
    skip 'shellcheck: not installed'
fi
exit "$failed"
