#!/usr/bin/env python3
"""json_pages.py [--program PROGRAM] [--count N] [FOLDER ..]: pages by way of JSON.

Takes the N largest pages below the folders that `minify` takes (700), and asks of each whether `json` and then `minifyjson` end as `minify`
does, with the same line, OUT and CERT, byte for byte: without rewrites, with full certificates; with all rewrites done by `json`; and
with all rewrites done by `minifyjson`, the latter two with sparse certificates. The table is that of the HTML Standard. Pages are
`*.html`, and no page is taken twice. PROGRAM is `crates/hminify/out/hminify` where none is named. Without a FOLDER those of Debian's documents are
taken. Prints how many pages there were and their bytes, and each page that differs; ends with 1 where one does, or where there are too
few. Needs the standard library of Python 3.9 or later.
"""
import argparse
import hashlib
import os
import subprocess
import sys
import tempfile

HERE = os.path.dirname(os.path.abspath(__file__))
BUILT = os.path.join(HERE, "../crates/hminify/out/hminify")
TABLE = os.path.abspath(os.path.join(HERE, "../tables/entities.json"))
FOLDERS = ["/usr/share/doc", "/usr/share/developers-reference"]
PACKAGES = "python-django-doc anarchism developers-reference apache2-doc erlang-doc"
SPELLING = ["--omit", "--unquote", "--tight"]
REWRITES = ["--doctype", "--comments", "--booleans", "--empty", "--redundant", "--space"]


def pages(folders):
    """The pages below the folders, the largest first."""
    found = set()
    for folder in folders:
        for place, _, names in os.walk(folder):
            found.update(os.path.realpath(os.path.join(place, name)) for name in names if name.endswith(".html"))
    return sorted((path for path in found if os.path.isfile(path)), key=lambda path: (-os.path.getsize(path), path))


def told(program, folder, words):
    """The status and what is printed."""
    ended = subprocess.run([program, *words], cwd=folder, stdin=subprocess.DEVNULL, stdout=subprocess.PIPE, check=False)
    return ended.returncode, ended.stdout


def texts(folder):
    """OUT and CERT, which are taken away."""
    found = []
    for name in ("out", "cert"):
        path = os.path.join(folder, name)
        if not os.path.exists(path):
            found.append(None)
            continue
        with open(path, "rb") as file:
            found.append(file.read())
        os.remove(path)
    return found


def left(program, folder, words):
    """All that a run ends with."""
    return *told(program, folder, words), *texts(folder)


def put_tree(program, folder, page, flags):
    """Has `json` print the tree of a page to a file: whether it is done."""
    with open(os.path.join(folder, "tree"), "wb") as file:
        return subprocess.run([program, "json", TABLE, page, *flags], stdout=file, check=False).returncode == 0


def faults(program, folder, page, plain):
    """Which ways by JSON don't give what `minify` gives; `plain` is that without rewrites."""
    rewritten = left(program, folder, ["minify", TABLE, page, "out", "cert", "--sparse", *SPELLING, *REWRITES])
    for way, before, flags, wanted in [
            ("without rewrites", [], SPELLING, plain),
            ("rewritten by minifyjson", [], ["--sparse", *SPELLING, *REWRITES], rewritten),
            ("rewritten by json", REWRITES, ["--sparse", *SPELLING], rewritten)]:
        if not put_tree(program, folder, page, before):
            yield f"{way}: json fails"
        elif (given := left(program, folder, ["minifyjson", TABLE, "tree", "out", "cert", *flags])) != wanted:
            yield f"{way}: ends with {given[:2]}, wanted {wanted[:2]}"


def main():
    parser = argparse.ArgumentParser()
    parser.add_argument("--program", default=BUILT)
    parser.add_argument("--count", type=int, default=700)
    parser.add_argument("folders", nargs="*", default=FOLDERS)
    given = parser.parse_args()
    program = os.path.abspath(given.program)
    if not os.access(program, os.X_OK):
        raise SystemExit("no program %s: ./hminify --build makes it" % program)
    count = refused = size = json_size = differ = 0
    seen = set()
    with tempfile.TemporaryDirectory(prefix="hminify-pages-") as folder:
        for page in pages(given.folders):
            if count == given.count:
                break
            with open(page, "rb") as file:
                digest = hashlib.sha256(file.read()).digest()
            if digest in seen:
                continue
            seen.add(digest)
            plain = left(program, folder, ["minify", TABLE, page, "out", "cert", *SPELLING])
            if plain[0] == 3:
                refused += 1
                continue
            if plain[0] != 0:
                raise SystemExit("%s: minify ends with %d" % (page, plain[0]))
            count += 1
            smallest = os.path.getsize(page)
            size += smallest
            found = list(faults(program, folder, page, plain))
            json_size += os.path.getsize(os.path.join(folder, "tree"))
            differ += bool(found)
            for fault in found:
                print(f"{page}: {fault}", flush=True)
    print("%d pages of %d bytes, the smallest of %d; rewritten they have %d bytes of JSON; %d larger ones are refused; %d differ" % (
        count, size, smallest if count else 0, json_size, refused, differ))
    if count < given.count:
        print("too few pages: apt-get install %s" % PACKAGES)
    return 1 if differ or count < given.count else 0


if __name__ == "__main__":
    sys.exit(main())
