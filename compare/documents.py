#!/usr/bin/env python3
"""documents.py SECOND [PROGRAM [COUNT [SEED]]]: Debian's documents by two programs.

Takes COUNT documents (150) at random of those below /usr/share/doc that have at most 30,000 bytes and that `minify` writes, and asks `minify
--omit --sparse` of both programs about each, and about those that are refused on the way, with random flags and one of three tables: exit status,
line, OUT and CERT have to be the same. SECOND is the folder of the second program, a Python package `hminify_oracle` that was written from the same
rules apart from hminify and is kept outside the repository. PROGRAM is the program that was built (`crates/hminify/out/hminify`), SEED the begin of
the random numbers (1). Ends with 1 where one differs. Needs the standard library of Python 3.9 or later.
"""
import os
import random
import sys
import tempfile

from fragments import TABLES, Both, Reader, put_tables
from walks import BUILT

FOLDER = "/usr/share/doc"
LARGEST = 30_000
FLAGS = ["--unquote", "--tight", "--space", "--doctype", "--comments", "--empty"]


def documents():
    """The paths of the documents, each of which has something in it."""
    for at, _, names in os.walk(FOLDER):
        for name in names:
            path = os.path.join(at, name)
            if name.endswith((".html", ".htm")) and os.path.isfile(path) and 0 < os.path.getsize(path) <= LARGEST:
                yield path


def main():
    words = sys.argv[1:]
    if not words:
        raise SystemExit(__doc__)
    program = os.path.abspath(words[1] if len(words) > 1 else BUILT)
    count, seed = [int(word) for word in words[2:4]] + [150, 1][len(words[2:4]):]
    dice = random.Random(seed)
    paths = sorted(documents())
    dice.shuffle(paths)
    written = size = 0
    with tempfile.TemporaryDirectory(prefix="hminify-documents-") as folder:
        put_tables(folder, TABLES)
        both = Both(Reader(words[0]), program, folder, TABLES)
        for path in paths:
            if written == count:
                break
            with open(path, "rb") as file:
                page = file.read()
            table = dice.choices(list(TABLES), [0.5, 0.25, 0.25])[0]
            flags = [flag for flag in FLAGS if dice.random() < 0.7]
            if both.ends(path, ["minify", table, "page", "out", "cert", "--omit", "--sparse"] + flags, {"page": page})[0] == 0:
                written += 1
                size += len(page)
    print("%d documents written, of %d bytes, %d runs by each program, %d differ" % (written, size, both.asked, both.differ))
    return 1 if both.differ else 0


if __name__ == "__main__":
    sys.exit(main())
