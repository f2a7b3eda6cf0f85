#!/usr/bin/env python3
"""forms.py SECOND [PROGRAM [COUNT [SEED]]]: values whose forms are left out of a sparse certificate, with tables made to break that.

Makes COUNT random pages (1,000) of tags whose values hold quotes, whitespace, `=`, `<`, `>` and references, and asks `minify --sparse` of both
programs about each, with random flags and one of five tables: none, short names, names without `;`, names for two code points, and the
standard's. Exit status, line, OUT and CERT have to be the same; OUT has to be that of the run without `--sparse`, and `check` has to say yes.
SECOND is the folder of the second program, a Python package `hminify_oracle` that was written from the same rules apart from hminify and is
kept outside the repository. PROGRAM is the program that was built (`crates/hminify/out/hminify`), SEED what the random numbers are made from (1).
Prints how many layers' lines the certificates have, and each page that differs; ends with 1 where one does. Needs the standard library of
Python 3.9 or later.
"""
import json
import os
import random
import sys
import tempfile

import fragments
from fragments import Both, Reader, attribute, put_tables
from walks import BUILT


def table_of(names):
    """A table of these names."""
    return json.dumps({"&" + name: {"codepoints": [ord(c) for c in points]} for name, points in names.items()}).encode()


TABLES = {
    "none": None,
    "short": table_of({"q;": '"', "a;": "'", "s;": " ", "e;": "=", "n;": "\n", "l;": "<", "g": ">", "tt;": "\t"}),
    "open": table_of({"quo": '"', "qu;": '"', "apo": "'", "spa": " ", "sp": " ", "equ": "=", "lt": "<", "gt": ">", "gra": "`", "x": "x", "xe": "é"}),
    "pairs": table_of({"qs;": '" ', "sx;": " x", "xs;": "x ", "xq;": 'x"', "ee": "==", "qa;": "\"'", "aq;": "'\"", "ss;": "  ", "quot;": '"', "se;": "s=", "ab": "ab"}),
    "entities.json": fragments.TABLES["entities.json"],
}
SHARES = [0.25, 0.22, 0.22, 0.22, 0.09]
CHARACTERS = ['"', '"', "'", "'", " ", " ", "=", "<", ">", "`", "\t", "\n", "\f", "x", "s", "a", "b", ";", "&", "&l", "&q", "&#3", "é", "/", "1"]
NAMES = ["id", "class", "href", "title", "alt", "d", "x"]
TAGS = ["p", "a", "br", "span", "path"]


def value(dice):
    return "".join(dice.choice(CHARACTERS) for _ in range(dice.choice([1, 1, 2, 2, 3, 4, 6, 9])))


def tag(dice):
    name = dice.choice(TAGS)
    attrs = [attribute(dice, it, value(dice)) for it in dice.sample(NAMES, dice.choice([1, 1, 2, 3]))]
    found = "<" + name + "".join(" " + it for it in attrs)
    if name == "path":
        return "<svg>" + found + dice.choice([" />", "></path>"]) + "</svg>"
    return found + ">" + ("" if name == "br" else "t</%s>" % name)


def flags_for(dice):
    shares = {"--omit": 0.8, "--unquote": 0.85, "--tight": 0.5, "--ascii": 0.2, "--order": 0.15}
    return [flag for flag, share in shares.items() if dice.random() < share]


def try_one(dice, both, place):
    """One page by both programs, and how many lines CERT has."""
    page = ("<!DOCTYPE html>" + "".join(tag(dice) for _ in range(dice.choice([1, 1, 2, 3])))).encode()
    table, flags = dice.choices(list(TABLES), SHARES)[0], flags_for(dice)
    names = [table, "page", "out", "cert"]
    status, said, out, cert = both.ends(place, ["minify"] + names + flags + ["--sparse"], {"page": page})
    if status:
        return 0
    left = {"page": page, "out": out, "cert": cert}
    checked = both.told(["check"] + names + flags + ["--sparse"], left)[:2]
    if checked != (0, said.replace(b"length", b"yes")) or both.told(["minify"] + names + flags, {"page": page})[2] != out:
        both.differ += 1
        print("%s: %s: what was left isn't shown, or is another text without --sparse, on %r" % (place, " ".join(flags), page))
    return cert.count(b"\n")


def main():
    words = sys.argv[1:]
    if not words:
        raise SystemExit(__doc__)
    program = os.path.abspath(words[1] if len(words) > 1 else BUILT)
    count, seed = [int(word) for word in words[2:4]] + [1000, 1][len(words[2:4]):]
    dice = random.Random(seed)
    with tempfile.TemporaryDirectory(prefix="hminify-forms-") as folder:
        put_tables(folder, TABLES)
        both = Both(Reader(words[0]), program, folder, TABLES)
        lines = sum(try_one(dice, both, "seed %d turn %d" % (seed, turn)) for turn in range(count))
    for line, times in sorted(both.lines.items()):
        print("%8d %s" % (times, line))
    print("%d pages, %d runs by each program, %d differ; the certificates have %d lines" % (count, both.asked, both.differ, lines))
    return 1 if both.differ else 0


if __name__ == "__main__":
    sys.exit(main())
