#!/usr/bin/env python3
"""fragments.py SECOND [PROGRAM [COUNT [SEED]]]: fragments, right and wrong, told to two programs.

Makes COUNT random fragments (1,000): the content of body in loose markup, about half of it settled, the rest with tags that close the
body or with faults. Asks `fragment` of both programs about each, with random flags and one of three tables: exit status, line, OUT and
CERT have to be the same. Of each fragment that is written, `checkfragment` has to say yes by both; then it is asked about OUT that was
changed, about certificates that were, and with other flags, and status and line have to be the same again. SECOND is the folder of the
second program, a Python package `hminify_oracle` that was written from the same rules apart from hminify and is kept outside the
repository. PROGRAM is the program that was built (`crates/hminify/out/hminify`), SEED what the random numbers are made from (1). Prints how
often each line came, without its numbers, and each fragment that differs; ends with 1 where one does. Needs the standard library of
Python 3.9 or later.
"""
import collections
import functools
import os
import random
import re
import subprocess
import sys
import tempfile

from forged import changed
from walks import BUILT, FLAGS, HERE, RAW, TABLE, VOID, Second, content, got, line_of, put

FRONT = b"<!doctype html><body>"
with open(os.path.join(HERE, "../tables/entities.json"), "rb") as entities:
    TABLES = {"none": None, "table": TABLE, "entities.json": entities.read()}
# With the third one the second program takes long, so it comes less often.
SHARES = [0.4, 0.4, 0.2]
OPTIONAL = ["p", "li", "dt", "dd", "td", "th", "tr", "tbody", "thead", "tfoot", "option", "optgroup", "colgroup", "caption"]
BEHIND_BODY = [b"", b"", b" ", b"\n", b"<!--c-->", b"x", b"</html>", b"<p>", b"</body>"]
PIECES = [
    b"</body>", b"</html>", b"</BODY >", b"<body>", b"<body a=b>", b"<html a=b>", b"<head>", b"</head>", b"<title>x</title>",
    b"<!doctype html>", b"</p>", b"<p>", b"</br>", b"<br/>", b"</div>", b"<div>", b"<li>x", b"<tr>", b"<td>y", b"<tbody>", b"<option>z",
    b"<table>x</table>", b"<b>", b"</b>", b"<a><a>", b"<h1><h2>", b"<form>", b"\0", b"\xff", b"\xe2\x82", b"\xef\xbb\xbf", b"<!--", b"-->",
    b"<!-->", b"<!--c-->", b"<", b"</", b"<!x>", b"<?x>", b"</>", b"<svg>", b"</svg>", b"<![CDATA[x]]>", b"\r\n", b"\r", b"&", b"&#0;",
    b"&#13;", b"&#x110000;", b"&copy", b"&lt", b"<template>", b"<textarea>", b"<style>", b"<pre>\n\nx</pre>", b"<noscript>x</noscript>",
    b"<frameset>", b"<link>", b"<meta>", b"<search>x</search>", b" ", b"\n", b"'", b'"', b"=",
]


def cased(dice, name):
    return name.upper() if dice.random() < 0.1 else name


def loose(dice, text, quote=""):
    """A text or a value in loose markup; most of what has a meaning stands as a reference."""
    found = ""
    for c in text:
        if c in "<&\"'" and (c in "<&" or c == quote) and dice.random() < 0.95 or dice.random() < 0.03:
            found += dice.choice(["&#%d;", "&#x%X;", "&#%d;", "&#0%d;"]) % ord(c)
        else:
            found += c
    return found


def attribute(dice, name, value):
    kind = dice.random()
    if value == "" and kind < 0.5:
        return name
    if value and kind < 0.3 and not re.search("[ \t\r\n\f\"'=<>`&]", value):
        return name + "=" + value
    quote = '"' if kind < 0.8 else "'"
    return name + "=" + quote + loose(dice, value, quote) + quote


def markup(dice, walk):
    """A walk in loose markup; some end tags that may mostly be left out are."""
    found, path = "", []
    for event in walk:
        if event[0] == "start":
            attrs = "".join(dice.choice([" ", " ", "\n", "  "]) + attribute(dice, *it) for it in event[2])
            found += "<" + cased(dice, event[1]) + attrs + dice.choice(["", "", "", " "]) + ">"
            path.append(event[1])
        elif event[0] == "end":
            name = path.pop()
            if name not in VOID and not (name in OPTIONAL and dice.random() < 0.3):
                found += "</" + cased(dice, name) + dice.choice(["", "", "", " "]) + ">"
        elif event[0] == "comment":
            found += "<!--" + event[1] + "-->"
        else:
            found += event[1] if path and path[-1] in RAW else loose(dice, event[1])
    return found.encode("utf-8")


def put_in(dice, data, piece, at_end=0.0):
    at = len(data) if dice.random() < at_end else dice.randrange(len(data) + 1)
    return data[:at] + piece + data[at:]


def fragment(dice):
    data = markup(dice, content(dice, "body", dice.choice([1, 2, 2, 3])))
    if dice.random() < 0.15:
        data = dice.choice([b" ", b"\n", b"\r\n", b"\xef\xbb\xbf", b"<!--c-->", b"\t <!-- -->"]) + data
    kind = dice.random()
    if kind < 0.2:
        data = put_in(dice, data, dice.choice([b"</body>", b"</html>", b"</body\n>", b"</Body a=b>"]), 0.6) + dice.choice(BEHIND_BODY)
    elif kind < 0.55:
        for _ in range(dice.choice([1, 1, 2, 3])):
            data = put_in(dice, data, dice.choice(PIECES), 0.2)
    elif kind < 0.62:
        data = data[:dice.randrange(len(data) + 1)]
    return data


def changed_out(dice, page, out, other):
    """OUT with one change: mostly of a byte or two, or with something put in."""
    kind = dice.randrange(10)
    if kind == 0:
        return page
    if kind == 1:
        return other
    if kind == 2:
        return FRONT + out
    if kind == 3:
        return put_in(dice, out, dice.choice([b"</body>", b"</html>"]), 0.7) + dice.choice(BEHIND_BODY)
    if kind == 4:
        return out.swapcase()
    if kind == 5:
        return re.sub(rb"<(/?)(\w+)", lambda m: b"<" + m[1] + (m[2].upper() if dice.random() < 0.5 else m[2]), out)
    if kind < 8 or not out:
        return put_in(dice, out, dice.choice(PIECES), 0.3)
    at = dice.randrange(len(out))
    return out[:at] + dice.choice([b"", b"", bytes([dice.randrange(256)]), b"<", b"&", b" ", out[at:at + 1] * 2]) + out[at + 1:]


def changed_cert(dice, cert, other, of_page):
    """CERT with a change, or with that of the page that the fragment makes after its front, or of other rules."""
    kind = dice.random()
    if kind < 0.1:
        return cert.replace(b" frame\n", b"\n", 1)
    if kind < 0.15:
        return cert.replace(b"rules omit", b"rules omit" + dice.choice([b" unquote", b" tight", b" frame"]), 1)
    if kind < 0.25 and of_page is not None:
        return of_page
    if kind < 0.35:
        lines = cert.split(b"\n")
        price = lines[2] if len(lines) > 2 else b""
        if price.isdigit():
            lines[2] = str(max(0, int(price) + dice.choice([-len(FRONT), len(FRONT), -1, 1]))).encode()
        return b"\n".join(lines)
    return changed(dice, cert, other)


class Reader(Second):
    """The second program, which reads each table once."""

    def __init__(self, folder):
        super().__init__(folder)
        self.run.Table.read = functools.cache(self.run.Table.read)


class Both:
    """The second program and the one that was built, over the same files. The tables stand in the folder, each with its name."""

    def __init__(self, second, program, folder, tables):
        self.second, self.program, self.folder, self.tables = second, program, folder, tables
        self.differ, self.asked, self.lines = 0, 0, collections.Counter()

    def told(self, words, files):
        """How a run of the program ends, with these files and the tables in its folder."""
        for name in ("page", "out", "cert"):
            path = os.path.join(self.folder, name)
            if name in files:
                put(self.folder, name, files[name])
            elif os.path.exists(path):
                os.remove(path)
        run = subprocess.run([self.program] + words, cwd=self.folder, stdin=subprocess.DEVNULL, capture_output=True, check=False)
        return run.returncode, line_of(run.stdout), got(self.folder, "out"), got(self.folder, "cert")

    def ends(self, place, words, files):
        """How a run ends by the program. Where the second program ends otherwise, that is told."""
        given = self.told(words, files)
        table = self.tables[words[1]]
        wanted = self.second.told(words, files if table is None else dict(files, **{words[1]: table}))
        line = given[1].decode("utf-8", "replace").strip()
        self.lines[words[0] + ": " + re.sub(r"(?<!^no )\b\d+", "N", line)] += 1
        self.asked += 1
        if given != wanted:
            self.differ += 1
            print("%s: %s gives %r, wanted %r, on %r" % (place, " ".join(words), given, wanted, files.get("page")))
        return given


def put_tables(folder, tables):
    """Writes the tables that are files."""
    for name, data in tables.items():
        if data is not None:
            put(folder, name, data)


def flags_for(dice):
    """Random flags, nearly always with --omit."""
    found = [flag for flag in FLAGS[1:] if dice.random() < 0.3]
    if "--space" in found and dice.random() < 0.3:
        found.append("--conservative")
    if dice.random() < 0.97:
        found.insert(dice.randrange(len(found) + 1), "--omit")
    return found


def try_one(dice, both, place, other):
    """One fragment by both programs, and the checks of what it leaves: OUT and CERT, where it is written, else those of before."""
    page, flags = fragment(dice), flags_for(dice)
    table = dice.choices(list(TABLES), SHARES)[0]
    names = [table, "page", "out", "cert"]
    status, said, out, cert = both.ends(place, ["fragment"] + names + flags, {"page": page})
    if status:
        return other
    left = {"page": page, "out": out, "cert": cert}
    if both.ends(place, ["checkfragment"] + names + flags, left)[:2] != (0, said.replace(b"length", b"yes")):
        both.differ += 1
        print("%s: what `fragment` left isn't shown" % place)
    of_page = None
    if dice.random() < 0.2:
        of_page = both.ends(place, ["minify"] + names + flags, {"page": FRONT + page})[3]
    for _ in range(2):
        both.ends(place, ["checkfragment"] + names + flags, dict(left, out=changed_out(dice, page, out, other[0])))
        both.ends(place, ["checkfragment"] + names + flags, dict(left, cert=changed_cert(dice, cert, other[1], of_page)))
    if dice.random() < 0.2:
        both.ends(place, ["checkfragment"] + names + flags_for(dice), left)
    if dice.random() < 0.1:
        both.ends(place, ["check"] + names + flags, dict(left, page=FRONT + page, out=FRONT + out))
    return out, cert


def main():
    words = sys.argv[1:]
    if not words:
        raise SystemExit(__doc__)
    second = Reader(words[0])
    program = os.path.abspath(words[1] if len(words) > 1 else BUILT)
    count, seed = [int(word) for word in words[2:4]] + [1000, 1][len(words[2:4]):]
    dice = random.Random(seed)
    left = (b"<p>a", b"html-cert 3\nrules omit frame\n25\n0\n")
    with tempfile.TemporaryDirectory(prefix="hminify-fragments-") as folder:
        put_tables(folder, TABLES)
        both = Both(second, program, folder, TABLES)
        for turn in range(count):
            left = try_one(dice, both, "seed %d turn %d" % (seed, turn), left)
    for line, times in sorted(both.lines.items()):
        print("%8d %s" % (times, line))
    print("%d fragments, %d runs by each program, %d differ" % (count, both.asked, both.differ))
    return 1 if both.differ else 0


if __name__ == "__main__":
    sys.exit(main())
