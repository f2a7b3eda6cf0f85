#!/usr/bin/env python3
"""forged.py SECOND [PROGRAM [CHANGES [PAGES [SEED]]]]: certificates that are changed at random, told to two programs.

Makes small random pages, minifies each with certificates of all three formats, changes the certificates at random and asks `check`
of both programs about each: exit status and line have to be the same. SECOND is the folder of the second program, a Python
package `hminify_oracle` that was written from the same rules apart from hminify and is kept outside the repository. PROGRAM is the
program that was built (`crates/hminify/out/hminify`), CHANGES the number of changed certificates of each format (1,000), PAGES that
of the pages (200), SEED what the random numbers are made from (1). Prints how many were told apart by each cause, and each that
differs; ends with 1 where one does. Needs the standard library of Python 3.9 or later.
"""
import collections
import os
import random
import subprocess
import sys
import tempfile

HERE = os.path.dirname(os.path.abspath(__file__))
BUILT = os.path.join(HERE, "../crates/hminify/out/hminify")
DOCTYPE = b"<!doctype html>"
TABLE = b'{"&lt;":{"codepoints":[60]},"&lt":{"codepoints":[60]},"&amp;":{"codepoints":[38]},"&ab;":{"codepoints":[120,824]}}'
FLAGS = ["--omit", "--unquote", "--tight", "--ascii"]
PIECES = [b"a", b"b c", b"&#60;", b"&#38;lt", b"x&#824;", b"'", b"&#34;", b"\xc3\xa9", b"="]
TAGS = [b"p", b"b", b"div", b"i"]


def text(dice):
    return b"".join(dice.choice(PIECES) for _ in range(dice.randrange(3)))


def element(dice, depth):
    """An element that may stand anywhere in the body, with its text and perhaps others in it."""
    inner = text(dice)
    if dice.random() < 0.5:
        value = text(dice).replace(b'"', b"")
        inner += b'<b title="' + value + b'">' + text(dice) + b"</b>"
    if depth and dice.random() < 0.5:
        inner += b"<i>" + text(dice) + b"</i>"
    kind = dice.randrange(4)
    if kind == 0:
        return b"<ul><li>" + inner + b"</li><li>" + text(dice) + b"</li></ul>"
    if kind == 1:
        return b"<div>" + inner + b"".join(element(dice, depth - 1) for _ in range(depth)) + b"</div>"
    return b"<p>" + inner + b"</p>"


def page(dice):
    return DOCTYPE + b"".join(element(dice, 1) for _ in range(dice.randrange(1, 3)))


def changed(dice, cert, other):
    """A certificate with one change, sometimes two."""
    for _ in range(1 if dice.random() < 0.8 else 2):
        if b"\n" not in cert:
            break
        cert = CHANGES[dice.randrange(len(CHANGES))](dice, cert, other)
    return cert


def on_row(change):
    """A change of one line of prices."""
    def of(dice, cert, _other):
        lines = cert.split(b"\n")
        if len(lines) < 4:
            return cert
        at = dice.randrange(2, len(lines) - 1)
        row = lines[at].split(b" ")
        lines[at] = b" ".join(change(dice, row))
        return b"\n".join(lines)
    return of


def one(change):
    """A change of one price."""
    def of(dice, row):
        at = dice.randrange(len(row))
        return row[:at] + [change(dice, row[at])] + row[at + 1:]
    return on_row(of)


def by(low, high):
    return one(lambda dice, price: str(int(price) + dice.randint(low, high)).encode() if price.isdigit() else price)


def lines_of(change):
    """A change of the order or the number of the lines."""
    def of(dice, cert, other):
        lines = cert.split(b"\n")[:-1]
        return b"".join(line + b"\n" for line in change(dice, lines, other.split(b"\n")[:-1]))
    return of


def swapped(dice, lines, _other):
    a, b = dice.randrange(len(lines)), dice.randrange(len(lines))
    lines[a], lines[b] = lines[b], lines[a]
    return lines


def one_byte(dice, cert, _other):
    at = dice.randrange(len(cert))
    byte = bytes([dice.choice(b"0123456789- \n\r\tx\0\xff")])
    return dice.choice([cert[:at] + byte + cert[at + 1:], cert[:at] + byte + cert[at:], cert[:at] + cert[at + 1:]])


CHANGES = [
    by(1, 1), by(-1, -1), by(1, 1), by(-1, -1), by(-9, 9),
    on_row(lambda dice, row: row + [row[-1]]),
    on_row(lambda dice, row: row[:-1]),
    on_row(lambda dice, row: row[::-1]),
    one(lambda dice, price: b"0" + price),
    one(lambda dice, price: dice.choice([b"9223372036854775808", b"9223372036854775807", b"18446744073709551616"])),
    one(lambda dice, price: b"-"),
    one(lambda dice, price: b"0" if price == b"-" else price),
    one(lambda dice, price: b"7" if price == b"-" else b"-"),
    lines_of(lambda dice, lines, other: lines + [dice.choice(lines)]),
    lines_of(lambda dice, lines, other: lines[:dice.randrange(len(lines))]),
    lines_of(lambda dice, lines, other: lines[:2] + other[2:]),
    lines_of(lambda dice, lines, other: other[:2] + lines[2:]),
    lines_of(lambda dice, lines, other: lines[:len(lines) // 2] + other[len(lines) // 2:]),
    lines_of(swapped),
    lambda dice, cert, other: cert[:dice.randrange(len(cert))],
    one_byte,
]


class Second:
    """The second program."""

    def __init__(self, folder):
        os.environ.setdefault("HM_SPARSE", "1")
        os.environ.setdefault("HM_PRUNE", "1")
        sys.path.insert(0, folder)
        from hminify_oracle import build, cert, check, graph, options, run, spec, table, words
        self.build, self.cert, self.check, self.graph, self.options = build, cert, check, graph, options
        self.run, self.table, self.words = run, table, words
        self.spec = spec.Spec.of("R17")

    def told(self, words, files):
        store, sink = self.run.MemStore(dict(files)), self.run.MemSink()
        return self.run.run(words, store, sink, self.spec), sink.bytes

    def written(self, words, page_bytes, form):
        """OUT, and a certificate of a format."""
        asked = self.words.asked(words, self.spec)
        table = self.table.Table.read(TABLE)
        tree = self.options.rewrite(self.build.tree_of(table, page_bytes, self.spec.page_limit), asked.options)
        graph = self.graph.Graph(table, self.spec, asked.rules, tree, fmt=3 if form == 3 else 2)
        prices = graph.least()
        rows = prices if form == 1 else [prices[k] for k in graph.written(form)]
        return graph.first_way(prices), self.cert.cert_text(form, asked.rules, rows)


def told(program, words, folder):
    run = subprocess.run([program] + words, cwd=folder, stdin=subprocess.DEVNULL, capture_output=True, check=False)
    return run.returncode, run.stdout


def put(folder, name, data):
    with open(os.path.join(folder, name), "wb") as file:
        file.write(data)


def made(second, dice, count):
    """Pages that are minified, with their words, texts and certificates."""
    found = []
    while len(found) < count:
        data = page(dice)
        flags = [flag for flag in FLAGS if dice.random() < 0.7]
        words = ["minify", "table", "page", "out", "cert"] + flags
        if second.told(words, {"table": TABLE, "page": data})[0] == 0:
            found.append((data, ["check"] + words[1:], {form: second.written(words, data, form) for form in (1, 2, 3)}))
    return found


def main():
    words = sys.argv[1:]
    if not words:
        raise SystemExit(__doc__)
    second = Second(words[0])
    program = os.path.abspath(words[1] if len(words) > 1 else BUILT)
    count, pages, seed = [int(word) for word in words[2:5]] + [1000, 200, 1][len(words[2:5]):]
    dice = random.Random(seed)
    found = made(second, dice, pages)
    differ, causes = 0, collections.Counter()
    with tempfile.TemporaryDirectory(prefix="hminify-forged-") as folder:
        put(folder, "table", TABLE)
        for turn in range(3 * count):
            form = 1 + turn % 3
            data, asks, written = found[(turn // 3) % len(found)]
            out, cert = written[form]
            forged = changed(dice, cert, dice.choice(found)[2][form][1])
            for name, content in (("page", data), ("out", out), ("cert", forged)):
                put(folder, name, content)
            wanted = second.told(asks, {"table": TABLE, "page": data, "out": out, "cert": forged})
            given = told(program, asks, folder)
            causes[b" ".join(given[1].split(b" ")[:2]) if given[1].startswith(b"no") else given[1][:3]] += 1
            if given != wanted:
                differ += 1
                print("seed %d turn %d: gives %r, wanted %r" % (seed, turn, given, wanted))
    for cause, times in sorted(causes.items()):
        print("%8d %s" % (times, cause.decode("ascii", "replace")))
    print("%d changed certificates of each format of %d pages, %d differ" % (count, pages, differ))
    return 1 if differ else 0


if __name__ == "__main__":
    sys.exit(main())
