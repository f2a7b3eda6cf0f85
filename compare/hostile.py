#!/usr/bin/env python3
"""hostile.py [PROGRAM]: what `check` says of twenty sorts of hostile certificates and outputs.

Each sort is some runs of `check` on files that are made here in a temporary folder, with the line that has to come. The
wanted lines weren't taken from hminify: a second program, written from the same rules apart from it, gave every one, and a
comment says why it is so. Processor time and memory are bounded too, by the bytes of the files. PROGRAM is the program that
was built, `crates/hminify/out/hminify` where none is named. Ends with 1 where a line, an exit status or a bound isn't as
wanted, or a file was changed. Needs Linux, the standard library of Python 3.9 or later, and 300 MB of room.
"""
import os
import subprocess
import sys
import tempfile

HERE = os.path.dirname(os.path.abspath(__file__))
BUILT = os.path.join(HERE, "../crates/hminify/out/hminify")

MIB = 1 << 20
FLAGS = ["--omit", "--unquote"]
DOCTYPE = b"<!doctype html>"

# The page of most runs, its shortest text, and its certificate. The tree has 14 layers of one state each; those that have a
# choice are written, and the first and the last: layers 0, 1 to 4, 7, and 10 to 13.
PAGE = DOCTYPE + b"<p>a</p><p>b</p>"
OUT = DOCTYPE + b"<p>a<p>b"
HEAD = b"html-cert 2\nrules omit unquote\n"
PRICES = [b"23", b"8", b"8", b"8", b"8", b"4", b"0", b"0", b"0", b"0"]
LAST = len(PRICES) - 1
GREATEST = b"9223372036854775807"

# What a run may take of processor time (seconds) and of memory (bytes): a part for the start, and a part for its files. Most
# take less than a fifth of that time, and two bytes a byte. Small tags and short prices take more than their own bytes.
SECONDS, SECONDS_PER_MIB = 0.25, 0.10
MEMORY, MEMORY_PER_BYTE, MEMORY_PER_TAG, MEMORY_PER_PRICE = 24 * MIB, 3, 24, 11


def cert(prices=None, head=HEAD):
    """The text of a certificate with these lines of prices."""
    return head + b"".join(line + b"\n" for line in (PRICES if prices is None else prices))


def other(at, line):
    """The certificate of OUT with another line of prices at a place."""
    return cert(PRICES[:at] + [line] + PRICES[at + 1:])


PLAIN = cert()


def long(front, piece, times, behind=b""):
    """A text that isn't made before it is written: the memory of this process would count as that of its children."""
    return [(front, 1), (piece, times), (behind, 1)]


def long_line(at, front, piece, times, behind=b""):
    """The certificate of OUT with a long line of prices at a place."""
    return long(cert(PRICES[:at]) + front, piece, times, behind + b"\n" + cert(PRICES[at + 1:], b""))


class Run:
    """The line that is wanted, and the files. `made` is another page and its table (or None): its certificate is taken,
    and with `output` its output too, as `minify` writes them. `memory` is what a byte of the files may take of it."""

    def __init__(self, wanted, out=OUT, cert=PLAIN, page=PAGE, table=None, made=None, output=False, memory=MEMORY_PER_BYTE):
        self.wanted, self.out, self.cert, self.page, self.table = wanted, out, cert, page, table
        self.made, self.output, self.memory = made, output, memory


# `&lt` is four bytes with the first table and isn't a name with the second.
LT, LT_SEMICOLON = (
    b'{"&lt;":{"codepoints":[60]},"&lt":{"codepoints":[60]}}', b'{"&lt;":{"codepoints":[60]}}')
LESS = DOCTYPE + b"<p>a&#60;b"
ORDER, REORDERED = DOCTYPE + b"<a href=b id=c>d</a>", DOCTYPE + b"<a id=c href=b>d</a>"
ROOM = 64 * MIB - len(OUT)


def cases():
    """The names of the cases with their runs."""
    yield "another page's certificate", [
        # the texts are longer there; the first layer whose price isn't met is that of the first p
        Run("no 6 layer 4 state 0: price 10 above 9", made=(DOCTYPE + b"<p>aa</p><p>bb</p>", None)),
        # two paragraphs more
        Run("no 4 layers 12, wanted 10", made=(DOCTYPE + b"<p>a<p>b<p>c<p>d", None)),
    ]
    yield "another table's certificate", [
        # by the other table the character has other edges, so the layer after it has other states
        Run("no 5 layer 8: prices 3, wanted 4", page=LESS, out=DOCTYPE + b"<p>a&ltb", table=LT, made=(LESS, LT_SEMICOLON)),
        Run("no 5 layer 8: prices 4, wanted 3", page=LESS, out=DOCTYPE + b"<p>a&lt;b", table=LT_SEMICOLON, made=(LESS, LT)),
        # by the empty table &lt is no reference
        Run("no 3 trees differ at event 6", page=LESS, out=DOCTYPE + b"<p>a&ltb", made=(LESS, LT)),
    ]
    yield "a price of 2^63 - 1", [
        # the greatest price that is read: the first price may be no more than 23, that of the first p no more than 8
        Run("no 6 layer 0 state 0: price 9223372036854775807 above 23", cert=other(0, GREATEST)),
        Run("no 6 layer 4 state 0: price 9223372036854775807 above 8", cert=other(4, GREATEST)),
        # the last layer's prices are 0
        Run("no 6 layer 13 state 0: price 9223372036854775807 above 0", cert=other(LAST, GREATEST)),
        # all of them: each bound is at least 2^63 - 1 and is met, but for the last layer
        Run("no 6 layer 13 state 0: price 9223372036854775807 above 0", cert=cert([GREATEST] * len(PRICES))),
        # a bound is a whole number of any size: 15 bytes of the doctype before the greatest price
        Run("no 6 layer 0 state 0: price - above 9223372036854775822", cert=cert([b"-"] + [GREATEST] * LAST)),
    ]
    yield "a price of 2^63", [
        # the first that isn't read
        Run("no 0 certificate line 3", cert=other(0, b"9223372036854775808")),
        Run("no 0 certificate line 12", cert=other(LAST, b"9223372036854775808")),
    ]
    yield "a price of 2^64 and more", [
        # 2^64 + 23 would be 23 in a sum that wraps
        Run("no 0 certificate line 3", cert=other(0, b"18446744073709551616")),
        Run("no 0 certificate line 3", cert=other(0, b"18446744073709551639")),
        Run("no 0 certificate line 3", cert=other(0, b"340282366920938463463374607431768211479")),
    ]
    yield "a line of a megabyte of digits", [
        # no price has more than 19 digits; zeros in front aren't read either
        Run("no 0 certificate line 4", cert=long_line(1, b"", b"8", MIB)),
        Run("no 0 certificate line 4", cert=long_line(1, b"", b"0", MIB, b"8")),
        Run("no 0 certificate line 4", cert=long_line(1, b"", b"8", 64 * MIB)),
    ]
    yield "a line of a megabyte of spaces", [
        # between two spaces stands no price
        Run("no 0 certificate line 4", cert=long_line(1, b"", b" ", MIB)),
        Run("no 0 certificate line 4", cert=long_line(1, b"8", b" ", 64 * MIB, b"8")),
        Run("no 0 certificate line 2", cert=long(HEAD[:-1], b" ", MIB, b"\n" + cert(head=b""))),
    ]
    yield "an output about the limit", [
        # a byte above 64 MiB is refused, and so is whatever is longer; what is within is read, and is too long to be shown
        Run("no 2 output refused: TooLong at 67108864", out=long(DOCTYPE + b"<p", b" ", ROOM + 1, b">a<p>b")),
        Run("no 2 output refused: TooLong at 67108864", out=long(OUT, b"b", 65 * MIB)),
        Run("no 7 output 67108864 bytes, first price 23", out=long(DOCTYPE + b"<p", b" ", ROOM, b">a<p>b")),
        # what is refused or differs early is read in time too
        Run("no 2 output refused: TooDeep at 1545", out=long(OUT[:18], b"<b>", MIB)),
        Run("no 2 output refused: TooManyAttributes at 15", out=long(OUT[:17], b" a", 4 * MIB, b">")),
        Run("no 3 trees differ at event 6", out=long(OUT[:18], b"&", MIB)),
        Run("no 3 trees differ at event 6", out=long(OUT[:18], b"<p>", MIB), memory=MEMORY_PER_TAG),
        # 256 MiB are the limit of certificates
        Run("no 0 certificate too long", cert=long(PLAIN, b"0\n", 128 * MIB)),
    ]
    yield "an output that would be mended", [
        # an end tag without its element, an end that isn't implied, a tag that never ends, no doctype
        Run("no 2 output refused: StrayEnd at 23", out=OUT + b"</i>"),
        Run("no 2 output refused: Unclosed at 26", out=OUT + b"<b>"),
        Run("no 2 output refused: Cut at 23", out=OUT + b"<p"),
        Run("no 2 output refused: NoDoctype at 0", out=OUT[15:]),
    ]
    yield "an output whose page isn't settled", [
        # a block closes a p that isn't innermost, a text would be moved before its table, an a ends an a
        Run("no 2 output refused: BlockInParagraph at 22", out=DOCTYPE + b"<p>a<b><p>b"),
        Run("no 2 output refused: TextHere at 22", out=DOCTYPE + b"<table>a</table>"),
        Run("no 2 output refused: Nested at 19", out=DOCTYPE + b"<a>a<a>b"),
    ]
    yield "another order of two attributes", [
        # the certificate is that of the page with id first: the layer of the second attribute is another
        Run("no 6 layer 9 state 0: price 13 above 11", page=ORDER, out=ORDER, made=(REORDERED, None)),
        # both are those of the page with id first: the element a is event 5 of the tree
        Run("no 3 trees differ at event 5", page=ORDER, made=(REORDERED, None), output=True),
        Run("no 3 trees differ at event 5", page=ORDER, out=REORDERED, made=(ORDER, None)),
    ]
    yield "closed prices everywhere", [
        # nothing bounds a price whose edges lead to closed ones; but the last layer's prices are 0
        Run("no 6 layer 13 state 0: price - above 0", cert=cert([b"-"] * len(PRICES))),
        # a price that has an edge to a number may not be closed
        Run("no 6 layer 12 state 0: price - above 0", cert=cert([b"-"] * LAST + [b"0"])),
        Run("no 6 layer 0 state 0: price - above 23", cert=other(0, b"-")),
    ]
    yield "an empty file", [
        # no first line, no second line; two lines are the certificate of no layers
        Run("no 0 certificate line 1", cert=b""),
        Run("no 0 certificate line 2", cert=HEAD[:12]),
        Run("no 4 layers 0, wanted 10", cert=HEAD),
        # an empty output has no doctype
        Run("no 2 output refused: NoDoctype at 0", out=b""),
    ]
    yield "line ends", [
        # the last line without LF; CR LF; CR; an empty line more
        Run("no 0 certificate line 12", cert=PLAIN[:-1]),
        Run("no 0 certificate line 1", cert=PLAIN.replace(b"\n", b"\r\n")),
        Run("no 0 certificate line 1", cert=PLAIN.replace(b"\n", b"\r")),
        Run("no 0 certificate line 13", cert=PLAIN + b"\n"),
        Run("no 0 certificate line 12", cert=PLAIN[:-2] + b"0\r\n"),
    ]
    yield "another format's first line", [
        # by format 3 two layers have a line, by format 1 each of the 14; there is no format 4
        Run("no 4 layers 10, wanted 2", cert=cert(head=HEAD.replace(b"2", b"3"))),
        Run("no 0 certificate line 1", cert=cert(head=HEAD.replace(b"2", b"4"))),
        Run("no 4 layers 10, wanted 14", cert=cert(head=HEAD.replace(b"2", b"1"))),
        Run("no 0 certificate line 1", cert=cert(head=HEAD.replace(b"2", b"2 "))),
        Run("no 0 certificate line 1", cert=b"\xef\xbb\xbf" + PLAIN),
        # other rules, rules in another order, a rule twice, the rule that only fragments have
        Run("no 1 rules differ", cert=cert(head=b"html-cert 2\nrules omit\n")),
        Run("no 0 certificate line 2", cert=cert(head=b"html-cert 2\nrules unquote omit\n")),
        Run("no 0 certificate line 2", cert=cert(head=b"html-cert 2\nrules omit omit\n")),
        Run("no 1 rules differ", cert=cert(head=b"html-cert 2\nrules omit unquote frame\n")),
    ]
    yield "a price with a leading zero", [
        # one number has one text: no zeros in front, no sign, no other form
        Run("no 0 certificate line 3", cert=other(0, b"023")),
        Run("no 0 certificate line 12", cert=other(LAST, b"00")),
        Run("no 0 certificate line 3", cert=other(0, b"+23")),
        Run("no 0 certificate line 12", cert=other(LAST, b"-0")),
        Run("no 0 certificate line 3", cert=other(0, b"2.3e1")),
    ]
    yield "more or fewer rows", [
        Run("no 4 layers 11, wanted 10", cert=cert(PRICES + [b"0"])),
        Run("no 4 layers 1, wanted 10", cert=cert(PRICES[:1])),
        Run("no 4 layers 9, wanted 10", cert=cert(PRICES[:-1])),
        Run("no 4 layers 8388618, wanted 10", cert=long(PLAIN, b"0\n", 8 * MIB), memory=MEMORY_PER_PRICE),
    ]
    yield "a wider row", [
        # line 8 stands for layer 7, which has one state
        Run("no 5 layer 7: prices 2, wanted 1", cert=other(5, b"4 4")),
        Run("no 5 layer 7: prices 8388609, wanted 1", cert=long_line(5, b"4", b" 4", 8 * MIB), memory=MEMORY_PER_PRICE),
        Run("no 5 layer 13: prices 2, wanted 1", cert=other(LAST, b"0 0")),
    ]
    yield "prices that are wrong by one", [
        # too high by one; too low by one, so that the layers before are too high; all prices 0 show no more than 0 bytes
        Run("no 6 layer 7 state 0: price 5 above 4", cert=other(5, b"5")),
        Run("no 6 layer 4 state 0: price 8 above 7", cert=other(5, b"3")),
        Run("no 7 output 23 bytes, first price 0", cert=cert([b"0"] * len(PRICES))),
        Run("no 7 output 23 bytes, first price 22", cert=other(0, b"22")),
        # an output that is longer by a byte
        Run("no 7 output 24 bytes, first price 23", out=DOCTYPE + b"<p>a<p >b"),
    ]
    yield "NUL bytes", [
        Run("no 0 certificate line 13", cert=PLAIN + b"\0"),
        Run("no 0 certificate line 3", cert=other(0, b"23\0")),
        Run("no 0 certificate line 1", cert=long(b"", b"\0", MIB)),
        Run("no 2 output refused: Nul at 23", out=OUT + b"\0"),
        Run("no 2 output refused: Nul at 0", out=long(b"", b"\0", MIB)),
    ]


def put(path, data):
    """Writes a text, or the pieces of a long one, and gives the number of its bytes."""
    size = 0
    with open(path, "wb") as file:
        for piece, times in [(data, 1)] if isinstance(data, bytes) else data:
            size += len(piece) * times
            whole, rest = divmod(times, max(1, 65536 // max(1, len(piece))))
            block = piece * ((times - rest) // whole) if whole else b""
            for _ in range(whole):
                file.write(block)
            file.write(piece * rest)
    return size


def call(program, words, folder):
    """Status, output, processor time in seconds and peak of memory in bytes of a run."""
    child = subprocess.Popen([program] + words, cwd=folder, stdin=subprocess.DEVNULL, stdout=subprocess.PIPE)
    line = child.stdout.read()
    _, status, usage = os.wait4(child.pid, 0)
    child.returncode = os.waitstatus_to_exitcode(status)
    child.stdout.close()
    return child.returncode, line.decode("utf-8", "replace"), usage.ru_utime + usage.ru_stime, usage.ru_maxrss * 1024


def written(program, folder, run):
    """OUT and CERT that `minify` writes of another page."""
    page, table = run.made
    put(os.path.join(folder, "page"), page)
    put(os.path.join(folder, "table"), table or b"")
    words = ["minify", "table" if table else "none", "page", "out", "cert"] + FLAGS
    status, line, _, _ = call(program, words, folder)
    if status != 0:
        raise SystemExit("minify gives %d, %s" % (status, line.strip()))
    texts = []
    for name in ("out", "cert"):
        with open(os.path.join(folder, name), "rb") as file:
            texts.append(file.read())
    return texts


def faults(program, folder, run):
    """What isn't as wanted in a run, one line each."""
    out, proof = run.out, run.cert
    if run.made:
        made_out, proof = written(program, folder, run)
        out = made_out if run.output else out
    files = {"page": run.page, "table": run.table or b"", "out": out, "cert": proof}
    size = sum(put(os.path.join(folder, name), data) for name, data in files.items())
    stamps = [os.stat(os.path.join(folder, name)) for name in files]
    words = ["check", "table" if run.table else "none", "page", "out", "cert"] + FLAGS
    status, line, seconds, memory = call(program, words, folder)
    found = []
    wanted = (0 if run.wanted.startswith("yes ") else 1, run.wanted + "\n")
    if (status, line) != wanted:
        found.append("gives %d, %r, wanted %d, %r" % (status, line, *wanted))
    for name, before in zip(files, stamps):
        after = os.stat(os.path.join(folder, name))
        if (before.st_size, before.st_mtime_ns) != (after.st_size, after.st_mtime_ns):
            found.append("has changed the file %s" % name)
    if seconds > SECONDS + SECONDS_PER_MIB * size / MIB:
        found.append("took %.2f s of processor time for %d bytes" % (seconds, size))
    if memory > MEMORY + run.memory * size:
        found.append("took %d bytes of memory for %d bytes" % (memory, size))
    return found


def main(program):
    if not os.access(program, os.X_OK):
        print("no program %s: ./hminify --build makes it" % program)
        return 1
    program = os.path.abspath(program)
    good = count = 0
    with tempfile.TemporaryDirectory(prefix="hminify-hostile-") as folder:
        # What isn't hostile is shown, or the rest would say nothing.
        plain = faults(program, folder, Run("yes 23"))
        for name, runs in cases():
            count += 1
            found = ["run %d %s" % (number, fault) for number, run in enumerate(runs, 1)
                     for fault in faults(program, folder, run)]
            good += not found
            for fault in found:
                print("%s: %s" % (name, fault))
    for fault in plain:
        print("nothing hostile: %s" % fault)
    print("%d of %d as expected" % (good, count))
    return 0 if good == count and not plain else 1


if __name__ == "__main__":
    sys.exit(main(sys.argv[1] if len(sys.argv) > 1 else BUILT))
