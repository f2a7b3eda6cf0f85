#!/usr/bin/env python3
"""worst.py [--program PROGRAM] [--command tree|minify] [--runs N] [--sizes BYTES,..] [KIND ..]: time of hminify on the pages that cost it most.

Each kind of page is made as large as each of SIZES says (1, 2 and 4 MB where nothing is said). `tree TABLE PAGE` reads each of them N
times (5); with `--command minify` it is `minify TABLE PAGE OUT CERT --omit --unquote --sparse`, where the page isn't refused. TABLE is `none`, but
the standard's own where the kind needs names. Printed are the least processor time for each size in seconds, MB of page a second at the
greatest, and how many times as long the greatest takes as the least. Time that is linear in the page grows as the sizes do.

Where no KIND is named, `minify TABLE PAGE OUT CERT` follows, with a TABLE of twelve names by which layers have 246 states: each `a` of a
paragraph may be written by four names without `;`, and after such a name up to 60 literal `a` may yet become a longer name. With `--omit
--unquote --sparse` it follows once more, with a reference before the first `a`, after which a sparse certificate has these states too. These
pages have a fiftieth of SIZES, since the certificate has some 1,400 bytes for each of theirs.
PROGRAM is `crates/hminify/out/hminify` where none is named. Needs Linux and the standard library of Python 3.9 or later.
"""
import argparse
import json
import os
import resource
import subprocess
import tempfile

HERE = os.path.dirname(os.path.abspath(__file__))
BUILT = os.path.join(HERE, "../crates/hminify/out/hminify")
NAMES = os.path.join(HERE, "../tables/entities.json")
FRONT = b"<!doctype html>"


def filled(front, part, behind=b""):
    """A page with `part` again and again between front and behind."""
    def page(size):
        count = max(0, size - len(FRONT) - len(front) - len(behind)) // len(part)
        return FRONT + front + part * count + behind
    return page


def numbered(front, form, count, behind):
    """A part with so many pieces, each with its own number."""
    return front + b"".join(form % k for k in range(count)) + behind


DEEP = 500

# name: page of so many bytes, whether it needs the standard's names
KINDS = {
    "comment of dashes": (filled(b"<!--", b"-", b"-->"), False),
    "comment of dashes, cut": (filled(b"<!--", b"-"), False),
    "comments that nearly end": (filled(b"<!--", b"--!x", b"-->"), False),
    "256 attributes": (filled(b"", numbered(b"<p", b" a%d=b", 256, b">")), False),
    "256 attributes with one front": (filled(b"", numbered(b"<p", b" data-with-a-long-name-in-front-%d", 256, b">")), False),
    "less-than signs": (filled(b"<p>", b"< "), False),
    "ampersands": (filled(b"<p>", b"&"), False),
    "names without a semicolon": (filled(b"<p>", b"&amp"), True),
    "names cut short": (filled(b"<p>", b"&CounterClockwiseContourIntegra "), True),
    "end tags in a title": (filled(b"<title>", b"</titl", b"</title>"), False),
    "comments in a script": (filled(b"<script>", b"<!--<script", b"--></script>"), False),
    "scripts in comments, cut": (filled(b"<script>", b"<!--<script>"), False),
    "deep elements": (filled(b"", b"<div>" * DEEP + b"</div>" * DEEP), False),
    "deep paragraphs": (filled(b"", b"<div>" * DEEP + b"<p>x" + b"</div>" * DEEP), False),
    "empty elements": (filled(b"", b"<b></b>"), False),
    "bytes of four": (filled(b"<p>", "\U0001F600".encode()), False),
    "carriage returns": (filled(b"<pre>x", b"\r\n"), False),
}


def names_of_many_states():
    """The table by which each of many layers has 246 states."""
    table = {}
    for k in range(4):
        table["&b%d" % k] = table["&b%d;" % k] = {"codepoints": [0x61]}
        table["&b%d%s;" % (k, "a" * 60)] = {"codepoints": [0x3B1 + k]}
    return json.dumps(table)


def least(words, folder, runs):
    """The least processor time of some runs in seconds, and the exit status."""
    best = None
    for _ in range(runs):
        with open(os.path.join(folder, "stdout"), "wb") as out:
            child = subprocess.Popen(words, cwd=folder, stdin=subprocess.DEVNULL, stdout=out)
            _, status, usage = os.wait4(child.pid, 0)
        child.returncode = os.waitstatus_to_exitcode(status)
        time = usage.ru_utime + usage.ru_stime
        best = time if best is None else min(best, time)
    return best, child.returncode


def line(kind, page, sizes, words, table, runs):
    """Prints the times of the pages of a kind."""
    times, status = [], None
    with tempfile.TemporaryDirectory() as folder:
        if table is not None:
            with open(os.path.join(folder, "table.json"), "w") as file:
                file.write(table)
        for size in sizes:
            with open(os.path.join(folder, "page.html"), "wb") as file:
                file.write(page(size))
            time, status = least(words, folder, runs)
            times.append(time)
    print("| %s | %d | %s | %.2f | %.1f |" % (
        kind, status, " | ".join("%.3f" % time for time in times), sizes[-1] / 1e6 / max(times[-1], 1e-6), times[-1] / max(times[0], 1e-6)))


def head(sizes):
    print("| page | status | %s | MB/s | growth |" % " | ".join("%g MB, s" % (size / 1e6) for size in sizes))
    print("|---|---|%s---|---|" % ("---|" * len(sizes)))


def main():
    parser = argparse.ArgumentParser()
    parser.add_argument("--program", default=BUILT)
    parser.add_argument("--command", choices=["tree", "minify"], default="tree")
    parser.add_argument("--runs", type=int, default=5)
    parser.add_argument("--sizes", default="1000000,2000000,4000000")
    parser.add_argument("kinds", nargs="*", metavar="KIND")
    given = parser.parse_args()
    program = os.path.abspath(given.program)
    if not os.access(program, os.X_OK):
        raise SystemExit("no program %s: ./hminify --build makes it" % program)
    sizes = [int(size) for size in given.sizes.split(",")]
    head(sizes)
    resource.setrlimit(resource.RLIMIT_CORE, (0, 0))
    for kind in given.kinds or KINDS:
        page, names = KINDS[kind]
        words = [program, given.command, NAMES if names else "none", "page.html"]
        if given.command == "minify":
            words += ["out.html", "cert", "--omit", "--unquote", "--sparse"]
        line(kind, page, sizes, words, None, given.runs)
    if not given.kinds:
        sizes = [size // 50 for size in sizes]
        print()
        head(sizes)
        words = [program, "minify", "table.json", "page.html", "out.html", "cert"]
        table = names_of_many_states()
        line("layers of 246 states", filled(b"<p>", b"a"), sizes, words, table, given.runs)
        words += ["--omit", "--unquote", "--sparse"]
        line("the same after a reference, `--sparse`", filled(b"<p>&#60;", b"a"), sizes, words, table, given.runs)


if __name__ == "__main__":
    main()
