#!/usr/bin/env python3
"""refused.py [PROGRAM]: each request for memory refused in turn, and reads and writes that take fewer bytes than they are asked to.

Builds `refuse.c` beside this script, which stands before the C library, and runs PROGRAM (`crates/hminify/out/hminify` where none is
named) with it on a small page, on the check of its files, sparse ones too, on an ordinary page of 977 bytes, on a fragment, on trees as JSON and on the
other commands: once with each request for memory refused, once with it and all after it refused, and with reads and writes of at most
1, 2, 3, 7 and 100 bytes. A refused request ends with the answer of the run without it, or with status 7, nothing printed, and OUT and CERT as they
were; a shorter read or write changes nothing. Prints how often each came about; ends with 1 where something else did. Needs Linux
with glibc, cc, and the standard library of Python 3.9 or later.
"""
import os
import subprocess
import sys
import tempfile

HERE = os.path.dirname(os.path.abspath(__file__))
BUILT = os.path.join(HERE, "../crates/hminify/out/hminify")
sys.path.insert(0, HERE)
from cases import DATA, bytes_of, cases  # noqa: E402

PAGE = b"<!doctype html><p>a</p><p>b</p>"
PART = b"<p>a</p><p>b</p>"
TREE = (b'[["doctype","plain"],["start","html",[]],["start","head",[]],["end"],["start","body",[["id","x"]]],["start","p",[]],'
        b'["text","\\u00e9"],["end"],["comment","c"],["end"],["end"]]')
FLAGS = ["--omit", "--unquote"]
KEPT = {"out": b"before " * 99, "cert": b"before, too " * 99}


def put(folder, files):
    for name, data in files.items():
        with open(os.path.join(folder, name), "wb") as file:
            file.write(data)


def files_in(folder):
    found = {}
    for name in os.listdir(folder):
        with open(os.path.join(folder, name), "rb") as file:
            found[name] = file.read()
    return found


class Run:
    """The words of a run, and its files before it."""

    def __init__(self, program, library, name, words, files):
        self.program, self.library, self.name, self.words, self.files = program, library, name, words, files

    def ended(self, folder, **settings):
        """Status, printed bytes and files after the run with some settings."""
        for name in os.listdir(folder):
            os.unlink(os.path.join(folder, name))
        put(folder, self.files)
        environment = dict(os.environ, LD_PRELOAD=self.library, **{key: str(value) for key, value in settings.items()})
        run = subprocess.run([self.program] + self.words, cwd=folder, env=environment, stdin=subprocess.DEVNULL,
                             stdout=subprocess.PIPE, check=False)
        return run.returncode, run.stdout, files_in(folder)

    def tried(self, folder):
        """How many requests there are, what became of them, and what should not have."""
        note = os.path.join(os.path.dirname(self.library), "asked")
        plain = self.ended(folder, ASKED=note)
        with open(note, encoding="ascii") as file:
            asked = int(file.read())
        refused = (7, b"", self.files)
        done = given_up = 0
        wrong = []
        for setting in ("REFUSE", "FROM"):
            for number in range(1, asked + 1):
                ended = self.ended(folder, **{setting: number})
                done += ended == plain
                given_up += ended == refused
                if ended not in (plain, refused):
                    wrong.append("%s=%d: status %d, prints %r" % (setting, number, ended[0], ended[1]))
        for most in (1, 2, 3, 7, 100):
            if self.ended(folder, AT_MOST=most) != plain:
                wrong.append("AT_MOST=%d: another end" % most)
        return asked, done, given_up, wrong


def runs(program, library, folder):
    """The runs, those of `check` on what `minify` writes."""
    ordinary = next(case for case in cases(open(os.path.join(DATA, "cases.txt"), encoding="utf-8", newline="\n").read().split("\n"))
                    if case["name"] == "minify_ordinary_page")
    small = Run(program, library, "minify", ["minify", "none", "page", "out", "cert"] + FLAGS, dict(KEPT, page=PAGE))
    yield small
    written = small.ended(folder)[2]
    yield Run(program, library, "check", ["check", "none", "page", "out", "cert"] + FLAGS, written)
    sparse = Run(program, library, "minify, sparse", small.words + ["--sparse"], small.files).ended(folder)[2]
    out = sparse["out"]
    for name, other in [("", out), (", another byte", out[:-1] + b"?"), (", a byte more", out + b"?"), (", a byte less", out[:-1])]:
        yield Run(program, library, "check, sparse" + name, ["check"] + small.words[1:], dict(sparse, out=other))
    large = Run(program, library, "minify, the ordinary page", ordinary["words"], dict(KEPT, **ordinary["before"]))
    yield large
    written = large.ended(folder)[2]
    yield Run(program, library, "check, the ordinary page", ["check"] + ordinary["words"][1:], written)
    part = Run(program, library, "fragment", ["fragment", "none", "page", "out", "cert"] + FLAGS, dict(KEPT, page=PART))
    yield part
    yield Run(program, library, "checkfragment", ["checkfragment", "none", "page", "out", "cert"] + FLAGS, part.ended(folder)[2])
    yield Run(program, library, "tree", ["tree", "none", "page"], dict(KEPT, page=PAGE))
    for name, page in [("explain", PAGE), ("explain, refused", PAGE + b"</i>")]:
        yield Run(program, library, name, ["explain", "html", "page"] + FLAGS, dict(KEPT, page=page))
    yield Run(program, library, "json", ["json", "none", "page"], dict(KEPT, page=PAGE))
    for name, tree in [("minifyjson", TREE), ("minifyjson, refused", TREE[:-1] + b',["text","x"]]')]:
        yield Run(program, library, name, ["minifyjson", "none", "tree", "out", "cert"] + FLAGS, dict(KEPT, tree=tree))
    yield Run(program, library, "measure", ["measure", "none", "7", "3"] + FLAGS, dict(KEPT))


def main():
    program = os.path.abspath(sys.argv[1] if len(sys.argv) > 1 else BUILT)
    bad = 0
    with tempfile.TemporaryDirectory(prefix="hminify-refused-") as top:
        library = os.path.join(top, "refuse.so")
        subprocess.run(["cc", "-shared", "-fPIC", "-O1", "-o", library, os.path.join(HERE, "refuse.c")], check=True)
        folder = os.path.join(top, "files")
        os.mkdir(folder)
        for run in runs(program, library, folder):
            asked, done, given_up, wrong = run.tried(folder)
            bad += len(wrong)
            print("%s: %d requests; of %d runs %d done as without, %d with status 7, %d otherwise"
                  % (run.name, asked, 2 * asked, done, given_up, 2 * asked - done - given_up))
            for line in wrong:
                print("    " + line)
    return 1 if bad else 0


if __name__ == "__main__":
    sys.exit(main())
