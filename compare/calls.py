#!/usr/bin/env python3
"""calls.py [PROGRAM]: each call on the system fails in turn.

Runs PROGRAM (`crates/hminify/out/hminify` where none is named) under strace on a small page, on a fragment and on a tree as JSON, with
and without a table file, and has each call that it makes to open, read, write and close a file fail in turn, with ENOSPC, EIO, EINTR and EAGAIN. The run has to end so:

- a file that isn't opened or read: status 5, `store fault`, no file changed;
- OUT or CERT not opened or written: status 5, `store fault`, OUT as before or a prefix of what is right, CERT as before unless OUT
  is whole;
- standard output not written: status 6, all files whole;
- a call that a signal interrupts (EINTR) is made again, so that nothing else changes;
- what closing a file says is not asked.

Prints how often each came about; ends with 1 where something else did. Needs Linux, strace, and the standard library of Python 3.9
or later.
"""
import collections
import os
import re
import subprocess
import sys
import tempfile

HERE = os.path.dirname(os.path.abspath(__file__))
BUILT = os.path.join(HERE, "../crates/hminify/out/hminify")
FLAGS = ["--omit", "--unquote"]
TABLE = b'{"&lt;":{"codepoints":[60]},"&lt":{"codepoints":[60]}}'
TREE = b'[["doctype","plain"],["start","html",[]],["start","head",[]],["end"],["start","body",[]],["text","a<b"],["end"],["end"]]'
BEFORE = {"table": TABLE, "tree": TREE, "part": b"<p>a&#60;b</p>", "page": b"<!doctype html><p>a&#60;b</p>", "out": b"before " * 99, "cert": b"before, too " * 99}
# The file that these commands read in place of `page`, and the commands that read no OUT and CERT, or read what another one wrote.
READ = {"minifyjson": "tree", "fragment": "part", "checkfragment": "part"}
SHORT = ("tree", "json", "explain")
WRITTEN_BY = {"check": "minify", "checkfragment": "fragment"}
ERRORS = ["ENOSPC", "EIO", "EINTR", "EAGAIN"]
KINDS = ["openat", "read", "write", "close"]


def files_in(folder):
    found = {}
    for name in os.listdir(folder):
        with open(os.path.join(folder, name), "rb") as file:
            found[name] = file.read()
    return found


def ended(program, words, before, folder, *inject):
    """Status, printed bytes and files after a run, and the calls that it makes once the program itself has begun."""
    for name in os.listdir(folder):
        os.unlink(os.path.join(folder, name))
    for name, data in before.items():
        with open(os.path.join(folder, name), "wb") as file:
            file.write(data)
    log = folder + ".log"
    run = subprocess.run(["strace", "-o", log, "-e", "trace=rt_sigaction," + ",".join(KINDS), *inject, program] + words,
                         cwd=folder, stdin=subprocess.DEVNULL, capture_output=True, check=False)
    with open(log, encoding="utf-8", errors="replace") as file:
        lines = file.read().split("\n")
    return run.returncode, run.stdout, files_in(folder), lines


def calls_of(lines):
    """Each call of the program itself, after those that load it: its kind, its number among those of its kind, and its file."""
    counts, opened, begun = collections.Counter(), {"1": "standard output"}, False
    for line in lines:
        begun = begun or "SIGPIPE" in line
        match = re.match(r"(\w+)\((?:AT_FDCWD, \"([^\"]*)\"|(\d+))", line)
        if match and match[1] in KINDS:
            counts[match[1]] += 1
            name = match[2] or opened.get(match[3], "")
            if match[1] == "openat":
                opened[line.rsplit(" ", 1)[1]] = name
            if begun:
                yield match[1], counts[match[1]], name


def verdict(plain, found, before, kind, name, error):
    """What came about, and whether it may."""
    status, said, files = found
    if error == "EINTR" or kind == "close":
        return "nothing changes", found == plain
    if name == "standard output":
        return "standard output fails", status == 6 and files == plain[2] and plain[1].startswith(said)
    right = plain[2]
    kept = all(files[key] == data for key, data in before.items() if key not in ("out", "cert"))
    out = files["out"] == before["out"] or right["out"].startswith(files["out"])
    cert = files["cert"] == before["cert"] or files["out"] == right["out"] and right["cert"].startswith(files["cert"])
    whole = files == before or name in ("out", "cert")
    return "a file fails", status == 5 and said == b"store fault\n" and kept and out and cert and whole


def main():
    program = os.path.abspath(sys.argv[1] if len(sys.argv) > 1 else BUILT)
    count, bad = collections.Counter(), 0
    with tempfile.TemporaryDirectory(prefix="hminify-calls-") as top:
        folder = os.path.join(top, "files")
        os.mkdir(folder)
        written = {}
        for words in ("minify table", "check table", "fragment table", "checkfragment table", "minifyjson table", "tree table", "json table",
                      "explain table", "explain html", "minify none"):
            words = words.split()
            command = words[0]
            before = written.get(WRITTEN_BY.get(command), BEFORE)
            words = words + [READ.get(command, "page")] + ([] if command in SHORT else ["out", "cert"]) + FLAGS
            *plain, lines = ended(program, words, before, folder)
            plain = tuple(plain)
            written[command] = plain[2]
            for kind, number, name in list(calls_of(lines)):
                for error in ERRORS:
                    *found, _ = ended(program, words, before, folder, "-e", "inject=%s:error=%s:when=%d" % (kind, error, number))
                    what, is_right = verdict(plain, tuple(found), before, kind, name, error)
                    count[kind, what] += 1
                    if not is_right:
                        bad += 1
                        print("%s: %s %d of %s with %s: status %d, prints %r"
                              % (" ".join(words[:2]), kind, number, name, error, found[0], found[1]))
    for (kind, what), times in sorted(count.items()):
        print("%-7s %-22s %4d" % (kind, what, times))
    print("%d runs, %d otherwise" % (sum(count.values()), bad))
    return 1 if bad else 0


if __name__ == "__main__":
    sys.exit(main())
