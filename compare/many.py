#!/usr/bin/env python3
"""many.py [--program PROGRAM] [--count N] [--runs R] [FOLDER ..]: what many pages of their own size take, in one process each.

N pages (700) are chosen at random among the documents below the FOLDERs (/usr/share/doc and what else Debian's packages of speed.py and sizes.py put elsewhere), up to 2 MB
each and no two with the same bytes. Over all of them go by turns, R times (5):

- `PROGRAM minify html PAGE OUT CERT --omit --unquote --space --sparse`, with the standard's table, and the same with `none`;
- tdewolff's `minify` with its defaults.

Printed is the processor time (user and system, of all threads, from the start of the process to its end) of all pages together, the least and the
median of the R totals, the same of the pages that each command takes, and how many those are. A page that a command refuses counts among all pages with the time
that it took for that. PROGRAM is `crates/hminify/out/hminify` where none is named.
"""
import argparse
import hashlib
import os
import random
import shutil
import statistics
import subprocess
import sys
import tempfile

HERE = os.path.dirname(os.path.abspath(__file__))
BUILT = os.path.join(HERE, "../crates/hminify/out/hminify")
FOLDERS = ["/usr/share/doc", "/usr/share/developers-reference", "/usr/share/javascript"]
FLAGS = ["--omit", "--unquote", "--space", "--sparse"]
LARGEST = 2_000_000


def documents(folders):
    """The paths of all pages, each bytes once."""
    found = {}
    for folder in folders:
        for at, _, names in sorted(os.walk(folder)):
            for name in sorted(names):
                path = os.path.join(at, name)
                if name.endswith((".html", ".htm")) and os.path.isfile(path) and 0 < os.path.getsize(path) <= LARGEST:
                    with open(path, "rb") as file:
                        found.setdefault(hashlib.sha256(file.read()).digest(), path)
    return list(found.values())


class Command:
    """A command over all pages, with its totals."""

    def __init__(self, name, words):
        self.name, self.words, self.times, self.taken = name, words, [], set()

    def run(self, pages, folder):
        times = {}
        for page in pages:
            child = subprocess.Popen(self.words(page), cwd=folder, stdin=subprocess.DEVNULL, stdout=subprocess.DEVNULL, stderr=subprocess.DEVNULL)
            _, status, usage = os.wait4(child.pid, 0)
            child.returncode = os.waitstatus_to_exitcode(status)
            times[page] = usage.ru_utime + usage.ru_stime
            if child.returncode == 0:
                self.taken.add(page)
        self.times.append(times)

    def line(self, both):
        """A row of the table: the totals over all pages, and over those that every command takes."""
        every = [sum(times.values()) for times in self.times]
        taken = [sum(times[page] for page in both) for times in self.times]
        return "| %s | %.2f | %.2f | %.2f | %.2f | %d |" % (
            self.name, min(every), statistics.median(every), min(taken), statistics.median(taken), len(self.taken))


def main():
    parser = argparse.ArgumentParser()
    parser.add_argument("--program", default=BUILT)
    parser.add_argument("--count", type=int, default=700)
    parser.add_argument("--runs", type=int, default=5)
    parser.add_argument("folders", nargs="*", default=FOLDERS)
    given = parser.parse_args()
    program = os.path.abspath(given.program)
    if not os.access(program, os.X_OK):
        raise SystemExit("no program %s: ./hminify --build makes it" % program)
    peer = shutil.which("minify")
    if peer is None:
        raise SystemExit("no minify: apt-get install minify")
    pages = documents(given.folders)
    random.Random(7).shuffle(pages)
    pages = pages[: given.count]
    commands = [
        Command("hminify, html", lambda page: [program, "minify", "html", page, "out", "cert", *FLAGS]),
        Command("hminify, none", lambda page: [program, "minify", "none", page, "out", "cert", *FLAGS]),
        Command("tdewolff's minify", lambda page: [peer, "--type", "html", "-o", "peer", page]),
    ]
    with tempfile.TemporaryDirectory(prefix="hminify-many-") as folder:
        for _ in range(given.runs):
            for command in commands:
                command.run(pages, folder)
    size = sum(os.path.getsize(page) for page in pages)
    print("%d pages, %.1f MB, median %d bytes" % (len(pages), size / 1e6, statistics.median(map(os.path.getsize, pages))))
    both = set.intersection(*[command.taken for command in commands])
    print("%d pages, %.1f MB, are taken by every command" % (len(both), sum(map(os.path.getsize, both)) / 1e6))
    print("| command | s of processor time for all pages, least of %d | median | for those that all take, least | median | pages taken |" % given.runs)
    print("|---|---|---|---|---|---|")
    for command in commands:
        print(command.line(both))
    return 0


if __name__ == "__main__":
    sys.exit(main())
