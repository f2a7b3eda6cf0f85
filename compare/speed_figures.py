#!/usr/bin/python3
"""speed_figures.py [--program PROGRAM] [--table TABLE] [--runs N] [--size N] [NAME ..]: the figures of docs/speed.svg, written to speed.json.

On each kind of page of speed.py (or the NAMEs) `minify TABLE PAGE OUT CERT --omit --unquote --space --sparse`, `check` of what it wrote, `tree TABLE PAGE`,
tdewolff's `minify`, html5ever and parse5 run by turns; N times (15) they go over all pages, but parse5 only each third time. html5ever (html5ever/, to be built first) and
parse5 read the page and make its tree, and print or write nothing of it. Every run is a process of its own, and its figure is megabytes of the
page for a second of processor time (user and system, of all threads) from its start to its end: the best run and the median. At the
end one process of Node parses each page 5 times, for parse5 when its code is compiled. TABLE is the standard's own where none is named, since
the others know its names too. PROGRAM is `crates/hminify/out/hminify` where none is named.
"""
import argparse
import os
import shutil
import statistics
import subprocess
import sys
import tempfile

import figures
import speed

HTML5EVER = os.path.join(figures.HERE, "html5ever/out/release/parse-page")
PARSE5 = os.path.join(figures.HERE, "parse5_page.mjs")
# How often one process of Node parses a page.
AGAIN = 5
# A program that takes some twenty times as long as the others runs in each third turn only.
EACH = {"parse5": 3}
PACKAGES = ["minify", "librust-html5ever-dev", "librust-markup5ever-rcdom-dev", "rustc", "node-parse5", "nodejs"]


def turns(program, table):
    """The commands, in the order in which they take turns."""
    ours = {call.name: call for call in speed.calls(program, shutil.which("minify"), table)}
    chosen = [("tree", "tree"), ("minify", "minify --sparse"), ("check", "check, sparse"), ("tdewolff", "peer")]
    found = []
    for name, old in chosen:
        ours[old].name = name
        found.append(ours[old])
    found.append(speed.Call("html5ever", [HTML5EVER, "page.html"], []))
    found.append(speed.Call("parse5", ["node", PARSE5, "page.html"], []))
    return found


def again(folder):
    """The processor times of parse5 in seconds, where one process parses the page again and again."""
    said = subprocess.run(["node", PARSE5, "page.html", str(AGAIN)], cwd=folder, capture_output=True, text=True, check=True)
    return [float(word) / 1000 for word in said.stdout.split(", ")[1].split()]


def rates(size, times):
    return {"best": round(size / 1e6 / min(times), 1), "median": round(size / 1e6 / statistics.median(times), 1)}


class Page:
    """A kind of page in a folder of its own, with the commands that take turns on it."""

    def __init__(self, name, path, folder, program, given):
        self.folder = os.path.join(folder, name)
        os.mkdir(self.folder)
        self.size = speed.put_page(name, path, os.path.join(self.folder, "page.html"), given.size)
        self.calls = turns(program, given.table)
        self.again = None

    def turn(self, number):
        for call in self.calls:
            if number % EACH.get(call.name, 1) == 0:
                call.run(self.folder)

    def figures(self):
        programs = {call.name: rates(self.size, call.processor) for call in self.calls}
        if self.again:
            programs["parse5 again"] = rates(self.size, self.again)
        return {"bytes": self.size, "programs": programs}


def measure(documents, program, given):
    """Runs everything N times, and writes the figures after each turn over all pages."""
    found = dict(figures.about(PACKAGES), table=os.path.basename(given.table))
    with tempfile.TemporaryDirectory(prefix="hminify-speed-") as folder:
        pages = {name: Page(name, path, folder, program, given) for name, path in documents.items()}

        def put(runs):
            figures.put("speed.json", dict(found, runs=runs, pages={name: page.figures() for name, page in pages.items()}))
            print("%d runs" % runs, flush=True)

        for number in range(given.runs):
            for page in pages.values():
                page.turn(number)
            put(number + 1)
        for page in pages.values():
            page.again = again(page.folder)
        put(given.runs)


def main():
    parser = argparse.ArgumentParser()
    parser.add_argument("--program", default=speed.BUILT)
    parser.add_argument("--table", default=os.path.join(figures.HERE, "../tables/entities.json"))
    parser.add_argument("--runs", type=int, default=15)
    parser.add_argument("--size", type=int, default=speed.SIZE)
    parser.add_argument("names", nargs="*", metavar="NAME")
    given = parser.parse_args()
    program = os.path.abspath(given.program)
    if os.path.exists(given.table):
        given.table = os.path.abspath(given.table)
    os.environ.setdefault("NODE_PATH", "/usr/share/nodejs")
    for needed in (program, HTML5EVER):
        if not os.access(needed, os.X_OK):
            raise SystemExit("no program %s: compare/README.md says how it is built" % needed)
    documents = {name: path for name, path in speed.all_documents().items() if not given.names or name in given.names}
    speed.look_for(documents)
    measure(documents, program, given)
    return 0


if __name__ == "__main__":
    sys.exit(main())
