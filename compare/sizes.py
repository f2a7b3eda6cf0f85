#!/usr/bin/python3
"""sizes.py [--program PROGRAM] [--jobs N] [--most N] [--kept FILE] [PACKAGE ..]: the figures of docs/sizes.svg, written to sizes.json.

The pages are those of docs/SIZES.md: all of each of Debian's packages (or of the PACKAGEs) up to 2 MB that differ in their bytes; of
erlang-doc 120 at random. Those that hminify doesn't refuse are written six times:

- by `minify` with `--omit --unquote --tight` alone, and with all rewrites as well, always with the standard's table;
- by tdewolff's minify with its defaults;
- by htmlmin, with comments, values of boolean attributes, and whitespace with a line feed between tags left out, and again without the last;
- by html5lib's serializer with optional tags left out and whitespace collapsed, quotes where the standard wants them, and characters left as
  they are.

Each output is judged by parse5 (judge.mjs). A page that a program fails on counts with its own bytes, and as failed. Counted are pages with
another tree, those with other elements or texts, and those of the rest in which words run together or come apart.

N pages are written side by side (3); with --most so many of each package, at random. `-` for PROGRAM leaves hminify out, for trying the others,
and then nothing is written to sizes.json. What was found of each page goes to FILE, and what stands there isn't run again. Needs node-parse5,
minify, python3-htmlmin and python3-html5lib of Debian.
"""
import argparse
import hashlib
import json
import multiprocessing
import os
import random
import shutil
import subprocess
import sys
import tempfile
import warnings

import figures
import speed

warnings.simplefilter("ignore")
import html5lib  # noqa: E402 (their modules warn of what they import)
import htmlmin  # noqa: E402

PACKAGES = ("apache2-doc bind9-doc cmake-doc debian-policy developers-reference erlang-doc gettext libjs-mathjax nodejs python-django-doc"
            " python3.11-doc sqlite3-doc zsh-doc").split()
TOOLS = ["minify", "python3-htmlmin", "python3-html5lib", "node-parse5", "nodejs"]
# Of these packages only so many pages, at random.
SOME = {"erlang-doc": 120}
LARGEST = 2_000_000
TABLE = os.path.join(figures.HERE, "../tables/entities.json")
RULES = ["--omit", "--unquote", "--tight", "--sparse"]
REWRITES = ["--doctype", "--comments", "--booleans", "--empty", "--redundant", "--space"]


def read(path):
    with open(path, "rb") as file:
        return file.read()


def pages_of(package, most):
    """The paths of a package's pages; where there are more than `most`, so many at random."""
    listed = subprocess.run(["dpkg-query", "-L", package], capture_output=True, text=True, check=True).stdout.splitlines()
    found = {}
    for path in sorted(listed):
        # the pages that nodejs has of npm, and pages below node_modules, are no documents of the package itself
        if path.endswith((".html", ".htm")) and "/node_modules/" not in path and os.path.isfile(path) and os.path.getsize(path) <= LARGEST:
            found.setdefault(hashlib.sha256(read(path)).digest(), path)
    chosen = list(found.values())
    random.Random(7).shuffle(chosen)
    return chosen[:most]


def by_hminify(program, flags):
    def write(path, out):
        words = [program, "minify", TABLE, path, out, out + ".cert", *flags]
        return subprocess.run(words, stdout=subprocess.DEVNULL, stdin=subprocess.DEVNULL).returncode
    return write


def by_tdewolff(path, out):
    with open(path, "rb") as page:
        return subprocess.run(["minify", "--type", "html", "-o", out], stdin=page, capture_output=True).returncode


def by_library(text_of):
    """A library of Python as a command: 1 where it raises anything."""
    def write(path, out):
        try:
            text = text_of(read(path).decode())
        except Exception:
            return 1
        with open(out, "wb") as file:
            file.write(text.encode("utf-8", "xmlcharrefreplace"))
        return 0
    return write


def htmlmin_text(page, empty=True):
    return htmlmin.minify(page, remove_comments=True, remove_empty_space=empty, reduce_boolean_attributes=True)


def html5lib_text(page):
    tree = html5lib.parse(page, treebuilder="etree", namespaceHTMLElements=True)
    return html5lib.serialize(tree, tree="etree", omit_optional_tags=True, strip_whitespace=True, quote_attr_values="spec",
                              minimize_boolean_attributes=True, resolve_entities=False, inject_meta_charset=False)


def writers(program):
    found = {}
    if program:
        found["hminify, tree kept"] = by_hminify(program, RULES)
        found["hminify"] = by_hminify(program, RULES + REWRITES)
    found["tdewolff"] = by_tdewolff
    found["htmlmin"] = by_library(htmlmin_text)
    found["htmlmin, spaces kept"] = by_library(lambda page: htmlmin_text(page, empty=False))
    found["html5lib"] = by_library(html5lib_text)
    return found


class Room:
    """What each worker has: a folder for outputs, and parse5 beside it."""

    def __init__(self, program, folder):
        self.writers = writers(program)
        self.folder = tempfile.mkdtemp(dir=folder)
        self.judge = subprocess.Popen(["node", os.path.join(figures.HERE, "judge.mjs")], stdin=subprocess.PIPE, stdout=subprocess.PIPE, text=True)

    def page(self, path, found):
        """Adds to `found`, for each program that isn't there, the bytes of its output and what it did to the page. None where hminify refuses it."""
        judged = {}
        for number, (name, write) in enumerate(self.writers.items()):
            if name in found:
                continue
            out = os.path.join(self.folder, "out.%d" % number)
            status = write(path, out)
            if status and name.startswith("hminify"):
                if status != 3:
                    raise RuntimeError("%s: status %d of %s" % (path, status, name))
                return None
            found[name] = (os.path.getsize(path), "failed") if status else (os.path.getsize(out), None)
            if status == 0:
                judged[name] = out
        if not judged:
            return found
        self.judge.stdin.write("\t".join([path, *judged.values()]) + "\n")
        self.judge.stdin.flush()
        verdicts = self.judge.stdout.readline().split()
        if len(verdicts) != len(judged):
            raise RuntimeError("%s: judge.mjs ended" % path)
        for name, verdict in zip(judged, verdicts):
            found[name] = (found[name][0], verdict)
        return found


ROOM = None


def begin(program, folder):
    global ROOM
    ROOM = Room(program, folder)


def one(job):
    package, path, found = job
    return package, path, ROOM.page(path, found)


def kept_in(path):
    """What was found of pages before, by their paths."""
    found = {}
    if path and os.path.exists(path):
        with open(path) as file:
            for page, programs in map(json.loads, file):
                found[page] = programs
    return found


class Sums:
    """Pages, refused pages, bytes, and for each program its bytes and the pages that it changed or failed on."""

    def __init__(self):
        self.pages, self.refused, self.bytes, self.programs = 0, 0, 0, {}

    def add(self, path, found):
        if found is None:
            self.refused += 1
            return
        self.pages += 1
        self.bytes += os.path.getsize(path)
        for name, (size, verdict) in found.items():
            sums = self.programs.setdefault(name, {"bytes": 0, "tree": 0, "elements or texts": 0, "words": 0, "failed": 0})
            sums["bytes"] += size
            sums["tree"] += verdict in ("shown", "joined", "other")
            sums["elements or texts"] += verdict == "other"
            sums["words"] += verdict == "joined"
            sums["failed"] += verdict == "failed"


def main():
    parser = argparse.ArgumentParser()
    parser.add_argument("--program", default=speed.BUILT)
    parser.add_argument("--jobs", type=int, default=3)
    parser.add_argument("--most", type=int, default=1_000_000)
    parser.add_argument("--kept", metavar="FILE")
    parser.add_argument("packages", nargs="*", metavar="PACKAGE", default=PACKAGES)
    given = parser.parse_args()
    os.environ.setdefault("NODE_PATH", "/usr/share/nodejs")
    program = None if given.program == "-" else os.path.abspath(given.program)
    found = figures.about(TOOLS + given.packages)
    if program and not os.access(program, os.X_OK):
        raise SystemExit("no program %s: ./hminify --build makes it" % program)
    kept = kept_in(given.kept)
    jobs = [(package, path, kept.get(path, {})) for package in given.packages for path in pages_of(package, min(given.most, SOME.get(package, given.most)))]
    every, sums = Sums(), {package: Sums() for package in given.packages}
    with tempfile.TemporaryDirectory(prefix="hminify-sizes-") as folder, open(given.kept or os.devnull, "a") as keeping, \
            multiprocessing.Pool(given.jobs, begin, (program, folder)) as pool:
        for package, path, page in pool.imap_unordered(one, jobs, 4):
            if page is not None and len(page) > len(kept.get(path, {})):
                keeping.write(json.dumps([path, page]) + "\n")
                keeping.flush()
            for it in (every, sums[package]):
                it.add(path, page)
            for name, (_, verdict) in (page or {}).items():
                if name.startswith("hminify") and verdict in ("joined", "other"):
                    print("%s: changed by %s" % (path, name))
    print(vars(every))
    if program:
        figures.put("sizes.json", dict(found, all=vars(every), packages={package: vars(it) for package, it in sums.items()}))
    return 0


if __name__ == "__main__":
    sys.exit(main())
