#!/usr/bin/env python3
"""pieces.py [--program PROGRAM] [--count N] [--seed N] [FOLDER ..]: pages that come in small pieces.

Builds `refuse.c` beside this script, which stands before the C library and lets a read take fewer bytes than it is asked to. With it PROGRAM
(`crates/hminify/out/hminify` where none is named) runs each case of `crates/hm_cases/data/cases.txt` with reads of at most 1, 2, 3 and 7
bytes and with two random cuttings: status, printed bytes and files have to be those of the case. The tree of the ordinary page is told as JSON with
the page cut in two at each of its bytes. And N pages (200) of the folders, evenly of all, are minified with reads of random lengths, and have to give
line, OUT and CERT as without. Pages are `*.html`. Without a FOLDER those of Debian's documents are taken. Prints how many runs of each kind
there were and how many differ; ends with 1 where one does, or where there are too few pages. Needs Linux with glibc, cc, and the standard library
of Python 3.9 or later.
"""
import argparse
import os
import subprocess
import sys
import tempfile

HERE = os.path.dirname(os.path.abspath(__file__))
sys.path.insert(0, HERE)
import cases as told_cases  # noqa: E402
from json_pages import BUILT, FOLDERS, pages  # noqa: E402
from refused import files_in, put  # noqa: E402

FLAGS = ["--omit", "--unquote", "--tight", "--sparse"]
SETTINGS = [{"AT_MOST": 1}, {"AT_MOST": 2}, {"AT_MOST": 3}, {"AT_MOST": 7}, {"CUTS": 1}, {"CUTS": 2}]


def cut_by(library, setting):
    """The settings for `refuse.c`, in the environment of the runs that follow."""
    for name in ("LD_PRELOAD", "AT_MOST", "FIRST", "CUTS"):
        os.environ.pop(name, None)
    if setting:
        os.environ.update({name: str(value) for name, value in setting.items()}, LD_PRELOAD=library)


def run(program, folder, words):
    ended = subprocess.run([program, *words], cwd=folder, stdin=subprocess.DEVNULL, stdout=subprocess.PIPE, check=False)
    return ended.returncode, ended.stdout, {name: it for name, it in files_in(folder).items() if name != "page"}


def try_cases(program, library, known):
    """Each case in pieces: how many runs, and those that differ."""
    wrong = []
    for setting in SETTINGS:
        cut_by(library, setting)
        wrong += [f"{case['name']}, {setting}: {found}" for case in known if (found := told_cases.differs(program, case))]
    return len(SETTINGS) * len(known), wrong


def try_halves(program, library, folder, page):
    """A page cut in two at each place."""
    put(folder, {"page": page})
    words = ["json", "none", "page"]
    cut_by(library, None)
    whole, wrong = run(program, folder, words), []
    for place in range(1, len(page)):
        cut_by(library, {"FIRST": place})
        if run(program, folder, words) != whole:
            wrong.append(f"the ordinary page, cut at {place}")
    return len(page) - 1, wrong


def try_pages(program, library, folder, paths, seed):
    """Pages in random pieces."""
    wrong = []
    words = ["minify", "html", "page", "out", "cert", *FLAGS]
    for number, path in enumerate(paths):
        ended = []
        for setting in (None, {"CUTS": seed + number}):
            for name in os.listdir(folder):
                os.unlink(os.path.join(folder, name))
            with open(path, "rb") as file:
                put(folder, {"page": file.read()})
            cut_by(library, setting)
            ended.append(run(program, folder, words))
        if ended[0] != ended[1]:
            wrong.append(path)
    return len(paths), wrong


def main():
    asked = argparse.ArgumentParser(description="pages that come in small pieces")
    asked.add_argument("--program", default=BUILT)
    asked.add_argument("--count", type=int, default=200)
    asked.add_argument("--seed", type=int, default=1)
    asked.add_argument("folders", nargs="*")
    asked = asked.parse_args()
    program = os.path.abspath(asked.program)
    found = pages(asked.folders or FOLDERS)
    paths = found[:: max(1, len(found) // asked.count)][: asked.count]
    with open(os.path.join(told_cases.DATA, "cases.txt"), encoding="utf-8", newline="\n") as file:
        known = list(told_cases.cases(file.read().split("\n")))
    ordinary = next(case["before"]["page"] for case in known if case["name"] == "minify_ordinary_page")
    bad = len(paths) < asked.count
    with tempfile.TemporaryDirectory(prefix="hminify-pieces-") as top:
        library = os.path.join(top, "refuse.so")
        subprocess.run(["cc", "-shared", "-fPIC", "-O1", "-o", library, os.path.join(HERE, "refuse.c")], check=True)
        folder = os.path.join(top, "files")
        os.mkdir(folder)
        for what, (count, wrong) in [
            ("cases in pieces", try_cases(program, library, known)),
            ("places where the ordinary page is cut in two", try_halves(program, library, folder, ordinary)),
            ("pages in random pieces", try_pages(program, library, folder, paths, asked.seed)),
        ]:
            bad = bad or bool(wrong)
            print(f"{count} {what}, {len(wrong)} differ")
            for line in wrong[:20]:
                print("    " + line)
    return 1 if bad else 0


if __name__ == "__main__":
    sys.exit(main())
