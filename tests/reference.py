#!/usr/bin/env python3
"""reference.py [--part K/N] [--prefixes EVERY] [NAME ..]: the cases of `crates/hm_cases/data/cases.txt`, run by the reference program.

Each case is run in this process, with real files in a folder of its own. Status, printed bytes and the files afterwards have to be
those of the case, but for the cases of NOT_GIVEN, which have to differ. Each OUT that a `minify` writes has to spell the tree of its
page by `spellings.spells`, and no longer after a byte is added. With --part only each N-th case is run, from the K-th on. With
--prefixes each EVERY-th prefix of the pages that have such rows is run too. With NAMEs these cases alone are run. Of `torn` rows
nothing is run, since the reference has no store that can be made to fail. Prints how many cases there are and how many differ, with
their names, and ends with 1 if one does or none was run. Needs the standard library of Python 3.9 or later.
"""
import argparse
import contextlib
import io
import os
import sys
import tempfile
import time

HERE = os.path.dirname(os.path.abspath(__file__))
sys.path[:0] = [os.path.join(HERE, "../compare"), os.path.join(HERE, "../reference")]

import cases  # noqa: E402
from hminify_reference import files, run, spellings, words  # noqa: E402
from hminify_reference.order import reorder  # noqa: E402
from hminify_reference.rewrites import rewrite  # noqa: E402

CASES = os.path.join(cases.DATA, "cases.txt")
# The second line of the version tells the toolchain that proved the program, and the reference isn't proved.
NOT_GIVEN = {"version", "version_by_flag", "version_by_letter"}


class Output:
    """Standard output in memory."""

    def __init__(self):
        self.buffer = io.BytesIO()


def ended(given):
    """Status and printed bytes of a run in the folder of this process."""
    held, sys.stdout = sys.stdout, Output()
    try:
        with contextlib.redirect_stderr(io.StringIO()):
            status = run.run(given)
        return status, sys.stdout.buffer.getvalue()
    finally:
        sys.stdout = held


def spelled(given):
    """What is wrong with OUT as a spelling of the tree that it was written from."""
    a = words.asked(given)
    table = run.table_of(a.names[0])
    walk = rewrite(run.tree_asked(a, table)[0], a.options)
    if a.order:
        walk = reorder(table, a.rules, walk)
    out = files.load(a.names[2], run.CHECK_LIMIT)
    out = run.framed(out) if a.command == "fragment" else out
    if not spellings.spells(table, a.rules, walk, out):
        return "OUT is no spelling"
    return "OUT and a byte more is a spelling" if spellings.spells(table, a.rules, walk, out + b"<") else None


def differs(case):
    """What differs, or None."""
    cases.put(".", case["before"])
    status, printed = ended(case["words"])
    wanted = {name: content for name, content in case["before"].items() if name in ("table", "page")}
    wanted.update(case["after"])
    if status != case["status"]:
        return f"status {status}, wanted {case['status']}"
    if printed != case["printed"]:
        return "what is printed"
    if cases.files_in(".") != wanted:
        return "the files afterwards"
    return spelled(case["words"]) if printed.startswith(b"length ") else None


def prefixes(lines):
    """The rows of prefixes of each case: up to how many bytes, and the line."""
    name, found = None, {}
    for line in lines:
        key, _, rest = line.partition(" ")
        if key == "case":
            name = rest
        elif key == "prefixes":
            most, _, said = rest.partition(" ")
            found.setdefault(name, []).append((int(most), said))
    return found


def prefix_differs(case, rows, every):
    """How many prefixes were run, and those that differ."""
    page, count, wrong, least = case["before"]["page"], 0, [], 0
    for most, said in rows:
        for size in range(least, most + 1):
            if size % every:
                continue
            cases.put(".", dict(case["before"], page=page[:size]))
            wanted = (said[:-1] + str(size) if said.endswith("#") else said).encode() + b"\n"
            count += 1
            if ended(case["words"])[1] != wanted:
                wrong.append(size)
        least = most + 1
    return count, wrong


def in_folder(call, *given):
    """A call in a folder of its own."""
    before = os.getcwd()
    with tempfile.TemporaryDirectory() as folder:
        os.chdir(folder)
        try:
            return call(*given)
        finally:
            os.chdir(before)


def picked(asked, lines):
    part, parts = map(int, asked.part.split("/"))
    for number, case in enumerate(cases.cases(lines)):
        if case["name"] in asked.names if asked.names else number % parts == part - 1:
            yield case


def options():
    asked = argparse.ArgumentParser(description="the cases, run by the reference program")
    asked.add_argument("--part", default="1/1")
    asked.add_argument("--prefixes", type=int, default=0)
    asked.add_argument("--slow", type=float, default=0, help="name the cases that take so many seconds")
    asked.add_argument("names", nargs="*")
    return asked.parse_args()


def main():
    asked = options()
    with open(CASES, encoding="utf-8", newline="\n") as file:
        lines = file.read().split("\n")
    rows = prefixes(lines) if asked.prefixes else {}
    count = cut = bad = 0
    for case in picked(asked, lines):
        begun = time.monotonic()
        count += 1
        found = in_folder(differs, case)
        if bool(found) != (case["name"] in NOT_GIVEN):
            bad += 1
            print(f"{case['name']}: {found or 'is as wanted, though it is listed as not given'}")
        if case["name"] in rows:
            run_here, wrong = in_folder(prefix_differs, case, rows[case["name"]], asked.prefixes)
            cut, bad = cut + run_here, bad + len(wrong)
            if wrong:
                print(f"{case['name']}: prefixes of {wrong[:5]} bytes")
        if asked.slow and time.monotonic() - begun > asked.slow:
            print(f"{case['name']}: {time.monotonic() - begun:.1f} seconds")
    print(f"{count} cases, {cut} prefixes, {bad} differ")
    return 1 if bad or not count else 0


if __name__ == "__main__":
    sys.exit(main())
