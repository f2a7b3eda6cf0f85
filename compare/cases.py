#!/usr/bin/env python3
"""cases.py [PROGRAM]: the cases of `crates/hm_cases/data/cases.txt`, run by the program on real files.

`hm_cases` runs them in memory; here each is a call of PROGRAM (`crates/hminify/out/hminify` where none is named) in a folder of
its own, and status, printed bytes and the files afterwards are compared. No other file may be there afterwards, and table and
page must be as they were. Each page that is minified is also told as JSON by `json`, and that is minified by `minifyjson`: OUT, CERT and
what is printed have to be the same. Prints how many cases there are and how many differ, with their names, and ends with 1 where one
does. Needs the standard library of Python 3.9 or later.
"""
import os
import re
import subprocess
import sys
import tempfile

HERE = os.path.dirname(os.path.abspath(__file__))
BUILT = os.path.join(HERE, "../crates/hminify/out/hminify")
DATA = os.path.join(HERE, "../crates/hm_cases/data")

ESCAPES = {"n": "\n", "r": "\r", "t": "\t", "\\": "\\"}


def bytes_of(text):
    """The bytes that a text of a case stands for."""
    def one(match):
        return chr(int(match[2], 16)) if match[2] else ESCAPES[match[1]]
    return re.sub(r"\\(?:x([0-9a-f]{2})|([nrt\\]))", lambda m: one((m[0], m[2], m[1])), text).encode("latin-1")


def cases(lines):
    """Each case: its name, words, files before, wanted status and printed bytes, and files afterwards."""
    case = None
    for line in lines:
        key, _, rest = line.partition(" ")
        if key == "case":
            case = {"name": rest, "words": [], "before": {}, "after": {}, "status": 0, "printed": b""}
        elif key == "words":
            case["words"] = rest.split(" ")
        elif key in ("table", "page"):
            case["before"][key] = bytes_of(rest)
        elif key == "file":
            with open(os.path.join(DATA, rest), "rb") as file:
                case["before"]["table"] = file.read()
        elif key in ("has_out", "has_cert"):
            case["before"][key[4:]] = case["after"][key[4:]] = bytes_of(rest)
        elif key in ("out", "cert"):
            case["after"][key] = bytes_of(rest)
        elif key == "status":
            case["status"] = int(rest)
        elif key == "|":
            case["printed"] += rest.encode() + b"\n"
        elif key == "says":
            case["printed"] += bytes_of(rest) + b"\n"
        elif key == "end":
            yield case


def put(folder, files):
    for name, content in files.items():
        with open(os.path.join(folder, name), "wb") as file:
            file.write(content)


def files_in(folder):
    """The files of a folder, by name."""
    found = {}
    for name in os.listdir(folder):
        with open(os.path.join(folder, name), "rb") as file:
            found[name] = file.read()
    return found


def differs(program, case):
    """What differs, where something does."""
    with tempfile.TemporaryDirectory() as folder:
        put(folder, case["before"])
        run = subprocess.run([program] + case["words"], cwd=folder, capture_output=True, check=False)
        wanted = {name: content for name, content in case["before"].items() if name in ("table", "page")}
        wanted.update(case["after"])
        if run.returncode != case["status"]:
            return f"status {run.returncode}, wanted {case['status']}"
        if run.stdout != case["printed"]:
            return "what is printed"
        if files_in(folder) != wanted:
            return "the files afterwards"
        return None


def by_json(program, case):
    """The case by way of JSON, where it is that of a page that is minified: the page is the JSON of its tree."""
    if "minify" not in case["words"] or case["status"] != 0:
        return []
    names = [word for word in case["words"] if not word.startswith("-")]
    with tempfile.TemporaryDirectory() as folder:
        put(folder, case["before"])
        told = subprocess.run([program, "json", *names[1:3]], cwd=folder, stdout=subprocess.PIPE, check=False).stdout
    words = ["minifyjson" if word == "minify" else word for word in case["words"]]
    return [dict(case, name=case["name"] + ", by way of JSON", words=words, before=dict(case["before"], **{names[2]: told}))]


def main():
    program = os.path.abspath(sys.argv[1] if len(sys.argv) > 1 else BUILT)
    with open(os.path.join(DATA, "cases.txt"), encoding="utf-8", newline="\n") as file:
        lines = file.read().split("\n")
    count = told = bad = 0
    for case in cases(lines):
        ways = by_json(program, case)
        count += 1
        told += len(ways)
        for way in [case, *ways]:
            if found := differs(program, way):
                bad += 1
                print(f"{way['name']}: {found}")
    print(f"{count} cases, {told} of them by way of JSON too, {bad} differ")
    return 1 if bad else 0


if __name__ == "__main__":
    sys.exit(main())
