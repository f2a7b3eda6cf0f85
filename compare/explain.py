#!/usr/bin/env python3
"""explain.py [--program PROGRAM] [--count N] [--cases] [FOLDER ..]: what `explain` says of refused pages.

Takes N pages (40) below the folders that `tree` refuses with the standard's table, as evenly over the rules as there are pages, and compares what
`explain` prints of each with what is computed here from the bytes of the page and from the rule and the byte that `tree` tells: line, column, the part
of the line that is shown, and the caret. The sentences are those of `hm_location/specs/Explanations.antt`. Pages are `*.html`, by their names in order.
PROGRAM is `crates/hminify/out/hminify` where none is named. Without a FOLDER those of Debian's documents are taken. Prints how many pages there were of
each rule, and each that differs; ends with 1 where one does, or where there are too few.

With --cases it prints rows for `crates/hm_cases/data/cases.txt`, made of the refused pages of its `tree` cases and of the lengths of its `minify` cases,
and runs nothing. Needs the standard library of Python 3.9 or later.
"""
import argparse
import os
import re
import subprocess
import sys

sys.path.insert(0, os.path.dirname(os.path.abspath(__file__)))
import cases as told_cases  # noqa: E402
import json_pages  # noqa: E402

HERE = os.path.dirname(os.path.abspath(__file__))
SENTENCES = os.path.join(HERE, "../crates/hm_location/specs/Explanations.antt")
CASES = os.path.join(HERE, "../crates/hm_cases/data/cases.txt")
MARK = b"\xef\xbb\xbf"
MOST = 16777216


def sentences():
    """What each rule means, by its name."""
    with open(SENTENCES, encoding="utf-8") as file:
        found = re.findall(r'^meaning (\w+) = codes "((?:[^"\\]|\\.)*)"$', file.read(), re.M)
    return {name: re.sub(r"\\(.)", r"\1", text) for name, text in found}


def starts(byte):
    """Whether a byte is the first of a character."""
    return byte & 0xC0 != 0x80


def line_of(page, at):
    """The number of the line of a byte, and where it begins. A line ends with LF, CR LF or CR."""
    ends = [end.end() for end in re.finditer(rb"\r\n|\r|\n", page) if end.end() <= at]
    return 1 + len(ends), ends[-1] if ends else 0


def without_mark(front):
    return front[3:] if front.startswith(MARK) else front


def explained(name, page, rule, at):
    """The three lines for a page that is refused by a rule at a byte."""
    page = page[:MOST]
    number, begin = line_of(page, at)
    column = 1 + sum(map(starts, without_mark(page[begin:at])))
    if page[at - 1:at + 1] == b"\r\n" and at > 0:
        at -= 1
    _, begin = line_of(page, at)
    front = page[begin:at]
    if len(front) > 60:
        front = front[-60:]
        while front and not starts(front[0]):
            front = front[1:]
    rest = re.match(rb"[^\r\n]*", page[at:])[0]
    most = 40
    while most and most < len(rest) and not starts(rest[most]):
        most -= 1
    shown = re.sub(rb"[\x00-\x08\x0a-\x1f\x7f]", b"?", front + rest[:most])
    below = bytes(9 if byte == 9 else 32 for byte in without_mark(front) if starts(byte))
    return b"%s:%d:%d: %s: %s\n%s\n%s^\n" % (name, number, column, rule.encode(), sentences()[rule].encode(), shown, below)


# ---- Pages of Debian's documents

def run(program, words):
    ended = subprocess.run([program, *words], stdin=subprocess.DEVNULL, capture_output=True, check=False)
    return ended.returncode, ended.stdout


def refusals(program, folders):
    """The pages that are refused, by their rule, each with its place."""
    found = {}
    for path in sorted(json_pages.pages(folders)):
        status, line = run(program, ["tree", "html", path])
        refused = re.fullmatch(rb"page refused: (\w+) at (\d+)\n", line)
        if status == 3 and refused:
            found.setdefault(refused[1].decode(), []).append((path, int(refused[2])))
    return found


def chosen(found, count):
    """So many of them, one of each rule in turn."""
    picked, turn = [], 0
    while len(picked) < count and any(len(pages) > turn for pages in found.values()):
        picked += [(rule, *pages[turn]) for rule, pages in sorted(found.items()) if len(pages) > turn]
        turn += 1
    return picked[:count]


def try_pages(program, folders, count):
    wrong, by_rule = 0, {}
    picked = chosen(refusals(program, folders), count)
    for rule, path, at in picked:
        with open(path, "rb") as file:
            wanted = explained(path.encode(), file.read(), rule, at)
        by_rule[rule] = by_rule.get(rule, 0) + 1
        if (ended := run(program, ["explain", "html", path])) != (3, wanted):
            wrong += 1
            print(f"{path} at {at}:\n{ended[1].decode('utf-8', 'replace')}wanted\n{wanted.decode('utf-8', 'replace')}")
    print(", ".join(f"{rule} {number}" for rule, number in sorted(by_rule.items())))
    print(f"{len(picked) - wrong} of {len(picked)} as computed; {count} were asked for")
    return 1 if wrong or len(picked) < count else 0


# ---- Rows of cases

# Pages for what the cases of `tree` don't have: other line ends, tabs, characters of more bytes, a byte order mark, control characters, long lines.
PAGES = {
    "line_feeds": (b"<!doctype html>\n\n<p>a</i>", "StrayEnd"),
    "returns": (b"<!doctype html>\r\r<p>a</i>", "StrayEnd"),
    "pairs": (b"<!doctype html>\r\n\r\n<p>a</i>\r\n<p>", "StrayEnd"),
    "tabs": (b"<!doctype html>\n\t<p>\ta</i>", "StrayEnd"),
    "characters": ("<!doctype html>\n<p>é€😀</i> é".encode(), "StrayEnd"),
    "mark": (MARK + b"<!doctype html><p>a</i>", "StrayEnd"),
    "controls": (b"<!doctype html>\n<p>\x01\x7f\x1b</i>\x02", "StrayEnd"),
    "long_front": (b"<!doctype html>\n<p>" + b"0123456789" * 8 + b"</i> end", "StrayEnd"),
    "long_rest": (b"<!doctype html>\n<p>a</i>" + b"0123456789" * 8, "StrayEnd"),
    "cut_characters": (("<!doctype html>\n<p>" + "é" * 40 + "</i>é" + "é" * 40).encode(), "StrayEnd"),
}


def text_of(content):
    """The text of a case that stands for these bytes."""
    names = {10: "\\n", 13: "\\r", 9: "\\t", 92: "\\\\"}
    return "".join(names.get(byte, chr(byte) if 32 <= byte < 127 else f"\\x{byte:02x}") for byte in content)


def row(name, words, page, status, printed):
    lines = [f"case {name}", f"words {words}", f"page {text_of(page)}", f"status {status}"]
    lines += [f"says {text_of(line)}" for line in printed.split(b"\n")[:-1]]
    return "\n".join([*lines, "end"])


def refused_rows(known):
    """Two pages of each rule that the cases of `tree` have, the shortest."""
    by_rule = {}
    for case in known:
        refused = re.fullmatch(rb"page refused: (\w+) at (\d+)\n", case["printed"])
        if refused and case["words"][0] == "tree" and case["words"][1:] == ["none", "page"]:
            by_rule.setdefault(refused[1].decode(), []).append((len(case["before"]["page"]), case["name"], case["before"]["page"], int(refused[2])))
    for rule, pages in sorted(by_rule.items()):
        for _, name, page, at in sorted(pages)[:2]:
            yield row(f"explain_{name}", "explain none page", page, 3, explained(b"page", page, rule, at))


def made_rows():
    for name, (page, rule) in PAGES.items():
        yield row(f"explain_{name}", "explain html page", page, 3, explained(b"page", page, rule, page.index(b"</i>")))


def settled_rows(known):
    """Pages whose shortest length a case of `minify` tells."""
    count = 0
    for case in known:
        length = re.fullmatch(rb"length (\d+)\n", case["printed"])
        words = case["words"]
        if length and words[:5] == ["minify", "none", "page", "out", "cert"] and len(words) > 5 and count < 8:
            count += 1
            page = case["before"]["page"]
            yield row(f"explain_{case['name']}", " ".join(["explain", "none", "page", *words[5:]]), page, 0, b"page: settled, page %d output %d\n" % (len(page), int(length[1])))


def html_rows(lines):
    """The cases of `tree` with the standard's table in a file, with the word `html` in its place."""
    for block in re.findall(r"^case .*?^end$", lines, re.M | re.S):
        if "\nfile entities.json\n" in block and re.search(r"^words tree table page", block, re.M):
            block = block.replace("\nfile entities.json\n", "\n")
            block = re.sub(r"^words tree table page", "words tree html page", block, flags=re.M)
            yield re.sub(r"^case (\w+)$", r"case \1_by_word", block, flags=re.M)


def main():
    asked = argparse.ArgumentParser(description="what `explain` says of refused pages")
    asked.add_argument("--program", default=json_pages.BUILT)
    asked.add_argument("--count", type=int, default=40)
    asked.add_argument("--cases", action="store_true")
    asked.add_argument("folders", nargs="*")
    asked = asked.parse_args()
    if not asked.cases:
        return try_pages(asked.program, asked.folders or json_pages.FOLDERS, asked.count)
    with open(CASES, encoding="utf-8", newline="\n") as file:
        lines = file.read()
    known = [case for case in told_cases.cases(lines.split("\n")) if not case["name"].startswith("explain_")]
    for rows in (refused_rows(known), made_rows(), settled_rows(known), html_rows(lines)):
        for it in rows:
            print(it)
    return 0


if __name__ == "__main__":
    sys.exit(main())
