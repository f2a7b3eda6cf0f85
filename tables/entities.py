#!/usr/bin/env python3
"""entities.py OUT: writes the HTML Standard's named character references (13.5), in the form of its entities.json.

The names and their code points are those of Python's html.entities.html5. Each member is a name with its `&`, and its
value holds `codepoints` alone, so the table is one that `hminify` takes as TABLE. The names stand in byte order and the
file has one name a line. It ends with 1, and writes nothing, where Python has other than the standard's 2,231 names, or
where they don't keep the rules of a table.
"""
import collections
import html.entities
import json
import re
import sys

NAME = re.compile(r"&[A-Za-z][A-Za-z0-9]+;?")


def names():
    """Each name with the text that it stands for, in byte order."""
    return sorted(("&" + name, text) for name, text in html.entities.html5.items())


def faults(entries):
    """What keeps these from being the standard's table, in words."""
    by_name = dict(entries)
    if len(by_name) != 2231:
        yield "%d names" % len(by_name)
    for name, text in entries:
        if not NAME.fullmatch(name) or len(name) > 64:
            yield "%s is no name" % name
        if len(text) not in (1, 2) or "\0" in text:
            yield "%s stands for %d code points" % (name, len(text))
        if not name.endswith(";") and by_name.get(name + ";") != text:
            yield "%s stands for something else with its semicolon" % name
    firsts = collections.Counter(text[0] for _, text in entries)
    open_firsts = collections.Counter(text[0] for name, text in entries if not name.endswith(";"))
    for first, count in firsts.items():
        if count > 64 or open_firsts[first] > 4:
            yield "too many names for U+%04X" % ord(first)


def table(entries):
    """The text of the table."""
    lines = []
    for name, text in entries:
        value = {"codepoints": [ord(c) for c in text]}
        lines.append("%s:%s" % (json.dumps(name), json.dumps(value, separators=(",", ":"))))
    return "{\n" + ",\n".join(lines) + "\n}\n"


def main(words):
    if len(words) != 1:
        sys.exit("usage: entities.py OUT")
    entries = names()
    found = list(faults(entries))
    if found:
        sys.exit("\n".join(found))
    with open(words[0], "w", encoding="ascii", newline="\n") as out:
        out.write(table(entries))


if __name__ == "__main__":
    main(sys.argv[1:])
