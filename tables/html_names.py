#!/usr/bin/env python3
"""html_names.py TABLE FOLDER: writes the source files of hm_html_names that hold the names of a table of character references.

Run it at the top of the repository, after entities.json has changed:

    python3 tables/html_names.py tables/entities.json crates/hm_html_names/src

It writes names.rt and points.rt (the names and their code points), prefixes.rt, depths.rt, last_bytes.rt, counts.rt and
places.rt (the trie of the names, a file for each list), and index.rt (the names in the order of their code points). The
check of hm_html_names proves that they are a table with its trie and its index, and the program hm_html_cases compares
that table with entities.json.
"""
import collections
import json
import os
import sys

WIDTH = 130


def rows(items):
    """Lines of items with commas."""
    line = ""
    for item in items:
        if line and len(line) + len(item) + 6 > WIDTH:
            yield "    " + line
            line = ""
        line += (" " if line else "") + item + ","
    yield "    " + line


def numbers(name, kind, comment, values):
    """A constant array."""
    yield "/// %s" % comment
    yield "#[rattlefmt::skip]"
    yield "pub(crate) static %s: [%s; %d] = [" % (name, kind, len(values))
    yield from rows(values)
    yield "];"
    yield ""


def text(head, comment, tail, pieces):
    """A constant text of pieces."""
    yield "/// %s" % comment
    yield "#[rattlefmt::skip]"
    yield head
    line = ""
    for piece in pieces:
        if len(line) + len(piece) + 5 > WIDTH:
            yield "    " + line + "\\"
            line = ""
        line += piece
    yield "    " + line + tail
    yield ""


def char(point):
    """A code point as a character of the language."""
    return "'\\u{%x}'" % point if point else "'\\0'"


def nodes(names):
    """The nodes of the trie, shorter prefixes first: the first name, the depth, the last byte, and the children of each."""
    waiting = collections.deque([(0, len(names), 0)])
    while waiting:
        low, high, depth = waiting.popleft()
        children = []
        at = low + (len(names[low]) == depth + 1)
        while at < high:
            end = at
            while end < high and names[end][depth + 1] == names[at][depth + 1]:
                end += 1
            children.append((at, end, depth + 1))
            at = end
        waiting.extend(children)
        yield low, depth, names[low][depth], len(children)


def write(folder, name, lines):
    with open(os.path.join(folder, name), "w", encoding="ascii", newline="\n") as out:
        out.write("\n".join(lines).rstrip("\n") + "\n")


def main(words):
    if len(words) != 2:
        sys.exit("usage: html_names.py TABLE FOLDER")
    with open(words[0], encoding="utf-8") as file:
        table = json.load(file)
    names = sorted(table)
    points = [table[name]["codepoints"] for name in names]
    trie = list(nodes(names))
    place = {names[low][: depth + 1]: number for number, (low, depth, _, _) in enumerate(trie)}
    order = sorted(range(len(names)), key=lambda number: points[number][0])
    made = "// Written by tables/html_names.py from tables/entities.json. Do not edit."

    def file(name, comment, *lists):
        write(words[1], name, ["//! " + comment, made, "", *(line for it in lists for line in it)])

    file(
        "names.rt", "The HTML Standard's named character references (#named-character-references), in byte order.",
        text("pub(crate) static TEXT: &str = \"\\", "The names, the `&` included, one after another.", "\";", names),
        numbers("LENGTHS", "u8", "How many bytes each name has.", [str(len(name)) for name in names]),
    )
    file(
        "points.rt", "The code points of the names.",
        numbers("FIRSTS", "char", "The first code point of each name.", [char(p[0]) for p in points]),
        numbers("SECONDS", "char", "The second code point of each name, or U+0000.", [char(p[1] if len(p) > 1 else 0) for p in points]),
    )
    file(
        "prefixes.rt", "The trie of the names: their prefixes, shorter ones first and in byte order.",
        numbers("NAMES", "u16", "The number of the first name that starts with the prefix.", [str(n[0]) for n in trie]),
    )
    file(
        "depths.rt", "The lengths of the prefixes.",
        numbers("DEPTHS", "u8", "How many bytes each prefix has after its `&`.", [str(n[1]) for n in trie]),
    )
    file(
        "last_bytes.rt", "The last bytes of the prefixes.",
        text("pub(crate) static BYTES: [u8; %d] = *b\"\\" % len(trie), "The last byte of each prefix.", "\";", [n[2] for n in trie]),
    )
    file(
        "counts.rt", "The children of the prefixes.",
        numbers("COUNTS", "u8", "How many children each prefix has: prefixes of one byte more.", [str(n[3]) for n in trie]),
    )
    file(
        "places.rt", "The places of the names in their trie.",
        numbers("PLACES", "u16", "The number of the prefix that each name is.", [str(place[name]) for name in names]),
    )
    file(
        "index.rt", "The names in the order of their first code points; those with the same one are in byte order.",
        numbers("POINTS", "char", "The first code point of each name.", [char(points[number][0]) for number in order]),
        numbers("NUMBERS", "u16", "The number of each name.", [str(number) for number in order]),
    )


if __name__ == "__main__":
    main(sys.argv[1:])
