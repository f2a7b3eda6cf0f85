#!/usr/bin/env python3
"""element_names.py CRATE: writes the source files of hm_elements that hold the tables of names by number.

Run it at the top of the repository, after a list in the crate's definitions has changed:

    python3 tables/element_names.py crates/hm_elements

It reads the names that have a number from specs/Numbers.antt and the tables from the other definitions, and writes
src/names.rt (the name with each number), src/slots.rt (the number that a name with a hash may have), src/rows.rt (what
the tables say of each number) and src/kinds.rt (the kind with each number). The check of hm_elements proves that these
are the tables of the definitions. A name of a table that has no number is told.
"""
import os
import random
import re
import sys

WIDTH = 130
SLOTS = 2048
SOURCES = ["Names", "Tables", "Attributes", "Paths", "Nesting", "Omission", "Numbers", "Rows"]


class Definitions:
    """Lists of names, and tables of rows of them, as the definitions write them."""

    def __init__(self, folder):
        self.bodies = {}
        for source in SOURCES:
            with open(os.path.join(folder, source + ".antt"), encoding="utf-8") as file:
                text = re.sub(r"^--.*$", "", file.read(), flags=re.M)
            for name, body in re.findall(r"^(\w+) =((?:.*\n(?:[ ].*\n?)*))", text, flags=re.M):
                self.bodies[name] = body

    def of(self, name):
        """What the definition says."""
        self.rest = re.findall(r'"[^"]*"|\+\+|∷|\[\]|[(){};=]|\w+', self.bodies[name])
        return self.list()

    def list(self):
        """A list: its entries, or lists one after the other."""
        head = self.entry()
        if self.rest and self.rest[0] == "∷":
            self.rest.pop(0)
            return [head] + self.list()
        if self.rest and self.rest[0] == "++":
            self.rest.pop(0)
            return head + self.list()
        return head

    def entry(self):
        word = self.rest.pop(0)
        if word == "(":
            inner = self.list()
            self.rest.pop(0)
            return inner
        if word == "[]":
            return []
        if word == "words":
            return self.rest.pop(0)[1:-1].split()
        if word == "codes":
            return self.rest.pop(0)[1:-1]
        if word == "row":
            return self.rest.pop(0)[1:-1].split(), self.entry()
        if word == "without":
            left, names = self.entry(), self.entry()
            return [n for n in names if n not in left]
        if word == "record":
            fields = {}
            while self.rest.pop(0) != "}":
                key = self.rest.pop(0)
                self.rest.pop(0)
                fields[key] = self.list()
                if self.rest[0] == "}":
                    self.rest.pop(0)
                    break
            return fields["heads"], fields["names"]
        after, self.rest = self.rest, None
        value = self.of(word)
        self.rest = after
        return value


def find(table, name):
    """The second names of the first row with this name among its first ones."""
    return next((names for heads, names in table if name in heads), None)


class Tables:
    """What the definitions ask of names."""

    def __init__(self, folder):
        told = Definitions(folder)
        self.names = [name or "" for name in told.of("names")]
        self.flags = told.of("flags")
        (self.closed_by_start_rows, self.end_rows, self.children, self.own_parents, self.before_rows, self.bound, self.up_names, self.up_of_p, self.start_rows) = map(
            told.of, ["closed_by_start_rows", "end_rows", "children", "own_parents", "before_rows", "bound_names", "up_names", "up_of_p", "start_rows"])
        self.lists = {name: told.of(name) for name in ["roots", "voids", "rcdata_names", "raw_names", "parts", "refused_names", "headings", "unnested_names", "paragraph_ends", "boundaries", "block_names", "sections"]}
        lists = list(self.flags) + [self.bound, self.up_names, self.up_of_p, ["html", "head", "body", "div", "dl", "noscript"]]
        for table in [self.closed_by_start_rows, self.end_rows, self.children, self.own_parents, self.before_rows, self.start_rows]:
            lists += [names for row in table for names in row]
        for name in sorted({name for names in lists for name in names} - set(self.names)):
            sys.exit("no number: %s" % name)

    def closed_by_start(self, name):
        if name == "colgroup":
            return lambda following: following != "col"
        names = find(self.closed_by_start_rows, name) or []
        return lambda following: following in names

    def is_ended_by(self, name):
        names = find(self.end_rows, name) or []
        return lambda ending: ending in names

    def stands_in(self, parent):
        names = find(self.children, parent)
        if names is not None:
            return lambda name: name in names

        def by_parents(name):
            parents = find(self.own_parents, name)
            return name not in self.bound if parents is None else parent in parents
        return by_parents

    def optional_before(self, name):
        if name == "colgroup":
            return lambda following: True
        names = find(self.before_rows, name) or []
        return lambda following: following in names

    def optional_in(self, name):
        if name == "p":
            return lambda parent: parent in self.up_of_p
        if name == "option":
            return lambda parent: parent != "datalist"
        return lambda parent: name in self.up_names

    def start_optional_before(self, name):
        names = find(self.start_rows, name) or []
        return lambda child: child in names

    def start_required_after(self, name):
        if name == "tbody":
            return lambda before: before in self.lists["sections"]
        return lambda before: name == "colgroup" and before == "colgroup"

    def class_of(self, name):
        lists = self.lists
        for kind, names in [("Root", lists["roots"]), ("Void", lists["voids"]), ("Rcdata", lists["rcdata_names"]), ("Script", ["script"]), ("Raw", lists["raw_names"]), ("TablePart", lists["parts"] + ["table"]), ("Refused", lists["refused_names"])]:
            if name in names:
                return kind
        return "Ordinary"

    def kind(self, name):
        """The fields of a kind."""
        lists = self.lists
        return (
            ("class", "Class::" + self.class_of(name)),
            ("heading", name in lists["headings"]),
            ("unnested", name in lists["unnested_names"]),
            ("closes_p", name in lists["paragraph_ends"]),
            ("boundary", name in lists["boundaries"]),
            ("block", name in lists["block_names"]),
            ("is_closed_by_start", name == "colgroup" or find(self.closed_by_start_rows, name) is not None),
            ("closes_open_p", self.closed_by_start("p")(name)),
            ("ends", find(self.end_rows, name) is not None),
            ("p_ends", self.is_ended_by("p")(name)),
            ("has_children", find(self.children, name) is not None),
            ("has_parents", find(self.own_parents, name) is not None),
            ("bound", name in self.bound),
        )


def rows(items):
    """Lines of items with commas."""
    line = ""
    for item in items:
        if line and len(line) + len(item) + 6 > WIDTH:
            yield "    " + line
            line = ""
        line += (" " if line else "") + item + ","
    yield "    " + line


def array(name, kind, count, comment, items):
    """A constant array."""
    yield ""
    yield "/// %s" % comment
    yield "#[rattlefmt::skip]"
    yield "pub(crate) static %s: [%s; %s] = [" % (name, kind, count)
    yield from rows(items)
    yield "];"


def numbers(name, kind, comment, values):
    return array(name, kind, "NAME_COUNT", comment, map(str, values))


def hash_of(name, factors):
    """The hash of a name, as specs/Numbers.antt has it."""
    count = len(name)
    parts = [count % 32] + [ord(name[i]) for i in (0, count // 3, count // 2, count - 1)]
    return sum(a * b for a, b in zip(parts, factors)) % SLOTS


def slots(names):
    """Factors of a hash that tells the names apart, and the number at each hash."""
    guesses = random.Random(1)
    while True:
        factors = [guesses.randrange(1, SLOTS) for _ in range(5)]
        at = {}
        for number, name in enumerate(names):
            if name and at.setdefault(hash_of(name, factors), number) != number:
                break
        else:
            return factors, [at.get(i, 0) for i in range(SLOTS)]


def by_class(names, answers):
    """The class of each name, so that names of one class have one row of answers, and its answer of each class as bits."""
    seen = {}
    classes = [seen.setdefault(tuple(map(answers(name), names)), len(seen)) for name in names]
    return classes, [sum(row[i] << k for row, k in seen.items()) for i in range(len(names))]


def write_names(tables):
    yield "//! The names that have a number of their own. Written by `tables/element_names.py`."
    yield ""
    yield "/// How many numbers there are."
    yield "pub(crate) const NAME_COUNT: usize = %d;" % len(tables.names)
    yield from array("NAMES", "&str", "NAME_COUNT", "Each name at its number; 0 is any other name.", ['"%s"' % name for name in tables.names])


def write_slots(tables):
    factors, values = slots(tables.names)
    yield "//! Which number a name may have, by a hash of some of its bytes. Written by `tables/element_names.py`."
    yield ""
    for name, what, factor in zip(["LENGTH", "FIRST", "THIRD", "HALF", "LAST"], ["length", "first byte", "byte at a third", "byte at half", "last byte"], factors):
        yield "/// What the hash multiplies a name's %s by." % what
        yield "pub(crate) const BY_%s: usize = %d;" % (name, factor)
        if name != "LAST":
            yield ""
    yield from array("SLOTS", "u8", str(SLOTS), "The number of the name with this hash; 0 if there is none.", map(str, values))


def write_rows(tables):
    yield "//! What the tables say of names, by number. Written by `tables/element_names.py`."
    yield ""
    yield "use crate::names::NAME_COUNT;"
    yield ""
    yield "/// How many lists have a flag."
    yield "pub(crate) const FLAG_COUNT: u8 = %d;" % len(tables.flags)
    yield from numbers("FLAGS", "u32", "In which of the lists each name is: a bit for each list.", [sum((name in names) << k for k, names in enumerate(tables.flags)) for name in tables.names])
    for name, answers, classes_comment, masks_comment in [
        ("CLOSED", tables.closed_by_start, "Open elements that close before the same start tags have one class.", "Which classes close before the start tag of each name: a bit for each class."),
        ("END", tables.is_ended_by, "Open elements that end with the same end tags have one class.", "Which classes end with the end tag of each name."),
        ("PARENT", tables.stands_in, "Parents in which the same elements stand have one class.", "In which classes an element of each name stands."),
        ("BEFORE", tables.optional_before, "Elements whose end tags may be left out before the same start tags have one class.", "The end tags of which classes may be left out before the start tag of each name."),
        ("INSIDE", tables.optional_in, "Elements whose end tags may be left out at the end of the same parents have one class.", "The end tags of which classes may be left out at the end of each parent."),
    ]:
        classes, masks = by_class(tables.names, answers)
        yield from numbers(name + "_CLASSES", "u8", classes_comment, classes)
        yield from numbers(name + "_MASKS", "u32", masks_comment, masks)


def write_kinds(tables):
    yield "//! What the tables say of each name at once, by number. Written by `tables/element_names.py`."
    yield ""
    yield "use crate::class::Class;"
    yield "use crate::kind::Kind;"
    yield "use crate::names::NAME_COUNT;"
    first, among = {}, {}
    for name in tables.names:
        kind = tables.kind(name)
        first.setdefault(kind, name or "other")
        among.setdefault(kind, []).append(name)
    plain = dict(tables.kind(""))
    for kind, name in first.items():
        yield ""
        shown = ["`%s`" % n for n in among[kind] if n]
        yield "/// " + ("Any other name." if name == "other" else "%s%s." % (", ".join(shown[:6]), " and so on" if shown[6:] else ""))
        yield "const %s: Kind = Kind {" % name.upper()
        if name == "other":
            yield "    number: 0,"
        for key, value in kind:
            if name == "other" or value != plain[key]:
                yield "    %s: %s," % (key, str(value).lower() if value in (True, False) else value)
        if name != "other":
            yield "    ..OTHER"
        yield "};"
    yield from array("KINDS", "Kind", "NAME_COUNT", "The kind with each number.", ["Kind { number: %d, ..%s }" % (i, first[tables.kind(name)].upper()) if i else "OTHER" for i, name in enumerate(tables.names)])


def main():
    if len(sys.argv) != 2:
        sys.exit(__doc__)
    tables = Tables(os.path.join(sys.argv[1], "specs"))
    for name, lines in [("names", write_names), ("slots", write_slots), ("rows", write_rows), ("kinds", write_kinds)]:
        with open(os.path.join(sys.argv[1], "src", name + ".rt"), "w", encoding="utf-8") as file:
            file.writelines(line + "\n" for line in lines(tables))


main()
