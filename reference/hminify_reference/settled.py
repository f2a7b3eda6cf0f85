"""Settled trees: those that a page can say without repair (#element-restrictions, #cdata-rcdata-restrictions)."""
import re

from . import elements
from .text import all_space
from .tokens import raw_end, script_end
from .construction import open_p
from .walk import Comment, Doctype, End, Start, Text

_BAD_ATTR = re.compile("[A-Z\t\n\f\r />=\"'<\0]")


def whitespace_only(parent, grand):
    return parent in ("head", "table", "tr", "colgroup", "select", "optgroup") \
        or parent in elements.SECTIONS or (parent == "noscript" and grand == "head")


def first_break(walk):
    """(event, point) of the first event that breaks a point, with the least such point, or None. Judged event by
    event, by the open elements and the event before."""
    judge = Judge()
    for i, e in enumerate(walk):
        broken = judge.broken(e)
        if broken:
            return (i, min(broken))
        judge.pass_over(e)
    return None if judge.seen >= {"doctype", "html"} else (len(walk), 1)


class Judge:
    """The open elements, the event before, and which of the doctype, html, head and body came."""

    def __init__(self):
        self.path, self.before, self.seen = [], None, set()

    def in_html(self):
        return self.path == [("html", False)]

    def parents(self):
        """The name of the parent, whether it is foreign, and the name of the parent's parent."""
        name, foreign = self.path[-1] if self.path else (None, False)
        return name, foreign, self.path[-2][0] if len(self.path) > 1 else None

    def pass_over(self, e):
        if isinstance(e, Doctype):
            self.seen.add("doctype")
        elif isinstance(e, Start):
            if not e.foreign and e.name in elements.ROOTS:
                self.seen.add(e.name)
            self.path.append((e.name, e.foreign))
        elif isinstance(e, End):
            self.path.pop()
        self.before = e

    def broken(self, e):
        """The points that an event breaks."""
        name, foreign, _ = self.parents()
        before, points = self.before, set()
        if isinstance(before, Start) and not before.foreign and before.name in elements.VOID and not isinstance(e, End):
            points.add(5)
        if name in elements.RAWISH | elements.RCDATA and not foreign and not isinstance(e, (Text, End)):
            points.add(6)
        if isinstance(e, Doctype) and (self.path or self.seen):
            points.add(1)
        if isinstance(e, End) and self.in_html() and not self.seen >= {"head", "body"}:
            points.add(2)
        if isinstance(e, Comment):
            points |= comment_breaks(e.text)
        if isinstance(e, Text):
            points |= self.text_breaks(e)
        if isinstance(e, Start):
            points |= self.root_breaks(e) | self.html_breaks(e) | self.svg_breaks(e) | attribute_breaks(e)
            if len(self.path) >= 512:
                points.add(10)
        return points

    def text_breaks(self, e):
        """#text-2, #cdata-rcdata-restrictions."""
        name, foreign, grand = self.parents()
        points = set() if self.path else {1}
        if self.in_html() and ("head" not in self.seen or "body" in self.seen or not all_space(e.text)):
            points.add(2)
        raw = not foreign and name in elements.RAWISH
        if e.text == "" or "\0" in e.text or isinstance(self.before, Text) or e.raw != raw:
            points.add(6)
        if name is not None and not foreign and whitespace_only(name, grand) and not all_space(e.text):
            points.add(6)
        if raw and ("\r" in e.text or not ends_there(name, e.text)):
            points.add(7)
        return points

    def root_breaks(self, e):
        """html, head and body come once, in their order, and nothing else beside them."""
        root = e.name if not e.foreign and e.name in elements.ROOTS else None
        points = set()
        if not self.path and not (root == "html" and "doctype" in self.seen and "html" not in self.seen):
            points.add(1)
        if self.in_html():
            in_turn = root == "head" and "head" not in self.seen \
                or root == "body" and "head" in self.seen and "body" not in self.seen
            if not in_turn:
                points.add(2)
        elif root and (self.path or root != "html"):
            points.add(2)
        return points

    def html_breaks(self, e):
        """#element-restrictions."""
        if e.foreign or e.name in elements.ROOTS:
            return set()
        name, foreign, grand = self.parents()
        holds = name is not None and not foreign and elements.NAME.match(e.name) and e.name not in elements.REFUSED \
            and elements.may_stand(e.name, name, grand) and not elements.yields(name, e.name) \
            and not (elements.closes_p(e.name) and open_p(self.path)) \
            and not (e.name in elements.NESTED and (e.name, False) in self.path) \
            and not (e.name in elements.HEADINGS and any(n in elements.HEADINGS and not f for n, f in self.path))
        return set() if holds else {3}

    def svg_breaks(self, e):
        """#parsing-main-inforeign."""
        name, foreign, grand = self.parents()
        holds = e.foreign == (e.name == "svg" or foreign)
        if e.foreign and not foreign and name is not None:
            holds = holds and elements.may_stand("svg", name, grand)
        if foreign:
            holds = holds and e.name in elements.SVG and name not in ("title", "desc")
        return set() if holds else {4}


def ends_there(name, text):
    """The text of such an element ends before its own end tag and not earlier."""
    whole = text + "</" + name + ">"
    return (script_end(whole) if name == "script" else raw_end(name, whole)) == len(text)


def comment_breaks(text):
    """#comments."""
    points = {6} if "\0" in text else set()
    if "\r" in text or text.startswith((">", "->")) or "-->" in text or "--!>" in text:
        points.add(8)
    return points


def attribute_breaks(e):
    """#attributes-2."""
    points = {6} if any("\0" in value for _, value in e.attrs) else set()
    names = [name for name, _ in e.attrs]
    if len(names) > 256 or len(set(names)) < len(names) or any(n == "" or _BAD_ATTR.search(n) for n in names):
        points.add(9)
    return points
