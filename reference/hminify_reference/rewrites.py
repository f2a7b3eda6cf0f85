"""The six rewrites of a tree."""
import re
from dataclasses import dataclass

from . import elements
from .text import all_space, lower
from .walk import Comment, Doctype, End, Start, Text, paths

_SPACES = re.compile("[\t\n\f\r ]+")
REDUNDANT = {("form", "method", "get"), ("input", "type", "text"), ("area", "shape", "rect"),
             ("script", "type", "text/javascript"), ("script", "language", "javascript"),
             ("style", "type", "text/css")}
DROPS_SPACE = frozenset("html head table colgroup thead tbody tfoot tr select optgroup datalist "
                        "ul ol menu dir dl".split())


@dataclass(frozen=True)
class TreeOptions:
    doctype: bool = False
    comments: bool = False
    booleans: bool = False
    empty: bool = False
    redundant: bool = False
    space: bool = False
    conservative: bool = False


def join_texts(walk):
    out = []
    for e in walk:
        if isinstance(e, Text) and out and isinstance(out[-1], Text):
            out[-1] = Text(out[-1].text + e.text, e.raw)
        else:
            out.append(e)
    return out


def _attrs(walk, rule):
    """Each HTML Start with the attributes that `rule` gives for it and one of them."""
    return [Start(e.name, False, tuple(p for a in e.attrs for p in rule(e.name, a)))
            if isinstance(e, Start) and not e.foreign else e for e in walk]


def _boolean(name, a):
    return [(a[0], "")] if a[0] in elements.BOOLEAN else [a]


def _empty(name, a):
    return [] if a[0] in ("class", "id", "style") and all_space(a[1]) else [a]


def _redundant(name, a):
    return [] if (name, a[0], lower(a[1])) in REDUNDANT else [a]


def _block(walk, i):
    return 0 <= i < len(walk) and isinstance(walk[i], (Start, End)) and not walk[i].foreign \
        and walk[i].name in elements.BLOCKS


def collapse(walk, conservative):
    out = []
    for i, (e, path) in enumerate(zip(walk, paths(walk))):
        if not isinstance(e, Text):
            out.append(e)
            continue
        names = [walk[k].name for k in path]
        if e.raw or any(n in ("pre", "textarea", "svg") for n in names):
            out.append(e)
            continue
        t = _SPACES.sub(" ", e.text)
        if not conservative:
            parent, grand = names[-1], names[-2] if len(names) > 1 else None
            if t == " " and (parent in DROPS_SPACE or (parent, grand) == ("noscript", "head")):
                t = ""
            else:
                if t.startswith(" ") and _block(walk, i - 1):
                    t = t[1:]
                if t.endswith(" ") and _block(walk, i + 1):
                    t = t[:-1]
        if t:
            out.append(Text(t, e.raw))
    return out


def rewrite(walk, o):
    walk = list(walk)
    if o.doctype:
        walk = [Doctype(False) if isinstance(e, Doctype) else e for e in walk]
    if o.comments:
        walk = join_texts([e for e in walk if not isinstance(e, Comment)])
    if o.booleans:
        walk = _attrs(walk, _boolean)
    if o.empty:
        walk = _attrs(walk, _empty)
    if o.redundant:
        walk = _attrs(walk, _redundant)
    if o.space:
        walk = collapse(walk, o.conservative)
    return walk
