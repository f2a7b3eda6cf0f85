"""Which tags may be left out (#optional-tags)."""
from dataclasses import dataclass

from . import elements
from .text import is_space
from .walk import Comment, End, Start, Text

HEAD_LIKE = frozenset("link meta noscript script style".split())
P_UP = (elements.B - {"hr", "p", "table"}) | frozenset("button li dd dt td th caption object".split())


@dataclass(frozen=True)
class Rules:
    omit: bool = False
    unquote: bool = False
    tight: bool = False
    ascii: bool = False
    frame: bool = False


def _html_start(e, names):
    return isinstance(e, Start) and not e.foreign and (names is None or e.name in names)


def may_omit_start(walk, i):
    """Without `omit`, the clauses on the event directly before, and `frame`."""
    e, inside = walk[i], walk[i + 1]
    if e.foreign or e.attrs:
        return False
    if e.name == "html":
        return not isinstance(inside, Comment)
    if e.name == "head":
        return isinstance(inside, (End, Start))
    if e.name == "body":
        if isinstance(inside, End):
            return True
        return not (isinstance(inside, Comment)
                    or isinstance(inside, Text) and is_space(inside.text[0])
                    or _html_start(inside, HEAD_LIKE))
    if e.name == "colgroup":
        return _html_start(inside, {"col"})
    if e.name == "tbody":
        return _html_start(inside, {"tr"})
    return False


def needs_firm(walk, i):
    """The clause on the event before bites where that End's tag was omitted."""
    e = walk[i]
    before = walk[i - 1] if i else None
    if not isinstance(before, End) or before.foreign or e.foreign:
        return False
    return e.name == "tbody" and before.name in elements.SECTIONS \
        or e.name == "colgroup" and before.name == "colgroup"


_END_STARTS = {"caption": elements.SECTIONS | {"colgroup"}, "thead": {"tbody", "tfoot"},
               "tbody": {"tbody", "tfoot"}, "tfoot": set(), "tr": {"tr"}, "td": {"td", "th"},
               "th": {"td", "th"}, "li": {"li"}, "dt": {"dt", "dd"}, "dd": {"dt", "dd"},
               "rt": {"rt", "rp"}, "rp": {"rt", "rp"}, "optgroup": {"optgroup"},
               "option": {"option", "optgroup"}, "p": elements.B}
_END_UP = frozenset("caption tbody tfoot tr td th li dd rt rp optgroup option p".split())


def may_omit_end(walk, i):
    """By the event after it alone."""
    e = walk[i]
    if e.foreign:
        return False
    nxt = walk[i + 1] if i + 1 < len(walk) else None
    if e.name in ("html", "body"):
        return not isinstance(nxt, Comment)
    if e.name in ("head", "colgroup"):
        return not isinstance(nxt, (Text, Comment))
    if e.name not in _END_STARTS:
        return False
    if isinstance(nxt, Start):
        return _html_start(nxt, _END_STARTS[e.name])
    if not isinstance(nxt, End) or e.name not in _END_UP:
        return False
    up = nxt.name
    if e.name == "option":
        return up != "datalist"
    if e.name == "p":
        return up == "body" or up in P_UP
    return True


def omit_start(walk, i, rules, dropped):
    """Whether a start tag may be left out; `dropped`: the event before it is an end whose tag was left out."""
    return rules.omit and may_omit_start(walk, i) and not (dropped and needs_firm(walk, i)) \
        and not (rules.frame and walk[i].name == "body")


def omit_end(walk, i, rules):
    """Whether an end tag may be left out."""
    return rules.omit and may_omit_end(walk, i)


