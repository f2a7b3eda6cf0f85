"""The layered graph of all spellings: units, states, edges, least prices and the first way."""
from collections import namedtuple

from . import elements
from .omission import may_omit_end, may_omit_start, needs_firm
from .spellings import ascii_allows, newline_due
from .references import best_number
from .text import DIGITS, HEX, LETTERS, WHITESPACE, utf8_len
from .walk import Comment, Doctype, End, Start, Text

Unit = namedtuple("Unit", "kind event attr spot c next", defaults=(None, None, None, None))
State = namedtuple("State", "at pending")
NOTHING, LT, HASH, HASHX, DEC, HEXN, CLOSE1, CLOSE2 = (
    ("Nothing",), ("Lt",), ("Hash",), ("HashX",), ("Dec",), ("Hex",), ("Close1",), ("Close2",))
SPOTS = {"InU": "Unquoted", "InD": "Double", "InS": "Single"}
VALUES = ("Unquoted", "Double", "Single")
FIRST = State("Out", NOTHING)


def amp(node):
    return ("Amp", node)


def named(node):
    return ("Named", node)


def half(left):
    return ("Half", left)


def step_byte(pending, table, spot, c):
    """One byte; c is a code point below 80 hex, or any other for a byte that is above."""
    kind = pending[0]
    if kind == "Nothing":
        return NOTHING
    value = spot in VALUES
    if kind == "Lt":
        if spot == "Rcdata":
            return None if c == "/" else NOTHING
        return None if c in LETTERS or c in "/!?" else NOTHING
    if kind == "Dec":
        return None if c in DIGITS or c == ";" else NOTHING
    if kind == "Hex":
        return None if c in HEX or c == ";" else NOTHING
    if kind == "Hash":
        return None if c in DIGITS else HASHX if c in "xX" else NOTHING
    if kind == "HashX":
        return None if c in HEX else NOTHING
    if kind == "Half":
        return None
    node = pending[1]
    child = table.child(node, c)
    alnum = c in LETTERS or c in DIGITS or c == "="
    if kind == "Amp":
        if value and table.is_name(node):
            return None if not alnum else amp(child) if child else NOTHING
        if child and table.is_name(child) and (not value or c == ";"):
            return None
        return amp(child) if child else HASH if node == "&" and c == "#" else NOTHING
    assert kind == "Named"
    if value:
        return None if alnum or (c == ";" and child) else NOTHING
    if child and table.is_name(child):
        return None
    return named(child) if child else NOTHING


def step(pending, table, spot, s):
    """All bytes of s."""
    for c in s:
        for _ in range(utf8_len(c)):
            if pending == NOTHING:
                break
            pending = step_byte(pending, table, spot, c)
            if pending is None:
                return None
    return pending


def may_end(pending, table, spot):
    if pending[0] == "Half":
        return False
    return not (spot in VALUES and pending[0] == "Amp" and table.is_name(pending[1]))


def units_of(walk):
    """The units of a walk, in order."""
    out, stack = [], []
    for k, e in enumerate(walk):
        if isinstance(e, (Doctype, Comment)):
            out.append(Unit("Fixed", k, "Whole"))
        elif isinstance(e, Text):
            if e.raw:
                out.append(Unit("Fixed", k, "Whole"))
                continue
            p = walk[stack[-1]]
            spot = "Foreign" if p.foreign else "Rcdata" if p.name in elements.RCDATA else "Text"
            if newline_due(walk, k, stack[-1]):
                out.append(Unit("Fixed", k, "Newline"))
            out.extend(_chars(k, None, spot, e.text))
        elif isinstance(e, Start):
            if not e.attrs:
                out.append(Unit("Start", k))
            else:
                out.append(Unit("Head", k))
                out.extend(attr_units(walk, k))
                out.append(Unit("Finish", k))
            stack.append(k)
        else:
            if e.foreign or e.name not in elements.VOID:
                out.append(Unit("End", k))
            stack.pop()
    return out


def attr_units(walk, k):
    for a, (_, value) in enumerate(walk[k].attrs):
        if value == "":
            yield Unit("Bare", k, a)
            continue
        yield Unit("AttrBegin", k, a)
        yield from _chars(k, a, "Value", value)
        yield Unit("AttrFinish", k, a)


def _chars(k, a, spot, text):
    for j, c in enumerate(text):
        yield Unit("Char", k, a, spot, c, text[j + 1] if j + 1 < len(text) else None)


class Graph:
    """`fmt` is the certificate's format; the graph of format 3 has no edges that are dominated."""

    def __init__(self, table, rules, walk, units=None, fmt=2):
        self.table, self.rules, self.walk, self.fmt = table, rules, walk, fmt
        self.units = units_of(walk) if units is None else units
        self._layers = None
        self._char = {}

    # the edges of a unit from a state: pairs of bytes (as a text) and a state

    def edges(self, layer, s):
        all_of = self.all_edges(layer, s)
        if self.fmt != 3:
            return all_of
        kept = without_dominated(all_of, lambda t, s: [0] if serves(t, s) else [])
        return without_dominated(kept, lambda t, s: self.bounds(layer + 1, t, s))

    # format 3: which edges dominate others, in view of the units after

    def bounds(self, k, t, s):
        """Numbers h such that, over the units from k on, for each way from s there is one from t
        with at most h bytes more."""
        if t.at in SPOTS and s.at in SPOTS and t.at != s.at and t.pending == s.pending == NOTHING:
            yield from self.bound_of_forms(self.value_from(k), t.at, s.at)

    def value_from(self, k):
        """The code points of the value that begins at unit k."""
        v = []
        while self.units[k].kind == "Char":
            v.append(self.units[k].c)
            k += 1
        assert self.units[k].kind == "AttrFinish"
        return v

    def bound_of_forms(self, v, t, s):
        """How many bytes more the value and what follows may have in the form t than in s, where all
        that may be written as itself in s may be so in t."""
        may = lambda at, c: self.literal_may(SPOTS[at], c)   # noqa: E731
        quote = lambda at: 0 if at == "InU" else 1   # noqa: E731
        if all(may(t, c) or not may(s, c) for c in v):
            after = 1 if t == "InU" else 0     # a space, which isn't needed after a quote
            gains = any(may(t, c) and not may(s, c) and self.is_costly(v, i) for i, c in enumerate(v))
            yield quote(t) - quote(s) + after - (3 if gains else 0)

    def is_costly(self, v, i):
        """Each reference to the character has at least 3 bytes more there, and as itself it breaks
        nothing that & doesn't break."""
        names, c = self.table.names, v[i]
        return c in "\n\f \"'<>`=" and all(len(n) >= 4 for n, p in names.items() if p == (c,)) \
            and not any(p[1:] == (c,) for p in names.values()) \
            and (c, *v[i + 1:i + 2]) not in [p for p in names.values() if len(p) == 2] \
            and not (c == "=" and i and any(p[-1] == v[i - 1] and not n.endswith(";") for n, p in names.items()))

    def all_edges(self, layer, s):
        u = self.units[layer]
        if u.kind == "Char":
            key = (u.spot, u.c, u.next, s)
            if key not in self._char:
                self._char[key] = list(self.char_edges(u, s))
            return self._char[key]
        if u.kind in ("Fixed", "Start", "End"):
            return list(self.tag_edges(u, s))
        return list(self.attr_edges(u, s))

    def svg_alone(self, k):
        return self.walk[k].foreign and isinstance(self.walk[k + 1], End)

    def tag_edges(self, u, s):
        walk, k, rules = self.walk, u.event, self.rules
        e = walk[k]
        if u.kind == "Fixed":
            yield (fixed_bytes(e, u.attr), FIRST)
        elif u.kind == "Start":
            if rules.omit and may_omit_start(walk, k) and not (rules.frame and e.name == "body") \
                    and not (s.at == "Loose" and needs_firm(walk, k)):
                yield ("", State("Out", s.pending) if s.at == "Loose" else s)
            yield ("<" + e.name + ">", FIRST)
            if self.svg_alone(k):
                yield ("<" + e.name + "/>", State("Selfed", NOTHING))
        elif s.at == "Selfed":
            yield ("", FIRST)
        else:
            if rules.omit and may_omit_end(walk, k):
                yield ("", State("Loose", NOTHING) if e.name in elements.SECTIONS | {"colgroup"} else s)
            yield ("</" + e.name + ">", FIRST)

    def attr_edges(self, u, s):
        e = self.walk[u.event]
        if u.kind == "Head":
            yield ("<" + e.name, State("GapName", NOTHING))
            return
        if u.kind == "Finish":
            yield (">", FIRST)
            if self.svg_alone(u.event):
                yield (" />" if s.at == "GapUnq" else "/>", State("Selfed", NOTHING))
            return
        if u.kind == "AttrFinish":
            if may_end(s.pending, self.table, SPOTS[s.at]):
                yield {"InU": ("", State("GapUnq", NOTHING)),
                       "InD": ('"', State("GapQuo", NOTHING)),
                       "InS": ("'", State("GapQuo", NOTHING))}[s.at]
            return
        front = ("" if s.at == "GapQuo" and self.rules.tight else " ") + e.attrs[u.attr][0]
        if u.kind == "Bare":
            yield (front, State("GapName", NOTHING))
            return
        if self.rules.unquote:
            yield (front + "=", State("InU", NOTHING))
        yield (front + '="', State("InD", NOTHING))
        yield (front + "='", State("InS", NOTHING))

    def spot(self, u, s):
        return SPOTS[s.at] if u.spot == "Value" else u.spot

    def literal_may(self, spot, c):
        """Whether c may be written as itself, whatever follows."""
        if c == "\r" or not ascii_allows(self.rules, c):
            return False
        if spot == "Double" and c == '"' or spot == "Single" and c == "'":
            return False
        return not (spot == "Unquoted" and (c in WHITESPACE or c in "\"'=<>`"))

    def char_edges(self, u, s):
        table, c, spot = self.table, u.c, self.spot(u, s)
        to = lambda p: State(s.at, p)   # noqa: E731
        if s.at == "InC":
            yield from self.section_edges(u, s)
            return
        if s.pending[0] == "Half":
            left = s.pending[1]
            yield ("", to(NOTHING if left is None else named(left)))
            return
        if self.literal_may(spot, c):
            p = step(s.pending, table, spot, c)
            if p is not None:
                if c == "&":
                    p = amp("&")
                elif c == "<" and spot not in VALUES:
                    p = LT
                yield (c, to(p))
        if step(s.pending, table, spot, "&") is not None and \
                not table.is_plain(c):
            names = table.names_for(c)
            for n in names:
                if table.names[n] == (c,):
                    yield (n, to(NOTHING if n.endswith(";") else named(n)))
            for n in names:
                if u.next is not None and table.names[n] == (c, u.next):
                    yield (n, to(half(None if n.endswith(";") else n)))
            n = best_number(c)
            if n is not None:
                yield ("&#%d" % n, to(DEC))
                yield ("&#%d;" % n, to(NOTHING))
                if 1000000 <= n <= 1048575:
                    yield ("&#x%x" % n, to(HEXN))
                    yield ("&#x%x;" % n, to(NOTHING))
        if spot == "Foreign" and s.at == "Out" and self.section_may(c):
            if u.next is not None:
                yield ("<![CDATA[" + c, State("InC", CLOSE1 if c == "]" else NOTHING))
            yield ("<![CDATA[" + c + "]]>", FIRST)

    def section_may(self, c):
        return c != "\r" and ascii_allows(self.rules, c)

    def section_edges(self, u, s):
        c = u.c
        if not self.section_may(c) or (c == ">" and s.pending == CLOSE2):
            return
        p = NOTHING
        if c == "]":
            p = CLOSE1 if s.pending == NOTHING else CLOSE2
        if u.next is not None:
            yield (c, State("InC", p))
        yield (c + "]]>", FIRST)

    # the layers

    def layers(self):
        """For each layer its states, and for each but the last the edges of each state:
        triples of bytes, their number, and the place of the state after."""
        if self._layers is None:
            states, out = [FIRST], []
            for k in range(len(self.units)):
                after, row = {}, []
                for s in states:
                    these = []
                    for b, to in self.edges(k, s):
                        at = after.setdefault(to, len(after))
                        these.append((b, len(b) if b.isascii() else len(b.encode()), at))
                    row.append(these)
                out.append((states, row))
                states = list(after)
            out.append((states, None))
            self._layers = out
        return self._layers

    def states(self, k):
        return self.layers()[k][0]

    def least(self):
        """The least price of every state of every layer; None is closed."""
        layers = self.layers()
        prices = [[0] * len(layers[-1][0])]
        for states, row in reversed(layers[:-1]):
            after = prices[-1]
            prices.append([min((n + after[at] for _, n, at in these if after[at] is not None),
                               default=None) for these in row])
        prices.reverse()
        return prices

    def first_way(self, prices=None):
        prices = self.least() if prices is None else prices
        out, k = [], 0
        for layer, (_, row) in enumerate(self.layers()[:-1]):
            for b, n, at in row[k]:
                after = prices[layer + 1][at]
                if after is not None and n + after == prices[layer][k]:
                    out.append(b)
                    k = at
                    break
            else:
                raise AssertionError("no way")
        return "".join(out).encode("utf-8")

    def written(self, fmt):
        """The numbers of the written layers."""
        n = len(self.layers())
        if fmt == 1:
            return list(range(n))
        if fmt == 3:
            return [k for k in range(n) if k in (0, n - 1)
                    or any(len(these) != 1 for these in self.layers()[k][1])]
        return [k for k in range(n) if k in (0, n - 1)
                or not (len(self.states(k)) == 1 and len(self.layers()[k][1][0]) == 1)]


def without_dominated(edges, bounds):
    """An edge is dominated by another one from the same state if by one of the bounds of their ends
    that one comes to fewer bytes, or to as many and is before it."""
    size = [len(b.encode("utf-8")) for b, _ in edges]

    def dominated(i):
        return any(size[j] + h < size[i] or size[j] + h == size[i] and j < i
                   for j in range(len(edges)) if j != i for h in bounds(edges[j][1], edges[i][1]))

    return [e for i, e in enumerate(edges) if not dominated(i)]


def serves(t, s):
    """t is s, or s with what is pending forgotten."""
    return t == s or s.at != "InC" and s.pending[0] != "Half" and t == State(s.at, NOTHING)


def fixed_bytes(e, part):
    if part == "Newline":
        return "\n"
    if isinstance(e, Doctype):
        return '<!doctype html SYSTEM "about:legacy-compat">' if e.legacy else "<!doctype html>"
    if isinstance(e, Comment):
        return "<!--" + e.text + "-->"
    return e.text
