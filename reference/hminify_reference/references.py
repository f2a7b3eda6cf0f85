"""Tables of names, and character references (#named-character-references, #character-reference-state)."""
import json
import re

from .text import DIGITS, HEX, LETTERS

NUMBERS = {0x80: 0x20AC, 0x82: 0x201A, 0x83: 0x0192, 0x84: 0x201E, 0x85: 0x2026, 0x86: 0x2020,
           0x87: 0x2021, 0x88: 0x02C6, 0x89: 0x2030, 0x8A: 0x0160, 0x8B: 0x2039, 0x8C: 0x0152,
           0x8E: 0x017D, 0x91: 0x2018, 0x92: 0x2019, 0x93: 0x201C, 0x94: 0x201D, 0x95: 0x2022,
           0x96: 0x2013, 0x97: 0x2014, 0x98: 0x02DC, 0x99: 0x2122, 0x9A: 0x0161, 0x9B: 0x203A,
           0x9C: 0x0153, 0x9E: 0x017E, 0x9F: 0x0178}
BEST = {v: k for k, v in NUMBERS.items()}
TABLE_LIMIT = 1048576
PLAIN = frozenset("abcdefghijklmnopqrstuvwxyzABCDEFGHIJKLMNOPQRSTUVWXYZ0123456789"
                  "!#$%()*+,-./:;?@[\\]^_{|}~")
KEY = re.compile(r"&[A-Za-z][A-Za-z0-9]+;?\Z")


class TableFault(Exception):
    def __init__(self, name, detail=None):
        self.name, self.detail = name, detail
        super().__init__(self.line())

    def line(self):
        return self.name if self.detail is None else "%s %s" % (self.name, self.detail)


class NotJson(Exception):
    pass


def json_value(data):
    """The value of a JSON text: UTF-8 without a mark, at most 127 arrays and objects in one another,
    no lone surrogate, no number above a 64-bit float, no NaN."""
    try:
        text = data.decode("utf-8")
    except UnicodeDecodeError:
        raise NotJson() from None
    if text.startswith("\ufeff") or _json_depth(text) > 127:
        raise NotJson()
    try:
        value = json.loads(text, parse_constant=_refuse, parse_int=_whole, parse_float=_fraction)
    except (ValueError, RecursionError):
        raise NotJson() from None
    _no_surrogates(value)
    return value


def _json_depth(text):
    """The most arrays and objects in one another."""
    depth, most, inside, skip = 0, 0, False, False
    for c in text:
        if skip:
            skip = False
        elif inside:
            skip, inside = c == "\\", c != '"'
        elif c == '"':
            inside = True
        elif c in "[{":
            depth += 1
            most = max(most, depth)
        elif c in "]}":
            depth -= 1
    return most


def _refuse(_):
    raise NotJson()


def _fraction(digits):
    value = float(digits)
    if value in (float("inf"), float("-inf")):
        raise NotJson()
    return value


def _whole(digits):
    value = _fraction(digits)
    number = int(digits)
    return number if digits != "-0" and -(1 << 63) <= number < (1 << 64) else value


def _no_surrogates(value):
    if isinstance(value, str):
        if any(0xD800 <= ord(c) <= 0xDFFF for c in value):
            raise NotJson()
    elif isinstance(value, list):
        for v in value:
            _no_surrogates(v)
    elif isinstance(value, dict):
        for k, v in value.items():
            _no_surrogates(k)
            _no_surrogates(v)


def is_scalar(n):
    return 0 < n <= 0x10FFFF and not 0xD800 <= n <= 0xDFFF


def points_of(value):
    """One or two scalar values, or None."""
    if not isinstance(value, dict):
        return None
    points = value.get("codepoints")
    if not isinstance(points, list) or len(points) not in (1, 2):
        return None
    for n in points:
        if isinstance(n, bool) or not isinstance(n, int) or not is_scalar(n):
            return None
    return tuple(chr(n) for n in points)


def names_of(data):
    """The names of a table, or its first fault."""
    if len(data) > TABLE_LIMIT:
        raise TableFault("TooLong")
    try:
        value = json_value(data)
    except NotJson:
        raise TableFault("NotJson")
    if not isinstance(value, dict):
        raise TableFault("NotObject")
    keys = sorted(value, key=lambda k: k.encode("utf-8"))
    for k in keys:
        if not KEY.match(k) or len(k) > 64:
            raise TableFault("BadName", k)
    names = {}
    for k in keys:
        p = points_of(value[k])
        if p is None:
            raise TableFault("BadPoints", k)
        names[k] = p
    if len(names) > 4096:
        raise TableFault("TooMany")
    for c in sorted({p[0] for p in names.values()}):
        these = [k for k, p in names.items() if p[0] == c]
        if len(these) > 64 or sum(not k.endswith(";") for k in these) > 4:
            raise TableFault("TooManyFor", ord(c))
    for k in keys:
        if not k.endswith(";") and names.get(k + ";") != names[k]:
            raise TableFault("Lone", k)
    return names


class Table:
    """The names; a node of the trie is the prefix of names that leads to it."""

    def __init__(self, names):
        self.names = dict(names)
        self.prefixes = {"&"} | {k[:i] for k in names for i in range(1, len(k) + 1)}
        self.by_first = {}
        for k in sorted(names):
            self.by_first.setdefault(names[k][0], []).append(k)
        self.longest_name = max((len(k) for k in names), default=0)
        self._plain = {}

    @staticmethod
    def read(data):
        return Table(names_of(data))

    @staticmethod
    def empty():
        return Table({})

    def names_for(self, c):
        return self.by_first.get(c, [])

    def child(self, node, c):
        return node + c if node + c in self.prefixes else None

    def is_name(self, node):
        return node in self.names

    def longest(self, s, i=0):
        """The longest name that s[i:] begins with, or None (#named-character-reference-state)."""
        best, node, k = None, "", i
        while k < len(s):
            node += s[k]
            if node not in self.prefixes:
                break
            if node in self.names:
                best = node
            k += 1
        return best

    def is_plain(self, c):
        """Whether a character needs no reference under this table."""
        if c not in self._plain:
            self._plain[c] = c in PLAIN and all(
                len(self.names[k]) == 1 and len(k) >= 4 for k in self.names_for(c))
        return self._plain[c]


def number_value(n):
    """The character of a number (#numeric-character-reference-end-state)."""
    if n == 0 or 0xD800 <= n <= 0xDFFF or n > 0x10FFFF:
        return "\ufffd"
    return chr(NUMBERS.get(n, n))


def best_number(c):
    n = ord(c)
    if n == 0xFFFD:
        return 0
    if n in BEST:
        return BEST[n]
    if n in NUMBERS or n == 0:
        return None
    return n


def ref(table, value, s, i=0):
    """(points, length) of the reference at the front of s[i:], or None (#character-reference-state)."""
    if s[i:i + 1] != "&":
        return None
    if s[i + 1:i + 2] == "#":
        k = i + 2
        hexa = s[k:k + 1] in ("x", "X")
        if hexa:
            k += 1
        digits, base = (HEX, 16) if hexa else (DIGITS, 10)
        e = k
        while e < len(s) and s[e] in digits:
            e += 1
        if e == k:
            return None
        number = s[k:e].lstrip("0")
        n = 1114112 if len(number) > 10 else min(int(number or "0", base), 1114112)
        if s[e:e + 1] == ";":
            e += 1
        return ((number_value(n),), e - i)
    name = table.longest(s, i)
    if name is None:
        return None
    if value and not name.endswith(";"):
        after = s[i + len(name):i + len(name) + 1]
        if after and (after == "=" or after in LETTERS or after in DIGITS):
            return None
    return (table.names[name], len(name))
