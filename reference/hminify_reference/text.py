"""The text of a page with the place of each code point (#preprocessing-the-input-stream), the rules of refusal, whitespace."""
from itertools import accumulate

RULES = ["TooLong", "NotUtf8", "Nul", "Cut", "BadName", "TooManyAttributes",
         "BadDoctype", "NoDoctype", "SecondDoctype", "RefusedName", "SecondRoot", "StrayEnd",
         "NotCurrent", "BlockInParagraph", "Nested", "WrongParent", "TextHere", "AfterHead",
         "AfterBody", "Unclosed", "TooDeep", "ForeignName", "FrameEnd"]

WHITESPACE = "\t\n\f\r "
LETTERS = frozenset("abcdefghijklmnopqrstuvwxyzABCDEFGHIJKLMNOPQRSTUVWXYZ")
DIGITS = frozenset("0123456789")
HEX = frozenset("0123456789abcdefABCDEF")
BOM = b"\xef\xbb\xbf"
PAGE_LIMIT = 16777216
CHECK_LIMIT = 67108864

_LOWER = {ord(c): ord(c) + 32 for c in "ABCDEFGHIJKLMNOPQRSTUVWXYZ"}


class Refused(Exception):
    """A page is refused by a rule at a place."""

    def __init__(self, rule, at):
        assert rule in RULES
        super().__init__("%s at %d" % (rule, at))
        self.rule, self.at = rule, at


def is_space(c):
    return c in WHITESPACE


def all_space(s):
    return not s.strip(WHITESPACE)


def lower(s):
    """Lowered in ASCII alone."""
    return s.translate(_LOWER)


def utf8_len(c):
    n = ord(c)
    return 1 if n < 0x80 else 2 if n < 0x800 else 3 if n < 0x10000 else 4


class SourceText:
    """The normalised text; `places[i]` is the page byte of code point i, and
    `places[len(text)]` is the page's length."""

    def __init__(self, text, places):
        assert len(places) == len(text) + 1
        self.text, self.places = text, places

    def place_of(self, i):
        return self.places[i]


def decode_fault(page):
    """The lesser place of NotUtf8 and Nul, or None."""
    try:
        page.decode("utf-8")
        bad = None
    except UnicodeDecodeError as e:
        bad = e.start
    nul = page.find(0)
    if bad is not None and (nul < 0 or bad < nul):
        return ("NotUtf8", bad)
    if nul >= 0:
        return ("Nul", nul)
    return None


def read_text(page, limit):
    """The text of a page: a mark dropped, line ends made LF (#newlines)."""
    if len(page) > limit:
        raise Refused("TooLong", limit)
    fault = decode_fault(page)
    if fault is not None:
        raise Refused(*fault)
    front = 3 if page.startswith(BOM) else 0
    raw = page[front:].decode("utf-8")
    places = list(accumulate((utf8_len(c) for c in raw), initial=front)) if not raw.isascii() \
        else list(range(front, front + len(raw) + 1))
    if "\r" not in raw:
        return SourceText(raw, places)
    out, where, i = [], [], 0
    while i < len(raw):
        c = raw[i]
        where.append(places[i])
        if c == "\r":
            out.append("\n")
            i += 2 if raw[i + 1:i + 2] == "\n" else 1
        else:
            out.append(c)
            i += 1
    where.append(places[len(raw)])
    return SourceText("".join(out), where)
