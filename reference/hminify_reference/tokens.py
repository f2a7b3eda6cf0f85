"""The next token of the rest of a text (#data-state and those after it). Positions count code points of the text."""
import re
from dataclasses import dataclass

from .elements import NAME
from .references import ref
from .text import LETTERS, Refused, WHITESPACE, lower

HTML, FOREIGN, SCRIPT = ("Html", None), ("Foreign", None), ("Script", None)


def rcdata(name):
    return ("Rcdata", name)


def raw(name):
    return ("Raw", name)


@dataclass(frozen=True)
class Token:
    """kind: Doctype, StartTag, EndTag, Slice, Points, Comment. `begin` is where the token
    begins and `end` is after it; `low`, `high` bound the text of Slice and Comment."""
    kind: str
    begin: int
    end: int
    name: str = ""
    attrs: tuple = ()
    slash: bool = False
    legacy: bool = False
    points: tuple = ()
    low: int = 0
    high: int = 0
    cdata: bool = False


class ScanFault(Exception):
    def __init__(self, rule):
        super().__init__(rule)
        self.rule = rule


_NAME_END = re.compile(r"[\t\n\f\r />]")
_ATTR_END = re.compile(r"[\t\n\f\r />=]")
_NOT_SPACE = re.compile(r"[^\t\n\f\r ]")
_UNQUOTED_END = re.compile(r"[\t\n\f\r >]")
_MARK = re.compile("[<&]")


def _find(pattern, s, i):
    m = pattern.search(s, i)
    return len(s) if m is None else m.start()


def value_points(table, s):
    """The code points of a value."""
    if "&" not in s:
        return s
    out, i = [], 0
    while i < len(s):
        r = ref(table, True, s, i)
        if r is None:
            out.append(s[i])
            i += 1
        else:
            out.extend(r[0])
            i += r[1]
    return "".join(out)


def scan_tag(table, s, at):
    """A start or an end tag (#tag-name-state to #self-closing-start-tag-state)."""
    end_tag = s[at + 1:at + 2] == "/"
    i = at + (2 if end_tag else 1)
    e = _find(_NAME_END, s, i)
    if e == len(s):
        raise ScanFault("Cut")
    name = lower(s[i:e])
    attrs, slash, end = scan_attributes(table, s, e)
    if not NAME.match(name):
        raise ScanFault("BadName")
    if any(a.startswith("=") or any(c in a for c in "\"'<") for a, _ in attrs):
        raise ScanFault("BadName")
    if len(attrs) > 256:
        raise ScanFault("TooManyAttributes")
    if end_tag:
        return Token("EndTag", at, end, name=name)
    first_of = {}
    for a, v in attrs:
        first_of.setdefault(a, v)
    return Token("StartTag", at, end, name=name, attrs=tuple(first_of.items()), slash=slash)


def scan_attributes(table, s, i):
    """The attributes of a tag, whether it ends with `/>`, and the place after it (#before-attribute-name-state)."""
    attrs, slash = [], False
    while True:
        c = s[i:i + 1]
        if c == "":
            raise ScanFault("Cut")
        if c == ">":
            return attrs, slash, i + 1
        if c in WHITESPACE or c == "/":
            slash = slash or s[i:i + 2] == "/>"
            i += 1
            continue
        e = _find(_ATTR_END, s, i + 1 if c == "=" else i)
        value, after = scan_value(table, s, e)
        attrs.append((lower(s[i:e]), value))
        i = after


def scan_value(table, s, i):
    """The value of the attribute whose name ends at i, and the place after it (#before-attribute-value-state)."""
    j = _find(_NOT_SPACE, s, i)
    if s[j:j + 1] != "=":
        return "", i
    i = _find(_NOT_SPACE, s, j + 1)
    c = s[i:i + 1]
    if c == "":
        raise ScanFault("Cut")
    if c == ">":
        return "", i
    if c not in "\"'":
        e = _find(_UNQUOTED_END, s, i)
        return value_points(table, s[i:e]), e
    e = s.find(c, i + 1)
    if e < 0:
        raise ScanFault("Cut")
    return value_points(table, s[i + 1:e]), e + 1


def scan_comment(s, at):
    """At `<!--`, or a comment that runs up to the first `>` (#comment-start-state, #bogus-comment-state)."""
    if s.startswith("<!--", at):
        i = at + 4
        for front in (">", "->"):
            if s.startswith(front, i):
                return Token("Comment", at, i + len(front), low=i, high=i)
        ends = [(e, k) for e, k in ((s.find("-->", i), 3), (s.find("--!>", i), 4)) if e >= 0]
        if not ends:
            raise ScanFault("Cut")
        e, k = min(ends)
        return Token("Comment", at, e + k, low=i, high=e)
    i = at + 1 if s.startswith("<?", at) else at + 2
    e = s.find(">", i)
    if e < 0:
        raise ScanFault("Cut")
    return Token("Comment", at, e + 1, low=i, high=e)


def scan_cdata(s, at):
    """#cdata-section-state."""
    i = at + len("<![CDATA[")
    e = s.find("]]>", i)
    if e < 0:
        raise ScanFault("Cut")
    return Token("Slice", at, e + 3, low=i, high=e, cdata=True)


_W = r"[\t\n\f\r ]"
_DOCTYPE = re.compile(
    r"<!doctype" + _W + r"*html(?:" + _W + r"*|(" + _W + r"+system" + _W
    + r"*(?:\"about:legacy-compat\"|'about:legacy-compat')" + _W + r"*))>\Z", re.I | re.A)


def scan_doctype(s, at):
    """#doctype-state to #bogus-doctype-state."""
    e = s.find(">", at)
    if e < 0:
        raise ScanFault("Cut")
    whole = s[at:e + 1]
    m = _DOCTYPE.match(whole)
    if m is None or (m.group(1) is not None and "about:legacy-compat" not in whole):
        raise ScanFault("BadDoctype")
    return Token("Doctype", at, e + 1, legacy=m.group(1) is not None)


_RAW_ENDS = {n: re.compile("</" + n + r"(?=[\t\n\f\r />])", re.I | re.A)
             for n in ("title", "textarea", "style", "iframe", "script")}


def raw_end(name, s, i=0):
    """The place at or after i where the text of such an element ends, or None (#rawtext-end-tag-name-state)."""
    m = _RAW_ENDS[name].search(s, i)
    return None if m is None else m.start()


_SCRIPT_MARK = re.compile(r"<!--|-->|</?script(?=[\t\n\f\r />])", re.I | re.A)


def script_marks(s, i=0):
    """The marks of a script's text in order. `<!--` and `-->` may share their dashes, so
    the search goes on one code point after each mark's place."""
    m = _SCRIPT_MARK.search(s, i)
    while m is not None:
        yield m.start(), m.group().lower()
        m = _SCRIPT_MARK.search(s, m.start() + 1)


def script_end(s, i=0):
    """The first `</script` that ends a script: one that isn't double escaped (#script-data-double-escape-end-state)."""
    mood = "plain"
    for at, mark in script_marks(s, i):
        if mark == "</script" and mood != "double":
            return at
        mood = {("plain", "<!--"): "escaped",
                ("escaped", "-->"): "plain", ("double", "-->"): "plain",
                ("escaped", "<script"): "double",
                ("double", "</script"): "escaped"}.get((mood, mark), mood)
    return None


def markup_begins(s, i):
    """At the `<` of s[i] begins something that isn't text (#tag-open-state)."""
    c = s[i + 1:i + 2]
    if c == "/":
        return i + 2 < len(s)
    return c != "" and (c in LETTERS or c in "!?")


def scan_text(table, s, at, in_rcdata, stop=None):
    """One reference, or the longest piece without reference and markup, up to `stop`
    (#data-state, #rcdata-state)."""
    stop = len(s) if stop is None else stop
    r = ref(table, False, s, at)
    if r is not None:
        return Token("Points", at, at + r[1], points=r[0])
    i = at
    while i < stop:
        m = _MARK.search(s, i, stop)
        if m is None:
            i = stop
            break
        i = m.start()
        if s[i] == "&":
            if ref(table, False, s, i) is not None:
                break
        elif not in_rcdata and markup_begins(s, i):
            break
        i += 1
    return Token("Slice", at, i, low=at, high=i)


def first(table, mode, s, at):
    """The next token of s[at:], or None at the end. The places of refusals are code points."""
    kind, name = mode
    try:
        if kind in ("Html", "Foreign"):
            while s.startswith("</>", at):
                at += 3
            if at == len(s):
                return None
            if s[at] != "<" or not markup_begins(s, at):
                return scan_text(table, s, at, False)
            c = s[at + 1]
            if c in LETTERS or (c == "/" and s[at + 2] in LETTERS):
                return scan_tag(table, s, at)
            if c == "!":
                if lower(s[at + 2:at + 9]) == "doctype":
                    return scan_doctype(s, at)
                if kind == "Foreign" and s.startswith("<![CDATA[", at):
                    return scan_cdata(s, at)
            return scan_comment(s, at)
        if at == len(s):
            return None
        end = script_end(s, at) if kind == "Script" else raw_end(name, s, at)
        if end is None:
            raise ScanFault("Cut")
        if end == at:
            return scan_tag(table, s, at)
        if kind == "Rcdata":
            return scan_text(table, s, at, True, end)
        return Token("Slice", at, end, low=at, high=end)
    except ScanFault as f:
        raise Refused(f.rule, at)
