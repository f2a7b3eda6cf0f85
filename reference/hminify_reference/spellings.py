"""Whether a text is a spelling of a walk. All is read from the front."""
from . import elements
from .omission import omit_end, omit_start
from .references import best_number, ref
from .text import LETTERS, WHITESPACE, lower
from .walk import Comment, Doctype, End, Start, Text

CDATA = "<![CDATA["


def ascii_allows(rules, c):
    return not rules.ascii or ord(c) < 0x80 or best_number(c) is None


def as_itself(table, rules, spot, c, b, i):
    """The code point b[i] is c as itself (#text-2, #attributes-2)."""
    after = b[i + 1:i + 2]
    if c == "\r" or not ascii_allows(rules, c):
        return False
    if c == "&" and ref(table, spot in ("Unquoted", "Double", "Single"), b, i) is not None:
        return False
    if c == "<":
        if spot in ("Text", "Foreign") and after != "" and (after in LETTERS or after in "/!?"):
            return False
        if spot == "Rcdata" and after == "/":
            return False
    if spot == "Double" and c == '"' or spot == "Single" and c == "'":
        return False
    return not (spot == "Unquoted" and (c in WHITESPACE or c in "\"'=<>`"))


def chars_sp(table, rules, spot, points, b, i):
    """The place after `points`, spelled in b from i on, or None. At each place at
    most one piece fits, because a literal `&` and a reference exclude each other, and so do
    a literal `<` and a section."""
    k = 0
    value = spot in ("Unquoted", "Double", "Single")
    while k < len(points):
        if spot == "Foreign" and b.startswith(CDATA, i):
            e = b.find("]]>", i + len(CDATA))
            if e < 0:
                return None
            held = b[i + len(CDATA):e]
            if held == "" or points[k:k + len(held)] != held or "\r" in held \
                    or not all(ascii_allows(rules, c) for c in held):
                return None
            k += len(held)
            i = e + 3
            continue
        got = ref(table, value, b, i)
        if got is not None:
            if tuple(points[k:k + len(got[0])]) != got[0]:
                return None
            k += len(got[0])
            i += got[1]
            continue
        if b[i:i + 1] != points[k] or not as_itself(table, rules, spot, points[k], b, i):
            return None
        k += 1
        i += 1
    return i


def skip(b, i):
    while i < len(b) and b[i] in WHITESPACE:
        i += 1
    return i


def name_at(b, i, name):
    return i + len(name) if lower(b[i:i + len(name)]) == name else None


def attribute_sp(table, rules, attr, before, b, i):
    """An attribute at i: (place after it, what it ends with), or None (#attributes-2)."""
    name, value = attr
    j = skip(b, i)
    if j == i and not (before == "quoted" and rules.tight):
        return None
    i = name_at(b, j, name)
    if i is None:
        return None
    j = skip(b, i)
    if b[j:j + 1] != "=":
        return None if value != "" else (i, "name")
    i = skip(b, j + 1)
    quote = b[i:i + 1]
    if quote in ("'", '"'):
        i = chars_sp(table, rules, "Double" if quote == '"' else "Single", value, b, i + 1)
        return None if i is None or b[i:i + 1] != quote else (i + 1, "quoted")
    if not rules.unquote or value == "":
        return None
    i = chars_sp(table, rules, "Unquoted", value, b, i)
    return None if i is None else (i, "unquoted")


def start_sp(table, rules, walk, k, b, i):
    """A written start tag at i: (place after it, slash), or None (#start-tags)."""
    e = walk[k]
    i = name_at(b, i + 1, e.name) if b[i:i + 1] == "<" else None
    if i is None:
        return None
    before = "name"
    for attr in e.attrs:
        got = attribute_sp(table, rules, attr, before, b, i)
        if got is None:
            return None
        i, before = got
    j = skip(b, i)
    if b[j:j + 1] != "/":
        return (j + 1, False) if b[j:j + 1] == ">" else None
    alone = isinstance(walk[k + 1], End) and (e.foreign or e.name in elements.VOID)
    if not alone or (before == "unquoted" and j == i):
        return None
    return (j + 2, True) if b[j + 1:j + 2] == ">" else None


def end_sp(walk, k, b, i):
    if b[i:i + 2] != "</":
        return None
    i = name_at(b, i + 2, walk[k].name)
    if i is None:
        return None
    i = skip(b, i)
    return i + 1 if b[i:i + 1] == ">" else None


def doctype_sp(legacy, b, i):
    i = name_at(b, i, "<!doctype")
    if i is None:
        return None
    j = skip(b, i)
    i = name_at(b, j, "html") if j > i else None
    if i is None:
        return None
    j = skip(b, i)
    if legacy:
        if j == i:
            return None
        i = name_at(b, j, "system")
        if i is None:
            return None
        j = skip(b, i)
        if j == i or b[j:j + 21] not in ('"about:legacy-compat"', "'about:legacy-compat'"):
            return None
        j = skip(b, j + 21)
    return j + 1 if b[j:j + 1] == ">" else None


def text_spot(walk, parent):
    p = walk[parent]
    if p.foreign:
        return "Foreign"
    return "Rcdata" if p.name in elements.RCDATA else "Text"


def spells(table, rules, walk, data):
    """Whether the bytes spell the walk."""
    try:
        b = data.decode("utf-8")
    except UnicodeDecodeError:
        return False
    # what has been read before event k: (place, the End before was left out, the Start before had a slash)
    now, stack = {(0, False, False)}, []
    for k, e in enumerate(walk):
        now = {state for read in now for state in event_sp(table, rules, walk, k, stack, b, read)}
        if isinstance(e, Start):
            stack.append(k)
        elif isinstance(e, End):
            stack.pop()
    return any(i == len(b) for i, _, _ in now)


def event_sp(table, rules, walk, k, stack, b, read):
    """What may have been read after event k."""
    e, (i, dropped, slashed) = walk[k], read
    if isinstance(e, Start):
        if omit_start(walk, k, rules, dropped):
            yield (i, False, False)
        got = start_sp(table, rules, walk, k, b, i)
        if got is not None:
            yield (got[0], False, got[1] and e.foreign)
        return
    if isinstance(e, End):
        if slashed or (not e.foreign and e.name in elements.VOID):
            yield (i, False, False)
            return
        if omit_end(walk, k, rules):
            yield (i, True, False)
    j = end_sp(walk, k, b, i) if isinstance(e, End) else content_sp(table, rules, walk, k, stack, b, i)
    if j is not None:
        yield (j, False, False)


def content_sp(table, rules, walk, k, stack, b, i):
    """The place after a doctype, a comment or a text at i, or None."""
    e = walk[k]
    if isinstance(e, Doctype):
        return doctype_sp(e.legacy, b, i)
    if isinstance(e, Comment) or e.raw:
        piece = e.text if isinstance(e, Text) else "<!--" + e.text + "-->"
        return i + len(piece) if b.startswith(piece, i) else None
    points = "\n" + e.text if newline_due(walk, k, stack[-1]) else e.text
    return chars_sp(table, rules, text_spot(walk, stack[-1]), points, b, i)


def newline_due(walk, k, parent):
    """The text k begins with LF and is the first event in an HTML pre or textarea."""
    p = walk[parent]
    return k == parent + 1 and not p.foreign and p.name in ("pre", "textarea") \
        and walk[k].text.startswith("\n")
