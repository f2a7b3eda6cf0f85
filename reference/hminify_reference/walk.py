"""Walks: balanced lists of events. A Start has its attributes as a tuple of pairs."""
from dataclasses import dataclass


@dataclass(frozen=True)
class Doctype:
    """The plain one or the legacy one (#the-doctype)."""
    legacy: bool


@dataclass(frozen=True)
class Start:
    name: str
    foreign: bool
    attrs: tuple


@dataclass(frozen=True)
class Text:
    text: str
    raw: bool


@dataclass(frozen=True)
class Comment:
    text: str


@dataclass(frozen=True)
class End:
    name: str
    foreign: bool


def paths(w):
    """For each event the tuple of indices of the Starts that are open before it."""
    out, stack = [], ()
    for i, e in enumerate(w):
        out.append(stack)
        if isinstance(e, Start):
            stack = stack + (i,)
        elif isinstance(e, End):
            stack = stack[:-1]
    return out


def first_other(v, w):
    for i, (a, b) in enumerate(zip(v, w)):
        if a != b:
            return i
    return None if len(v) == len(w) else min(len(v), len(w))


def quoted(s):
    for c, r in (("\\", "\\\\"), ('"', '\\"'), ("\n", "\\n"), ("\r", "\\r"), ("\t", "\\t")):
        s = s.replace(c, r)
    return '"' + s + '"'


def dump(w):
    """The lines that `tree` prints."""
    lines, depth = [], 0
    for e in w:
        pad = "  " * depth
        if isinstance(e, Doctype):
            line = "doctype legacy" if e.legacy else "doctype"
            lines.append(pad + line)
        elif isinstance(e, Start):
            lines.append(pad + "element " + e.name
                         + "".join(" %s=%s" % (n, quoted(v)) for n, v in e.attrs))
            depth += 1
        elif isinstance(e, Text):
            lines.append(pad + "text " + quoted(e.text))
        elif isinstance(e, Comment):
            lines.append(pad + "comment " + quoted(e.text))
        else:
            depth -= 1
    return "".join(line + "\n" for line in lines)
