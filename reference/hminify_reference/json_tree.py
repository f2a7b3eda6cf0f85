"""Trees from and to JSON."""
import json

from . import elements
from .settled import first_break
from .references import NotJson, json_value
from .walk import Comment, Doctype, End, Start, Text

JSON_LIMIT = 67108864


class JsonFault(Exception):
    def __init__(self, name, event=None, count=None, point=None):
        self.name, self.event, self.count, self.point = name, event, count, point
        super().__init__(self.line())

    def line(self):
        out = self.name
        if self.event is not None:
            out += " event %d" % self.event
        if self.count is not None:
            out += " open %d" % self.count
        if self.point is not None:
            out += " point %d" % self.point
        return out


def json_text(walk):
    """The line that `json` prints, without its line feed."""
    out = []
    for e in walk:
        if isinstance(e, Doctype):
            out.append(["doctype", "legacy" if e.legacy else "plain"])
        elif isinstance(e, Start):
            out.append(["start", e.name, [list(p) for p in e.attrs]])
        elif isinstance(e, Text):
            out.append(["text", e.text])
        elif isinstance(e, Comment):
            out.append(["comment", e.text])
        else:
            out.append(["end"])
    return json.dumps(out, ensure_ascii=False, separators=(",", ":")).encode("utf-8")


def _event(v, path):
    """The event that an item of the array says, or None."""
    if not isinstance(v, list) or not v or not all(isinstance(x, (str, list)) for x in v):
        return None
    kind, rest = v[0], v[1:]
    if kind == "doctype" and rest in (["plain"], ["legacy"]):
        return Doctype(rest[0] == "legacy")
    if kind == "start" and len(rest) == 2 and isinstance(rest[0], str) \
            and isinstance(rest[1], list):
        for a in rest[1]:
            if not isinstance(a, list) or len(a) != 2 or not all(isinstance(x, str) for x in a):
                return None
        foreign = rest[0] == "svg" or (bool(path) and path[-1][1])
        return Start(rest[0], foreign, tuple((a, b) for a, b in rest[1]))
    if kind == "text" and len(rest) == 1 and isinstance(rest[0], str):
        raw = bool(path) and not path[-1][1] and path[-1][0] in elements.RAWISH
        return Text(rest[0], raw)
    if kind == "comment" and len(rest) == 1 and isinstance(rest[0], str):
        return Comment(rest[0])
    if v == ["end"] and path:
        return End(*path[-1])
    return None


def read_tree(data):
    """The settled walk that a JSON text holds, or its first fault."""
    if len(data) > JSON_LIMIT:
        raise JsonFault("TooLong")
    try:
        value = json_value(data)
    except NotJson:
        raise JsonFault("NotJson")
    if not isinstance(value, list):
        raise JsonFault("NotArray")
    walk, path = [], []
    for i, v in enumerate(value):
        e = _event(v, path)
        if e is None:
            raise JsonFault("BadEvent", event=i)
        if isinstance(e, Start):
            path.append((e.name, e.foreign))
        elif isinstance(e, End):
            path.pop()
        walk.append(e)
    if path:
        raise JsonFault("Open", count=len(path))
    broken = first_break(walk)
    if broken is not None:
        raise JsonFault("NotSettled", event=broken[0], point=broken[1])
    return walk
