"""fuzz_shrink.py: makes an input of fuzz.py small that still shows what was found."""
import dataclasses
import json
import re

PIECE = re.compile(rb"<[^<>]*>|&[#\w]*;?|\s+|[^<&\s]+|.", re.S)


def without(pieces, join, shows):
    """The pieces that are left when nothing more can be taken out: runs of half of them, of a quarter, and so on."""
    size = max(1, len(pieces) // 2)
    while pieces:
        at, shorter = 0, False
        while at < len(pieces):
            fewer = pieces[:at] + pieces[at + size:]
            if shows(join(fewer)):
                pieces, shorter = fewer, True
            else:
                at += size
        if size == 1 and not shorter:
            break
        size = max(1, size // 2)
    return pieces


def bytes_of(data):
    return [bytes([byte]) for byte in data]


def pieces_of(it, name):
    """How a file of an input is taken apart, one way after another, and put together again."""
    data = getattr(it, name)
    as_json = (name == "page" and it.command == "minifyjson") or name == "table"
    try:
        value = json.loads(data) if as_json else None
    except (ValueError, RecursionError):
        value = None
    if isinstance(value, list):
        yield value, lambda left: json.dumps(left, ensure_ascii=False, separators=(",", ":")).encode("utf-8", "surrogatepass")
    elif isinstance(value, dict):
        yield list(value.items()), lambda left: json.dumps(dict(left), separators=(",", ":")).encode()
    elif name == "cert":
        yield data.splitlines(True), b"".join
    else:
        yield PIECE.findall(data), b"".join


def simpler_words(it):
    """Inputs with a flag less, and with a table that is no file."""
    for flag in it.flags:
        yield dataclasses.replace(it, flags=tuple(other for other in it.flags if other != flag))
    if it.word == "table":
        yield dataclasses.replace(it, word="none", table=None)


def shrunk(it, shows, again, most):
    """A smaller input, for which `shows` holds too; it is asked at most so many times. `again` makes OUT and CERT of a page anew."""
    best, left = [it], [most]

    def better(other):
        if left[0] <= 0 or other is None or other == best[0]:
            return False
        left[0] -= 1
        if not shows(other):
            return False
        best[0] = other
        return True

    for other in [*simpler_words(it), *simpler_words(it)]:
        flags = tuple(flag for flag in best[0].flags if flag in other.flags)
        better(again(dataclasses.replace(best[0], flags=flags, word=other.word, table=other.table)))
    for name in ("page", "out", "cert", "table"):
        for split in (pieces_of, lambda it, name: [(bytes_of(getattr(it, name)), b"".join)]):
            if getattr(best[0], name) is None or len(getattr(best[0], name)) > 20_000 and split is not pieces_of:
                continue
            for pieces, join in split(best[0], name):
                change = again if name == "page" else lambda other: dataclasses.replace(other, seed=None)
                without(pieces, join, lambda data, name=name, change=change: better(change(dataclasses.replace(best[0], **{name: data}))))
    return best[0]
