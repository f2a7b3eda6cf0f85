"""Certificates: their text in the three formats, all prices, and the rules of prices."""
import re
from dataclasses import dataclass

from .omission import Rules

CERT_LIMIT = 268435456
FLAGS = ("omit", "unquote", "tight", "ascii", "frame")
_PRICE = re.compile(rb"-\Z|0\Z|[1-9][0-9]{0,18}\Z")


@dataclass(frozen=True)
class Cert:
    format: int
    rules: Rules
    prices: list


class CertFault(Exception):
    """`line` is None for a certificate that is too long."""

    def __init__(self, line):
        super().__init__(str(line))
        self.line = line


def cert_text(fmt, rules, prices):
    out = ["html-cert %d" % fmt,
           " ".join(["rules"] + [f for f in FLAGS if getattr(rules, f)])]
    for layer in prices:
        assert layer
        out.append(" ".join("-" if p is None else str(p) for p in layer))
    return "".join(line + "\n" for line in out).encode("ascii")


def _rules_of(line):
    words = line.split(b" ")
    if words[0] != b"rules":
        return None
    flags = [f for f in FLAGS if f.encode() in words[1:]]
    if words[1:] != [f.encode() for f in flags]:
        return None
    return Rules(**{f: True for f in flags})


def _layer_of(line):
    if line == b"":
        return None
    out = []
    for word in line.split(b" "):
        if not _PRICE.match(word) or (word != b"-" and int(word) >= 1 << 63):
            return None
        out.append(None if word == b"-" else int(word))
    return out


def read_cert(data):
    if len(data) > CERT_LIMIT:
        raise CertFault(None)
    lines = data.split(b"\n")
    tail = lines.pop()          # empty if the last line ends with LF
    formats = {b"html-cert 1": 1, b"html-cert 2": 2, b"html-cert 3": 3}
    if not lines or lines[0] not in formats:
        raise CertFault(1)
    rules = _rules_of(lines[1]) if len(lines) > 1 else None
    if rules is None:
        raise CertFault(2)
    prices = []
    for k, line in enumerate(lines[2:]):
        layer = _layer_of(line)
        if layer is None:
            raise CertFault(k + 3)
        prices.append(layer)
    if tail != b"":
        raise CertFault(len(lines) + 1)
    return Cert(formats[lines[0]], rules, prices)


def full(graph, fmt, prices):
    """The prices of all layers, also of those that aren't written. Numbers and widths of lines are right."""
    written = graph.written(fmt)
    given = dict(zip(written, prices))
    out = []
    for k in range(len(graph.layers()) - 1, -1, -1):
        if k in given:
            out.append(given[k])
        else:
            layer = []
            for (_, n, at), in graph.layers()[k][1]:
                after = out[-1][at]
                layer.append(None if after is None else n + after)
            out.append(layer)
    out.reverse()
    return out


def first_break_of_prices(graph, q):
    """The first (layer, state, price, bound) that breaks the rules of prices, or None."""
    last = len(q) - 1
    for k in range(last):
        for j, price in enumerate(q[k]):
            ways = [n + q[k + 1][at] for _, n, at in graph.layers()[k][1][j]
                    if q[k + 1][at] is not None]
            bound = min(ways, default=None)
            if bound is not None and (price is None or price > bound):
                return (k, j, price, bound)
    for j, price in enumerate(q[last]):
        if price != 0:
            return (last, j, price, 0)
    return None
