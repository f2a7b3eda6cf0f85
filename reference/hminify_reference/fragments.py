"""Fragments, the content of `body` alone (#parsing-html-fragments)."""
from .construction import parse_closed
from .text import Refused, read_text

FRONT = b"<!doctype html><body>"


def framed(data):
    return FRONT + data


def unframe(data):
    return data[len(FRONT):] if data.startswith(FRONT) else None


def fragment_tree(table, data):
    """The walk of the page after the front; no limit is looked at."""
    whole = framed(data)
    try:
        tree, closed = parse_closed(read_text(whole, len(whole)), table)
    except Refused as r:
        raise Refused(r.rule, r.at - len(FRONT))
    if closed is not None:
        raise Refused("FrameEnd", closed - len(FRONT))
    return tree


def read_fragment(table, data, limit):
    if len(data) > limit:
        raise Refused("TooLong", limit)
    return fragment_tree(table, data)
