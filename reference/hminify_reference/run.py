"""A run of the program: its words, files, what it prints and its exit status."""
import os
import sys

from . import checker, files
from .certificate import CERT_LIMIT, CertFault, cert_text, read_cert
from .construction import tree_of
from .explain import explained
from .fragments import FRONT, fragment_tree, framed, read_fragment, unframe
from .graph import Graph
from .json_tree import JSON_LIMIT, JsonFault, json_text, read_tree
from .measure import page_of
from .notices import NOTICES
from .order import reorder
from .references import TABLE_LIMIT, Table, TableFault
from .rewrites import rewrite
from .text import CHECK_LIMIT, PAGE_LIMIT, Refused
from .walk import dump
from .words import FRAGMENTS, USAGE, Usage, asked

DONE, NO, USAGE_ERROR, PAGE_REFUSED, TABLE_REFUSED, STORE_FAULT, SINK_FAULT, MEMORY, JSON_REFUSED = range(9)
HTML_TABLE = os.path.join(os.path.dirname(os.path.abspath(__file__)), "../../tables/entities.json")


class Stop(Exception):
    """The end of a run with a status other than 0, and what it prints."""

    def __init__(self, status, printed):
        super().__init__(status)
        self.status, self.printed = status, printed


def run(words):
    """Does what the words ask, and gives the exit status."""
    try:
        status, printed = DONE, work(words)
    except Stop as stop:
        status, printed = stop.status, stop.printed
    except files.Failed as failed:
        print(failed, file=sys.stderr)
        status, printed = STORE_FAULT, "store fault\n"
    except MemoryError:
        return MEMORY
    try:
        files.put(printed.encode("utf-8") if isinstance(printed, str) else printed)
    except files.Failed as failed:
        print(failed, file=sys.stderr)
        return SINK_FAULT
    return status


def work(words):
    """What is printed when all goes well."""
    try:
        a = asked(words)
    except Usage:
        raise Stop(USAGE_ERROR, USAGE + "\n") from None
    if a.command in NOTICES:
        return NOTICES[a.command]
    table = table_of(a.names[0])
    walk, page = tree_asked(a, table)
    walk = rewrite(walk, a.options)
    if a.order:
        walk = reorder(table, a.rules, walk)
    return ACTIONS[a.command](a, table, walk, page)


def table_of(name):
    if name == "none":
        return Table.empty()
    try:
        return Table.read(files.load(HTML_TABLE if name == "html" else name, TABLE_LIMIT))
    except TableFault as fault:
        raise Stop(TABLE_REFUSED, "table refused: %s\n" % fault.line()) from None


def tree_asked(a, table):
    """The walk that the input gives, with its bytes."""
    if a.command == "measure":
        page = page_of(int(a.names[1]), int(a.names[2]))
    elif a.command == "minifyjson":
        page = files.load(a.names[1], JSON_LIMIT)
        try:
            return read_tree(page), page
        except JsonFault as fault:
            raise Stop(JSON_REFUSED, "json refused: %s\n" % fault.line()) from None
    else:
        page = files.load(a.names[1], PAGE_LIMIT)
    read = read_fragment if a.command in FRAGMENTS else tree_of
    try:
        return read(table, page, PAGE_LIMIT), page
    except Refused as refused:
        if a.command == "explain":
            raise Stop(PAGE_REFUSED, explained(a.names[1], page, refused.rule, refused.at)) from None
        raise Stop(PAGE_REFUSED, "page refused: %s at %d\n" % (refused.rule, refused.at)) from None


def minified(a, table, walk):
    """The graph of a walk, the first of its shortest texts, and the certificate."""
    graph = Graph(table, a.rules, walk, fmt=3 if a.sparse else 2)
    prices = graph.least()
    cert = cert_text(graph.fmt, a.rules, [prices[k] for k in graph.written(graph.fmt)])
    return graph, graph.first_way(prices), cert


def do_minify(a, table, walk, _page):
    _, out, cert = minified(a, table, walk)
    if a.command == "fragment":
        out = unframe(out)
    files.save(a.names[2], out)
    files.save(a.names[3], cert)
    return "length %d\n" % len(out)


def do_measure(a, table, walk, page):
    graph, out, cert = minified(a, table, walk)
    why = checker.why_not(table, walk, out, read_cert(cert), a.rules)
    assert why is None, why
    return "page %d output %d layers %d yes\n" % (len(page), len(out), len(graph.layers()))


def do_explain(a, table, walk, page):
    graph = Graph(table, a.rules, walk)
    return "%s: settled, page %d output %d\n" % (a.names[1], len(page), graph.least()[0][0])


def do_check(a, table, walk, _page):
    data = files.load(a.names[3], CERT_LIMIT)
    out = files.load(a.names[2], CHECK_LIMIT)
    try:
        cert = read_cert(data)
    except CertFault as fault:
        said = "too long" if fault.line is None else "line %d" % fault.line
        raise Stop(NO, "no 0 certificate %s\n" % said) from None
    if a.command == "check":
        why = checker.why_not(table, walk, out, cert, a.rules)
    else:
        why = fragment_why_not(table, walk, out, cert, a.rules)
    if why is not None:
        raise Stop(NO, checker.line_of(why) + "\n")
    return "yes %d\n" % len(out)


def fragment_why_not(table, walk, out, cert, rules):
    """As for a page, with the places of OUT alone."""
    why = checker.why_not(table, walk, framed(out), cert, rules, lambda: frame_end(table, out))
    if why is None or why[0] != 2:
        return why
    return why[:3] if why[3:] else (2, why[1], why[2] - len(FRONT))


def frame_end(table, out):
    """OUT closes the body around it. The fourth part says that the place counts bytes of OUT."""
    try:
        fragment_tree(table, out)
    except Refused as refused:
        return (2, refused.rule, refused.at, True)
    return None


ACTIONS = {"minify": do_minify, "fragment": do_minify, "minifyjson": do_minify, "check": do_check,
           "checkfragment": do_check, "measure": do_measure, "explain": do_explain,
           "tree": lambda a, table, walk, page: dump(walk),
           "json": lambda a, table, walk, page: json_text(walk) + b"\n"}
