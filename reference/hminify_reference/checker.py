"""The checker: the first reason why a certificate doesn't show that OUT is the shortest text."""
from .construction import tree_of
from .certificate import first_break_of_prices, full
from .graph import Graph
from .text import CHECK_LIMIT, Refused
from .walk import first_other


def why_not(table, wanted, out, cert, rules, stop=None):
    """None for yes, else a tuple of the number of the condition and its parts. `stop` is a
    test after condition 2, for fragments."""
    if cert.rules != rules:
        return (1,)
    try:
        tree = tree_of(table, out, CHECK_LIMIT)
    except Refused as r:
        return (2, r.rule, r.at)
    if stop is not None:
        found = stop()
        if found is not None:
            return found
    other = first_other(tree, wanted)
    if other is not None:
        return (3, other)
    graph = Graph(table, rules, wanted, fmt=cert.format)
    written = graph.written(cert.format)
    if len(cert.prices) != len(written):
        return (4, len(cert.prices), len(written))
    for k, layer in zip(written, cert.prices):
        if len(layer) != len(graph.states(k)):
            return (5, k, len(layer), len(graph.states(k)))
    q = full(graph, cert.format, cert.prices)
    bad = first_break_of_prices(graph, q)
    if bad is not None:
        return (6,) + bad
    if len(out) > q[0][0]:
        return (7, len(out), q[0][0])
    return None


def line_of(why):
    number = why[0]
    text = lambda p: "-" if p is None else str(p)   # noqa: E731
    if number == 1:
        return "no 1 rules differ"
    if number == 2:
        return "no 2 output refused: %s at %d" % why[1:]
    if number == 3:
        return "no 3 trees differ at event %d" % why[1]
    if number == 4:
        return "no 4 layers %d, wanted %d" % why[1:]
    if number == 5:
        return "no 5 layer %d: prices %d, wanted %d" % why[1:]
    if number == 6:
        return "no 6 layer %d state %d: price %s above %s" % (
            why[1], why[2], text(why[3]), text(why[4]))
    return "no 7 output %d bytes, first price %d" % why[1:]
