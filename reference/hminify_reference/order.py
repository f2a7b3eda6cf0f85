"""The order of attributes in which each tag is shortest."""
from .graph import Graph, NOTHING, SPOTS, State, attr_units, may_end
from .walk import End, Start


def _form_costs(graph, k, a):
    """Pairs of the quoting's kind and its fewest bytes, name and quotes included."""
    name, value = graph.walk[k].attrs[a]
    head = len(name.encode())
    if value == "":
        return [("bare", head), ("quoted", head + 3)]
    forms = [("unquoted", "InU", 1)] if graph.rules.unquote else []
    forms += [("quoted", "InD", 3), ("quoted", "InS", 3)]
    out = []
    for kind, at, extra in forms:
        n = value_cost(graph, k, a, at)
        if n is not None:
            out.append((kind, head + extra + n))
    return out


def value_cost(graph, k, a, at):
    """The fewest bytes of the value's code points from `at` to an allowed end."""
    reach = {State(at, NOTHING): 0}
    for u in graph.units:
        if u.kind != "Char" or u.event != k or u.attr != a:
            continue
        after = {}
        for s, n in reach.items():
            for b, to in graph.char_edges(u, s):
                m = n + len(b.encode())
                if to not in after or m < after[to]:
                    after[to] = m
        reach = after
    return min((n for s, n in reach.items() if may_end(s.pending, graph.table, SPOTS[at])),
               default=None)


def attr_cost(graph, k, a):
    """The fewest bytes of an attribute before others, and as the last one."""
    alone = graph.walk[k].foreign and isinstance(graph.walk[k + 1], End)
    forms = _form_costs(graph, k, a)
    inner = min(n + (0 if kind == "quoted" and graph.rules.tight else 1) for kind, n in forms)
    last = min(n + (1 if kind == "unquoted" and alone else 0) for kind, n in forms)
    return inner, last


def best_last(costs):
    return min(range(len(costs)), key=lambda i: (costs[i][1] - costs[i][0], i))


def reorder(table, rules, walk):
    """The walk with the attributes of each tag in order: the one that gains most is the last."""
    out = []
    for k, e in enumerate(walk):
        if isinstance(e, Start) and len(e.attrs) >= 2:
            graph = Graph(table, rules, walk, list(attr_units(walk, k)))   # of this tag alone
            i = best_last([attr_cost(graph, k, a) for a in range(len(e.attrs))])
            attrs = e.attrs[:i] + e.attrs[i + 1:] + (e.attrs[i],)
            e = Start(e.name, e.foreign, attrs)
        out.append(e)
    return out
