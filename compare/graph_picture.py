#!/usr/bin/python3
"""graph_picture.py: makes docs/graph.svg, the layered graph of a small page, with Debian's python3-matplotlib. It makes the same file each time."""
import os

import matplotlib

matplotlib.use("svg")
matplotlib.rcParams.update({"svg.hashsalt": "hminify", "svg.fonttype": "none", "font.size": 9, "font.family": "DejaVu Sans"})
import matplotlib.pyplot

DOCS = os.path.join(os.path.dirname(os.path.abspath(__file__)), "../docs")
BLUE = "#1b6ca8"

# The graph of `<!doctype html><p title=x>a`: in each layer its states, by name, height and price; then the edges, by layer, states, and bytes.
LAYERS = [
    [("", 0, 27)], [("", 0, 12)], [("", 0, 10)],
    [("no quotes", 1, 3), ("double", 0, 4), ("single", -1, 4)], [("no quotes", 1, 2), ("double", 0, 3), ("single", -1, 3)],
    [("no quotes", 1, 2), ("quotes", -0.5, 2)], [("", 0, 1)], [("", 0, 0)], [("", 0, 0)],
]
EDGES = [
    (0, 0, 0, "<!doctype html>"), (1, 0, 0, "<p"),
    (2, 0, 0, " title="), (2, 0, 1, ' title="'), (2, 0, 2, " title='"),
    (3, 0, 0, "x"), (3, 1, 1, "x"), (3, 2, 2, "x"),
    (4, 0, 0, ""), (4, 1, 1, '"'), (4, 2, 1, "'"),
    (5, 0, 0, ">"), (5, 1, 0, ">"), (6, 0, 0, "a"), (7, 0, 0, "nothing"), (7, 0, 0, "</p>"),
]
SHORTEST = {(0, 0, 0), (1, 0, 0), (2, 0, 0), (3, 0, 0), (4, 0, 0), (5, 0, 0), (6, 0, 0), (7, 0, 0)}
WIDTHS = [0, 2.1, 3.1, 5.3, 6.5, 7.7, 8.8, 9.8, 11.1]


def save(figure, name):
    """Writes a picture of docs/, the same bytes each time."""
    figure.savefig(os.path.join(DOCS, name), bbox_inches="tight", metadata={"Date": None, "Creator": None})


def draw_graph():
    """Draws states as circles with their prices, and edges as arrows with the bytes that they write."""
    figure, axes = matplotlib.pyplot.subplots(figsize=(9.2, 2.7))
    for layer, start, end, text in EDGES:
        x, y = WIDTHS[layer], LAYERS[layer][start][1]
        u, v = WIDTHS[layer + 1], LAYERS[layer + 1][end][1]
        best = (layer, start, end) in SHORTEST and text != "</p>"
        bend = 0.45 if text == "</p>" else 0
        arrow = dict(arrowstyle="->", color=BLUE if best else "#9a9a9a", lw=2.2 if best else 1, shrinkA=11, shrinkB=11,
                     connectionstyle="arc3,rad=%s" % bend)
        axes.annotate("", (u, v), (x, y), arrowprops=arrow)
        axes.text((x + u) / 2, (y + v) / 2 + (-0.42 if bend else 0 if y != v else 0.2), text, ha="center", va="center", fontsize=8,
                  family="sans-serif" if text == "nothing" else "monospace", color=BLUE if best else "#606060",
                  bbox=dict(facecolor="white", edgecolor="none", pad=0.8) if y != v else None)
    for at, states in zip(WIDTHS, LAYERS):
        for name, height, price in states:
            axes.plot([at], [height], "o", ms=19, mfc="white", mec="#404040")
            axes.text(at, height, price, ha="center", va="center", fontsize=9)
            if name:
                axes.text(at, height - 0.36, name, ha="center", va="top", fontsize=6.5, color="#505050")
    axes.set_xlim(-0.4, 11.5)
    axes.set_ylim(-1.9, 1.6)
    axes.axis("off")
    save(figure, "graph.svg")


if __name__ == "__main__":
    draw_graph()
