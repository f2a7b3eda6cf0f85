#!/usr/bin/python3
"""pictures.py: makes docs/speed.svg and docs/sizes.svg from speed.json and sizes.json, and prints the same figures as tables of Markdown.

speed_figures.py and sizes.py write the two files. With the same figures the pictures are the same, byte for byte. Needs Debian's
python3-matplotlib.
"""
import figures
from graph_picture import BLUE, matplotlib, save

# Ours are dark and the others light, so that they are told apart in grey too.
OTHERS = "#f0b35a"
INK = "#303030"

KEY = """MB of page for a second of
processor time: longer is
faster. Best of %d runs (a
third of them of parse5); the
white line is their median.
Each kind has its own scale."""

# The bars of a kind of page: what is read in speed.json, what is written beside it, and where it stands.
SPEED_BARS = [
    ("tree", "hminify tree", 0), ("html5ever", "html5ever", 1), ("parse5", "parse5", 2),
    ("minify", "hminify minify --sparse", 3.6), ("check", "hminify check", 4.6), ("tdewolff", "tdewolff's minify", 5.6),
]
SIZE_BARS = [("hminify", "hminify, all rewrites"), ("hminify, tree kept", "hminify, tree kept"), ("tdewolff", "tdewolff's minify"),
             ("htmlmin", "htmlmin"), ("htmlmin, spaces kept", "htmlmin, spaces kept"), ("html5lib", "html5lib")]


def colour(label):
    return BLUE if label.startswith("hminify") else OTHERS


def bare(axes, title):
    """Axes without frame and ticks, under a title."""
    axes.set_title(title, loc="left", fontsize=9.5, fontweight="bold", color=INK)
    axes.xaxis.set_visible(False)
    axes.tick_params(axis="y", length=0, labelcolor=INK)
    for side in ("top", "right", "bottom"):
        axes.spines[side].set_visible(False)
    axes.spines["left"].set_color("#a0a0a0")


def bars(axes, title, rows, room, named=True):
    """Bars from the top down: rows of a place, a name, a value and what is written at the bar's end. The axis is `room` times the longest."""
    places, names, values, ends = zip(*rows)
    axes.barh(places, values, height=0.78, color=[colour(name) for name in names])
    most = max(values) or 1
    for place, value, end in zip(places, values, ends):
        axes.text(value + most * 0.03, place, end, va="center", fontsize=8.5, color=INK)
    axes.set_xlim(0, most * room)
    axes.set_ylim(max(places) + 0.6, -0.6)
    axes.set_yticks(places)
    axes.set_yticklabels(names if named else [])
    bare(axes, title)


def key(axes, words):
    """The cell with what the colours stand for, and some words."""
    axes.axis("off")
    axes.set_xlim(0, 1)
    axes.set_ylim(0, 1)
    for height, name, shade in [(0.92, "hminify", BLUE), (0.78, "others", OTHERS)]:
        axes.add_patch(matplotlib.patches.Rectangle((0.02, height - 0.05), 0.1, 0.1, color=shade))
        axes.text(0.17, height, name, va="center", color=INK)
    axes.text(0.02, 0.62, words, va="top", fontsize=8, color=INK, linespacing=1.4)


def shown(rate):
    """A speed in as many digits as it is worth."""
    return "%.0f" % rate if rate >= 10 else "%.1f" % rate


def speed_picture(found):
    figure, grid = matplotlib.pyplot.subplots(2, 4, figsize=(9.2, 4.3))
    cells = list(grid.flat)
    for at, (axes, (kind, page)) in enumerate(zip(cells, found["pages"].items())):
        rates = {name: rate["best"] for name, rate in page["programs"].items()}
        rows = [(place, label, rates[name], shown(rates[name])) for name, label, place in SPEED_BARS]
        bars(axes, kind, rows, 1.3, named=at % 4 == 0)
        medians = [(place, page["programs"][name]["median"]) for name, _, place in SPEED_BARS]
        axes.vlines([median for _, median in medians], *zip(*[(place - 0.39, place + 0.39) for place, _ in medians]), color="white", lw=1.2)
    key(cells[-1], KEY % found["runs"])
    figure.tight_layout(w_pad=0.6, h_pad=1.2)
    save(figure, "speed.svg")


def sizes_picture(found):
    every = found["all"]
    figure, (left, right) = matplotlib.pyplot.subplots(1, 2, figsize=(9.2, 2.7), gridspec_kw={"width_ratios": [1.2, 1]})
    saved, changed = [], []
    for place, (name, label) in enumerate(SIZE_BARS):
        program = every["programs"][name]
        share = 100 * (1 - program["bytes"] / every["bytes"])
        saved.append((place, label, share, "%.1f %%: %.1f MB left" % (share, program["bytes"] / 1e6)))
        count = program["elements or texts"] + program["words"]
        changed.append((place, label, count, "{:,}".format(count)))
    bars(left, "Bytes saved of {:.1f} MB".format(every["bytes"] / 1e6), saved, 1.55)
    bars(right, "Pages changed, of {:,}".format(every["pages"]), changed, 1.2, named=False)
    right.text(0, len(SIZE_BARS) - 0.1, "other elements or texts, or words that run together", fontsize=8, color=INK)
    figure.tight_layout(w_pad=1)
    save(figure, "sizes.svg")


def speed_table(found):
    names = [name for name, _, _ in SPEED_BARS] + ["parse5 again"]
    print("| page | %s |\n|---|%s" % (" | ".join("`%s`" % name if name in ("tree", "minify", "check") else name for name in names), "---|" * len(names)))
    for kind, page in found["pages"].items():
        cells = ["%(best).1f, %(median).1f" % page["programs"][name] for name in names]
        print("| %s, %s bytes | %s |" % (kind, "{:,}".format(page["bytes"]), " | ".join(cells)))


def sizes_table(found):
    print("| program | OUT, bytes | of the page | other tree | of these, other elements or texts | of the rest, words run together | failed |")
    print("|---|---|---|---|---|---|---|")
    every = found["all"]
    for name, label in SIZE_BARS:
        program = every["programs"][name]
        share = "%.1f %%" % (100 * program["bytes"] / every["bytes"])
        counts = ["{:,}".format(program[what]) for what in ("tree", "elements or texts", "words", "failed")]
        print("| %s | %s | %s | %s |" % (label, "{:,}".format(program["bytes"]), share, " | ".join(counts)))


def main():
    speed, sizes = figures.get("speed.json"), figures.get("sizes.json")
    speed_picture(speed)
    sizes_picture(sizes)
    speed_table(speed)
    print()
    sizes_table(sizes)


if __name__ == "__main__":
    main()
