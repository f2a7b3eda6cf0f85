#!/usr/bin/env python3
"""order.py SECOND [PROGRAM [COUNT [SEED]]]: pages of many attributes under `--order`, and all orders of a tag.

Makes COUNT random pages (1,000) of tags with many attributes, of HTML and of SVG, and asks `minify` of both programs about each with
`--order`, random flags and one of three tables: exit status, line, OUT and CERT have to be the same. `check` with the same flags has to say
yes to what is left; one in five pages is told to `tree`, `json`, `fragment` and `check` without the flag too. Then COUNT / 4 tags of two to five
attributes are tried in all their orders: the page that has the tag in each of them is minified without the flag and with it. With it each tag has to
be as long as the shortest one without it. SECOND is the folder of the second program, a Python package `hminify_oracle` that was written from
the same rules apart from hminify and is kept outside the repository; `-` leaves it out, and tries the orders alone. PROGRAM is the program that was
built (`crates/hminify/out/hminify`), SEED what the random numbers are made from (1). Prints how often each line came, without its numbers, and each page
that differs; ends with 1 where one does. Needs the standard library of Python 3.9 or later.
"""
import itertools
import os
import random
import subprocess
import sys
import tempfile

from fragments import SHARES, TABLES, Both, Reader, attribute, put_tables
from walks import BUILT, FLAGS, got, put

NAMES = ["id", "class", "href", "title", "alt", "d", "x", "y", "lang", "data-a", "name", "value", "hidden", "style", "rel", "type", "method"]
WORDS = ["a", "b c", "x", "", "1", "?a=b", "&", "&amp;", "&lt", "&ab;", "it's", '"', " ", "\n", "é", "∉", "`", "=", "/", "M0 1", "xy", "&copy", "y̸", "text", "get"]
TAGS = ["p", "a", "br", "img", "div", "span", "input", "form", "g", "path", "g", "path", "path"]
FOREIGN = ["g", "path"]


def value(dice):
    return "".join(dice.choice(WORDS) for _ in range(dice.choice([0, 1, 1, 1, 2, 3])))


def attributes(dice, most):
    """Attributes in loose markup; a value that can't stand so is quoted."""
    names = dice.sample(NAMES, dice.randint(0, most))
    return [attribute(dice, name, value(dice)) for name in names]


def tag(dice, name, attrs):
    """A tag with its attributes, and what it holds."""
    found = "<" + name + "".join(" " + it for it in attrs)
    if name in FOREIGN:
        return "<svg>" + found + dice.choice([" />", "></%s>" % name, ">x</%s>" % name, "><!--c--></%s>" % name]) + "</svg>"
    return found + ">" + ("" if name in ("br", "img", "input") else "t</%s>" % name)


def page(dice):
    tags = (tag(dice, dice.choice(TAGS), attributes(dice, dice.choice([2, 5, 12]))) for _ in range(dice.randint(1, 4)))
    return ("<!DOCTYPE html>" + "".join(tags)).encode()


def flags_for(dice):
    """Random flags without --order."""
    found = [flag for flag in FLAGS if dice.random() < 0.4]
    return found + (["--tight"] if dice.random() < 0.4 and "--tight" not in found else [])


def table_for(dice):
    return dice.choices(list(TABLES), SHARES)[0]


def try_one(dice, both, place):
    """One page by both programs, and the check of what it leaves."""
    data, flags = page(dice), flags_for(dice)
    table = table_for(dice)
    names = [table, "page", "out", "cert"]
    status, said, out, cert = both.ends(place, ["minify"] + names + flags + ["--order"], {"page": data})
    if status:
        return
    left = {"page": data, "out": out, "cert": cert}
    if both.ends(place, ["check"] + names + flags + ["--order"], left)[:2] != (0, said.replace(b"length", b"yes")):
        both.differ += 1
        print("%s: what was left isn't shown" % place)
    if dice.random() < 0.2:
        both.ends(place, ["check"] + names + flags, left)
        both.ends(place, [dice.choice(["tree", "json"])] + names[:2] + flags + ["--order"], {"page": data})
        body = data[len("<!DOCTYPE html>"):]
        both.ends(place, ["fragment"] + names + [flag for flag in flags if flag != "--omit"] + ["--omit", "--order"], {"page": body})


# ---- All orders of a tag

def lengths(program, folder, words, closing):
    """How many bytes each tag of OUT has, up to what closes it."""
    run = subprocess.run([program] + words, cwd=folder, stdin=subprocess.DEVNULL, capture_output=True, check=False)
    if run.returncode:
        raise SystemExit("%s ends with %d, %r" % (" ".join(words), run.returncode, run.stdout))
    pieces = got(folder, "out").split(closing)[:-1]
    return [len(piece) - piece.rindex(b"<") for piece in pieces]


def quoted(dice, name):
    """An attribute in quotes, without what begins a tag, so that tags can be told apart in OUT."""
    text = "".join(dice.choice([it for it in WORDS if "&lt" not in it]) for _ in range(dice.choice([0, 1, 1, 1, 2, 3])))
    return '%s="%s"' % (name, text.replace('"', "&#34;"))


def try_orders(dice, program, folder):
    """A tag in all orders of its attributes, by the program alone. How many orders there are, and whether one is shorter than with the flag."""
    attrs = [quoted(dice, name) for name in dice.sample(NAMES, dice.choice([2, 3, 3, 4, 4, 5]))]
    orders = list(itertools.permutations(attrs))
    foreign = dice.random() < 0.5
    name, closing = ("path", b"/>") if foreign else ("a", b">t</a>")
    tags = "".join("<%s %s%s" % (name, " ".join(it), "/>" if foreign else ">t</a>") for it in orders)
    put(folder, "page", ("<!doctype html>" + ("<svg>%s</svg>" % tags if foreign else tags)).encode())
    words = ["minify", table_for(dice), "page", "out", "cert", "--sparse"] + [flag for flag in ["--omit", "--unquote", "--ascii"] if dice.random() < 0.7]
    words += ["--tight"] if dice.random() < 0.7 else []
    without = lengths(program, folder, words, closing)
    within = lengths(program, folder, words + ["--order"], closing)
    if len(without) != len(orders) or set(within) != {min(without)}:
        print("%s: %s with --order, %s without it, on %r" % (" ".join(words), sorted(set(within)), sorted(set(without)), tags[:200]))
        return len(orders), True
    return len(orders), False


def main():
    words = sys.argv[1:]
    if not words:
        raise SystemExit(__doc__)
    program = os.path.abspath(words[1] if len(words) > 1 else BUILT)
    count, seed = [int(word) for word in words[2:4]] + [1000, 1][len(words[2:4]):]
    dice = random.Random(seed)
    bad = 0
    with tempfile.TemporaryDirectory(prefix="hminify-order-") as folder:
        put_tables(folder, TABLES)
        if words[0] != "-":
            both = Both(Reader(words[0]), program, folder, TABLES)
            for turn in range(count):
                try_one(dice, both, "seed %d turn %d" % (seed, turn))
            for line, times in sorted(both.lines.items()):
                if not line.startswith(("tree", "json")):
                    print("%8d %s" % (times, line))
            print("%d pages, %d runs by each program, %d differ" % (count, both.asked, both.differ))
            bad += both.differ
        dice = random.Random(seed)
        tried = [try_orders(dice, program, folder) for _ in range(count // 4)]
        longer = sum(other for _, other in tried)
        print("%d tags in all their orders, %d orders: %d are shorter without the flag" % (len(tried), sum(n for n, _ in tried), longer))
        bad += longer
    return 1 if bad else 0


if __name__ == "__main__":
    sys.exit(main())
