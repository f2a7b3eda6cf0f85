#!/usr/bin/env python3
"""walks.py SECOND [PROGRAM [COUNT [SEED]]]: trees as JSON, right and damaged, told to two programs.

Makes COUNT random walks (1,000) in the form of docs/FORMATS.md, damages most of them, and asks `minifyjson` of both programs about
each, with random flags and tables: exit status, line, OUT and CERT have to be the same. Of a walk that is minified, what `json` makes of
OUT is read again by `minifyjson` and has to give the same OUT. SECOND is the folder of the second program, a Python package
`hminify_oracle` that was written from the same rules apart from hminify and is kept outside the repository. PROGRAM is the program
that was built (`crates/hminify/out/hminify`), SEED what the random numbers are made from (1). Prints how often each line came, without its
numbers but for that of the rule, with the kind of the event, and each walk that differs; ends with 1 where one does. Needs the standard library of Python 3.9
or later.
"""
import collections
import json
import os
import random
import re
import subprocess
import sys
import tempfile

HERE = os.path.dirname(os.path.abspath(__file__))
BUILT = os.path.join(HERE, "../crates/hminify/out/hminify")
TABLE = b'{"&lt;":{"codepoints":[60]},"&lt":{"codepoints":[60]},"&amp;":{"codepoints":[38]},"&ab;":{"codepoints":[120,824]}}'
FLAGS = ["--omit", "--unquote", "--tight", "--ascii", "--sparse", "--comments", "--booleans", "--empty", "--redundant", "--doctype", "--space"]
END = ["end"]
INSIDE = {
    "ul": ["li"], "ol": ["li"], "dl": ["dt", "dd"], "table": ["caption", "colgroup", "thead", "tbody", "tfoot"],
    "thead": ["tr"], "tbody": ["tr"], "tfoot": ["tr"], "tr": ["td", "th"], "colgroup": ["col"], "select": ["option", "optgroup"],
    "optgroup": ["option"], "datalist": ["option"], "svg": ["g", "path", "title"], "g": ["path", "g"],
}
FLOW = ["p", "div", "ul", "ol", "dl", "table", "select", "svg", "span", "b", "a", "h2", "pre", "textarea", "button", "section", "script", "style",
        "br", "img", "hr"]
PHRASE = ["span", "b", "i", "br", "img", "svg", "textarea", "script"]
VOID = ["br", "img", "hr", "col", "meta"]
RAW = ["script", "style"]
ALL = sorted(set(FLOW + PHRASE + VOID + RAW + [n for many in INSIDE.values() for n in many] + [
    "html", "head", "body", "title", "frame", "form", "template", "P", "math", "x-y", "a b", "", "noscript", "image", "viewBox"]))
TEXTS = ["a", "x y", " ", "\n", "<", "&", "&#38;", "&lt;", "=", "é", "\U0001f600", '"', "'", ">", "]]>", "/", "x\u0338", "\t", "&amp"]
ODD_TEXTS = ["", "\0", "a\0b", "\r", "</script>", "</style", "<!--<script>", "-->", "--!>", ">", "->", "\ufeff", "\x7f"]
NAMES = ["id", "class", "a", "checked", "type", "title", "style", "method", "x-y"]
ODD_NAMES = ["", "A", "a b", "a=b", "a/b", "a>b", "a\0", "é", "'", "<"]


def text(dice):
    return "".join(dice.choice(TEXTS) for _ in range(dice.randint(1, 3)))


def attributes(dice):
    names = dice.sample(NAMES, dice.choice([0, 0, 0, 1, 1, 2, 4]))
    return [[name, text(dice) if dice.random() < 0.7 else ""] for name in names]


def element(dice, name, depth):
    """An element with what may stand in it."""
    walk = [["start", name, attributes(dice)]]
    if name in RAW or name == "textarea":
        if dice.random() < 0.7:
            walk.append(["text", dice.choice(["a", "a<b", "\nx", "&amp;", "x = 1"])])
    elif name not in VOID:
        walk += content(dice, name, depth)
    return walk + [END]


def content(dice, name, depth):
    walk, texts = [], False
    for _ in range(dice.randint(0, 3) if depth else 0):
        kind = dice.random()
        if name in INSIDE:
            if kind < 0.15:
                if not texts:
                    walk.append(["text", " "])
                texts = True
                continue
            walk += element(dice, dice.choice(INSIDE[name]), depth - 1)
        elif kind < 0.45 and name != "path":
            if not texts:
                walk.append(["text", text(dice)])
            texts = True
            continue
        elif kind < 0.55:
            walk.append(["comment", dice.choice(["c", " ", "", "a-b"])])
        else:
            walk += element(dice, dice.choice(PHRASE if name in ("p", "span", "b", "i", "h2", "pre", "a", "button") else FLOW), depth - 1)
        texts = False
    return walk


def page(dice):
    walk = [["comment", "top"]] if dice.random() < 0.1 else []
    walk += [["doctype", dice.choice(["plain", "plain", "plain", "legacy"])], ["start", "html", attributes(dice)], ["start", "head", []]]
    if dice.random() < 0.4:
        walk += [["start", "title", []], ["text", text(dice)], END]
    if dice.random() < 0.3:
        walk += [["start", "meta", [["charset", "utf-8"]]], END]
    return walk + [END, ["start", "body", attributes(dice)]] + content(dice, "body", 4) + [END, END]


def event(dice):
    """Any event, or nearly one."""
    kind = dice.randrange(14)
    if kind == 0:
        return ["doctype", dice.choice(["plain", "legacy", "x", ""])]
    if kind < 5:
        return ["start", dice.choice(ALL), attributes(dice)]
    if kind == 5:
        return ["start", dice.choice(ALL), [[dice.choice(ODD_NAMES), dice.choice(ODD_TEXTS)]]]
    if kind == 6:
        return ["start", "p", [["a", "1"], ["a", "2"]]]
    if kind < 9:
        return ["text", dice.choice(TEXTS + ODD_TEXTS)]
    if kind == 9:
        return ["comment", dice.choice(ODD_TEXTS + ["c"])]
    if kind < 12:
        return END
    return dice.choice([[], None, 1, "end", ["end", 1], ["start", "p"], ["start", "p", [["a"]]], ["text", 1], ["text"], ["comment"], {"a": []},
                        ["start", 1, []], ["start", "p", [["a", 1]]], ["doctype"]])


def whole(dice):
    """An element with its end, or another event that leaves the walk balanced, mostly of a kind that breaks a rule somewhere."""
    name = dice.choice(ALL)
    kind = dice.randrange(8)
    if kind == 0:
        return [["start", dice.choice(VOID), []], dice.choice([["text", "x"], ["comment", "c"], ["doctype", "plain"]]), END]
    if kind == 1:
        return [["start", dice.choice(VOID), []], ["start", name, []], END, END]
    if kind == 2:
        return [["start", dice.choice(RAW), []], ["text", dice.choice(ODD_TEXTS)], END]
    if kind == 3:
        return [["start", dice.choice(["p", "b", "svg", name]), [[dice.choice(NAMES + ODD_NAMES), dice.choice(TEXTS + ODD_TEXTS)] for _ in range(2)]], END]
    if kind == 4:
        return [["comment", dice.choice(ODD_TEXTS)]]
    if kind == 5:
        return [["text", dice.choice(TEXTS)], ["text", dice.choice(TEXTS)]]
    return [["start", name, attributes(dice)]] + ([["text", dice.choice(TEXTS)]] if dice.random() < 0.5 else []) + [END]


def deeper(dice, walk):
    many = dice.randint(505, 515)
    at = next((i + 1 for i, e in enumerate(walk) if isinstance(e, list) and e[:2] == ["start", "body"]), 0)
    return walk[:at] + [["start", "div", []]] * many + [END] * many + walk[at:]


def damaged(dice, walk):
    """A walk with one change."""
    walk = list(walk)
    at = dice.randrange(len(walk)) if walk else 0
    kind = dice.randrange(14)
    if kind > 8:
        walk[at:at] = whole(dice)
    elif kind < 2 or not walk:
        walk.insert(at, event(dice))
    elif kind == 2:
        walk.insert(at, ["text", dice.choice(TEXTS + ODD_TEXTS)])
    elif kind == 3:
        walk[at] = event(dice)
    elif kind == 4:
        del walk[at]
    elif kind == 5:
        walk.insert(at, walk[at])
    elif kind == 6:
        other = dice.randrange(len(walk))
        walk[at], walk[other] = walk[other], walk[at]
    elif kind == 7:
        walk = walk[:at] if dice.random() < 0.5 else walk + [event(dice)]
    elif dice.random() < 0.1:
        walk = deeper(dice, walk)
    elif isinstance(walk[at], list) and walk[at][:1] == ["start"] and len(walk[at]) == 3:
        walk[at] = ["start", dice.choice(ALL), walk[at][2]]
        if dice.random() < 0.1:
            walk[at][2] = [["a%d" % i, ""] for i in range(dice.randint(255, 258))]
    elif isinstance(walk[at], list) and walk[at][:1] == ["text"]:
        walk[at] = ["text", dice.choice(ODD_TEXTS)]
    return walk


def written(dice, walk):
    """The bytes of a walk, sometimes with whitespace, escapes or a fault."""
    data = json.dumps(walk, ensure_ascii=dice.random() < 0.3, indent=1 if dice.random() < 0.1 else None).encode("utf-8", "surrogatepass")
    if dice.random() < 0.04:
        at = dice.randrange(len(data) + 1)
        data = dice.choice([data[:at], data[:at] + bytes([dice.randrange(256)]) + data[at:], data + b" x", b"{}", b"", b"[" * 128 + b"]" * 128])
    return data


def line_of(printed):
    """What is printed, where words without a meaning are told by one word: the second program hasn't all commands, so its usage line is another."""
    return b"usage\n" if printed.startswith(b"usage: ") else printed


class Second:
    """The second program."""

    def __init__(self, folder):
        os.environ["HM_SPARSE"] = os.environ["HM_PRUNE"] = "1"
        sys.path.insert(0, folder)
        from hminify_oracle import run, spec
        self.run, self.spec = run, spec.Spec.of("R20")

    def told(self, words, files):
        store, sink = self.run.MemStore(dict(files)), self.run.MemSink()
        status = self.run.run(words, store, sink, self.spec)
        return status, line_of(sink.bytes), store.files.get("out"), store.files.get("cert")


def told(program, words, folder):
    for name in ("out", "cert"):
        if os.path.exists(os.path.join(folder, name)):
            os.remove(os.path.join(folder, name))
    run = subprocess.run([program] + words, cwd=folder, stdin=subprocess.DEVNULL, capture_output=True, check=False)
    return run.returncode, line_of(run.stdout), got(folder, "out"), got(folder, "cert")


def got(folder, name):
    try:
        with open(os.path.join(folder, name), "rb") as file:
            return file.read()
    except FileNotFoundError:
        return None


def put(folder, name, data):
    with open(os.path.join(folder, name), "wb") as file:
        file.write(data)


def comes_again(program, folder, flags, out):
    """Whether the JSON of OUT gives OUT again, where the flags change no tree."""
    put(folder, "again", out)
    shown = subprocess.run([program, "json", "table", "again"], cwd=folder, capture_output=True, check=False)
    if shown.returncode:
        return False
    put(folder, "page", shown.stdout)
    spelling = [flag for flag in flags if flag in FLAGS[:5]]
    return told(program, ["minifyjson", "table", "page", "out", "cert"] + spelling, folder)[2] == out


def kind_at(walk, line):
    """The kind of the event that a line names."""
    found = re.search(r"NotSettled event (\d+)", line)
    if not found:
        return ""
    at = int(found[1])
    return ", " + (walk[at][0] if at < len(walk) else "after the last event")


def main():
    words = sys.argv[1:]
    if not words:
        raise SystemExit(__doc__)
    second = Second(words[0])
    program = os.path.abspath(words[1] if len(words) > 1 else BUILT)
    count, seed = [int(word) for word in words[2:4]] + [1000, 1][len(words[2:4]):]
    dice = random.Random(seed)
    differ, lines = 0, collections.Counter()
    with tempfile.TemporaryDirectory(prefix="hminify-walks-") as folder:
        put(folder, "table", TABLE)
        for turn in range(count):
            walk = page(dice)
            for _ in range(dice.choice([0, 0, 1, 1, 1, 1, 2, 3])):
                walk = damaged(dice, walk)
            data = written(dice, walk)
            flags = [flag for flag in FLAGS if dice.random() < 0.3]
            table = dice.choice(["none", "table"])
            asks = ["minifyjson", table, "page", "out", "cert"] + flags
            put(folder, "page", data)
            wanted = second.told(asks, {"table": TABLE, "page": data})
            given = told(program, asks, folder)
            line = given[1].decode("utf-8", "replace").strip()
            lines[re.sub(r"(length|event|open) \d+", r"\1", line) + kind_at(walk, line)] += 1
            if given != wanted:
                differ += 1
                print("seed %d turn %d: gives %r, wanted %r" % (seed, turn, given[:2], wanted[:2]))
            elif given[0] == 0 and table == "table" and not comes_again(program, folder, flags, given[2]):
                differ += 1
                print("seed %d turn %d: the JSON of OUT gives another OUT" % (seed, turn))
    for line, times in sorted(lines.items()):
        print("%8d %s" % (times, line))
    print("%d walks, %d differ" % (count, differ))
    return 1 if differ else 0


if __name__ == "__main__":
    sys.exit(main())
