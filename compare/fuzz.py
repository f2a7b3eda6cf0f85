#!/usr/bin/env python3
"""fuzz.py [--runs N | --minutes M] [--seed S] [--reference COMMAND] [--keep FOLDER] [FOLDER ..]: inputs that change by themselves.

Takes the cases of `crates/hm_cases/data/cases.txt`, pages of the FOLDERs and what an earlier run has kept, changes their bytes, tags,
attributes, references, events, names of tables, lines of prices, flags and commands at random, and runs the program on each. An input is
kept, and changed further, if command, status, rule (or `no N`) and class of length are new together. Of every run is asked:

- `status`: a status that BEHAVIOUR has for the command, with a line of its form; no signal;
- `bounds`: time and memory within bounds that are linear in the files (below);
- `files`: no file but OUT and CERT has changed, and these only with status 0;
- `tree`: with the table `html` and without rewrites, parse5's tree of OUT is that of PAGE, or of the events of the JSON; what `tree` and
  `json` print is parse5's tree;
- `shown`: `check` says yes to what `minify` left, as `checkfragment` does to what `fragment` left;
- `length`: `check` says yes to no text that is longer or shorter than what `minify` writes; `explain` tells the same length;
- `denied`: `check` says that trees differ only if they do for parse5, and goes on only if they don't;
- `reference`: on small inputs status, printed bytes, OUT and CERT are those of the reference.

What is found is made small, printed in the form of cases.txt (with the reference's answer, if it was asked), and written into the FOLDER
of --keep, where what is kept lies too. The last line counts runs, kept inputs and differences. Ends with 1 if there is a difference. The
seed is printed first; with --runs the same seed, files and programs make the same run. Other words: --program COMMAND
(`crates/hminify/out/hminify`); --share P, how many of the small inputs the reference is asked about (0.1; each that is kept, too);
--small N, the bytes of a small input (4000); --slack X, by which the bounds are multiplied (1); --pages N, how many pages are taken from
the FOLDERs (300); --until KIND, which looks for differences of this kind alone and ends at the first one. Needs Linux, Python 3.9 or
later, and parse5 (apt-get install node-parse5; NODE_PATH=/usr/share/nodejs is set if it isn't).
"""
import argparse
import base64
import collections
import dataclasses
import json
import os
import random
import re
import shlex
import subprocess
import sys
import tempfile
import time

import fuzz_inputs
import fuzz_shrink
from fuzz_inputs import REWRITES, WITH_FILES, WRITERS, Input

HERE = os.path.dirname(os.path.abspath(__file__))
BUILT = os.path.join(HERE, "../crates/hminify/out/hminify")
STANDARD = os.path.abspath(os.path.join(HERE, "../tables/entities.json"))
MIB = 1 << 20

# What a run may take: a part for the start, and a part for each byte of its files. docs/PERFORMANCE.md has 8.5 MB/s at the slowest and 34
# bytes of memory for a byte at most with `html` or `none`, and 0.15 MB/s and 1,585 bytes of CERT for a byte with a table that is made for it.
SECONDS, MEMORY = 0.25, 24 * MIB
SECONDS_PER_MIB, MEMORY_PER_BYTE = 1.0, 80
SECONDS_PER_MIB_OF_TABLE, MEMORY_PER_BYTE_OF_TABLE = 40.0, 6000
SHRINKS, MOST_OF_A_KIND = 400, 3

RULES = ("TooLong NotUtf8 Nul Cut BadName TooManyAttributes BadDoctype NoDoctype SecondDoctype RefusedName SecondRoot StrayEnd NotCurrent "
         "BlockInParagraph Nested WrongParent TextHere AfterHead AfterBody Unclosed TooDeep ForeignName FrameEnd").split()
RULE = "(?:%s)" % "|".join(RULES)
PRICE = r"(?:-|\d+)"
# The whole of what is printed, by status.
LINES = {
    1: re.compile(r"no (?:0 certificate (?:too long|line \d+)|1 rules differ|2 output refused: %s at \d+|3 trees differ at event \d+|"
                  r"4 layers \d+, wanted \d+|5 layer \d+: prices \d+, wanted \d+|6 layer \d+ state \d+: price %s above \d+|"
                  r"7 output \d+ bytes, first price %s)\n" % (RULE, PRICE, PRICE)),
    2: re.compile(r"usage: .*\n"),
    3: re.compile(r"page refused: (%s) at (\d+)\n" % RULE),
    4: re.compile(r"table refused: (?:TooLong|NotJson|NotObject|TooMany|(?:BadName|BadPoints|Lone) .*|TooManyFor [\w+]+)\n", re.S),
    8: re.compile(r"json refused: (?:TooLong|NotJson|NotArray|BadEvent event \d+|Open open \d+|NotSettled event \d+ point \d+)\n"),
}
EXPLAINED = re.compile(r"page:\d+:\d+: (%s): .*\n.*\n *.*\^\n" % RULE, re.S)
STATUSES = {"check": (0, 1, 2, 3, 4), "checkfragment": (0, 1, 2, 3, 4), "minifyjson": (0, 2, 4, 8)}

KINDS = ["status", "bounds", "files", "tree", "shown", "length", "denied", "reference"]

Told = collections.namedtuple("Told", "status said files seconds memory")


class Command:
    """A program that is run again and again."""

    def __init__(self, text, folder):
        words = [sys.executable if word == "python3" else word for word in shlex.split(text)]
        words = [os.path.abspath(word) if os.path.exists(word) else word for word in words]
        self.folder, self.said = os.path.join(folder, "files"), os.path.join(folder, "said")
        os.makedirs(self.folder)
        self.process = subprocess.Popen([sys.executable, os.path.join(HERE, "fuzz_runner.py"), *words], stdin=subprocess.PIPE, stdout=subprocess.PIPE)

    def run(self, words, files, seconds):
        """What a run with these files prints and leaves."""
        for name in os.listdir(self.folder):
            os.unlink(os.path.join(self.folder, name))
        for name, data in files.items():
            with open(os.path.join(self.folder, name), "wb") as file:
                file.write(data)
        request = {"words": words, "folder": self.folder, "said": self.said, "heard": self.said + ".2", "seconds": int(seconds) + 2}
        self.process.stdin.write(json.dumps(request).encode() + b"\n")
        self.process.stdin.flush()
        status, taken, memory = json.loads(self.process.stdout.readline())
        return Told(status, got(self.said), {name: got(os.path.join(self.folder, name)) for name in os.listdir(self.folder)}, taken, memory)

    def end(self):
        self.process.stdin.close()
        self.process.wait()
        self.process.stdout.close()


def got(path):
    with open(path, "rb") as file:
        return file.read()


class Parse5:
    """The parser that others wrote."""

    def __init__(self):
        self.process = subprocess.Popen(["node", os.path.join(HERE, "fuzz_parse5.mjs")], stdin=subprocess.PIPE, stdout=subprocess.PIPE,
                                        env={"NODE_PATH": "/usr/share/nodejs", **os.environ})

    def differ(self, kind, one, other):
        """Where two trees differ, or None, and whether parse5 may be wrong about them."""
        request = [kind, *(base64.b64encode(data).decode() for data in (one, other))]
        self.process.stdin.write(json.dumps(request).encode() + b"\n")
        self.process.stdin.flush()
        answer = self.process.stdout.readline()
        if not answer:
            raise SystemExit("parse5 doesn't answer: apt-get install node-parse5")
        return json.loads(answer)

    def end(self):
        self.process.stdin.close()
        self.process.wait()
        self.process.stdout.close()


class Tools:
    """The programs that are asked, and how often each was."""

    def __init__(self, asked, folder):
        self.program = Command(asked.program, os.path.join(folder, "program"))
        self.reference = Command(asked.reference, os.path.join(folder, "reference")) if asked.reference else None
        self.parse5, self.slack, self.small, self.share = Parse5(), asked.slack, asked.small, asked.share
        self.count, self.dice, self.always = collections.Counter(), random.Random(asked.seed), False
        self.known = self.known_commands() if self.reference else []

    def known_commands(self):
        """The commands that the reference has: with a page that is settled it doesn't take their words for wrong ones."""
        files = {"page": b"<!doctype html><p>a", "out": b"", "cert": b""}
        inputs = [Input(command, ("--omit",), "none", None, **files) for command in fuzz_inputs.COMMANDS]
        return [it.command for it in inputs if self.reference.run(it.words(), it.files(), 30).status != 2]

    def run(self, it):
        self.count["runs of the program"] += 1
        return self.program.run(it.words(), it.files(), bounds_of(it, self.slack)[0])

    def trees(self, kind, one, other):
        self.count["pairs of trees by parse5"] += 1
        return self.parse5.differ(kind, one, other)

    def end(self):
        for process in filter(None, (self.program, self.reference, self.parse5)):
            process.end()


def bounds_of(it, slack):
    """Seconds of processor time and bytes of memory that a run may take."""
    size = sum(map(len, it.files().values()))
    seconds, memory = (SECONDS_PER_MIB_OF_TABLE, MEMORY_PER_BYTE_OF_TABLE) if it.table is not None else (SECONDS_PER_MIB, MEMORY_PER_BYTE)
    return slack * (SECONDS + size / MIB * seconds), slack * (MEMORY + size * memory)


def keeps_tree(it):
    """Whether parse5 can say something of the tree: the names are the standard's, and no flag changes the tree."""
    return it.word == "html" and not set(it.flags) & {*REWRITES, "--order"}


# What is asked of a run: each gives pairs of a kind and a sentence.

def ended(_tools, it, told):
    said = told.said.decode("utf-8", "replace")
    if told.status not in STATUSES.get(it.command, (0, 2, 3, 4)):
        yield "status", "status %d, %r" % (told.status, told.said[:200])
    elif told.status == 3 and it.command == "explain":
        if not EXPLAINED.fullmatch(said):
            yield "status", "status 3 with %r" % said[:200]
    elif told.status:
        found = LINES[told.status].fullmatch(said)
        if not found or told.status == 3 and int(found[2]) > len(it.page):
            yield "status", "status %d with %r" % (told.status, said[:200])
    elif it.command in WITH_FILES:
        word = "yes" if it.command in WRITERS else "length"
        if said != "%s %d\n" % (word, len(told.files.get("out", b""))):
            yield "status", "%r, and OUT has %d bytes" % (said[:200], len(told.files.get("out", b"")))


def in_bounds(tools, it, told):
    seconds, memory = bounds_of(it, tools.slack)
    if told.seconds > seconds:
        yield "bounds", "%.2f s, and %.2f are allowed" % (told.seconds, seconds)
    if told.memory > memory:
        yield "bounds", "%d bytes of memory, and %d are allowed" % (told.memory, memory)


def kept_files(_tools, it, told):
    before, after = dict(it.files()), dict(told.files)
    if told.status == 0 and it.command in WITH_FILES and it.command not in WRITERS:
        for files in (before, after):
            files.pop("out", None)
            files.pop("cert", None)
    for name in sorted(set(before) | set(after)):
        if before.get(name) != after.get(name):
            yield "files", "the file %s is another one after status %d" % (name, told.status)


def event_lines(data):
    """The lines of the tree that JSON tells."""
    def quoted(text):
        return '"' + re.sub(r'["\\\n\r\t]', lambda m: {"\n": "\\n", "\r": "\\r", "\t": "\\t"}.get(m[0], "\\" + m[0]), text) + '"'
    lines, depth = [], 0
    for kind, *rest in json.loads(data):
        pad = "  " * depth
        if kind == "doctype":
            lines.append("doctype legacy" if rest[0] == "legacy" else "doctype")
        elif kind == "start":
            lines.append(pad + "element " + rest[0] + "".join(" %s=%s" % (name, quoted(value)) for name, value in rest[1]))
        elif kind != "end":
            lines.append(pad + kind + " " + quoted(rest[0]))
        depth += {"start": 1, "end": -1}.get(kind, 0)
    return ("\n".join(lines) + "\n").encode("utf-8", "surrogatepass")


def same_tree(tools, it, told):
    if told.status or not keeps_tree(it) or it.command in ("check", "checkfragment", "explain"):
        return
    out = told.files.get("out", b"")
    if it.command == "minifyjson":
        trees = ["lines", event_lines(it.page), out]
    elif it.command in ("tree", "json"):
        trees = ["lines", told.said if it.command == "tree" else event_lines(told.said), it.page]
    else:
        trees = ["fragments" if it.command == "fragment" else "pages", it.page, out]
    where, reason = tools.trees(*trees)
    if where and reason:
        tools.count["trees that differ for a reason of trees.mjs"] += 1
    elif where:
        yield "tree", "parse5 reads another tree: " + where


def shown(tools, it, told):
    if told.status or it.command not in WRITERS.values():
        return
    command = {writer: checker for checker, writer in WRITERS.items()}[it.command]
    files = told.files
    again = tools.run(dataclasses.replace(it, command=command, out=files.get("out"), cert=files.get("cert")))
    if again.status or again.said != b"yes %d\n" % len(files.get("out", b"")):
        yield "shown", "%s says %r of what %s left" % (command, again.said[:200], it.command)


def right_length(tools, it, told):
    if told.status or it.command not in ("check", "checkfragment", "explain"):
        return
    again = tools.run(dataclasses.replace(it, command=WRITERS.get(it.command, "minify"), out=None, cert=None))
    if it.command == "explain":
        wanted = b"page: settled, page %d output %d\n" % (len(it.page), len(again.files.get("out", b"")))
    else:
        wanted = b"yes %d\n" % len(again.files.get("out", b""))
    if again.status or told.said != wanted:
        yield "length", "%s says %r, and the shortest has %s" % (it.command, told.said[:200], again.said[:200])


def rightly_denied(tools, it, told):
    number = told.said[3:4] if told.status == 1 else b"7"
    if it.command not in WRITERS or told.status > 1 or number in b"012" or not keeps_tree(it):
        return
    where, reason = tools.trees("fragments" if it.command == "checkfragment" else "pages", it.page, it.out)
    if not reason and (where is None) == (number == b"3"):
        yield "denied", "%r, and for parse5 the trees %s" % (told.said[:200], "differ: " + where if where else "are the same")
    elif where is None and told.said.startswith(b"no 7 "):
        tools.count["longer texts of the same tree, denied"] += 1


def same_as_reference(tools, it, told):
    if it.command not in tools.known or it.size() > tools.small or not tools.always and tools.dice.random() >= tools.share:
        return
    status, said, out, cert = reference_answer(tools, it)
    if status < 0:
        tools.count["runs that the reference didn't end"] += 1
    elif status != told.status or said != told.said and status != 2:
        yield "reference", "status %d with %r, and the reference has %d with %r" % (told.status, told.said[:200], status, said[:200])
    elif (out, cert) != (told.files.get("out"), told.files.get("cert")):
        yield "reference", "OUT or CERT isn't that of the reference"


def reference_answer(tools, it):
    tools.count["runs of the reference"] += 1
    words = it.words()
    words[1] = STANDARD if it.word == "html" else it.word
    told = tools.reference.run(words, it.files(), 20)
    return told.status, told.said, told.files.get("out"), told.files.get("cert")


ASKED = [ended, in_bounds, kept_files, same_tree, shown, right_length, rightly_denied, same_as_reference]


def examined(tools, it):
    """A run, and what is found of it: pairs of a kind and a sentence."""
    told = tools.run(it)
    faults = []
    for ask in ASKED:
        # what depends on a line of the right form isn't asked of another one
        if not any(kind == "status" for kind, _ in faults) or ask in (in_bounds, kept_files, same_as_reference):
            faults += ask(tools, it, told)
    return told, faults


def signature(it, told):
    """What an input is kept for: command, status, rule or `no N`, and class of length."""
    said = told.said.decode("utf-8", "replace")
    form = r"refused: (\w+)(?: event \d+)?( point \d+)?|^(no \d|length|yes)|^page:\d+:\d+: (\w+)"
    rule = re.search(form, said) if told.status or it.command in WITH_FILES else None
    words = "".join(part or "" for part in rule.groups()) if rule else ""
    return it.command, told.status, words, len(it.page).bit_length()


def written_again(tools, it):
    """An input whose OUT and CERT are made of its page, and then changed as its seed tells."""
    if it.seed is None:
        return it
    told = tools.run(dataclasses.replace(it, command=WRITERS[it.command], out=None, cert=None))
    if told.status or "out" not in told.files:
        return None
    out, cert = fuzz_inputs.varied(it.seed, told.files["out"], told.files["cert"], told.files["cert"])
    return dataclasses.replace(it, out=out, cert=cert)


def next_check(tools, it, told):
    """The check of what was written, after changes."""
    command = {writer: checker for checker, writer in WRITERS.items()}[it.command]
    out, cert = told.files["out"], told.files["cert"]
    seed = tools.dice.getrandbits(32)
    out, cert = fuzz_inputs.varied(seed, out, cert, cert)
    return dataclasses.replace(it, command=command, out=out, cert=cert, seed=seed)


class Fuzzer:
    """What was kept and found."""

    def __init__(self, tools, asked):
        self.tools, self.asked, self.dice = tools, asked, random.Random(asked.seed + 1)
        self.first = fuzz_inputs.first_inputs(asked.folders, asked.keep, asked.pages, self.dice)
        self.kept, self.seen, self.waiting = [], collections.Counter(), []
        self.runs, self.found = 0, collections.Counter()

    def chosen(self):
        """The next input."""
        if self.waiting:
            return self.waiting.pop()
        from_kept = self.kept and self.dice.random() < 0.5
        it = self.dice.choice(self.kept if from_kept else self.first)
        if self.dice.random() < 0.05:
            return it
        other = self.dice.choice(self.first)
        if (other.command == "minifyjson") != (it.command == "minifyjson"):
            other = it
        return with_out_before(self.dice, fuzz_inputs.mutated(self.dice, it, other))

    def step(self):
        it = self.chosen()
        self.runs += 1
        told, faults = examined(self.tools, it)
        key = signature(it, told)
        self.seen[key] += 1
        if self.seen[key] == 1:
            self.kept.append(it)
            faults = faults or self.asked_of_new(it, told)
            self.keep("kept_%s_%d_%s_%d" % key, fuzz_inputs.case_text("kept", it))
        if not faults and told.status == 0 and it.command in WRITERS.values() and self.dice.random() < 0.5:
            self.waiting.append(next_check(self.tools, it, told))
        for kind, text in [fault for fault in faults if self.asked.until in (None, fault[0])][:1]:
            self.tell(it, kind, text)

    def asked_of_new(self, it, told):
        self.tools.always = True
        faults = list(same_as_reference(self.tools, it, told))
        self.tools.always = False
        return faults

    def keep(self, name, text):
        if self.asked.keep:
            os.makedirs(self.asked.keep, exist_ok=True)
            with open(os.path.join(self.asked.keep, re.sub(r"\W+", "_", name)), "w", encoding="utf-8") as file:
                file.write(text)

    def tell(self, it, kind, text):
        """Says what was found, with a small input that shows it."""
        self.found[it.command, kind] += 1
        if self.found[it.command, kind] > MOST_OF_A_KIND:
            return
        self.tools.always = True
        small = fuzz_shrink.shrunk(it, lambda other: kind in dict(examined(self.tools, other)[1]),
                                   lambda other: written_again(self.tools, other), SHRINKS)
        text = dict(examined(self.tools, small)[1]).get(kind, text)
        can_ask = small.command in self.tools.known and small.size() <= self.tools.small
        answer = reference_answer(self.tools, small) if can_ask else None
        self.tools.always = False
        name = "fuzz_%d_%d" % (self.asked.seed, sum(self.found.values()))
        case = fuzz_inputs.case_text(name, small, answer)
        print("%s: %s: %s\n(%d bytes, made of %d; %s)\n%s" % (name, kind, text, small.size(), it.size(), answer_of(answer), case), flush=True)
        self.keep("found_" + name, case)


def answer_of(answer):
    return "the answer is the reference's" if answer else "the reference wasn't asked, so no answer is told"


def with_out_before(dice, it):
    """OUT and CERT are mostly there before a command writes them."""
    if it.command in WITH_FILES and it.command not in WRITERS:
        there = dice.random() < 0.8
        return dataclasses.replace(it, out=b"before" if there else None, cert=b"before, too" if there else None)
    return it


def arguments(words):
    parser = argparse.ArgumentParser(description="Inputs that change by themselves; the head of this script tells what is asked of each run.")
    parser.add_argument("folders", nargs="*", metavar="FOLDER")
    for name, kind, usual in (("runs", int, None), ("minutes", float, None), ("seed", int, None), ("program", str, BUILT), ("reference", str, None),
                              ("keep", str, None), ("share", float, 0.1), ("small", int, 4000), ("slack", float, 1.0), ("pages", int, 300)):
        parser.add_argument("--" + name, type=kind, default=usual)
    parser.add_argument("--until", choices=KINDS)
    asked = parser.parse_args(words)
    asked.seed = random.SystemRandom().getrandbits(31) if asked.seed is None else asked.seed
    asked.runs = 10_000 if asked.runs is None and asked.minutes is None else asked.runs
    return asked


def main(words):
    asked = arguments(words)
    print("seed %d" % asked.seed, flush=True)
    end = time.monotonic() + 60 * asked.minutes if asked.minutes else None
    with tempfile.TemporaryDirectory(prefix="hminify-fuzz-") as folder:
        tools = Tools(asked, folder)
        fuzzer = Fuzzer(tools, asked)
        while (asked.runs is None or fuzzer.runs < asked.runs) and (end is None or time.monotonic() < end) and not (asked.until and fuzzer.found):
            fuzzer.step()
        tools.end()
    lines = collections.Counter()
    for (command, status, rule, _), times in fuzzer.seen.items():
        lines["%-13s %2d %s" % (command, status, rule)] += times
    for line, times in sorted(lines.items()):
        print("%8d %s" % (times, line))
    for what, times in sorted(tools.count.items()):
        print("%8d %s" % (times, what))
    differences = sum(fuzzer.found.values())
    print("%d runs, %d inputs kept, %d differences" % (fuzzer.runs, len(fuzzer.kept), differences))
    return 1 if differences else 0


if __name__ == "__main__":
    sys.exit(main(sys.argv[1:]))
