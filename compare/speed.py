#!/usr/bin/env python3
"""speed.py [--program PROGRAM] [--peer COMMAND] [--runs N] [--json] [--size N] [NAME=FILE ..]: time and memory of hminify and a peer.

Each FILE is a page that hminify takes; what stands in its body is repeated until the page has 4 MB (or N bytes). On each page
`minify none PAGE OUT CERT --omit --unquote --space`, `check` with the same words, both with `--sparse` too, `tree none PAGE` and
the peer (tdewolff's `minify`, its defaults) run by turns, each turn from another one on, N times (15 where nothing is said), with their output in files of
a temporary folder.
Printed are megabytes of the page a second: by the processor time of the run (user and system, of all its threads), which
other work on the machine disturbs less, and by the wall's clock, median and best of the runs; and the peak of memory in
bytes for a byte of the page. A peak can't be less than that of this script, some 3 bytes a byte. Last comes how many times as fast one command was as
another one in the same turn, the median of all turns: so a machine that is slower for a while disturbs nothing. PROGRAM is
`crates/hminify/out/hminify` where none is named; `--peer none` leaves the peer out. With `--json` there is no peer, and `json` and `minifyjson`
run beside `minify`; for `minifyjson` all is told for the bytes of the JSON. In "reading alone" the tree breaks a rule after its last event, so
that it is read and judged, and nothing is written. Without a FILE there are five documents
of Debian's packages, and two made pages, one of long values and one of dense tags. Needs Linux and the standard library of Python 3.9 or later.
"""
import argparse
import os
import random
import re
import shutil
import statistics
import subprocess
import sys
import tempfile
import time

HERE = os.path.dirname(os.path.abspath(__file__))
BUILT = os.path.join(HERE, "../crates/hminify/out/hminify")
SIZE = 4_000_000
FLAGS = ["--omit", "--unquote", "--space"]
DOCUMENTS = {
    "links": "/usr/share/doc/python-django-doc/html/ref/models/querysets.html",
    "prose": "/usr/share/doc/anarchism/html/append31.html",
    "manual": "/usr/share/developers-reference/best-pkging-practices.html",
    "tables": "/usr/share/doc/apache2-doc/manual/en/mod/quickreference.html",
    "values": "/usr/share/doc/erlang-doc/lib/jinterface-1.13.1/doc/html/java/com/ericsson/otp/erlang/OtpOutputStream.html",
}
# Words for the made page of long values.
WORDS = ("a view of the old harbour in the morning, with boats on their way out; behind it stand the houses of the fishermen and the"
         " church on its hill, seen from the path that leads along the shore to the lighthouse").split()
PACKAGES = "python-django-doc anarchism developers-reference apache2-doc erlang-doc"


def repeated(source, target, least):
    """Writes the page with its body repeated, and gives the number of its bytes."""
    with open(source, "rb") as file:
        page = file.read()
    start = re.search(rb"<body\b[^>]*>", page, re.I)
    if start is None:
        raise SystemExit("%s: no body" % source)
    ends = [match.start() for match in re.finditer(rb"</(?:body|html)>", page, re.I)]
    end = next((at for at in ends if at >= start.end()), len(page))
    front, body, behind = page[:start.end()], page[start.end():end], page[end:]
    size = len(front) + len(behind)
    with open(target, "wb") as file:
        file.write(front)
        while size < least:
            file.write(body)
            size += len(body)
        file.write(behind)
    return size


def long_values(target, least):
    """Writes a page of figures whose attributes have values of some 300 bytes of words each, and gives the number of its bytes."""
    choose = random.Random(7)
    parts = ["<!DOCTYPE html>\n<html>\n<head>\n<title>Figures</title>\n</head>\n<body>\n"]
    size = len(parts[0])
    while size < least:
        alt, title = (" ".join(choose.choice(WORDS) for _ in range(choose.randint(30, 90))) for _ in range(2))
        parts.append('<p><img src="figures/%d.png" alt="%s" title="%s"></p>\n' % (len(parts), alt, title))
        size += len(parts[-1])
    parts.append("</body>\n</html>\n")
    with open(target, "w") as file:
        file.write("".join(parts))
    return os.path.getsize(target)


def dense_tags(target, least):
    """Writes a page of short lists and paragraphs with a tag for some four bytes, and gives the number of its bytes."""
    choose = random.Random(7)
    parts = ["<!DOCTYPE html>\n<html>\n<head>\n<title>Tags</title>\n</head>\n<body>\n"]
    size = len(parts[0])

    def marked(depth):
        name = choose.choice(["b", "i", "u", "s"])
        inside = "".join(marked(depth - 1) for _ in range(choose.randint(1, 2))) if depth else choose.choice(["", "a", "b"])
        return "<%s>%s</%s>" % (name, inside, name)

    while size < least:
        items = [marked(choose.randint(0, 2)) for _ in range(choose.randint(1, 5))]
        list_of_items = "<ul>%s</ul>\n" % "".join("<li>%s</li>" % item for item in items)
        parts.append(choose.choice([list_of_items, "<p>%s</p>\n" % "".join(items)]))
        size += len(parts[-1])
    parts.append("</body>\n</html>\n")
    with open(target, "w") as file:
        file.write("".join(parts))
    return os.path.getsize(target)


# Pages that are made in place of taken from a document.
MADE = {"long values": long_values, "dense tags": dense_tags}


def put_page(name, path, target, least):
    """Writes a document repeated or, without a path, the made page of this name, and gives the number of its bytes."""
    return repeated(path, target, least) if path else MADE[name](target, least)


def all_documents():
    """The kinds of page, each with its document, or None where it is made."""
    return dict(DOCUMENTS, **dict.fromkeys(MADE))


def look_for(documents):
    """Ends the script where a document isn't there."""
    for path in documents.values():
        if path and not os.path.exists(path):
            raise SystemExit("no %s; the five documents: apt-get install %s" % (path, PACKAGES))


class Call:
    """A command with the runs that it had."""

    def __init__(self, name, words, output, reads=None, status=0):
        self.name, self.words, self.output, self.reads, self.status = name, words, output, reads, status
        self.wall, self.processor, self.peak = [], [], 0

    def run(self, folder):
        """One run. Ends the script where the command fails."""
        with open(os.path.join(folder, "stdout"), "wb") as out:
            begun = time.perf_counter()
            child = subprocess.Popen(self.words, cwd=folder, stdin=subprocess.DEVNULL, stdout=out)
            _, status, usage = os.wait4(child.pid, 0)
            self.wall.append(time.perf_counter() - begun)
        child.returncode = os.waitstatus_to_exitcode(status)
        if child.returncode != self.status:
            with open(os.path.join(folder, "stdout"), "rb") as out:
                said = out.read(200).decode("utf-8", "replace")
            raise SystemExit("%s: status %d, %s" % (" ".join(self.words), child.returncode, said.strip()))
        self.processor.append(usage.ru_utime + usage.ru_stime)
        self.peak = max(self.peak, usage.ru_maxrss * 1024)

    def line(self, page, size, folder):
        if self.reads:
            size = os.path.getsize(os.path.join(folder, self.reads))
            page = "JSON of %s, %d bytes" % (page.split(",")[0], size)
        def speeds(times):
            return "%.1f | %.1f" % tuple(size / 1e6 / t for t in (statistics.median(times), min(times)))
        written = "+".join(str(os.path.getsize(os.path.join(folder, name))) for name in self.output) or "-"
        return "| %s | %s | %s | %s | %.1f | %s |" % (
            page, self.name, speeds(self.processor), speeds(self.wall), self.peak / size, written)


def by_turns(calls, runs, folder):
    """Runs all so many times, each turn from another one on. In the first one each file is written before it is read."""
    for number in range(runs):
        first = number % len(calls)
        for call in calls[first:] + calls[:first]:
            call.run(folder)


def ratio(calls, fast, slow):
    """How many times as fast one command was as another, by processor time and on the clock: the median of all turns."""
    named = {call.name: call for call in calls}
    if fast not in named or slow not in named:
        return None
    times = [(named[slow].processor, named[fast].processor), (named[slow].wall, named[fast].wall)]
    return "%.3f | %.3f" % tuple(statistics.median(one / other for one, other in zip(*pair)) for pair in times)


def calls(program, peer, table="none"):
    """The commands, in the order in which they take turns."""
    found = [
        Call("minify", [program, "minify", table, "page.html", "out.html", "cert"] + FLAGS, ["out.html", "cert"]),
        Call("check", [program, "check", table, "page.html", "out.html", "cert"] + FLAGS, []),
        Call("minify --sparse", [program, "minify", table, "page.html", "out3.html", "cert3", "--sparse"] + FLAGS, ["out3.html", "cert3"]),
        Call("check, sparse", [program, "check", table, "page.html", "out3.html", "cert3"] + FLAGS, []),
        Call("tree", [program, "tree", table, "page.html"], []),
    ]
    if peer:
        found.append(Call("peer", [peer, "--type", "html", "-o", "peer.html", "page.html"], ["peer.html"]))
    return found


def json_calls(program):
    """The commands of a tree as JSON beside `minify`."""
    found = [it for it in calls(program, None) if it.words[1] == "minify"]
    found.append(Call("json", [program, "json", "none", "page.html"], []))
    for name, output, more in [("minifyjson", ["out4.html", "cert4"], []), ("minifyjson --sparse", ["out5.html", "cert5"], ["--sparse"])]:
        found.append(Call(name, [program, "minifyjson", "none", "tree", *output, *more, *FLAGS], output, "tree"))
    found.append(Call("reading alone", [program, "minifyjson", "none", "broken", "out6.html", "cert6"], [], "broken", 8))
    return found


def put_trees(program, folder):
    """The page's tree as JSON, and the same with a text after its last event."""
    tree, broken = os.path.join(folder, "tree"), os.path.join(folder, "broken")
    with open(tree, "wb") as file:
        subprocess.run([program, "json", "none", "page.html"], cwd=folder, stdout=file, check=True)
    shutil.copyfile(tree, broken)
    with open(broken, "r+b") as file:
        file.seek(-2, os.SEEK_END)
        file.write(b',["text","x"]]\n')


def main():
    parser = argparse.ArgumentParser()
    parser.add_argument("--program", default=BUILT)
    parser.add_argument("--peer", default="minify")
    parser.add_argument("--runs", type=int, default=15)
    parser.add_argument("--json", action="store_true")
    parser.add_argument("--size", type=int, default=SIZE)
    parser.add_argument("documents", nargs="*", metavar="NAME=FILE")
    given = parser.parse_args()
    program = os.path.abspath(given.program)
    if not os.access(program, os.X_OK):
        raise SystemExit("no program %s: ./hminify --build makes it" % program)
    wants_peer = given.peer != "none" and not given.json
    peer = shutil.which(given.peer) if wants_peer else None
    if wants_peer and peer is None:
        raise SystemExit("no %s: apt-get install minify, or say --peer none" % given.peer)
    documents = dict(word.split("=", 1) for word in given.documents) or all_documents()
    look_for(documents)
    if peer:
        said = subprocess.run([peer, "--version"], capture_output=True, text=True)
        print("peer: %s" % (said.stdout or said.stderr).strip())
    print("runs: %d, load before: %.1f, processors: %d\n" % (given.runs, os.getloadavg()[0], os.cpu_count()))
    print("| page | command | MB/s of processor time, median | best | MB/s on the clock, median | best"
          " | peak, bytes a byte | written, bytes |")
    print("|---|---|---|---|---|---|---|---|")
    ratios = []
    for name, path in documents.items():
        with tempfile.TemporaryDirectory(prefix="hminify-speed-") as folder:
            target = os.path.join(folder, "page.html")
            size = put_page(name, path, target, given.size)
            if given.json:
                put_trees(program, folder)
            turns = json_calls(program) if given.json else calls(program, peer)
            by_turns(turns, given.runs, folder)
            for call in turns:
                print(call.line("%s, %d bytes" % (name, size), size, folder), flush=True)
            for fast, slow in [("minify --sparse", "peer"), ("check, sparse", "minify --sparse"), ("check", "minify")]:
                found = ratio(turns, fast, slow)
                if found:
                    ratios.append("| %s | %s for %s | %s |" % (name, fast, slow, found))
    if ratios:
        print("\n| page | speed | by processor time | on the clock |\n|---|---|---|---|\n%s" % "\n".join(ratios))
    print("\nload after the runs: %.1f" % os.getloadavg()[0])
    return 0


if __name__ == "__main__":
    sys.exit(main())
