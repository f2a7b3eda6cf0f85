#!/usr/bin/env python3
"""hostile_json.py [PROGRAM]: what `minifyjson` says of hostile JSON, and the time and memory that it takes.

A small tree is cut at each byte, and each of its bytes is made a zero byte or FF; and there are sorts of JSON of 67,108,864 bytes that
are dear to read, to judge or to keep, each with the line that has to come by docs/FORMATS.md and docs/BEHAVIOUR.md. Each run but one that
says `length` has to end with status 8 and leave OUT and CERT as they were. Printed is a table of the sorts: how many items, the line,
seconds of processor time (user and system), megabytes of JSON a second, and the peak of memory in bytes for a byte of JSON. Time and
peak are bounded too. PROGRAM is the program that was built, `crates/hminify/out/hminify` where none is named. Ends with 1 where
something isn't as wanted. Needs Linux, the standard library of Python 3.9 or later, 4 GB of memory and 300 MB of room.
"""
import os
import sys
import tempfile

from hostile import BUILT, call, put

LIMIT = 67_108_864
FLAGS = ["--omit", "--unquote", "--sparse"]
FRONT = b'[["doctype","plain"],["start","html",[]],["start","head",[]],["end"],["start","body",[]]'
BACK = b',["end"],["end"]]'
SMALL = FRONT + ',["start","p",[["id","é\\u0001"]]],["text","a\\ud83d\\ude00"],["comment","b"],["end"]'.encode() + BACK
# A tree that is read and judged to its end, and breaks rule 1 there.
UNSETTLED = BACK[:-1] + b',["text","x"]]'

# What a run may take: seconds for its start and for a megabyte, and bytes of memory for its start and for a byte.
SECONDS, SECONDS_PER_MB, MEMORY, MEMORY_PER_BYTE = 0.2, 0.1, 24 << 20, 32


def filled(front, piece, back, size=LIMIT):
    """A text of so many bytes: the piece as often as there is room, and then spaces. And how often the piece stands in it."""
    times, rest = divmod(size - len(front) - len(back), len(piece))
    return [(front, 1), (piece, times), (b" " * rest, 1), (back, 1)], times


def numbered(front, form, back):
    """The same with a number in each piece, which isn't made before it is written: the memory of this process would count as that of its children."""
    count, rest = divmod(LIMIT - len(front) - len(back), len(form % 10_000_000))

    def pieces():
        yield front, 1
        for at in range(10_000_000, 10_000_000 + count):
            yield form % at, 1
        yield b" " * rest, 1
        yield back, 1
    return pieces(), count


def inside(kind, piece):
    """An element of that name with one text or comment."""
    if kind == "comment":
        return filled(FRONT + b',["comment","', piece, b'"]' + BACK)
    return filled(FRONT + b',["start","%s",[]],["text","' % kind.encode(), piece, b'"],["end"]' + BACK)


def sorts():
    """Names of sorts, the wanted lines, some by how often the piece stands, and the texts."""
    attributes = b",".join(b'["a%d",""]' % at for at in range(256))
    yield "an empty array, of spaces", "NotSettled event 0 point 1", filled(b"[", b" ", b"]")
    yield "one byte more", "TooLong", filled(b"[", b" ", b"]", LIMIT + 1)
    yield "10,000,000 brackets", "NotJson", filled(b"", b"[", b"", 10_000_000)
    yield "brackets", "NotJson", filled(b"", b"[", b"")
    yield "objects in one another", "NotJson", filled(b"", b'{"a":', b"0")
    yield "numbers", "BadEvent event 0", filled(b"[0", b",0", b"]")
    yield "empty arrays", "BadEvent event 0", filled(b"[[]", b",[]", b"]")
    yield "empty texts", "BadEvent event 0", filled(b'[""', b',""', b"]")
    yield "ends", "BadEvent event 0", filled(b'[["end"]', b',["end"]', b"]")
    yield "a number of many digits", "NotJson", filled(b"[", b"1", b"]")
    yield "many digits, and their exponent", "BadEvent event 0", filled(b"[1", b"1", b"e-67108800]")
    yield "one key again and again", "NotArray", filled(b'{"x":0', b',"x":0', b"}")
    yield "keys", "NotArray", numbered(b'{"x":0', b',"a%d":0', b"}")
    yield "open elements", lambda n: "Open open %d" % (n + 2), filled(FRONT, b',["start","b",[]]', b"]")
    yield "attributes of one element", "NotSettled event 5 point 9", numbered(FRONT + b',["start","p",[["x",""]', b',["a%d",""]', b']],["end"]' + BACK)
    yield "one attribute again and again", "NotSettled event 5 point 9", filled(FRONT + b',["start","p",[["x",""]', b',["a",""]', b']],["end"]' + BACK)
    yield "a script that never ends", "NotSettled event 6 point 7", inside("script", b"<!--<script>")
    yield "comments, unsettled", lambda n: "NotSettled event %d point 1" % (n + 7), filled(FRONT, b',["comment",""]', UNSETTLED)
    yield "elements, unsettled", lambda n: "NotSettled event %d point 1" % (2 * n + 7), filled(FRONT, b',["start","b",[]],["end"]', UNSETTLED)
    yield "attributes, unsettled", lambda n: "NotSettled event %d point 1" % (2 * n + 7), filled(FRONT, b',["start","p",[' + attributes + b']],["end"]', UNSETTLED)
    yield "comments", "length", filled(FRONT, b',["comment",""]', BACK)
    yield "elements", "length", filled(FRONT, b',["start","b",[]],["end"]', BACK)
    yield "attributes", "length", filled(FRONT, b',["start","p",[' + attributes + b']],["end"]', BACK)
    yield "scripts", "length", filled(FRONT, b',["start","script",[]],["text","a"],["end"]', BACK)
    yield "one long name", "length", filled(FRONT + b',["start","', b"a", b'",[]],["end"]' + BACK)
    yield "one text", "length", inside("p", b"a")
    yield "one text of escapes", "length", inside("p", b"\\u0041")
    yield "a script that nearly ends", "length", inside("script", b"</scrip")
    yield "a comment that nearly ends", "length", inside("comment", b"--! ")


def ask(program, folder):
    """Status, line, seconds and peak of a run on the file `tree`, and whether OUT and CERT are as before."""
    for name in ("out", "cert"):
        put(os.path.join(folder, name), b"before")
    said = call(program, ["minifyjson", "none", "tree", "out", "cert"] + FLAGS, folder)
    texts = []
    for name in ("out", "cert"):
        with open(os.path.join(folder, name), "rb") as file:
            texts.append(file.read(16))
    return *said, texts == [b"before", b"before"]


def damaged():
    """The small tree cut at each byte, and with each byte made another one that no JSON has."""
    for at in range(len(SMALL)):
        yield SMALL[:at]
        for byte in (b"\0", b"\xff"):
            yield SMALL[:at] + byte + SMALL[at + 1:]


def try_damaged(program, folder):
    """How many are refused as they should be, and how many there are."""
    good = count = 0
    for text in damaged():
        put(os.path.join(folder, "tree"), text)
        status, line, _, _, same = ask(program, folder)
        count += 1
        good += (status, line, same) == (8, "json refused: NotJson\n", True)
    return good, count


def try_sort(program, folder, name, wanted, made):
    """Prints the row of a sort, and gives what isn't as wanted."""
    text, times = made
    size = put(os.path.join(folder, "tree"), text)
    wanted = wanted(times) if callable(wanted) else wanted
    line = wanted if wanted == "length" else "json refused: %s\n" % wanted
    status, said, seconds, memory, same = ask(program, folder)
    print("| %s | %s | %s | %.2f | %.0f | %.1f |" % (name, format(times, ","), said.strip(), seconds, size / 1e6 / seconds, memory / size), flush=True)
    if wanted == "length":
        right = status == 0 and said.startswith(line) and not same
    else:
        right = (status, said, same) == (8, line, True)
    found = [] if right else ["%s: gives %d, %r, wanted %r; files as before: %s" % (name, status, said, line, same)]
    if seconds > SECONDS + SECONDS_PER_MB * size / 1e6:
        found.append("%s: took %.2f s of processor time" % (name, seconds))
    if memory > MEMORY + MEMORY_PER_BYTE * size:
        found.append("%s: took %d bytes of memory" % (name, memory))
    return found


def main(program):
    if not os.access(program, os.X_OK):
        print("no program %s: ./hminify --build makes it" % program)
        return 1
    program = os.path.abspath(program)
    with tempfile.TemporaryDirectory(prefix="hminify-hostile-") as folder:
        put(os.path.join(folder, "tree"), SMALL)
        status, line, _, _, _ = ask(program, folder)
        found = [] if status == 0 else ["the small tree gives %d, %r" % (status, line)]
        good, count = try_damaged(program, folder)
        print("%d of %d damaged small trees are refused as `NotJson`, with nothing written\n" % (good, count))
        print("| JSON of 64 MiB | pieces | line | s | MB/s | peak, bytes a byte |\n|---|---|---|---|---|---|")
        for name, wanted, made in sorts():
            found += try_sort(program, folder, name, wanted, made)
    for fault in found:
        print(fault)
    return 0 if good == count and not found else 1


if __name__ == "__main__":
    sys.exit(main(sys.argv[1] if len(sys.argv) > 1 else BUILT))
