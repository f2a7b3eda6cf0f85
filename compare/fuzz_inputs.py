"""fuzz_inputs.py: the inputs of fuzz.py: where they come from, how they are changed, and how they are written down."""
import dataclasses
import json
import os
import random
import re
import typing

import forged
import walks
from cases import DATA, bytes_of

COMMANDS = ["minify", "check", "fragment", "checkfragment", "tree", "json", "explain", "minifyjson"]
SPELLINGS = ["--omit", "--unquote", "--tight", "--ascii", "--sparse"]
REWRITES = ["--doctype", "--comments", "--booleans", "--empty", "--redundant", "--space", "--conservative"]
FLAGS = SPELLINGS + REWRITES + ["--order"]
WRITERS = {"check": "minify", "checkfragment": "fragment"}
WITH_FILES = ["minify", "check", "fragment", "checkfragment", "minifyjson"]
MOST_BYTES = 200_000

NAMES = ("a abbr article b body br button caption col colgroup datalist dd div dl dt fieldset form g h1 h2 head hr html i iframe img input "
         "li link math meta nobr noscript ol optgroup option p param path pre rp rt ruby script search section select source span style "
         "svg table tbody td template textarea tfoot th thead title tr track ul video wbr x-y").encode().split()
ATTRIBUTES = [b"id=a", b'class="a b"', b"title='\"'", b"checked", b'checked="checked"', b"type=text", b"a=", b'a="&amp"', b"a=&lt;",
              b'style=" "',
              b"xlink:href=x", b"A=1", b"=x", b"a\"b=1", b"<=1", b'a="&notin"', b"a=b/",
              b"method=get", b'a="=&gt"', b'title="it\'s"', b'a="\n"', b"a=\xc3\xa9"]
REFERENCES = [b"&amp;", b"&amp", b"&lt;", b"&lt", b"&GT", b"&not", b"&notin;", b"&#60;", b"&#38", b"&#x26;", b"&#13;", b"&#0;", b"&#x80;",
              b"&#xD800;",
              b"&#x110000;", b"&ab;", b"&x;", b"&", b"&#", b"&#x", b"&NotEqualTilde;", b"&nbsp", b"&#10;", b"&#9", b"&acE;", b"&fjlig;", b"&times"]
ODD = [b"\0", b"\r", b"\r\n", b"\xef\xbb\xbf", b"\xff", b"\xed\xa0\x80", b"\xf4\x90\x80\x80", b"\xc3\xa9", b"\xf0\x9f\x98\x80", b"]]>",
       b"<![CDATA[", b"<!--", b"-->", b"--!>", b"<!", b"<?x>", b"</>", b"</", b"<", b">", b'"', b"'", b"=", b"/", b"/>", b" ", b"\n", b"\t",
       b"\f", b"</script", b"<!--<script>", b"<!doctype html>", b'<!DOCTYPE html SYSTEM "about:legacy-compat">', b"\xcc\xb8", b"amp;", b";",
       b"#", b"x", b"</p>", b"</body>", b"</html>"]
TEXTS = [b"a", b" ", b"\n", b"x y", b"a  b", b"\xc3\xa9", b"\xf0\x9f\x98\x80", b"=", b"'", b'"', b">", b"]]>", b"&amp;lt",
         b"<!--c-->", b"<?x>", b"</>", b"1;", b"\xcc\xb8"]
TAG = re.compile(rb"<[^<>]*>")
START = re.compile(rb"<\w[^<>]*>")
REFERENCE = re.compile(rb"&[#\w]*;?")


@dataclasses.dataclass(frozen=True)
class Input:
    """The words and the files of a run. `table` is None if the word for TABLE is `html` or `none`. `seed` tells how OUT and CERT were
    changed after they were written, if they come from the page."""
    command: str
    flags: typing.Tuple[str, ...]
    word: str
    table: typing.Optional[bytes]
    page: bytes
    out: typing.Optional[bytes] = None
    cert: typing.Optional[bytes] = None
    seed: typing.Optional[int] = None

    def words(self):
        return [self.command, self.word, "page"] + (["out", "cert"] if self.command in WITH_FILES else []) + list(self.flags)

    def files(self):
        found = {"table": self.table, "page": self.page, "out": self.out, "cert": self.cert}
        return {name: data for name, data in found.items() if data is not None}

    def size(self):
        return sum(map(len, self.files().values())) + len(" ".join(self.words()))


def escaped(data):
    """A text in the form of cases.txt."""
    simple = {10: "\\n", 13: "\\r", 9: "\\t", 92: "\\\\"}
    return "".join(simple.get(byte) or (chr(byte) if 32 <= byte < 127 else "\\x%02x" % byte) for byte in data)


def case_text(name, it, answer=None):
    """An input in the form of cases.txt; `answer` is what the reference gives: status, printed bytes, OUT and CERT."""
    lines = ["case " + name, "words " + " ".join(it.words())]
    lines += [key + " " + escaped(data) for key, data in (("table", it.table), ("page", it.page)) if data is not None]
    if answer is None:
        kept = [("has_out", it.out), ("has_cert", it.cert)]
    else:
        status, said, out, cert = answer
        lines += ["status %d" % status] + [line_of(line) for line in said.split(b"\n")[:-1]]
        kept = [(("has_" if new == old else "") + key, new) for key, new, old in (("out", out, it.out), ("cert", cert, it.cert))]
    lines += [key + " " + escaped(data) for key, data in kept if data is not None]
    return "\n".join(lines + ["end", ""])


def line_of(line):
    return "| " + line.decode() if all(32 <= byte < 127 for byte in line) else "says " + escaped(line)


def from_cases(path):
    """The inputs of a file in the form of cases.txt."""
    found, files, words = [], {}, []
    with open(path, encoding="utf-8", newline="\n") as file:
        for line in file.read().split("\n"):
            key, _, rest = line.partition(" ")
            if key == "words":
                words = rest.split(" ")
            elif key in ("table", "page", "has_out", "has_cert"):
                files[key.replace("has_", "")] = bytes_of(rest)
            elif key == "end":
                found += input_of(words, files)
                files = {}
    return found


def input_of(words, files):
    """The input of a case, unless its files are large or have other names than usual."""
    names = [word for word in words if not word.startswith("-")]
    if not names or names[0] not in COMMANDS or names[2:3] != ["page"] or names[3:] not in ([], ["out", "cert"]) or "page" not in files:
        return []
    if names[0] in WRITERS and not {"out", "cert"} <= files.keys():
        return []
    if (len(names) == 5) != (names[0] in WITH_FILES) or names[1] not in ("html", "none", "table") or sum(map(len, files.values())) > MOST_BYTES:
        return []
    word = names[1] if names[1] != "table" or "table" in files else "html"
    flags = tuple(word for word in words if word.startswith("-"))
    return [Input(names[0], flags, word, files.get("table") if word == "table" else None, files["page"], files.get("out"), files.get("cert"))]


def from_folders(folders, most, dice):
    """Pages of the folders, at random and none of them large, each with the word `html`."""
    paths = [os.path.join(top, name) for folder in folders for top, _, names in os.walk(folder) for name in names]
    paths = sorted(path for path in paths if re.search(r"\.html?$", path) and os.path.isfile(path) and 0 < os.path.getsize(path) <= MOST_BYTES // 3)
    for path in dice.sample(paths, min(most, len(paths))):
        with open(path, "rb") as file:
            yield Input("minify", tuple(SPELLINGS[:3]), "html", None, file.read())


def first_inputs(folders, keep, most, dice):
    """What the fuzzer begins with: the cases, pages of folders, and what an earlier run has kept."""
    found = from_cases(os.path.join(DATA, "cases.txt"))
    found += from_folders(folders, most, dice)
    for name in sorted(os.listdir(keep)) if keep and os.path.isdir(keep) else []:
        found += from_cases(os.path.join(keep, name))
    return found


# Changes of bytes.

def spot(dice, data):
    return dice.randrange(len(data) + 1)


def put_in(dice, data, piece):
    at = spot(dice, data)
    return data[:at] + piece + data[at:]


def span(dice, data):
    """Two places, mostly near each other."""
    at = spot(dice, data)
    return at, min(len(data), at + dice.choice([1, 1, 2, 5, 20, 100, 1000]))


def one_byte(dice, data, _other):
    at = spot(dice, data)
    return data[:at] + bytes([dice.randrange(256 if dice.random() < 0.1 else 128)]) + data[at + dice.randrange(2):]


def cut(dice, data, _other):
    at, end = span(dice, data)
    return data[:at] + data[end:]


def doubled(dice, data, _other):
    at, end = span(dice, data)
    return data[:end] + data[at:end] * dice.choice([1, 1, 2, 20]) + data[end:]


def spliced(dice, data, other):
    at, end = span(dice, other)
    return put_in(dice, data, other[at:end])


def halves(dice, data, other):
    return data[:spot(dice, data)] + other[spot(dice, other):]


BYTES = [one_byte, cut, doubled, spliced]


# Changes of pages.

def on_one(pattern, change):
    """A change of one of the places that a pattern finds."""
    def of(dice, data, other):
        places = list(pattern.finditer(data))
        if not places:
            return one_byte(dice, data, other)
        place = dice.choice(places)
        return data[:place.start()] + change(dice, place[0]) + data[place.end():]
    return of


def tag(dice):
    name = dice.choice(NAMES)
    name = name.upper() if dice.random() < 0.1 else name
    return dice.choice([b"<%s>", b"<%s>", b"</%s>", b"<%s/>", b"<%s a=b>", b"<%s></%s>"]).replace(b"%s", name)


def with_attribute(dice, text):
    end = len(text) - (2 if text.endswith(b"/>") else 1)
    return text[:end] + dice.choice([b" ", b" ", b"\n", b"/", b""]) + dice.choice(ATTRIBUTES) + text[end:]


def other_quotes(dice, text):
    to = dice.choice([b'"', b"'", b""])
    return text.replace(b"'" if b"'" in text else b'"', to)


def renamed(dice, text):
    return re.sub(rb"[a-zA-Z][^\s/>]*", lambda _: dice.choice(NAMES), text, count=1)


def deep(dice, data, _other):
    name, many = dice.choice([b"div", b"b", b"span", b"svg"]), dice.choice([3, 20, 505, 512])
    return put_in(dice, data, b"<%s>" % name * many + b"x" + b"</%s>" % name * many)


def put_inside(pieces):
    """One of some pieces is put after the doctype."""
    def of(dice, data, _other):
        front = data.find(b">") + 1
        return data[:front] + put_in(dice, data[front:], dice.choice(pieces))
    return of


def whole(dice):
    """An element with its end, or one that has none."""
    name, text = dice.choice(NAMES), dice.choice(REFERENCES + TEXTS)
    inner = b"<%s>%s" % (dice.choice(NAMES), text) if dice.random() < 0.1 else b"<b %s>%s</b>" % (dice.choice(ATTRIBUTES), text)
    return b"<%s>%s</%s>" % (name, dice.choice([text, text, inner]), name)


# These leave many a settled page settled.
GENTLE = [
    put_inside(TEXTS), put_inside(REFERENCES), put_inside(REFERENCES),
    lambda dice, data, _: put_inside([whole(dice)])(dice, data, b""),
    lambda dice, data, _: data + whole(dice),
    on_one(TAG, lambda dice, text: text + whole(dice)),
    on_one(TAG, lambda dice, text: whole(dice) + text if text[:2] != b"<!" else text),
    on_one(TAG, lambda dice, text: text + dice.choice(REFERENCES + TEXTS)),
    on_one(START, with_attribute), on_one(START, with_attribute), on_one(START, with_attribute), on_one(TAG, other_quotes),
    on_one(TAG, lambda dice, text: text.upper()),
    on_one(REFERENCE, lambda dice, text: dice.choice(REFERENCES)),
    on_one(REFERENCE, lambda dice, text: text.rstrip(b";") + dice.choice([b"", b";", b"=", b"1"])),
    on_one(re.compile(rb"[ \n]+"), lambda dice, text: dice.choice([b" ", b"\n\n", b"\t", b"\f", b"  "])),
    on_one(re.compile(rb"<(\w+)[^<>]*>[^<>]*</\1>"), lambda dice, text: text + dice.choice([text, b" " + text, whole(dice)])),
    on_one(re.compile(rb"</(?:p|li|td|th|tr|dt|dd|option|body|html|head|tbody)>"), lambda dice, text: b""),
    deep,
]
# Most pages are refused after these.
ROUGH = BYTES + [
    halves, put_inside(ODD),
    lambda dice, data, _: put_in(dice, data, dice.choice(ODD)),
    lambda dice, data, _: put_in(dice, data, tag(dice)),
    lambda dice, data, _: data + tag(dice),
    on_one(TAG, lambda dice, text: b""),
    on_one(TAG, lambda dice, text: text + text),
    on_one(TAG, lambda dice, text: text + tag(dice)),
    on_one(TAG, renamed),
    on_one(TAG, lambda dice, text: b"</" + text[1:]),
    on_one(TAG, lambda dice, text: text + dice.choice(ODD)),
]


def page_changed(dice, data, other):
    return dice.choice(GENTLE if dice.random() < 0.75 else ROUGH)(dice, data, other)


ENDS = [b"li", b"p", b"td", b"tr", b"dt", b"dd", b"option"]

# Texts that are longer and mostly have the same tree.
LONGER = [
    on_one(TAG, lambda dice, text: text[:-1] + dice.choice([b" ", b"\n", b"\t "]) + text[-1:]),
    on_one(re.compile(rb"[a-z]"), lambda dice, text: b"&#%d;" % text[0]),
    on_one(re.compile(rb"&\w+(?![\w;])"), lambda dice, text: text + b";"),
    on_one(re.compile(rb"=[\w-]+(?=[ >])"), lambda dice, text: b'="' + text[1:] + b'"'),
    on_one(re.compile(rb"<(?=(?:li|p|td|tr|dt|dd|option)\b)"), lambda dice, text: b"</%s><" % dice.choice(ENDS)),
    lambda dice, data, _: data.replace(b"<!doctype html>", b"<!doctype html><html>", 1),
    lambda dice, data, _: data + dice.choice([b"</body>", b"</html>", b"</body></html>"]),
]


# Changes of trees as JSON, of tables and of certificates.

def tree_changed(dice, data, other):
    if dice.random() < 0.3:
        return walks.written(dice, walks.page(dice))
    try:
        walk = json.loads(data)
        if not isinstance(walk, list) or dice.random() < 0.1:
            return dice.choice(BYTES)(dice, data, other)
        return walks.written(dice, walks.damaged(dice, walk))
    except (ValueError, RecursionError, IndexError):
        return dice.choice(BYTES)(dice, data, other)


def table_changed(dice, data, other):
    try:
        names = json.loads(data)
        key = dice.choice(sorted(names))
        other_key = "&" + dice.choice(["a", "lt", "ab", "notin", "x1", "L"]) + dice.choice(["", ";"])
        points = dice.choice([0, 9, 10, 13, 38, 60, 97, 0x338, 0xD800, 0x10FFFF, 0x110000])
        values = [names[key], {"codepoints": [points]}, {"codepoints": [97, 0x338]}, {}]
        names[dice.choice([other_key, key[:-1], key.rstrip(";"), key + ";"])] = dice.choice(values)
        if dice.random() < 0.3:
            del names[key]
        return json.dumps(names).encode()
    except (ValueError, RecursionError, IndexError, TypeError, AttributeError, KeyError):
        return dice.choice(BYTES)(dice, data, other)


def cert_changed(dice, data, other):
    try:
        return forged.changed(dice, data, other or data)
    except (ValueError, IndexError):
        return dice.choice(BYTES)(dice, data, other)


def varied(seed, out, cert, other):
    """OUT and CERT after the changes that a number tells: none, a longer text, a changed text, or a changed certificate."""
    dice = random.Random(seed)
    kind = dice.randrange(8)
    if kind < 3:
        out = dice.choice(LONGER)(dice, out, out)
    elif kind == 3:
        out = page_changed(dice, out, out)
    elif kind < 7:
        cert = cert_changed(dice, cert, other)
    return out, cert


def changed_flags(dice, flags):
    flag = dice.choice(FLAGS if dice.random() < 0.1 else SPELLINGS + REWRITES[:-1] + ["--order"])
    kept = [other for other in flags if other != flag]
    if len(kept) == len(flags):
        kept.insert(spot(dice, kept), flag)
    return tuple(kept + [dice.choice(["--sort", "-", flag])] if dice.random() < 0.01 else kept)


def with_table(dice, it):
    """An input with another table."""
    kind = dice.randrange(6)
    if kind < 3:
        return dataclasses.replace(it, word=dice.choice(["html", "html", "none"]), table=None)
    table = dice.choice([forged.TABLE, walks.TABLE, it.table or forged.TABLE])
    for _ in range(dice.choice([0, 1, 1, 3])):
        table = table_changed(dice, table, forged.TABLE)
    return dataclasses.replace(it, word="table", table=table)


def with_command(dice, it):
    """An input for another command that reads files of the same kind."""
    if it.command == "minifyjson":
        return it
    command = dice.choice(["minify", "minify", "minify", "tree", "json", "explain", "fragment"])
    flags = it.flags if command != "fragment" or "--omit" in it.flags else it.flags + ("--omit",)
    page = re.sub(rb"(?i)^\s*<!doctype html>|</?(?:html|head|body)\b[^>]*>", b"", it.page) if command == "fragment" else it.page
    return dataclasses.replace(it, command=command, flags=flags, page=page, out=None, cert=None, seed=None)


def as_of_browsers(dice, it):
    """An input with the names that browsers know and with flags that change no tree, as often as not for `minify`."""
    flags = tuple(flag for flag in SPELLINGS if dice.random() < 0.6)
    if it.command == "fragment" and "--omit" not in flags:
        flags += ("--omit",)
    command = "minify" if it.command in ("tree", "json", "explain") and dice.random() < 0.5 else it.command
    return dataclasses.replace(it, command=command, flags=flags, word="html", table=None)


def mutated(dice, it, other):
    """An input with one to four changes. `other` is one that pieces may come from."""
    if it.command not in WRITERS and dice.random() < 0.4:
        it = as_of_browsers(dice, it)
    for _ in range(dice.choice([1, 1, 1, 2, 2, 3, 4])):
        kind = dice.random()
        if kind < 0.08:
            it = dataclasses.replace(it, flags=changed_flags(dice, it.flags))
        elif kind < 0.14:
            it = with_table(dice, it)
        elif kind < 0.20:
            it = with_command(dice, it)
        elif it.command == "minifyjson":
            it = dataclasses.replace(it, page=tree_changed(dice, it.page, other.page))
        elif it.cert is not None and it.out is not None and it.command in WRITERS and kind < 0.8:
            out, cert = varied(dice.getrandbits(32), it.out, it.cert, other.cert)
            it = dataclasses.replace(it, out=out, cert=cert, seed=None)
        else:
            it = dataclasses.replace(it, page=page_changed(dice, it.page, other.page)[:MOST_BYTES], seed=None)
    return it
