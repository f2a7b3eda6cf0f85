#!/usr/bin/env python3
"""html5lib_tests.py [PROGRAM [ROOT]]: html5lib-tests, the tests that the parsers of the field share, asked of PROGRAM.

The tests come with two packages of Debian, librust-markup5ever-rcdom-dev and golang-golang-x-net-dev; ROOT is the folder below
which these are unpacked, `/` where none is named. Three parts are tried:

- tree construction: `tree` refuses the page, or gives exactly the tree of the test. A page without a doctype is refused for that,
  so each of these is asked again with `<!doctype html>` before it;
- the tokenizer, from the data state: the tree of the text after `<!doctype html><body>` is the one that the tokens give;
- the serializer's optional tags: of a page with these tokens `minify --omit` leaves out the tags that the test leaves out.

Anything else is a difference. Those in EXPLAINED are printed with their reasons, any other one as a fault. The figures are printed as
a table, by rule of refusal. Ends with 1 if there is a fault, if an explained difference didn't come, if fewer answers were the same than
those of the second program, or if fewer tests were found than the packages have. Needs the standard library of Python 3.9 or later.
"""
import glob
import json
import os
import re
import subprocess
import sys
import tempfile
from collections import Counter

HERE = os.path.dirname(os.path.abspath(__file__))
BUILT = os.path.join(HERE, "../crates/hminify/out/hminify")
TESTS = "usr/share/cargo/registry/markup5ever_rcdom-*/html5lib-tests"
GO_TESTS = "usr/share/gocode/src/golang.org/x/net/html/testdata"
INSTALL = "apt-get install librust-markup5ever-rcdom-dev golang-golang-x-net-dev"
DOCTYPE = "<!doctype html>"

# How many tests are read at least: those of Debian 12.
LEAST = {"tree construction": 1651 + 1727, "tokenizer": 6669, "optional tags": 181}

# How many answers are the same at least, so that a program which refuses more is noticed. The second program gave them.
SAME = {"tree construction": 128, "with a doctype": 265, "tokenizer": 5442, "optional tags": 157}

# The rules by which a page may be refused, in the order of docs/BEHAVIOUR.md.
RULES = ("TooLong NotUtf8 Nul Cut BadName TooManyAttributes BadDoctype NoDoctype SecondDoctype RefusedName SecondRoot StrayEnd NotCurrent "
         "BlockInParagraph Nested WrongParent TextHere AfterHead AfterBody Unclosed TooDeep ForeignName").split()

# The differences that are explained, by part: what was asked, the answer that is right, and why it isn't that of the test.
EXPLAINED = {
    "tree construction": {},
    "with a doctype": {
        "<!doctype html><p><table></table>": (
            "| <!DOCTYPE html>\n| <html>\n|   <head>\n|   <body>\n|     <p>\n|     <table>",
            "the test has no doctype, which means quirks mode, and there the start tag of table closes no p; with the doctype it does"),
    },
    "tokenizer": {},
    "optional tags": {
        "html start-tag followed by space character": (
            "foo", "whitespace before head isn't part of the tree, so the page has the text alone, and `<html>` may be left out before it"),
        "head start-tag followed by text": (
            "foo", "a text ends head, so the head of the page is empty, and `<head>` may be left out of it"),
        "p end-tag followed by datagrid start-tag": (
            "</p><datagrid>", "datagrid is no element of the standard any more, and its start tag closes no p"),
        "tfoot end-tag followed by tbody start-tag": (
            "</tfoot><tbody>", "by the standard `</tfoot>` is left out only if nothing follows in the table; html5lib has an older rule"),
        **{f"p end-tag followed by end-tag, in {name}": (
            f"</p></{name}>", "at the end of this element the standard doesn't let `</p>` be left out; html5lib's rule excepts no element")
           for name in "a audio del ins map noscript video".split()},
        "p end-tag followed by end-tag, in foo": (
            "</p></foo>", "the end tag of an element that the standard doesn't know closes no open p: it would be ignored"),
    },
}


class Program:
    """The program, asked about pages in a folder of its own."""

    def __init__(self, path, folder):
        self.path, self.folder = path, folder

    def asked(self, words, page):
        """The status of a run on the file `page`, and what it prints."""
        with open(os.path.join(self.folder, "page"), "wb") as file:
            file.write(page)
        run = subprocess.run([self.path, *words], cwd=self.folder, stdout=subprocess.PIPE, stderr=subprocess.DEVNULL, check=False)
        return run.returncode, run.stdout.decode()

    def tree(self, page):
        """The rule by which the page is refused, and its tree in the form of the tests: one of them is none."""
        status, said = self.asked(["tree", "html", "page"], page)
        return (None, tree_text(said.split("\n")[:-1])) if status == 0 else (refused(status, said), None)

    def written(self, page):
        """The same, with what `minify` writes in place of the tree."""
        status, said = self.asked(["minify", "html", "page", "out", "cert", "--omit", "--unquote"], page)
        if status:
            return refused(status, said), None
        with open(os.path.join(self.folder, "out"), encoding="utf-8", newline="") as file:
            return None, file.read()


def refused(status, said):
    """The rule of a refusal. Any other end of a run is told as it is, and is no rule."""
    match = re.fullmatch(r"page refused: (\w+) at \d+\n", said)
    return match[1] if status == 3 and match else f"status {status}: {said!r}"


class Part:
    """What was asked of one part of the tests, and what came."""

    def __init__(self, name):
        self.name, self.counts, self.left_out, self.explained, self.faults = name, Counter(), Counter(), {}, []

    def judge(self, asked, rule, got, wanted):
        """One answer: a refusal by a rule, what is wanted, or a difference."""
        if rule in RULES:
            self.counts[rule] += 1
        elif rule is None and got in wanted:
            self.counts["the same"] += 1
        elif rule is None and got == EXPLAINED[self.name].get(asked, (None,))[0]:
            self.counts["explained"] += 1
            self.explained[asked] = EXPLAINED[self.name][asked][1]
        else:
            self.faults.append(f"{asked!r}: {rule or got!r}, wanted {wanted!r}")

    def print(self):
        """The differences and what was left out; how many faults there are."""
        if self.counts["the same"] < SAME[self.name]:
            self.faults.append(f"{self.counts['the same']} are the same, and {SAME[self.name]} were by the second program")
        self.faults += [f"{asked!r}: is explained, and didn't come" for asked in EXPLAINED[self.name] if asked not in self.explained]
        for asked, reason in self.explained.items():
            print(f"{self.name}: explained: {asked!r}: {reason}")
        for reason, count in self.left_out.items():
            print(f"{self.name}: left out: {count}, {reason}")
        for fault in self.faults:
            print(f"{self.name}: fault: {fault}")
        return len(self.faults)


# The form of trees in the tests


def unquoted(text):
    """The text that is quoted in the lines of `tree`."""
    return re.sub(r"\\(.)", lambda match: {"n": "\n", "r": "\r", "t": "\t"}.get(match[1], match[1]), text)


def tree_text(lines):
    """The lines of `tree` in the form of the tests: names in SVG are marked, and attributes have lines of their own."""
    told, svg = [], None
    for line in lines:
        kind, _, rest = line.lstrip(" ").partition(" ")
        depth = len(line) - len(line.lstrip(" "))
        svg = None if svg is not None and depth <= svg else svg
        before = "| " + " " * depth
        if kind == "doctype":
            told.append(before + ('<!DOCTYPE html "" "about:legacy-compat">' if rest == "legacy" else "<!DOCTYPE html>"))
        elif kind == "text":
            told.append(f'{before}"{unquoted(rest[1:-1])}"')
        elif kind == "comment":
            told.append(f"{before}<!-- {unquoted(rest[1:-1])} -->")
        else:
            name, _, attributes = rest.partition(" ")
            svg = depth if name == "svg" and svg is None else svg
            told.append(before + (f"<{name}>" if svg is None else f"<svg {name}>"))
            told += attribute_lines(before, re.findall(r'([^ =]+)="((?:[^"\\]|\\.)*)"', attributes))
    return "\n".join(told)


def attribute_lines(before, attributes):
    return [f'{before}  {name}="{unquoted(value)}"' for name, value in attributes]


def comparable(tree):
    """A tree of the tests in the form in which it is compared. The attributes of an element are sorted, and names in SVG are in small
    letters, with the prefix as it is written, such as `xlink:href`."""
    lines, attributes, svg = [], [], False
    for line in re.split(r"\n(?=\| )", tree):
        content = line[2:].lstrip(" ")
        if content[:1] not in ('"', "<") and "=" in content:
            name, _, value = content.partition("=")
            name = name.lower().replace(" ", ":") if svg else name
            attributes.append(f"{line[:-len(content)]}{name}={value}")
            continue
        lines += sorted(attributes)
        attributes, svg = [], content.startswith("<svg ")
        lines.append(line.lower() if svg else line)
    return "\n".join(lines + sorted(attributes))


# Tree construction


def blocks(path):
    """The tests of a file: each section's name with its lines."""
    with open(path, encoding="utf-8", newline="") as file:
        lines = file.read().split("\n")
    names = ("#data", "#errors", "#new-errors", "#document-fragment", "#script-on", "#script-off", "#document")
    block = None
    for number, line in enumerate(lines):
        if line == "#data" and (number == 0 or lines[number - 1] == ""):
            if block:
                yield block
            block, section = {}, []
        if line in names and line not in block:
            section = block[line] = []
        else:
            section.append(line)
    if block:
        yield block


def tree_tests(root):
    """The tests of both packages, each once: what a test is, its page, and its tree. Beside them how many were read."""
    folders = [os.path.join(root, TESTS, "tree-construction"), os.path.join(root, GO_TESTS)]
    paths = [path for folder in folders for path in sorted(glob.glob(folder + "/**/*.dat", recursive=True))]
    found, count = {}, 0
    for path in paths:
        for block in blocks(path):
            count += 1
            kind = "fragment" if "#document-fragment" in block else "scripted" if "#script-on" in block else "page"
            context = "".join(block.get("#document-fragment", ()))
            found[kind, context, "\n".join(block["#data"]), "\n".join(block["#document"]).rstrip("\n")] = None
    return count, [(kind, page, tree) for kind, _, page, tree in found]


def try_trees(program, root):
    """The tests of tree construction, as they are and with a doctype; and how many were read."""
    plain, dressed = Part("tree construction"), Part("with a doctype")
    count, tests = tree_tests(root)
    for kind, page, tree in tests:
        if kind != "page":
            plain.left_out["tests of fragments" if kind == "fragment" else "tests with scripting on"] += 1
            continue
        judge_tree(plain, program, page, tree)
        if not tree.startswith("| <!DOCTYPE") and "\n| <!DOCTYPE" not in tree:
            judge_tree(dressed, program, DOCTYPE + page, "| <!DOCTYPE html>\n" + tree)
    return count, [plain, dressed]


def judge_tree(part, program, page, tree):
    rule, got = program.tree(page.encode())
    part.judge(page, rule, got and comparable(got), [comparable(tree)])


# The tokenizer

VOID = "area base br col embed hr img input link meta param source track wbr".split()


def unescaped(value):
    """A value of a test that is escaped twice."""
    if isinstance(value, str):
        return re.sub(r"\\u([0-9A-Fa-f]{4})", lambda match: chr(int(match[1], 16)), value)
    if isinstance(value, list):
        return [unescaped(item) for item in value]
    return {unescaped(key): unescaped(item) for key, item in value.items()} if isinstance(value, dict) else value


def token_tests(root):
    """The tests of the tokenizer: the states where they begin, the text, and the tokens."""
    for path in sorted(glob.glob(os.path.join(root, TESTS, "tokenizer/*.test"))):
        with open(path, encoding="utf-8") as file:
            told = json.load(file)
        for test in told.get("tests", []) + told.get("xmlViolationTests", []):
            text, tokens = test["input"], test["output"]
            if test.get("doubleEscaped"):
                text, tokens = unescaped(text), unescaped(tokens)
            infoset = "xmlViolationTests" in told
            yield test.get("initialStates", ["Data state"]), infoset, text, tokens


def content_of(tokens):
    """The lines of the body with these tokens, and the elements that are open at the end; none if tree construction does more with a
    token than to add it, or to close a p before the next one."""
    lines, opened = [], []
    for kind, *told in (token for token in tokens if token != "ParseError"):
        before = "| " + "  " * (2 + len(opened))
        if kind == "Character":
            joined = lines and lines[-1].startswith(before + '"')
            lines.append((lines.pop()[:-1] if joined else before + '"') + told[0] + '"')
        elif kind == "Comment":
            lines.append(f"{before}<!-- {told[0]} -->")
        elif kind == "StartTag":
            opened = opened[:-1] if opened[-1:] == ["p"] == [told[0]] else opened
            before = "| " + "  " * (2 + len(opened))
            lines += [f"{before}<{told[0]}>", *(f'{before}  {name}="{value}"' for name, value in told[1].items())]
            opened += [] if told[0] in VOID else [told[0]]
        elif kind == "EndTag" and opened[-1:] == [told[0]]:
            opened.pop()
        else:
            return None
    return lines, opened


def page_of_tokens(text, tokens):
    """The page that is asked about, and its tree; none if the page has to be refused: its doctype means quirks mode, or it has an end
    tag that closes nothing."""
    frame = ["| <html>", "|   <head>", "|   <body>"]
    real = [token for token in tokens if token != "ParseError"]
    if real and real[0][0] == "DOCTYPE":
        _, name, public, system, correct = real[0]
        identifiers = f' "{public or ""}" "{system or ""}"' if public or system else ""
        told = len(real) == 1 and correct
        return text, "\n".join([f"| <!DOCTYPE {name}{identifiers}>", *frame]) if told else None
    content = content_of(tokens)
    if content is None:
        return DOCTYPE + "<body>" + text, None
    lines, opened = content
    # after a tag, or a text in which nothing is pending, the tokenizer is in the data state, and end tags may come
    settled = tokens and (tokens[-1][0] in ("StartTag", "EndTag") or tokens[-1][0] == "Character" and not set("<&") & set(tokens[-1][1]))
    ends = "".join(f"</{name}>" for name in reversed(opened)) if settled else ""
    return DOCTYPE + "<body>" + text + ends, "\n".join(["| <!DOCTYPE html>", *frame, *lines])


def try_tokens(program, root):
    """The tests of the tokenizer, and how many were read."""
    part, count = Part("tokenizer"), 0
    for states, infoset, text, tokens in token_tests(root):
        count += 1
        if infoset or "Data state" not in states:
            part.left_out["what an XML infoset can't hold is replaced" if infoset else "the test begins in another state than data"] += 1
            continue
        page, tree = page_of_tokens(text, tokens)
        if re.search("[\ud800-\udfff]", page):
            part.left_out["a lone surrogate, which no UTF-8 has"] += 1
            continue
        rule, got = program.tree(page.encode())
        part.judge(page, rule, got and comparable(got), [comparable(tree)] if tree else ["a refusal"])
    return count, [part]


# The serializer's optional tags

# The elements in which an element is, from the outermost one, where these aren't html and body alone.
PARENTS = {"li": ["ul"], "dt": ["dl"], "dd": ["dl"], "p": ["div"], "optgroup": ["select"], "option": ["select"], "colgroup": ["table"],
           "thead": ["table"], "tbody": ["table"], "tfoot": ["table"], "tr": ["table", "tbody"], "td": ["table", "tr"], "th": ["table", "tr"]}
# More parents of a p: at their ends html5lib leaves out `</p>` too, and the standard doesn't.
OTHER_PARENTS = "a audio del ins map noscript video foo".split()
MARK, END = "<!--mark-->", "<!--end-->"


class Names:
    """What the `foo` of a test is on the page: an element that can be there, the end of the parent, a text of whitespace."""

    def __init__(self, tokens, parents):
        first, last = tokens[0], tokens[-1]
        self.blank = parents[-1:] in (["table"], ["tbody"], ["tr"], ["select"])
        in_head = first[0] == "StartTag" and first[2] == "head"
        raw = in_head or self.blank and parents != ["select"]
        self.start = "meta" if last[0] == "EmptyTag" else "script" if raw else "foo"
        self.end = first[2] if first[0] == "StartTag" else parents[-1] if parents else "html"

    def told(self, text):
        """Markup of a test, as it is on the page."""
        text = text.replace(" foo", " ") if self.blank else text
        return text.replace("<foo>", f"<{self.start}>").replace("</foo>", f"</{self.end}>")


def markup(token):
    """A token of a test, as it is written."""
    kind, *told = token
    if kind in ("Characters", "Comment"):
        return told[0] if kind == "Characters" else f"<!--{told[0]}-->"
    if kind == "EmptyTag":
        return f"<{told[0]}>"
    attributes = "".join(f' {one["name"]}={one["value"]}' for one in told[2] or ()) if kind == "StartTag" else ""
    return f"</{told[1]}>" if kind == "EndTag" else f"<{told[1]}{attributes}>"


def open_after(tokens, parents):
    """The elements that are open after the tokens, but those that the end of the page or of a table closes."""
    opened = [*parents, tokens[0][2]] if tokens[0][0] == "EndTag" else list(parents)
    for kind, *told in tokens:
        if kind == "StartTag" and told[1] not in VOID:
            opened.append(Names(tokens, parents).start if told[1] == "foo" else told[1])
        elif kind == "EndTag" and opened:
            opened.pop()
    return [name for name in opened if name not in ("html", "head", "body", "colgroup")]


def page_of_tags(tokens, parents):
    """The page with these tokens after a mark, and the mark after them, which is none where the page or the parents end there."""
    first, last = tokens[0], tokens[-1]
    before = "".join(f"<{name}>" for name in ["body", *parents] if parents) + (f"<{first[2]}>" if first[0] == "EndTag" else "")
    mark = "" if len(tokens) == 1 else "end" if last[0] == "EndTag" and first[2] == last[2] else END
    told = Names(tokens, parents).told("".join(map(markup, tokens)))
    ends = "".join(f"</{name}>" for name in reversed(open_after(tokens, parents)))
    return DOCTYPE + before + MARK + told + mark + ends, mark


def between(out, mark, parents):
    """What is written after the first mark: up to the other one, or up to the end tags of the parents."""
    out = out.partition(MARK)[2]
    if mark:
        return out.partition(mark)[0]
    for name in parents:
        out = out[:-len(f"</{name}>")] if out.endswith(f"</{name}>") else out
    return out


def tag_tests(root):
    """The tests of optional tags: what a test is, its tokens, their parents, and the texts of which one is wanted."""
    for path in glob.glob(os.path.join(root, TESTS, "serializer/optionaltags.test")):
        with open(path, encoding="utf-8") as file:
            tests = json.load(file)["tests"]
        for test in tests:
            first = test["input"][0]
            yield test["description"], test["input"], PARENTS.get(first[2], []), test["expected"]
            if test["description"] == "p end-tag followed by end-tag":
                for name in OTHER_PARENTS:
                    yield f'{test["description"]}, in {name}', test["input"], [name], test["expected"]


def try_tags(program, root):
    """The tests of optional tags, and how many were read."""
    part, count = Part("optional tags"), 0
    for asked, tokens, parents, wanted in tag_tests(root):
        count += ", in " not in asked
        page, mark = page_of_tags(tokens, parents)
        rule, out = program.written(page.encode())
        part.judge(asked, rule, out and between(out, mark, parents), [Names(tokens, parents).told(text) for text in wanted])
    return count, [part]


# All parts


def table(parts):
    """The figures by rule of refusal."""
    heads = ["the same", "explained", *RULES]
    print("| | " + " | ".join(part.name for part in parts) + " |")
    print("|---|" + "---|" * len(parts))
    print("| asked | " + " | ".join(str(sum(part.counts.values())) for part in parts) + " |")
    for head in heads:
        if any(part.counts[head] for part in parts):
            print(f"| {head} | " + " | ".join(str(part.counts[head]) for part in parts) + " |")


def main():
    path = os.path.abspath(sys.argv[1] if len(sys.argv) > 1 else BUILT)
    root = sys.argv[2] if len(sys.argv) > 2 else "/"
    parts, faults = [], 0
    with tempfile.TemporaryDirectory() as folder:
        program = Program(path, folder)
        for name, try_all in (("tree construction", try_trees), ("tokenizer", try_tokens), ("optional tags", try_tags)):
            count, tried = try_all(program, root)
            parts += tried
            print(f"{name}: {count} tests read")
            if count < LEAST[name]:
                print(f"{name}: fault: there are {LEAST[name]} in Debian's packages: {INSTALL}")
                faults += 1
    faults += sum(part.print() for part in parts)
    table(parts)
    return 1 if faults else 0


if __name__ == "__main__":
    sys.exit(main())
