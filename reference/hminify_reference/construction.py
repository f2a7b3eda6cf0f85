"""Tree construction: what each token does to the walk."""
from . import elements
from . import tokens
from .text import Refused, is_space, read_text
from .walk import Comment, Doctype, End, Start, Text

def open_p(path):
    for name, foreign in reversed(path):
        if name == "p" and not foreign:
            return True
        if elements.is_boundary(name, foreign):
            return False
    return False


def start_moves(path, n):
    """What a start tag does in the body: the number of elements that it closes and those that it makes, or a rule
    (#parsing-main-inbody). `path` has pairs of a name and whether it is foreign, from html and body on."""
    if path[-1][1]:
        if n not in elements.SVG:
            return "ForeignName"
        if path[-1][0] in ("title", "desc"):
            return "WrongParent"
        return "TooDeep" if len(path) >= 512 else (0, ())
    if n in elements.REFUSED:
        return "RefusedName"
    if n in elements.ROOTS:
        return "SecondRoot"
    closes = 0
    while elements.yields(path[len(path) - 1 - closes][0], n):
        closes += 1
    rest = path[:len(path) - closes]
    if elements.closes_p(n) and open_p(rest):
        return "BlockInParagraph"
    if n in elements.NESTED and (n, False) in rest:
        return "Nested"
    if n in elements.HEADINGS and any(m in elements.HEADINGS and not f for m, f in rest):
        return "Nested"
    current = rest[-1][0]
    made = ()
    if current == "table":
        made = {"tr": ("tbody",), "td": ("tbody", "tr"), "th": ("tbody", "tr"),
                "col": ("colgroup",)}.get(n, ())
    elif current in elements.SECTIONS and n in ("td", "th"):
        made = ("tr",)
    if len(rest) + len(made) > 512:
        return "TooDeep"
    rest = rest + [(m, False) for m in made]
    if not elements.may_stand(n, rest[-1][0], rest[-2][0]):
        return "WrongParent"
    if len(rest) >= 512:
        return "TooDeep"
    return (closes, made)


def end_moves(path, n):
    """How many elements an end tag closes in the body, or a rule (#parsing-main-inbody)."""
    is_open = any(m == n for m, _ in path)
    if path[-1][1]:
        return 1 if path[-1][0] == n else "NotCurrent" if is_open else "StrayEnd"
    if n == "head":
        return "StrayEnd"
    k = len(path) - 1
    while k > 0 and path[k][0] != n and elements.ends_with(path[k][0], n):
        k -= 1
    if path[k][0] == n:
        return len(path) - k
    return "NotCurrent" if is_open else "StrayEnd"


class State:
    """Insertion mode and open elements (#the-insertion-mode, #the-stack-of-open-elements). Rules are raised as
    `Refused` with the place of the token."""

    def __init__(self):
        self.phase = "Initial"
        self.path = []
        self.events = []
        self.text = None              # code points of the last event, if that is a text
        self.after_pre = False
        self.after_body = []
        self.after_html = []

    # what a step does to the walk

    def flush(self):
        if self.text is not None:
            raw = bool(self.path) and not self.path[-1][1] and self.path[-1][0] in elements.RAWISH
            self.events.append(Text("".join(self.text), raw))
            self.text = None

    def open(self, name, foreign, attrs, at):
        if len(self.path) >= 512:
            raise Refused("TooDeep", at)
        self.flush()
        self.events.append(Start(name, foreign, attrs))
        self.path.append((name, foreign))

    def close(self):
        self.flush()
        name, foreign = self.path.pop()
        self.events.append(End(name, foreign))

    def add(self, event):
        self.flush()
        self.events.append(event)

    def current(self):
        return self.path[-1] if self.path else None

    def in_text(self):
        """The state is inside the text of RCDATA, raw text or script."""
        c = self.current()
        return c is not None and not c[1] and c[0] in elements.RCDATA | elements.RAWISH

    def mode(self):
        c = self.current()
        if c is None:
            return tokens.HTML
        if c[1]:
            return tokens.FOREIGN
        if c[0] in elements.RCDATA:
            return tokens.rcdata(c[0])
        if c[0] == "script":
            return tokens.SCRIPT
        if c[0] in elements.RAW:
            return tokens.raw(c[0])
        return tokens.HTML

    def noscript_in_head(self):
        return self.phase == "InHead" and self.current() == ("noscript", False)

    def make_up_to(self, phase, at):
        """What is missing is made, up to html, head or body."""
        if self.phase == "BeforeHtml":
            self.open("html", False, (), at)
            self.phase = "BeforeHead"
        if phase == "html":
            return
        if self.phase == "BeforeHead":
            self.open("head", False, (), at)
            self.phase = "InHead"
        if phase == "head":
            return
        if self.phase == "InHead":
            self.close()
            self.phase = "AfterHead"
        if self.phase == "AfterHead":
            self.open("body", False, (), at)
            self.phase = "InBody"

    # the tokens

    def doctype(self, legacy, at):
        """#the-initial-insertion-mode."""
        if self.phase != "Initial":
            raise Refused("SecondDoctype", at)
        self.add(Doctype(legacy))
        self.phase = "BeforeHtml"

    def comment(self, text):
        if self.phase == "AfterBody":
            self.after_body.append(Comment(text))
        elif self.phase == "AfterHtml":
            self.after_html.append(Comment(text))
        else:
            self.add(Comment(text))

    def point(self, c, at):
        if self.in_text():
            self.put(c)
            return
        space = is_space(c)
        if self.phase == "Initial":
            if not space:
                raise Refused("NoDoctype", at)
            return
        if self.phase in ("BeforeHtml", "BeforeHead"):
            if space:
                return
            self.make_up_to("head", at)
        if self.phase == "InHead":
            if space:
                self.put(c)
                return
            if self.noscript_in_head():
                raise Refused("TextHere", at)
            self.close()
            self.phase = "AfterHead"
        if self.phase == "AfterHead":
            if space:
                self.put(c)
                return
            self.make_up_to("body", at)
        if self.phase in ("AfterBody", "AfterHtml") and not space:
            raise Refused("AfterBody", at)
        if not space:
            name, foreign = self.current()
            if not foreign and (name in elements.SECTIONS or name in
                                ("table", "tr", "colgroup", "select", "optgroup")):
                raise Refused("TextHere", at)
        self.put(c)

    def put(self, c):
        if self.text is None:
            self.text = []
        self.text.append(c)

    def start_tag(self, n, attrs, slash, at):
        if self.phase == "Initial":
            raise Refused("NoDoctype", at)
        if self.phase in ("AfterBody", "AfterHtml"):
            raise Refused("AfterBody", at)
        if self.current() is not None and self.current()[1]:
            self.start_in_svg(n, attrs, slash, at)
        elif n in elements.REFUSED:
            raise Refused("RefusedName", at)
        elif n in elements.ROOTS:
            {"html": self.start_html, "head": self.start_head, "body": self.start_body}[n](attrs, at)
        else:
            self.start_element(n, attrs, slash, at)

    def start_in_svg(self, n, attrs, slash, at):
        """#parsing-main-inforeign."""
        m = start_moves(self.path, n)
        if isinstance(m, str):
            raise Refused(m, at)
        self.open(n, True, attrs, at)
        if slash:
            self.close()

    def start_html(self, attrs, at):
        """#the-before-html-insertion-mode."""
        if self.phase != "BeforeHtml":
            raise Refused("SecondRoot", at)
        self.open("html", False, attrs, at)
        self.phase = "BeforeHead"

    def start_head(self, attrs, at):
        """#the-before-head-insertion-mode."""
        if self.phase not in ("BeforeHtml", "BeforeHead"):
            raise Refused("SecondRoot", at)
        self.make_up_to("html", at)
        self.open("head", False, attrs, at)
        self.phase = "InHead"

    def start_body(self, attrs, at):
        """#the-after-head-insertion-mode."""
        if self.phase not in ("BeforeHtml", "BeforeHead", "InHead", "AfterHead") or self.noscript_in_head():
            raise Refused("SecondRoot", at)
        self.make_up_to("head", at)
        if self.phase == "InHead":
            self.close()
        self.open("body", False, attrs, at)
        self.phase = "InBody"

    def start_element(self, n, attrs, slash, at):
        """Any other element, which head or body takes (#parsing-main-inhead, #the-after-head-insertion-mode)."""
        if self.phase in ("BeforeHtml", "BeforeHead"):
            self.make_up_to("head", at)
        if self.noscript_in_head():
            if n not in ("link", "meta", "style"):
                raise Refused("WrongParent", at)
            self.open_html(n, attrs, at)
            return
        if self.phase == "InHead":
            if elements.may_stand(n, "head", "html"):
                self.open_html(n, attrs, at)
                return
            self.close()
            self.phase = "AfterHead"
        if self.phase == "AfterHead":
            if n in ("base", "link", "meta", "script", "style", "title"):
                raise Refused("AfterHead", at)
            self.make_up_to("body", at)
        self.start_in_body(n, attrs, slash, at)

    def start_in_body(self, n, attrs, slash, at):
        """#parsing-main-inbody."""
        m = start_moves(self.path, n)
        if isinstance(m, str):
            raise Refused(m, at)
        closes, made = m
        for _ in range(closes):
            self.close()
        for name in made:
            self.open(name, False, (), at)
        if n != "svg":
            self.open_html(n, attrs, at)
            return
        self.open(n, True, attrs, at)
        if slash:
            self.close()

    def open_html(self, n, attrs, at):
        self.open(n, False, attrs, at)
        if n in elements.VOID:
            self.close()

    def end_tag(self, n, at):
        if self.in_text():
            assert self.current() == (n, False)
            self.close()
            return
        if self.phase == "Initial":
            raise Refused("NoDoctype", at)
        if self.phase == "AfterBody":
            if n != "html":
                raise Refused("AfterBody", at)
            self.phase = "AfterHtml"
            return
        if self.phase == "AfterHtml":
            raise Refused("AfterBody", at)
        c = self.current()
        if c is not None and (c[1] or self.noscript_in_head()):
            if c[0] == n:
                self.close()
                return
            raise Refused("NotCurrent" if any(m == n for m, _ in self.path) else "StrayEnd", at)
        if n in elements.ROOTS:
            self.end_root(n, at)
            return
        if self.phase != "InBody":
            raise Refused("StrayEnd", at)
        m = end_moves(self.path, n)
        if isinstance(m, str):
            raise Refused(m, at)
        for _ in range(m):
            self.close()

    def end_root(self, n, at):
        """The end tags of head, body and html (#parsing-main-inhead, #parsing-main-inbody)."""
        if n == "head":
            if self.phase not in ("BeforeHtml", "BeforeHead", "InHead"):
                raise Refused("StrayEnd", at)
            self.make_up_to("head", at)
            self.close()
            self.phase = "AfterHead"
            return
        self.make_up_to("body", at)
        if not self.body_ends():
            raise Refused("Unclosed", at)
        self.phase = "AfterBody" if n == "body" else "AfterHtml"

    def body_ends(self):
        names = [n for n, _ in self.path]
        return names in (["html", "body"], ["html", "body", "p"])

    def token(self, t, s, place):
        """One step; `place` gives the page place of a code point of s. Answers whether the
        phase became AfterBody or AfterHtml for the first time."""
        after_pre, self.after_pre = self.after_pre, False
        before = self.phase
        at = place(t.begin)
        if t.kind == "Doctype":
            self.doctype(t.legacy, at)
        elif t.kind == "Comment":
            self.comment(s[t.low:t.high])
        elif t.kind == "Points":
            for k, c in enumerate(t.points):
                if not (k == 0 and after_pre and c == "\n"):
                    self.point(c, at)
        elif t.kind == "Slice":
            i = t.low
            if i == t.high and not t.cdata:
                self.after_pre = after_pre
            if after_pre and i < t.high and s[i] == "\n":
                i += 1
            for k in range(i, t.high):
                self.point(s[k], place(k))
        elif t.kind == "StartTag":
            self.start_tag(t.name, t.attrs, t.slash, at)
            self.after_pre = self.current() in (("pre", False), ("textarea", False)) \
                and t.name in ("pre", "textarea")
        else:
            self.end_tag(t.name, at)
        return before not in ("AfterBody", "AfterHtml") and \
            self.phase in ("AfterBody", "AfterHtml")

    def end_of_page(self, at):
        """The walk of the whole page (#the-end)."""
        if self.in_text():
            raise Refused("Cut", at)
        if self.phase == "Initial":
            raise Refused("NoDoctype", at)
        if self.noscript_in_head():
            raise Refused("Unclosed", at)
        self.make_up_to("body", at)
        if not self.body_ends():
            raise Refused("Unclosed", at)
        while len(self.path) > 1:
            self.close()
        self.flush()
        self.events.extend(self.after_body)
        self.close()
        self.events.extend(self.after_html)
        return self.events


def parse_closed(source, table):
    """(walk, page place of the first token that closes the body, or None)."""
    state, s, at, closed = State(), source.text, 0, None
    while True:
        try:
            t = tokens.first(table, state.mode(), s, at)
        except Refused as r:
            raise Refused(r.rule, source.place_of(r.at))
        if t is None:
            break
        if state.token(t, s, source.place_of):
            closed = source.place_of(t.begin)
        at = t.end
    return state.end_of_page(source.place_of(len(s))), closed


def tree_of(table, page, limit):
    """The walk of a page of at most `limit` bytes."""
    return parse_closed(read_text(page, limit), table)[0]
