"""The tables of elements (#elements-2, #element-restrictions, #closing-elements-that-have-implied-end-tags)."""
import re


def _set(s):
    return frozenset(s.split())


REFUSED = _set("applet basefont bgsound command frame frameset image isindex keygen listing "
               "marquee math menuitem noembed noframes plaintext rb rtc template xmp")
VOID = _set("area base br col embed hr img input link meta param source track wbr")
HEADINGS = _set("h1 h2 h3 h4 h5 h6")
SECTIONS = _set("thead tbody tfoot")
PARTS = _set("caption col colgroup thead tbody tfoot tr td th")
B = _set("address article aside blockquote center details dialog dir div dl fieldset figcaption "
         "figure footer form header hgroup hr main menu nav ol p pre search section summary "
         "table ul") | HEADINGS
CLOSES_P = B | _set("li dd dt")
BOUNDARIES = _set("html table td th caption object button")
FOREIGN_BOUNDARIES = _set("title desc")
BLOCKS = B | _set("body caption col colgroup dd dt head html legend li optgroup option tbody td "
                  "tfoot th thead title tr")
BOOLEAN = _set("allowfullscreen async autofocus autoplay checked controls default defer disabled "
               "formnovalidate inert ismap itemscope loop multiple muted nomodule novalidate open "
               "playsinline readonly required reversed selected")
SVG = _set("a animate animatemotion animatetransform circle clippath defs desc ellipse feblend "
           "fecolormatrix fecomponenttransfer fecomposite feconvolvematrix fediffuselighting "
           "fedisplacementmap fedistantlight fedropshadow feflood fefunca fefuncb fefuncg fefuncr "
           "fegaussianblur feimage femerge femergenode femorphology feoffset fepointlight "
           "fespecularlighting fespotlight fetile feturbulence filter g image line lineargradient "
           "marker mask metadata mpath path pattern polygon polyline radialgradient rect set stop "
           "style svg switch symbol text textpath title tspan use view")
RCDATA = _set("title textarea")
RAW = _set("style iframe")
RAWISH = _set("style iframe script")
NESTED = _set("a button form nobr")
ROOTS = _set("html head body")
NAME = re.compile(r"[a-z][a-z0-9._:-]*\Z")


def closes_p(name):
    return name in CLOSES_P


def is_boundary(name, foreign):
    return name in (FOREIGN_BOUNDARIES if foreign else BOUNDARIES)


_OWN_PARENTS = {"li": _set("ul ol menu dir"), "rt": _set("ruby"), "rp": _set("ruby"),
                "option": _set("datalist"), "optgroup": frozenset()}


def may_stand(name, parent, grandparent):
    """An element may be the child of this parent (#element-restrictions)."""
    if parent == "head":
        return name in _set("base link meta noscript script style title")
    if parent == "noscript" and grandparent == "head":
        return name in _set("link meta style")
    if parent == "table":
        return name in _set("caption colgroup thead tbody tfoot script style")
    if parent in SECTIONS:
        return name in _set("tr script style")
    if parent == "tr":
        return name in _set("td th script style")
    if parent == "colgroup":
        return name == "col"
    if parent == "select":
        return name in _set("option optgroup")
    if parent == "optgroup":
        return name == "option"
    if parent == "option" or parent in RCDATA or parent in RAWISH or parent in VOID:
        return False
    if name in _set("html head body base title") or name in PARTS:
        return False
    if name in _OWN_PARENTS:
        return parent in _OWN_PARENTS[name]
    if name in ("dt", "dd"):
        return parent == "dl" or (parent == "div" and grandparent == "dl")
    return True


_YIELDS = {"p": CLOSES_P | _set("rt rp") | PARTS, "li": _set("li"),
           "dt": _set("dt dd"), "dd": _set("dt dd"), "rt": _set("rt rp"), "rp": _set("rt rp"),
           "option": _set("option optgroup"), "optgroup": _set("optgroup"),
           "td": PARTS, "th": PARTS, "caption": PARTS, "tr": PARTS - _set("td th"),
           "thead": PARTS - _set("td th tr"), "tbody": PARTS - _set("td th tr"),
           "tfoot": PARTS - _set("td th tr")}


def yields(current, nxt):
    """A start tag `nxt` closes the open element `current` (#closing-elements-that-have-implied-end-tags)."""
    if current == "colgroup":
        return nxt != "col"
    return nxt in _YIELDS.get(current, ())


_ENDS = {"p": (B - _set("hr p")) | _set("button li dd dt object td th caption tr") | SECTIONS,
         "li": _set("ul ol menu dir"), "dt": _set("dl div"), "dd": _set("dl div"),
         "option": _set("optgroup select datalist"), "optgroup": _set("select"),
         "rt": _set("ruby"), "rp": _set("ruby"),
         "td": _set("tr table") | SECTIONS, "th": _set("tr table") | SECTIONS,
         "tr": _set("table") | SECTIONS}
for _n in ("thead", "tbody", "tfoot", "caption", "colgroup"):
    _ENDS[_n] = _set("table")


def ends_with(child, ending):
    """The end tag `ending` closes the open element `child` (#closing-elements-that-have-implied-end-tags)."""
    return ending in _ENDS.get(child, ())
