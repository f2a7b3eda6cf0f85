"""What `explain` says: where and why a page is refused, or how short its tree can be written."""
from .text import BOM, PAGE_LIMIT

# What each rule means. These sentences are the program's own words, of the definitions in hm_location.
MEANINGS = {
    "TooLong": "The page goes on after 16,777,216 bytes, and no more are read.",
    "NotUtf8": "These bytes aren't UTF-8, which HTML asks for.",
    "Nul": "This is a zero byte, and HTML allows none.",
    "Cut": "What begins here has no end in the page, and HTML asks for one.",
    "BadName": "A name in this tag isn't read: that of an element is a letter and then letters, digits, '.', '_', ':' or "
        "'-', and that of an attribute holds no quote and no '<' and doesn't begin with '='.",
    "TooManyAttributes": "This tag has more than 256 attributes, and no more are read.",
    'BadDoctype': "This doctype is neither <!doctype html> nor the same with SYSTEM \"about:legacy-compat\", and HTML allows "
        "no other.",
    "NoDoctype": "No doctype stands before this, and HTML asks for <!doctype html> first.",
    "SecondDoctype": "This is a doctype in a later place, and HTML allows one, at the start.",
    "RefusedName": "This element is one that isn't read, as template, frameset, math and marquee.",
    "SecondRoot": "This start tag of html, head or body comes out of its turn, and HTML has each once, in this order.",
    "StrayEnd": "This end tag closes nothing, since no element of its name is open.",
    "NotCurrent": "Elements are open inside the one that this end tag closes, and HTML asks for their end tags first.",
    "BlockInParagraph": "This element closes a p, and HTML asks for the end tags of the elements inside that p first.",
    "Nested": "This element stands inside another of its kind, which HTML forbids of a, button, form, nobr and headings.",
    "WrongParent": "This element can't stand in the one that is open here, and HTML asks for another parent.",
    "TextHere": "Text stands here, where HTML allows whitespace alone, as in table and select.",
    "AfterHead": "This element belongs in head, which is closed already.",
    "AfterBody": "The body is closed already, and HTML allows whitespace and comments alone after it.",
    "Unclosed": "An element is still open here, for which HTML asks for an end tag.",
    "TooDeep": "With this element more than 512 are open, and no more are read.",
    "ForeignName": "This element stands in svg and is none of SVG's.",
    "FrameEnd": "This end tag closes the body around the fragment, which is the content of body alone.",
}


def begins_character(byte):
    return byte & 0xC0 != 0x80


def without_mark(front):
    return front[len(BOM):] if front.startswith(BOM) else front


def line_before(page, at):
    """The number of the line of byte `at`, counted from 1, and where it begins."""
    number, begin, i = 1, 0, 0
    while i < at:
        if page[i] == 10 or page[i] == 13 and page[i + 1:i + 2] != b"\n":
            number, begin = number + 1, i + 1
        i += 1
    return number, begin


def last_of(front, most):
    """The end of the line's front, at most so many bytes, from a character on."""
    if len(front) <= most:
        return front
    i = len(front) - most
    while i < len(front) and not begins_character(front[i]):
        i += 1
    return front[i:]


def first_of(rest, most):
    """The front of what follows, at most so many bytes, without a part of a character."""
    if len(rest) <= most:
        return rest
    while most > 0 and not begins_character(rest[most]):
        most -= 1
    return rest[:most]


def line_rest(page, at):
    """What follows a place in its line."""
    end = at
    while end < len(page) and page[end] not in b"\r\n":
        end += 1
    return page[at:end]


def shown(byte):
    return 63 if byte < 32 and byte != 9 or byte == 127 else byte


def explained(name, page, rule, at):
    """The three lines for a page that is refused by a rule at a place."""
    page = page[:PAGE_LIMIT]
    number, begin = line_before(page, at)
    column = 1 + sum(begins_character(b) for b in (without_mark(page[:at]) if begin == 0 else page[begin:at]))
    if at > 0 and page[at - 1:at + 1] == b"\r\n":
        at -= 1
    front = last_of(page[begin:at], 60)
    line = bytes(shown(b) for b in front + first_of(line_rest(page, at), 40))
    below = bytes(9 if b == 9 else 32 for b in without_mark(front) if begins_character(b))
    place = "%s:%d:%d: %s: %s\n" % (name, number, column, rule, MEANINGS[rule])
    return place.encode() + line + b"\n" + below + b"^\n"
