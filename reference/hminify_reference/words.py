"""The words of a call: command, names, flags."""
import re
from dataclasses import dataclass

from .notices import NOTICES
from .omission import Rules
from .rewrites import TreeOptions

OPTION_FLAGS = ("comments", "booleans", "empty", "redundant", "doctype", "space", "conservative")
RULE_FLAGS = ("omit", "unquote", "tight", "ascii")
FLAGS = tuple("--" + flag for flag in OPTION_FLAGS + RULE_FLAGS + ("order", "sparse"))
# each command with the number of its names
COMMANDS = {"minify": 4, "check": 4, "fragment": 4, "checkfragment": 4, "minifyjson": 4, "tree": 2, "json": 2,
            "explain": 2, "measure": 3}
FRAGMENTS = ("fragment", "checkfragment")
USAGE = ("usage: hminify minify, check, fragment, checkfragment or minifyjson TABLE PAGE OUT CERT, "
         "tree, json or explain TABLE PAGE, measure TABLE NUMBER SIZE, help, version")
_NUMBER = re.compile(r"(0|[1-9][0-9]*)\Z")


class Usage(Exception):
    """The words have no meaning."""


@dataclass(frozen=True)
class Asked:
    command: str
    names: tuple = ()
    options: TreeOptions = TreeOptions()
    rules: Rules = Rules()
    order: bool = False
    sparse: bool = False


def _numbers_fit(number, size):
    return _NUMBER.match(number) and _NUMBER.match(size) and int(number) <= 4294967295 and 1 <= int(size) <= 20000


def _names_fit(command, names, flags):
    """Numbers are in their bounds, and the names of files differ."""
    if command == "measure":
        return "--order" not in flags and _numbers_fit(*names[1:])
    files = names[1:] if names[0] in ("none", "html") else names
    return len(set(files)) == len(files)


def asked(words):
    """What the words ask."""
    if len(words) == 1 and words[0] in NOTICES:
        return Asked(words[0])
    flags = [w for w in words if w.startswith("-")]
    rest = [w for w in words if not w.startswith("-")]
    if "" in words or any(w not in FLAGS for w in flags) or len(set(flags)) < len(flags):
        raise Usage()
    if "--conservative" in flags and "--space" not in flags:
        raise Usage()
    if not rest or COMMANDS.get(rest[0]) != len(rest) - 1:
        raise Usage()
    command, names = rest[0], tuple(rest[1:])
    if command in FRAGMENTS and "--omit" not in flags or not _names_fit(command, names, flags):
        raise Usage()
    return Asked(command, names, TreeOptions(**{f: "--" + f in flags for f in OPTION_FLAGS}),
                 Rules(frame=command in FRAGMENTS, **{f: "--" + f in flags for f in RULE_FLAGS}),
                 "--order" in flags, "--sparse" in flags)
