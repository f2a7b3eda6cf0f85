#!/usr/bin/env python3
"""Finds what a crate hands on from another one, and keeps the table of it in docs/ARCHITECTURE.md.

    python3 tests/handed_on.py            prints each fault, and then ends with 1
    python3 tests/handed_on.py --write    writes the table anew

A crate hands on a module by a line `pub use Rattle.hm_x.specs.Y`, as in specs/Lib.antt, and names of code by `pub use hm_x::{a, b};`
in src/lib.rt. Users import both under the name of the crate that hands them on, and no file of that crate has them. It is a fault if
the table is another one than what is found here, if no file has what is handed on, and if the comment above doesn't name the folder
that has it, as crates/hm_x/specs. Where all is well one line is printed."""
import re
import sys
from pathlib import Path

TOP = Path(__file__).resolve().parent.parent
DOCUMENT = 'docs/ARCHITECTURE.md'
BEGIN, END = '<!-- made by tests/handed_on.py -->', '<!-- end of what tests/handed_on.py made -->'

# `Rattle.hm_x.specs.Y`, with or without names in braces
MODULE = re.compile(r'Rattle\.(hm_\w+)\.(specs|proofs)\.([\w.]+?)(?:\.\{([^}]*)\})?')
# `hm_x::{a, b};` or `module::a;`
CODE = re.compile(r'(\w+)::(?:\{([^}]*)\}|(\w+));')

faults = []


def fault(place, text):
    faults.append(f'{place}: {text}')


def read(path):
    return (TOP / path).read_text(encoding='utf-8')


def names_in(listed):
    return [it.strip() for it in listed.split(',') if it.strip()]


def uses(path):
    """What each `pub use` of a file has after these words, and the comment above it, which holds for all lines `pub use` below it."""
    one_line = re.sub(r'\{[^{}]*\}', lambda it: ' '.join(it[0].split()), read(path))
    comment, ends = '', True
    for line in one_line.splitlines():
        if line.startswith(('--', '//')):
            comment, ends = line if ends else comment + line, False
        elif line.startswith('pub use '):
            yield line.removeprefix('pub use '), comment
            ends = True
        else:
            comment, ends = '', True


def home_of_module(crate, folder, module):
    """The file that has a module of a crate, or None."""
    path = f'crates/{crate}/{folder}/{module.replace(".", "/")}.antt'
    lib = f'crates/{crate}/{folder}/Lib.antt'
    if (TOP / path).is_file():
        return path
    for used, _ in uses(lib) if (TOP / lib).is_file() else []:
        if (it := MODULE.fullmatch(used)) and it[3].split('.')[-1] == module:
            return home_of_module(*it.groups()[:3])
    return None


def home_of_name(crate, name):
    """The file that has a public name of the code of a crate, or None."""
    for used, _ in uses(f'crates/{crate}/src/lib.rt'):
        if (it := CODE.fullmatch(used)) and name in names_in(it[2] or it[3]):
            if it[1].startswith('hm_'):
                return home_of_name(it[1], name)
            path = f'crates/{crate}/src/{it[1]}.rt'
            return path if (TOP / path).is_file() else None
    return None


def handed_on(path):
    """What a file hands on: how it is imported, the file that has it, and the comment above."""
    crate, folder, *rest = Path(path).with_suffix('').parts[1:]
    for used, comment in uses(path):
        if (it := MODULE.fullmatch(used)) and it[1] != crate:
            ours = [f'{".".join(rest)}.{name}' for name in names_in(it[4])] if it[4] else [it[3].split('.')[-1]]
            for name in ours:
                yield f'{crate}.{folder}.{name}', home_of_module(*it.groups()[:3]), comment
        elif (it := CODE.fullmatch(used)) and it[1].startswith('hm_'):
            for name in names_in(it[2] or it[3]):
                yield f'{crate}::{name}', home_of_name(it[1], name), comment
        elif it is None and used.startswith(('hm_', 'Rattle.hm_')):
            fault(path, f'`pub use {used}` has a form that is not read here')


def found():
    """All that is handed on: how it is imported, and the file that has it."""
    homes = {}
    for pattern in ('*/src/**/*.rt', '*/specs/**/*.antt', '*/proofs/**/*.antt'):
        for path in sorted(it.relative_to(TOP) for it in (TOP / 'crates').glob(pattern)):
            for name, home, comment in handed_on(path):
                homes[name] = home
                if home is None:
                    fault(path, f'no file has {name}')
                elif (folder := '/'.join(home.split('/')[:3])) not in comment:
                    fault(path, f'the comment above {name} does not name {folder}')
    return homes


def table(homes):
    """The rows of the table, modules before code. Names of code that stand in one file share a row."""
    rows = {}
    for name, home in sorted(homes.items(), key=lambda it: ('::' in it[0], it)):
        crate, colons, rest = name.partition('::')
        rows.setdefault((crate, home) if colons else (name, home), []).append(rest)
    lines = ['| imported as | is in |', '|---|---|']
    for (name, home), names in rows.items():
        code = f'use {name}::{{{", ".join(names)}}}' if names[0] else name
        lines.append(f'| `{code}` | `{home and home.removeprefix("crates/")}` |')
    return '\n'.join(lines) + '\n'


def main():
    homes = found()
    text = read(DOCUMENT)
    parts = re.fullmatch(f'(.*{re.escape(BEGIN)}\n).*?({re.escape(END)}.*)', text, re.S)
    if parts is None:
        fault(DOCUMENT, f'no {BEGIN} with {END} after it')
    elif text != (wanted := f'{parts[1]}\n{table(homes)}\n{parts[2]}'):
        if sys.argv[1:] == ['--write']:
            (TOP / DOCUMENT).write_text(wanted, encoding='utf-8')
        else:
            fault(DOCUMENT, 'its table of what is handed on is not what `python3 tests/handed_on.py --write` makes')
    for line in faults:
        print(line)
    if not faults:
        print(f'{len(homes)} modules and names are handed on as they are told')
    return 1 if faults else 0


if __name__ == '__main__':
    sys.exit(main())
