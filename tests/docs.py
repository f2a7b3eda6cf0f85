#!/usr/bin/env python3
"""Tries what the documents name: crates, files, calls, definitions, links, the version, and their transcripts.

    python3 tests/docs.py

prints each name that isn't there, each crate without a README or without a line in the map, each function that docs/STANDARD.md
names and whose comment doesn't cite its section, each document that doesn't have the version of the file VERSION, and each
transcript that the program answers in another way, and then ends with 1. Where all is well it prints one line. The transcripts
are run where the program was built (crates/hminify/out/hminify); where it wasn't, that is said, and is a fault if CI is `true`."""
import os
import re
import shutil
import subprocess
import sys
import tempfile
from functools import cache
from pathlib import Path

TOP = Path(__file__).resolve().parent.parent
MAP = 'docs/ARCHITECTURE.md'
STANDARD = 'docs/STANDARD.md'
PROGRAM = 'crates/hminify/out/hminify'
# rt hashes the sources of a crate once for each path to it, so the paths below the program cost time at each call.
MOST_PATHS = 2000

WORDS = r'[\w.*/{},-]+'
# a crate, with a file below it or a name in it
CRATE = re.compile(r'\bhm_\w+')
CRATE_FILE = re.compile(r'\b(hm_\w+|hminify)/((?:src|specs|proofs|must-fail|data)\b(?:/' + WORDS + r')?)')
CALL = re.compile(r'`(hm_\w+)::([\w:]+)`')
# a file of this repository from its top
TOP_FILE = re.compile(r'(?<![\w/.])((?:docs|tests|tables|compare|completions|crates|\.ci)/' + WORDS + r'|crates\.txt)')
# a file of a crate that the text names elsewhere
LONE_FILE = re.compile(r'`(?:(src|specs|proofs)/)?(\w+\.(?:rt|antt))`')
# `hm_x/specs/File.antt`: `name`, `name`; in the README of a crate the crate's name is left out
DEFINED = re.compile(r'`(?:(hm_\w+)/)?specs/(\w+\.antt)`: ((?:`\w+`(?:, | and )?)+)')
# a word that stands for any name
STANDS_FOR = re.compile(r'\bhm_x\b|\bNAME\b')
# a name of a program text, as `first_way` or `IsShortest`
NAME = re.compile(r'`([a-z]+(?:_[a-z0-9]+)+|(?:[A-Z][a-z0-9]+){2,})`')
LINK = re.compile(r'(?<!!)\[[^\]\n]*\]\(([^)\s]+)\)')
# an anchor of the HTML Standard, as `#the-end` or `#attribute-value-(unquoted)-state`
ANCHOR = re.compile(r'#[a-z]+(?:-(?:[a-z0-9]+|\([a-z-]+\)))*')
HEADING = re.compile(r'^#+ +(.*)$', re.M)

faults = []


def fault(place, text):
    faults.append(f'{place}: {text}')


@cache
def read(path):
    return path.read_text(encoding='utf-8')


def crates():
    """Each crate of crates.txt, with those of them that it uses."""
    used = {}
    for line in read(TOP / 'crates.txt').splitlines():
        head, colon, rest = line.split('#')[0].partition(':')
        if colon:
            used[head.split()[0]] = rest.split()
    return {name: [it for it in rest if it in used] for name, rest in used.items()}


def documents():
    """Every document, from the top."""
    found = [*sorted(TOP.glob('*.md')), *sorted((TOP / 'docs').glob('*.md')), *sorted((TOP / 'crates').glob('*/README.md'))]
    found += [TOP / 'compare/README.md', TOP / 'tables/README.md']
    return [it.relative_to(TOP) for it in found if it.is_file()]


def is_there(folder, words):
    """Whether a file stands there, where `*` stands for any name."""
    words = words.rstrip('.,')
    return any(True for _ in folder.glob(words)) if '*' in words else (folder / words).exists()


def anchor(heading):
    """The anchor that Markdown gives a heading."""
    plain = re.sub(r'\[([^\]]*)\]\([^)]*\)', r'\1', heading)
    return re.sub(r'[^\w\- ]', '', plain.strip().lower()).replace(' ', '-')


def is_defined_in_code(text, name):
    """Whether a source declares a function, a type, a constant, a module or a variant of this name."""
    return re.search(r'\b(?:fn|struct|enum|trait|const|type|mod)\s+' + name + r'\b', text) is not None


def is_definition(text, name):
    """Whether a file of definitions declares this name: a line begins with it, after words such as `pub`."""
    words = r'(?:(?:pub|abbrev|unfoldable|record|data|opaque|infix\w*)\s+|\|\s*)*'
    return re.search(r'^\s*' + words + re.escape(name) + r'(?:\s|$)', text, re.M) is not None


def sources(crate):
    return sorted((TOP / 'crates' / crate / 'src').rglob('*.rt'))


@cache
def words_of_sources():
    """Every word of code, definitions and proofs."""
    found = set()
    for path in (TOP / 'crates').glob('*/s*/**/*'):
        if path.suffix in ('.rt', '.antt'):
            found.update(re.findall(r'\w+', read(path)))
    for path in (TOP / 'crates').glob('*/proofs/**/*.antt'):
        found.update(re.findall(r'\w+', read(path)))
    return found


def call_fault(crate, path):
    """Why `crate::path` names nothing, or None. A path is a module with names in it, or a name of the crate."""
    parts = path.split(':')[::2]
    module = TOP / 'crates' / crate / 'src' / (parts[0] + '.rt')
    if module.is_file():
        text, names = read(module), parts[1:]
    else:
        text, names = '\n'.join(read(it) for it in sources(crate)), parts
    for name in names[:-1]:
        if not re.search(r'\b' + name + r'\b', text):
            return f'no {name}'
    if not names or is_defined_in_code(text, names[-1]):
        return None
    definitions = (TOP / 'crates' / crate / 'specs').glob('*.antt')
    if len(parts) == 1 and any(is_definition(read(it), names[-1]) for it in definitions):
        return None
    return f'no {names[-1]}'


def try_crates(document, text, known):
    for name in sorted(set(CRATE.findall(text)) - set(known) - {'hm_x'}):
        fault(document, f'no crate {name}')
    for crate, path in sorted(set(CALL.findall(text))):
        if crate in known and (why := call_fault(crate, path)):
            fault(document, f'{crate}::{path}: {why}')


def try_files(document, text, known):
    for crate, path in sorted(set(CRATE_FILE.findall(text))):
        if crate in known and not is_there(TOP / 'crates' / crate, path):
            fault(document, f'no file {crate}/{path}')
    for path in sorted(set(TOP_FILE.findall(text))):
        if not STANDS_FOR.search(path) and '/out/' not in path and not is_there(TOP, path):
            fault(document, f'no file {path}')
    home = document.parent.name if document.parts[0] == 'crates' else '*'
    for folder, name in sorted(set(LONE_FILE.findall(text))):
        where = f'{home}/{folder or "*"}/**/{name}'
        if not any(True for _ in (TOP / 'crates').glob(where)):
            fault(document, f'no file {folder + "/" if folder else ""}{name}')


def try_definitions(document, text):
    home = document.parent.name if document.parts[0] == 'crates' else None
    for crate, name, listed in DEFINED.findall(text):
        path = TOP / 'crates' / (crate or home or '') / 'specs' / name
        if not path.is_file():
            continue
        for word in re.findall(r'`(\w+)`', listed):
            if not is_definition(read(path), word):
                fault(document, f'no {word} in {path.relative_to(TOP)}')


def try_names(document, text, known):
    for name in sorted(set(NAME.findall(text)) - set(known)):
        if name not in words_of_sources():
            fault(document, f'no source has {name}')


def try_links(document, text):
    for target in sorted(set(LINK.findall(text))):
        if re.match(r'\w+:', target):
            continue
        path, _, part = target.partition('#')
        where = (TOP / document.parent / path) if path else TOP / document
        if not where.exists():
            fault(document, f'no file for the link {target}')
        elif part and part not in map(anchor, HEADING.findall(read(where))):
            fault(document, f'no heading for the link {target}')


def try_map(known):
    """Each crate has a folder and a README, and stands in the map, among the claims, and in the README of the whole."""
    for name in known:
        if not (TOP / 'crates' / name / 'README.md').is_file():
            fault('crates.txt', f'{name} has no README')
        if f'(../crates/{name}/README.md)' not in read(TOP / MAP):
            fault(MAP, f'no line for {name}')
        if f'(../crates/{name}/README.md)' not in read(TOP / 'docs/CLAIMS.md'):
            fault('docs/CLAIMS.md', f'no link to {name}')
        if f'`{name}`' not in read(TOP / 'README.md'):
            fault('README.md', f'no word of {name}')


def rows_of(text):
    """The cells of each row of a table, without its head."""
    return [[it.strip() for it in line.split('|')[1:-1]] for line in text.splitlines() if line.startswith('| #')]


def comments_of(text, name):
    """The comment above each function or type of this name, over its attributes."""
    head = r'^((?: *(?:///|#\[).*\n)*) *(?:pub(?:\([a-z]+\))? )?(?:\w+ )*(?:fn|struct|enum|trait) ' + name + r'\b'
    return re.findall(head, text, re.M)


def try_anchors():
    """Each function of docs/STANDARD.md, but for laws, cites a section of its rows in its comment."""
    wanted = {}
    for section, _, functions, *_ in rows_of(read(TOP / STANDARD)):
        for call in CALL.findall(functions):
            wanted.setdefault(call, set()).update(ANCHOR.findall(section))
    for (crate, path), anchors in sorted(wanted.items()):
        module, *names = path.split('::')
        if crate.endswith('_laws') or module.endswith('laws'):
            continue
        files = sources(crate)
        if names:
            files = [TOP / 'crates' / crate / 'src' / f'{module}.rt']
        cited = [set(ANCHOR.findall(it)) for file in files for it in comments_of(read(file), path.split('::')[-1])]
        if not any(it & anchors for it in cited):
            fault(STANDARD, f'{crate}::{path} has no anchor of its section')


def try_version():
    """The version stands in VERSION; the manual page tells of it, and it is the first of the changelog."""
    version = read(TOP / 'VERSION').strip()
    if not re.fullmatch(r'\d+\.\d+\.\d+', version):
        fault('VERSION', f'{version!r} is no version')
    for path, form in [('CHANGELOG.md', r'^## \[([^\]]*)\]'), ('docs/hminify.1', r'^\.Nm\n([\d.]+)\.$')]:
        told = re.search(form, read(TOP / path), re.M)
        if told is None or told[1] != version:
            fault(path, f'its version is {told and told[1]}, wanted {version}')
    path = 'crates/hm_minify/src/notices.rt'
    told = re.search(r'^pub const VERSION: &\[u8\] = b"hminify ([^\\]*)\\n([^\\]*)\\n";', read(TOP / path), re.M)
    if told is None or told[1] != version:
        fault(path, f'its version is {told and told[1]}, wanted {version}')
    proved = re.search(r'^\*\*Proved\*\* with `([^`]*)`', read(TOP / 'README.md'), re.M)
    if told is None or proved is None or proved[1] != told[2]:
        fault('README.md', f'proved with {proved and proved[1]}, and {path} has {told and told[2]}')
    if told and shutil.which('rt'):
        # Releases of the kit differ in their commands too. What is a proof is the same where their logic is.
        here = subprocess.run(['rt', 'version'], capture_output=True, text=True).stdout.strip()
        if here.split()[1:] != told[2].split()[1:]:
            fault(path, f'proved with {told[2]}, and the toolchain here is {here}')


def try_paths(known):
    @cache
    def paths(name):
        return sum(1 + paths(it) for it in known[name])

    if paths('hminify') >= MOST_PATHS:
        fault('crates.txt', f'{paths("hminify")} paths below hminify; at most {MOST_PATHS - 1} are wanted')


def transcripts(text):
    """The commands of each block of a document, with the lines that they print. After `\\` a command goes on in the next line."""
    found = []
    for block in re.findall(r'(?:^    .*\n)+', text + '\n', re.M):
        lines = [line[4:] for line in block.splitlines()]
        if not lines[0].startswith('$ '):
            continue
        for line in lines:
            if found and found[-1][0].endswith('\\') and not found[-1][1]:
                found[-1] = (f'{found[-1][0]}\n{line}', [])
            elif line.startswith('$ '):
                found.append((line[2:], []))
            else:
                found[-1][1].append(line)
    return found


def has_program():
    """Whether the program was built. Where it wasn't, that is said."""
    if (TOP / PROGRAM).is_file():
        return True
    print(f'{PROGRAM} is not there, so no transcript was run')
    if os.environ.get('CI') == 'true':
        fault(PROGRAM, 'no program to run the transcripts with')
    return False


def try_transcripts(document, text):
    """Runs the commands of a document, one after another, in a folder of its own."""
    commands = transcripts(text)
    if not commands:
        return
    with tempfile.TemporaryDirectory() as room:
        os.symlink(TOP / PROGRAM, f'{room}/hminify')
        shutil.copytree(TOP / 'tables', f'{room}/tables')
        called = dict(os.environ, PATH=f'{room}:{os.environ["PATH"]}')
        for command, wanted in commands:
            ended = subprocess.run(['sh', '-c', command], cwd=room, env=called, capture_output=True, timeout=60)
            shown = (ended.stdout + ended.stderr).decode('utf-8', 'replace').splitlines()
            if shown != wanted:
                fault(document, f'`{command}` prints {shown}, wanted {wanted}')


def main():
    known = crates()
    for document in documents():
        text = read(TOP / document)
        try_crates(document, text, known)
        try_files(document, text, known)
        try_definitions(document, text)
        try_names(document, text, known)
        try_links(document, text)
    try_map(known)
    try_anchors()
    try_version()
    try_paths(known)
    if has_program():
        for document in documents():
            try_transcripts(document, read(TOP / document))
    for line in faults:
        print(line)
    if not faults:
        print(f'{len(documents())} documents and {len(known)} crates as they are told')
    return 1 if faults else 0


if __name__ == '__main__':
    sys.exit(main())
