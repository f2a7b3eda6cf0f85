#!/usr/bin/env python3
"""Compares each table of flags, commands and exit statuses with those of the program, and makes the completions.

    python3 tests/flags.py            prints each difference, and then ends with 1
    python3 tests/flags.py --write    makes completions/ anew from the table of flags

Flags and commands are those of the definitions of hm_words, statuses and the usage line those of hm_minify. What a completion says
of a flag is what the README says of it, that of a command what docs/BEHAVIOUR.md does. Where all is well one line is printed."""
import re
import shutil
import subprocess
import sys
from pathlib import Path

TOP = Path(__file__).resolve().parent.parent
FLAG = re.compile(r'(?:--)?[a-z]+(?:-[a-z]+)*')

faults = []


def fault(place, text):
    faults.append(f'{place}: {text}')


def read(path):
    return (TOP / path).read_text(encoding='utf-8')


def section(path, heading):
    """The lines below a heading, up to the next one."""
    found = re.search(r'^#+ ' + re.escape(heading) + r'\n(.*?)(?=^#+ |\Z)', read(path), re.M | re.S)
    if found is None:
        fault(path, f'no heading {heading}')
    return found[1] if found else ''


# ---- What the program reads

def definitions(text):
    """The equations of each definition of a file, in one text by its name."""
    found = {}
    code = re.sub(r'--(?= |$).*', '', text, flags=re.M)
    for name, body in re.findall(r'^(\w+)\b(.*(?:\n[ \t]+.*)*)', code, re.M):
        found[name] = found.get(name, '') + body
    return found


def flags_in(body):
    """The names of flags in the strings of a definition: one each, or a list of words."""
    found = []
    for listed, text in re.findall(r'(\bwords )?"([^"]*)"', body):
        names = text.split()
        if (listed or len(names) == 1) and all(FLAG.fullmatch(it) for it in names):
            found += [it.removeprefix('--') for it in names]
    return list(dict.fromkeys(found))


def program_flags():
    """The flags of hm_words: of its definitions, the one that names most of them is the table."""
    tables = []
    for path in sorted((TOP / 'crates/hm_words/specs').glob('*.antt')):
        if path.name != 'Examples.antt':
            tables += map(flags_in, definitions(path.read_text(encoding='utf-8')).values())
    most = max(tables, key=len, default=[])
    if len(most) < 8:
        fault('crates/hm_words/specs', f'no table of flags; the longest list is {most}')
    return ['--' + it for it in most]


def program_commands():
    """The commands of hm_words, by the rows of their table, and the notices by theirs."""
    text = read('crates/hm_words/specs/Words.antt')
    found = re.findall(r'^\s+(?:∷ )?command_row \(codes "([a-z]+)"\)', text, re.M)
    notices = re.findall(r'^\s+(?:∷ )?notice_row \(codes "([a-z]+)"\)', text, re.M)
    if not found or not notices:
        fault('crates/hm_words/specs/Words.antt', 'no table of commands or none of notices')
    return found + notices


def table_words():
    """The words that TABLE may be in place of a file, by the definition of hm_words."""
    body = definitions(read('crates/hm_words/specs/Words.antt')).get('is_table_word', '')
    found = sorted(re.findall(r'codes "([a-z]+)"', body))
    if not found:
        fault('crates/hm_words/specs/Words.antt', 'no words of TABLE')
    return found


def help_text():
    """What `help` prints."""
    found = re.search(r'^pub const HELP: &\[u8\] =\s*b"((?:[^"\\]|\\.)*)";', read('crates/hm_minify/src/notices.rt'), re.M | re.S)
    if found is None:
        fault('crates/hm_minify/src/notices.rt', 'no text of help')
    return found[1].replace('\\"', '"').replace('\\\\', '\\') if found else ''


def program_statuses():
    """The exit statuses of hm_minify."""
    return sorted(re.findall(r'^code_of \w+ = (\d+)$', read('crates/hm_minify/specs/Codes.antt'), re.M), key=int)


def usage_line():
    """The line that is printed for words without a meaning."""
    found = re.search(r'^usage_line = codes "([^"]*)"', read('crates/hm_minify/specs/Lines.antt'), re.M)
    if found is None:
        fault('crates/hm_minify/specs/Lines.antt', 'no usage line')
    return found[1] if found else ''


# ---- What the documents say

def rows(path, heading):
    """The cells of each row of the tables of a section."""
    for line in section(path, heading).splitlines():
        if line.startswith('| `'):
            yield [it.strip() for it in line.strip('|').split('|')]


def readme_flags():
    """Each flag of the README's table, with what it does."""
    return {name: row[1] for row in rows('README.md', 'Options') for name in re.findall(r'`(--[a-z-]+)`', row[0])}


def command_rows(path, heading):
    """Each command in the table of a section, with its words and what it does."""
    found = {}
    for row in rows(path, heading):
        if words := re.match(r'`([a-z]+)((?: [A-Z]+)*)`', row[0]):
            found[words[1]] = (words[2].split(), row[1])
    return found


def told_commands():
    """Each command of the whole table, with its words and what it does."""
    return command_rows('docs/BEHAVIOUR.md', 'The commands')


def plain(text):
    """What a cell says, without its marks."""
    return re.sub(r'\[([^\]]*)\]\([^)]*\)', r'\1', text).replace('`', '')


def behaviour_flags():
    return [it for row in rows('docs/BEHAVIOUR.md', 'The commands') for it in re.findall(r'`(--[a-z-]+)`', row[0])]


def manual_flags():
    return ['-' + it for it in re.findall(r'^\.It Fl (-[a-z-]+)', read('docs/hminify.1'), re.M)]


def manual_commands():
    lines = re.findall(r'^\.It Cm ([a-z]+)(?: Ar (.*))?$', read('docs/hminify.1'), re.M)
    return {name: words.split() for name, words in lines}


def manual_synopsis():
    return re.findall(r'^\.Nm\n\.Cm ([a-z]+)$', read('docs/hminify.1'), re.M)


def statuses(path, pattern):
    """The exit statuses of the program that a document tells; 70 is the script's alone."""
    found = set(re.findall(r'\d+', ' '.join(re.findall(pattern, read(path), re.M))))
    return sorted(found - {'70'}, key=int)


def try_help(flags, commands):
    """The help names each command with its words, each flag, each word of TABLE and each exit status, in 80 columns."""
    place, text = 'crates/hm_minify/src/notices.rt, the help', help_text()
    parts = {it.split('\n', 1)[0].split()[0]: it for it in text.split('\n\n') if it}
    told = {name: words.split() for name, words in re.findall(r'^  ([a-z]+)((?: [A-Z]+)*)  ', parts.get('commands', ''), re.M)}
    if told != commands:
        fault(place, f'the commands are {told}, in docs/BEHAVIOUR.md {commands}')
    try_names(place, re.findall(r'^  (--[a-z-]+)  ', text, re.M), flags)
    try_names(place, sorted(re.findall(r'^  ([a-z]+)  ', parts.get('TABLE', ''), re.M)), table_words())
    if (found := sorted(re.findall(r'(?:^|  )(\d)  ', parts.get('exit', ''), re.M), key=int)) != program_statuses():
        fault(place, f'the exit statuses are {found}, those of the program {program_statuses()}')
    for line in text.splitlines():
        if len(line) > 80:
            fault(place, f'more than 80 columns: {line!r}')


def try_names(place, names, wanted):
    """Each wanted name stands once, and no other."""
    for name in wanted:
        if (count := list(names).count(name)) != 1:
            fault(place, f'{name} stands {count} times, wanted once')
    for name in dict.fromkeys(names):
        if name not in wanted:
            fault(place, f'{name} is none of the program')


def try_documents(flags):
    try_names('README.md', [it for row in rows('README.md', 'Options') for it in re.findall(r'`(--[a-z-]+)`', row[0])], flags)
    try_names('docs/BEHAVIOUR.md', behaviour_flags(), flags)
    try_names('docs/hminify.1', manual_flags(), flags)
    commands = {name: words for name, (words, _) in told_commands().items()}
    if not commands:
        fault('docs/BEHAVIOUR.md', 'no commands')
    try_names('docs/hminify.1, the synopsis', manual_synopsis(), list(commands))
    if (told := manual_commands()) != commands:
        fault('docs/hminify.1', f'the commands are {told}, in docs/BEHAVIOUR.md {commands}')
    for name, told in command_rows('README.md', 'Use').items():
        if told != told_commands().get(name):
            fault('README.md', f'{name} is not as docs/BEHAVIOUR.md has it')
    for name in commands:
        if not re.search(r'`' + name + r'\b', section('README.md', 'Use')):
            fault('README.md', f'no word of {name}')
    try_names('docs/BEHAVIOUR.md', list(commands), program_commands())
    try_help(flags, commands)
    for path in ['docs/BEHAVIOUR.md', 'tests/statuses.sh']:
        if usage_line() not in ' '.join(read(path).split()):
            fault(path, f'no usage line {usage_line()!r}')
    wanted = program_statuses()
    for path, pattern in [('docs/BEHAVIOUR.md', r'^\| (\d) \|'), ('README.md', r'^\| ([\d, ]+) \|'), ('docs/hminify.1', r'^\.It (\d+)$')]:
        if (told := statuses(path, pattern)) != wanted:
            fault(path, f'the exit statuses are {told}, those of the program {wanted}')


# ---- The completions

BASH = '''\
# bash completion for hminify. Made by `python3 tests/flags.py --write`; don't change it by hand.

_hminify() {{
    local word=${{COMP_WORDS[COMP_CWORD]}} command='' names=0 at it
    local flags=({flags})
    COMPREPLY=()
    for ((at = 1; at < COMP_CWORD; at++)); do
        case ${{COMP_WORDS[at]}} in
            -*) ;;
            *)
                names=$((names + 1))
                [[ $names -gt 1 ]] || command=${{COMP_WORDS[at]}}
                ;;
        esac
    done
    if [[ $word == -* ]]; then
        for it in "${{flags[@]}}"; do
            [[ $it != "$word"* || " ${{COMP_WORDS[*]:1:COMP_CWORD-1}} " == *" $it "* ]] || COMPREPLY+=("$it")
        done
        return
    fi
    case $command,$names in
        ,0) mapfile -t COMPREPLY < <(compgen -W '{commands}' -- "$word") ;;
{words}
    esac
}}

complete -o filenames -F _hminify hminify ./hminify
'''

ZSH = '''\
#compdef hminify
# zsh completion for hminify. Made by `python3 tests/flags.py --write`; don't change it by hand.

_hminify() {{
    local -a names
    names=(${{(@)words[2,CURRENT-1]:#-*}})
    _arguments \\
{flags}
        '1:command:(({commands}))' \\
        '*:name:_hminify_name'
}}

_hminify_name() {{
    case $names[1],$#names in
{words}
        *) _message 'no more words' ;;
    esac
}}

_hminify "$@"
'''


def bash_words(name, words):
    """What bash offers for the words of a command: files, and for TABLE its words too."""
    for at, word in enumerate(words, 1):
        if word == 'TABLE':
            table = ' '.join(table_words())
            yield f'        {name},{at}) mapfile -t COMPREPLY < <(compgen -W {table!r} -- "$word"; compgen -f -- "$word") ;;'
        elif word not in ('NUMBER', 'SIZE'):
            yield f'        {name},{at}) mapfile -t COMPREPLY < <(compgen -f -- "$word") ;;'


def zsh_words(name, words):
    for at, word in enumerate(words, 1):
        if word == 'TABLE':
            table = ' '.join(table_words())
            yield f"        {name},{at}) _alternative 'tables:table:({table})' 'files:{word}:_files' ;;"
        elif word in ('NUMBER', 'SIZE'):
            yield f"        {name},{at}) _message '{word}' ;;"
        else:
            yield f"        {name},{at}) _files ;;"


def quoted(text):
    """A text inside single quotes of zsh, where brackets and colons have no meaning of their own."""
    return re.sub(r'([\[\]:\\])', r'\\\1', plain(text)).replace("'", "'\\''")


def completions(flags):
    """The text of each completion."""
    commands, effects = told_commands(), readme_flags()
    bash = BASH.format(flags=' '.join(flags), commands=' '.join(commands),
                       words='\n'.join(line for name, (words, _) in commands.items() for line in bash_words(name, words)))
    told = ' '.join(f'{name}\\:"{quoted(re.split(r"[,;]", effect)[0])}"' for name, (_, effect) in commands.items())
    zsh = ZSH.format(flags='\n'.join(f"        '{it}[{quoted(effects.get(it, ''))}]' \\" for it in flags), commands=told,
                     words='\n'.join(line for name, (words, _) in commands.items() for line in zsh_words(name, words)))
    return {'completions/hminify.bash': bash, 'completions/_hminify': zsh}


def offers(*words):
    """What the bash completion offers for the last of these words."""
    script = 'source completions/hminify.bash; COMP_WORDS=("$@"); COMP_CWORD=$(($# - 1)); _hminify; printf "%s\\n" "${COMPREPLY[@]}"'
    ran = subprocess.run(['bash', '-c', script, 'bash', 'hminify', *words], cwd=TOP, capture_output=True, text=True)
    if ran.stderr:
        fault('completions/hminify.bash', ran.stderr.strip())
    return ran.stdout.split()


def try_offers(flags):
    """The completion of bash offers what fits, where bash is there, and zsh reads its own."""
    if shutil.which('bash'):
        commands = told_commands()
        for words, wanted in [([''], list(commands)), (['--'], flags), (['tree', flags[0], '--'], flags[1:])]:
            if (offered := offers(*words)) != wanted:
                fault('completions/hminify.bash', f'after {words} it offers {offered}, wanted {wanted}')
        for command in ['minify', 'minifyjson']:
            if offers(command, 'none', 'VER') != ['VERSION']:
                fault('completions/hminify.bash', f'PAGE of {command} offers no file')
        if 'none' not in offers(flags[0], 'tree', 'no') or 'html' not in offers('tree', 'ht'):
            fault('completions/hminify.bash', 'TABLE offers no word')
    if shutil.which('zsh'):
        ran = subprocess.run(['zsh', '-n', 'completions/_hminify'], cwd=TOP, capture_output=True, text=True)
        if ran.returncode:
            fault('completions/_hminify', ran.stderr.strip())


def try_manual():
    """mandoc shows the manual page without a warning, where it is there."""
    if shutil.which('mandoc'):
        ran = subprocess.run(['mandoc', '-Tlint', '-Wwarning', 'docs/hminify.1'], cwd=TOP, capture_output=True, text=True)
        if ran.returncode:
            fault('docs/hminify.1', ran.stdout.strip())


def main():
    flags = program_flags()
    made = completions(flags)
    if sys.argv[1:] == ['--write']:
        for path, text in made.items():
            (TOP / path).parent.mkdir(exist_ok=True)
            (TOP / path).write_text(text, encoding='utf-8')
    for path, text in made.items():
        if not (TOP / path).is_file() or read(path) != text:
            fault(path, 'not what `python3 tests/flags.py --write` makes')
    try_documents(flags)
    try_offers(flags)
    try_manual()
    for line in faults:
        print(line)
    if not faults:
        print(f'{len(flags)} flags and {len(told_commands())} commands as they are told')
    return 1 if faults else 0


if __name__ == '__main__':
    sys.exit(main())
