#!/usr/bin/env python3
"""The words of the manual page and of the completions, which have to be those of the program's own help.

  tests/words.py PROGRAM

Each command, and of each command its options, short and long, stand in share/tomled.1 and in each file of
share/completions/, and no others. In the page so do the arguments and what an option takes, in the completions the words
that an option or a command chooses from. bash is asked for what it offers; the files of zsh and fish are read, since
neither shell need be there. The last line is 'N passed, M failed'.
"""
import collections
import getopt
import os
import re
import shlex
import subprocess
import sys

SHARE = os.path.join(os.path.dirname(os.path.dirname(os.path.abspath(__file__))), 'share')
SECONDS = 30
# The program itself, among the commands.
TOP = ''
# The one command that has no help of its own, and what stands behind it.
HELP, HELP_ARGUMENTS = 'help', '[COMMAND]'

# What help says of a command: each option, as `-i` or `--profile`, with the name of what it takes, or none; the arguments, as
# in a usage; and the words that something is chosen from, as `--profile 1` or, of no option, `get`.
Help = collections.namedtuple('Help', 'options arguments choices')


class Fault(Exception):
    """Why words can't be read."""


def said_by(words):
    """What a program prints that has to end with status 0."""
    try:
        done = subprocess.run(words, stdin=subprocess.DEVNULL, capture_output=True, text=True, timeout=SECONDS, check=False)
    except (OSError, UnicodeDecodeError, subprocess.TimeoutExpired) as fault:
        raise Fault(f'{shlex.join(words)}: {fault}') from fault
    if done.returncode:
        raise Fault(f'{shlex.join(words)}: status {done.returncode}: {done.stderr.strip()}')
    return done.stdout


def text_of(name):
    with open(os.path.join(SHARE, name), encoding='utf-8') as file:
        return file.read()


# What help says.

OPTION = re.compile(r'(?: {2}(-\w)(?:, (--[\w-]+))?| {6}(--[\w-]+))(?: <([\w-]+)>)?(?: {2}.*)?')
ARGUMENT = re.compile(r' {2}(?:<([\w-]+)>(\.\.\.)?|(\[[\w-]+\]))(?: {2}.*)?')
COMMAND = re.compile(r' {2}([\w-]+)(?: {2}.*)?')


def sections(text):
    """The lines below each heading of a help, as `Options:`."""
    found, heading = collections.defaultdict(list), None
    for line in text.splitlines():
        if line and line[0] != ' ':
            heading = line[:-1] if line.endswith(':') else None
        elif heading and line:
            found[heading].append(line)
    return found


def entries(lines, form):
    """What the form finds in each entry, and the text of the entry. Text below an entry stands further to the right."""
    found = []
    for line in lines:
        if re.match(r' {2}\S| {6}-', line):
            match = form.fullmatch(line)
            if not match:
                raise Fault(f'no such entry is known in a help: {line}')
            found.append((match.groups(), []))
        if not found:
            raise Fault(f'no entry stands above this in a help: {line}')
        found[-1][1].append(line.strip())
    return [(groups, ' '.join(texts)) for groups, texts in found]


def options_of(lines):
    """The options with what they take, and the words that one is chosen from."""
    options, choices = {}, set()
    for (short, long, only, takes), text in entries(lines, OPTION):
        spellings = [it for it in (short, long, only) if it]
        options.update((it, takes) for it in spellings)
        values = re.search(r'\[possible values: ([^]]*)\]', text)
        choices.update(f'{it} {value}' for it in spellings for value in (values[1].split(', ') if values else []))
    return options, choices


def help_of(program):
    """What each command's help says, and of TOP the program's own."""
    found = sections(said_by([program, '--help']))
    names = {groups[0] for groups, _ in entries(found['Commands'], COMMAND)}
    options, choices = options_of(found['Options'])
    helps = {TOP: Help(options, '', choices | names)}
    for name in sorted(names - {HELP}):
        found = sections(said_by([program, name, '--help']))
        arguments = [(one or optional) + (more or '') for (one, more, optional), _ in entries(found['Arguments'], ARGUMENT)]
        options, choices = options_of(found['Options'])
        helps[name] = Help(options, ' '.join(arguments), choices)
    if HELP in names:
        helps[HELP] = Help({}, HELP_ARGUMENTS, names)
    return helps


# What each file has to say of the commands, as words.

def with_values(options):
    return {f'{it} {takes}' if takes else it for it, takes in options.items()}


def wanted_of_page(helps):
    wanted = {name: with_values(it.options) | {it.arguments} - {''} for name, it in helps.items()}
    wanted[TOP] |= set(helps) - {TOP}
    wanted['OPTIONS'] = set().union(*(with_values(it.options) for it in helps.values()))
    return wanted


def wanted_of_completions(helps):
    return {name: set(it.options) | it.choices for name, it in helps.items()}


# What each file says.

def page_section(text, heading):
    found = re.search(rf'^\.Sh {heading}\n(.*?)(?=^\.Sh |\Z)', text, re.MULTILINE | re.DOTALL)
    if not found:
        raise Fault(f'the page has no section {heading}')
    return found[1]


def page_options(text):
    """The options that macros name, each with what it takes."""
    return {f'-{name} {takes}' if takes else f'-{name}' for name, takes in re.findall(r'\bFl (\S+)(?: Ar (\S+))?', text)}


def page_arguments(usage):
    """The arguments of a usage, as help has them."""
    found = []
    for optional, names in re.findall(r'^\.(Op )?Ar (.*)$', usage, re.MULTILINE):
        found.append(f'[{names}]' if optional else names.replace(' ...', '...'))
    return ' '.join(found)


def page_words(name):
    text = text_of(name)
    synopsis = page_section(text, 'SYNOPSIS')
    # a usage of the synopsis in which a command may stand is one of each command
    everywhere = set().union(*(page_options(it) for it in synopsis.split('.Nm\n') if '.Op Ar COMMAND\n' in it))
    usages = re.findall(r'^\.It Xo\n\.Cm (\S+)\n(.*?)^\.Xc$', page_section(text, 'COMMANDS'), re.MULTILINE | re.DOTALL)
    said = {TOP: page_options(synopsis) | {command for command, _ in usages}}
    for command, usage in usages:
        common = set() if command == HELP else everywhere
        said[command] = page_options(usage) | {page_arguments(usage)} - {''} | common
    heads = re.findall(r'^\.It (Fl .*)$', page_section(text, 'OPTIONS'), re.MULTILINE)
    said['OPTIONS'] = set().union(*map(page_options, heads))
    return said


ASK_BASH = '''. "$1" && complete -p tomled >/dev/null || exit
COMP_WORDS=(tomled "${@:2}")
COMP_CWORD=$(($# - 1))
_tomled
printf '%s\\n' "${COMPREPLY[@]}"'''


def bash_offers(name, *words):
    """What bash offers for the last of the words. Files it looks for by itself, and only at a terminal."""
    return set(said_by(['bash', '--norc', '-c', ASK_BASH, 'bash', os.path.join(SHARE, name), *words]).split())


def bash_words(name):
    said = {TOP: bash_offers(name, '') | bash_offers(name, '-')}
    for command in [it for it in said[TOP] if not it.startswith('-')]:
        options = bash_offers(name, command, '-')
        chosen = {f'{option} {value}' for option in options for value in bash_offers(name, command, option, '')}
        said[command] = options | bash_offers(name, command, '') | chosen
    return said


def zsh_options(text):
    """The options of the arguments of _arguments, with the words that one is chosen from."""
    text = re.sub(r'\[[^]]*\]', '', text)
    chosen = re.findall(r"(--[\w-]+)=?:[^:']*:\(([^)]*)\)", text)
    return set(re.findall(r"(?<=['{,)])--?[a-zA-Z][\w-]*", text)) | {f'{it} {value}' for it, all in chosen for value in all.split()}


def zsh_words(name):
    text = text_of(name)
    lists = dict(re.findall(r'^  (\w+)=\(\n(.*?)^  \)$', text, re.MULTILINE | re.DOTALL))
    commands = set(re.findall(r"^    '([\w-]+):", lists['commands'], re.MULTILINE))
    first = re.search(r'^  _arguments -C (.*)$', text, re.MULTILINE)
    said = {TOP: zsh_options(first[1]) | commands}
    branches = re.search(r'^  case \$words\[1\] in\n(.*?)^  esac$', text, re.MULTILINE | re.DOTALL)[1]
    for names, branch in re.findall(r'^    ([\w |-]+)\)(.*?);;$', branches, re.MULTILINE | re.DOTALL):
        parts = [branch] + [lists[it] for it in re.findall(r'\$(\w+)', branch)]
        words = set().union(*map(zsh_options, parts)) | (commands if '_describe' in branch else set())
        said.update((it, words) for it in names.split(' | '))
    return said


def fish_words(name):
    said = collections.defaultdict(set)
    text = text_of(name)
    # the options whose next word is their value, and no word of the command's own
    followed, passed = set(), set(re.search(r'contains -- \$word (.*)', text)[1].split())
    for line in text.splitlines():
        if not line.startswith('complete '):
            continue
        given, rest = getopt.getopt(shlex.split(line)[1:], 'c:n:s:l:a:d:fFrx')
        given = dict(given)
        options = {dash + given[flag] for flag, dash in (('-s', '-'), ('-l', '--')) if flag in given}
        followed |= options & {'--' + given['-l']} if {'-r', '-x'} & set(given) and '-l' in given else set()
        values = given.get('-a', '').split()
        words = options | ({f'{it} {value}' for it in options for value in values} if options else set(values))
        inside = re.fullmatch(r'__tomled_in ([\w -]+)', given.get('-n', ''))
        if rest or given.get('-c') != 'tomled' or (words and not inside and given.get('-n') != '__tomled_first'):
            raise Fault(f'no such line is known: {line}')
        for command in inside[1].split() if inside else [TOP]:
            said[command] |= words
    if followed != passed:
        raise Fault(f'the word behind an option is its value: {", ".join(sorted(followed ^ passed))}')
    return said


FILES = {
    'tomled.1': (page_words, wanted_of_page),
    'completions/tomled.bash': (bash_words, wanted_of_completions),
    'completions/_tomled': (zsh_words, wanted_of_completions),
    'completions/tomled.fish': (fish_words, wanted_of_completions),
}


def faults(wanted, said):
    """Of each command that help or the file has, why the words differ, or none."""
    for name in sorted(set(wanted) | set(said)):
        if name not in said:
            why = ['it is not there']
        elif name not in wanted:
            why = ['help has no such command']
        else:
            why = [f'it lacks {it}' for it in sorted(wanted[name] - said[name])]
            why += [f'help has no {it}' for it in sorted(said[name] - wanted[name])]
        yield f'{name or "tomled"}: {", ".join(why)}' if why else None


def compared(helps, name):
    """The faults of a file, a text or none for each command."""
    words, wanted = FILES[name]
    try:
        return list(faults(wanted(helps), words(name)))
    except (Fault, OSError, getopt.GetoptError, KeyError, TypeError, ValueError) as fault:
        return [f'{type(fault).__name__}: {fault}']


def main():
    if len(sys.argv) != 2:
        sys.exit(__doc__)
    try:
        helps = help_of(os.path.realpath(sys.argv[1]))
        found = [(name, why) for name in FILES for why in compared(helps, name)]
    except Fault as fault:
        found = [('help', str(fault))]
    failed = [f'FAILED {name}: {why}' for name, why in found if why]
    for line in failed:
        print(line)
    print(f'{len(found) - len(failed)} passed, {len(failed)} failed')
    sys.exit(1 if failed else 0)


if __name__ == '__main__':
    main()
