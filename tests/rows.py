#!/usr/bin/env python3
"""Worked rows: texts, and what the built program says of them.

  tests/rows.py PROGRAM [FILE..]   runs the rows of all files tests/rows/COMMAND/*.txt, or of these
  tests/rows.py --count            says how many rows there are

The last line is 'N passed, M failed'; a fault in a file counts as a failed row. COMMAND is a folder of FIELDS in
asked.py.

A file is paragraphs with one empty line between two of them. A line that begins with // is a comment. The first
paragraph is the head, two lines behind its comments:

    profiles: none, 1, 2
    fields: refusal, text

`profiles` says how each row is asked: without --profile, with --profile 1, with --profile 2. `fields` says what the
lines of a row are, and so what is asked of it (FIELDS). Each other paragraph is a row, a field one line of it, or
comments alone. Words are taken apart as a shell does, behind what follows. In a field these characters stand for others:

    ∅ no character, so that an empty field has a line
    ¶ newline   ␣ space   ␀ U+0000   ␉ tab   ␍ CR   ␡ U+007F   ␤ U+0085   □ U+FEFF
    ⟨99×.a⟩ the part `.a` 99 times; № in the part is its number, from 0
    ⟨E2 80 A8⟩ these bytes

What can't be seen has to be written so, a space at the end of a line too.
"""
import collections
import concurrent.futures
import os
import re
import shlex
import stat
import subprocess
import sys
import tempfile
import unicodedata

from asked import ANSWERED, FIELDS, Fault, Outcome, Shape, done, refused, words_of

ROWS = os.path.join(os.path.dirname(os.path.abspath(__file__)), 'rows')
SECONDS = 30
# The permissions of the files that a run finds, which it leaves as they are.
MODE = 0o640
# How many runs may hang before the others are not made.
MOST_HANGS = 5
WAYS = {'none': [], '1': ['--profile', '1'], '2': ['--profile', '2']}
MARKS = {'¶': '\n', '␣': ' ', '␀': '\0', '␉': '\t', '␍': '\r', '␡': '\x7f', '␤': '\x85', '□': '\ufeff'}

Row = collections.namedtuple('Row', 'file line ways fields asked')


# What stands in a file.

def characters(text):
    """The bytes for which the characters of a field stand, but for ⟨ and ⟩."""
    for character in text:
        is_picture = '\u2400' <= character <= '\u243f' and character not in MARKS
        is_unseen = unicodedata.category(character)[0] in 'CZ' and character != ' '
        if is_picture or is_unseen or character in '∅⟨⟩№':
            raise Fault(f'U+{ord(character):04X} has no meaning here')
    return ''.join(MARKS.get(character, character) for character in text).encode()


def bracketed(text):
    """The bytes for which what stands between ⟨ and ⟩ does."""
    repeated = re.fullmatch('([0-9]+)×(.+)', text)
    if repeated:
        count, pieces = int(repeated[1]), [characters(piece) for piece in repeated[2].split('№')]
        if len(pieces) == 1:
            return pieces[0] * count
        return b''.join(str(number).encode().join(pieces) for number in range(count))
    if re.fullmatch('[0-9A-F]{2}( [0-9A-F]{2})*', text):
        return bytes.fromhex(text)
    raise Fault(f'⟨{text}⟩ has no meaning')


def meant(field):
    """The bytes for which a field stands."""
    if field == '∅':
        return b''
    if field.endswith(' '):
        raise Fault('a space at the end of a line is written ␣')
    parts = re.split('⟨([^⟨⟩]*)⟩', field)
    return b''.join(bracketed(part) if at % 2 else characters(part) for at, part in enumerate(parts))


def paragraphs(text):
    """The paragraphs, each as its lines with their numbers, without the comments."""
    if not text.endswith('\n') or text.endswith('\n\n'):
        raise Fault('the file does not end in one newline')
    found = [[]]
    for number, line in enumerate(text[:-1].split('\n'), 1):
        if line:
            found[-1].append((number, line))
        elif found[-1]:
            found.append([])
        else:
            raise Fault(f'line {number}: an empty line too many')
    return [[it for it in lines if not it[1].startswith('//')] for lines in found]


def read_head(lines, command):
    """The ways in which the rows of a file are asked, the names of their fields, and what is asked."""
    head = re.fullmatch('profiles: (.*)\nfields: (.*)', '\n'.join(line for _, line in lines))
    if not head:
        raise Fault('the first paragraph has no two lines `profiles: ..` and `fields: ..`')
    ways = head[1].split(', ')
    if ways != [way for way in WAYS if way in ways]:
        raise Fault(f'profiles: none, 1, 2, or some of them in this order; not {head[1]}')
    if head[2] not in FIELDS[command]:
        raise Fault(f'rows of {command} have no such fields: {head[2]}')
    return ways, head[2].split(', '), FIELDS[command][head[2]]


def read_row(file, lines, head):
    ways, names, asked = head
    if len(lines) != len(names):
        raise Fault(f'{len(lines)} fields in place of {len(names)}: {", ".join(names)}')
    fields = [words_of(meant(line)) if 'words' in name else meant(line) for name, (_, line) in zip(names, lines)]
    return Row(file, lines[0][0], ways, fields, asked)


def read_rows(file):
    """The rows of a file, and what is wrong with it, line by line."""
    rows, faults = [], []
    try:
        command = os.path.basename(os.path.dirname(os.path.abspath(file)))
        if command not in FIELDS:
            raise Fault(f'no folder of a command: {command}')
        with open(file, encoding='utf-8', newline='') as stream:
            first, *others = paragraphs(stream.read())
        head = read_head(first, command)
    except (Fault, OSError, UnicodeDecodeError) as fault:
        return [], [f'{file}: {fault}']
    for lines in filter(None, others):
        try:
            rows.append(read_row(file, lines, head))
        except Fault as fault:
            faults.append(f'{file}:{lines[0][0]}: {fault}')
    return rows, faults or ([] if rows else [f'{file}: no row'])


def read_all(files):
    read = [read_rows(file) for file in files]
    return [row for rows, _ in read for row in rows], [fault for _, faults in read for fault in faults]


# The runs of a row.

def read(path):
    """The bytes of a file, or what else stands there."""
    if os.path.islink(path):
        return b'link to ' + os.fsencode(os.readlink(path))
    if not os.path.isfile(path):
        return b'no file'
    with open(path, 'rb') as stream:
        return stream.read()


def lay_out(folder, asked):
    """Puts into the folder what a run finds, and answers it by name."""
    for name, text in asked.files.items():
        with open(os.path.join(folder, name), 'wb') as stream:
            stream.write(text)
        os.chmod(os.path.join(folder, name), MODE)
    for name, target in asked.links.items():
        os.symlink(target, os.path.join(folder, name))
    return {name: read(os.path.join(folder, name)) for name in os.listdir(folder)}


def left_new(folder, asked, found):
    """What stands in the folder and did not, or otherwise; None for what is gone."""
    left = {name: read(os.path.join(folder, name)) for name in sorted(os.listdir(folder))}
    new = {name: text for name, text in left.items() if found.get(name) != text}
    new.update({name: None for name in found if name not in left})
    for name in asked.files:
        mode = stat.S_IMODE(os.stat(os.path.join(folder, name)).st_mode) if name in left else MODE
        if mode != MODE:
            new[f'mode of {name}'] = b'%o' % mode
    return new


def run(program, way, asked):
    """What comes of a run, in a folder of its own."""
    with tempfile.TemporaryDirectory() as folder:
        found = lay_out(folder, asked)
        ended = subprocess.run([program, *asked.words, *WAYS[way]], cwd=folder, input=asked.stdin, capture_output=True,
                               timeout=SECONDS, check=False)
        new = left_new(folder, asked, found)
    return Outcome(ended.returncode, ended.stdout, ended.stderr, new)


def is_wanted(got, wanted):
    if wanted is ANSWERED:
        refusal = re.fullmatch(rb'refused (10[1-9]|20[13]) [0-9]+\n', got.err)
        return got == done(b'ok\n') or bool(refusal) and got == refused(got.err[:-1])
    if isinstance(wanted.err, Shape):
        return got._replace(err=wanted.err) == wanted and bool(wanted.err.fits(got.err))
    return got == wanted


def told(outcome):
    """An outcome in words, the beginning of what is long."""
    err = outcome.err.told if isinstance(outcome.err, Shape) else outcome.err
    parts = [('status', outcome.status), ('output', outcome.out), ('error', err), *outcome.files.items()]
    return ', '.join(f'{name} {value[:300] if isinstance(value, bytes) else value}' for name, value in parts)


def failures(program, row, hangs):
    """What fails of a row, run by run. `hangs` has what hung so far."""
    failed = []
    for asked in row.asked(*row.fields):
        for way in row.ways:
            if len(hangs) > MOST_HANGS:
                return failed + ['  the rest was not run, since other runs hang']
            try:
                got = run(program, way, asked)
            except subprocess.TimeoutExpired:
                got = Outcome(f'none after {SECONDS} seconds', b'', b'', {})
                hangs.append(asked.words)
            if not is_wanted(got, asked.wanted):
                words = shlex.join([*asked.words, *WAYS[way]])
                failed.append(f'  {words}\n    wanted {told(asked.wanted)}\n    came {told(got)}')
    return failed


def run_all(program, files):
    """Runs the rows of the files side by side, prints what fails, and returns the exit status."""
    rows, faults = read_all(files)
    if not files:
        faults.append(f'{ROWS}: no files')
    if not os.path.isfile(program) or not os.access(program, os.X_OK):
        rows, faults = [], faults + [f'{program}: no program']
    for fault in faults:
        print(f'FAILED {fault}')
    passed, failed, hangs = 0, len(faults), []
    with concurrent.futures.ThreadPoolExecutor(os.cpu_count()) as pool:
        for row, what in zip(rows, pool.map(lambda row: failures(program, row, hangs), rows)):
            if what:
                print(f'FAILED {row.file}:{row.line}', *what, sep='\n')
                failed += 1
            else:
                passed += 1
    print(f'{passed} passed, {failed} failed')
    return 1 if failed else 0


def count(files):
    """Prints how many rows there are, by folder and in all, and returns the exit status."""
    rows, faults = read_all(files)
    for fault in faults:
        print(f'FAILED {fault}')
    counts = collections.Counter(os.path.basename(os.path.dirname(row.file)) for row in rows)
    for command in FIELDS:
        print(f'{command}: {counts[command]}')
    print(f'in all: {len(rows)}')
    return 1 if faults else 0


def main(words):
    files = sorted(os.path.relpath(os.path.join(folder, name)) for folder, _, names in os.walk(ROWS) for name in names)
    if words == ['--count']:
        return count(files)
    if not words or words[0].startswith('-'):
        print(__doc__, end='', file=sys.stderr)
        return 2
    return run_all(os.path.abspath(words[0]), words[1:] or files)


if __name__ == '__main__':
    sys.exit(main(sys.argv[1:]))
