#!/usr/bin/env python3
"""Long lists of edits, and what the built program must write for them.

  tests/many.py PROGRAM [COUNT]

- Lists of 10,000 edits on texts that this script makes. The text that one edit after the other would give is told by a model:
  a list of lines, or of elements. `edit` must write that text, `verify` must say yes, and `certify` must find its certificate.
- Such a list takes at most 40 times what its first edit takes, in `edit` and in `verify`, and in `certify` of a text with a line
  that no edit asks for. It takes a few times that where each line asks the tree of what the list does, and hundreds of times where
  each line asks each edit.
- COUNT lists, 40 where it is not given, of 50 random edits on random documents: `edit` must write what 50 runs of one edit
  write, and `verify` must say yes.

The last line is 'N passed, M failed'.
"""
import concurrent.futures
import json
import os
import random
import subprocess
import sys
import tempfile

import follow

MANY = 10_000
LINES = 20_000
COUNT = 40
LENGTH = 50
TRIES = 400
SECONDS = 100
TIMES = 40


class Keys:
    """Key lines of one section: the root's, or that of a table."""

    def __init__(self, at, number):
        self.at, self.lines, self.fresh = at, [[f'key_{one}', str(one)] for one in range(number)], 0
        self.freed = []

    def text(self):
        header = f'[{self.at[0]}]\n' if self.at else ''
        return header + ''.join(f'{name} = {value}\n' for name, value in self.lines)

    def edit(self, op, place):
        """One edit of the kind, at the line with this number; the model has then made it."""
        place %= len(self.lines)
        name, new = self.lines[place][0], f'new_{self.fresh}'
        self.fresh += 1
        # again: what is new takes a name that an edit before has freed, where there is one
        is_again, op = op.endswith(' again'), op.removesuffix(' again')
        if is_again and self.freed:
            new = self.freed.pop()
        if op in ('remove', 'rename'):
            self.freed.append(name)
        if op == 'insert':
            self.lines.append([new, '0x1F'])
            return {'op': op, 'at': self.at + [new], 'value': '0x1F'}
        if op == 'remove':
            del self.lines[place]
            return {'op': op, 'at': self.at + [name]}
        if op == 'rename':
            self.lines[place][0] = new
            return {'op': op, 'at': self.at + [name], 'to': new}
        self.lines[place][1] = '1_0'
        return {'op': op, 'at': self.at + [name], 'value': '1_0'}


class Tables:
    """Sections of three keys each, of tables or of the elements of one array of tables."""

    def __init__(self, is_array, number):
        self.is_array, self.fresh = is_array, 0
        self.sections = [(one, Keys([], 3)) for one in range(number)]

    def head(self, one):
        return '[[a]]\n' if self.is_array else f'[table_{one}]\n'

    def text(self):
        return ''.join(self.head(one) + keys.text() for one, keys in self.sections)

    def edit(self, op, place):
        one, keys = self.sections[place % len(self.sections)]
        if len(keys.lines) < 2:
            op = 'insert'
        keys.at = ['a', one] if self.is_array else [f'table_{one}']
        keys.fresh = self.fresh
        self.fresh += 1
        made = keys.edit(op, place)
        keys.at = []
        return made


class Renamed:
    """Sections of three keys each, of tables that edits rename, and then name by their new names."""

    def __init__(self, number):
        self.tables = Keys([], number)
        self.keys = {name: Keys([], 3) for name, _ in self.tables.lines}

    def text(self):
        return ''.join(f'[{name}]\n{self.keys[name].text()}' for name, _ in self.tables.lines)

    def edit(self, op, place):
        name = self.tables.lines[place % len(self.tables.lines)][0]
        if op == 'set':
            keys = self.keys[name]
            keys.at = [name]
            made = keys.edit(op, place)
            keys.at = []
            return made
        made = self.tables.edit(op, place)
        self.keys[made['to']] = self.keys.pop(name)
        return made


class Headers:
    """Header lines put in at the end: of new tables, or of new elements of an array of tables."""

    def __init__(self, number):
        self.before = ''.join(f'[[a]]\nkey = {one}\n' for one in range(number))
        self.count, self.behind = number, []

    def text(self):
        return self.before + ''.join(self.behind)

    def edit(self, op, place):
        if op == 'element':
            self.count += 1
            self.behind.append('[[a]]\n')
            return {'op': op, 'at': ['a', self.count - 1]}
        name = f'table_{len(self.behind)}'
        self.behind.append(f'[{name}]\n')
        return {'op': op, 'at': [name]}


class Elements:
    """One array in a value, on one line or one element a line."""

    def __init__(self, is_long, number):
        self.is_long, self.items = is_long, [str(one) for one in range(number)]

    def text(self):
        if self.is_long:
            return 'a = [\n' + ''.join(f'  {one},\n' for one in self.items) + ']\n'
        return f'a = [{", ".join(self.items)}]\n'

    def edit(self, op, place):
        length = len(self.items)
        place %= length
        at = ['a', place]
        if op == 'insert':
            place = place if place < length - 1 else length
            self.items.insert(place, '2')
            return {'op': op, 'at': ['a', place], 'value': '2'}
        if op == 'remove':
            del self.items[place]
            return {'op': op, 'at': at}
        self.items[place] = '0x2'
        return {'op': 'set', 'at': at, 'value': '0x2'}


def anywhere(rng, done):
    return rng.randrange(LINES)


def front(rng, done):
    return done % 3


def middle(rng, done):
    return LINES // 2 + done % 7


def cases():
    """The name of each long list, what makes its text, the command's layout, its kinds of edits, and where they are."""
    mixed = ['set', 'insert', 'rename', 'remove']
    for kinds in ([one] for one in mixed):
        yield f'keys, {kinds[0]}', lambda: Keys([], LINES), 'plain', kinds, anywhere
    for layout in ('plain', 'follow'):
        yield f'keys, mixed, {layout}', lambda: Keys([], LINES), layout, mixed, anywhere
        yield f'table, mixed, {layout}', lambda: Keys(['t'], LINES), layout, mixed, anywhere
        yield f'tables, mixed, {layout}', lambda: Tables(False, LINES // 4), layout, mixed, anywhere
        yield f'array tables, mixed, {layout}', lambda: Tables(True, LINES // 4), layout, mixed, anywhere
    again = ['rename', 'remove', 'rename again', 'insert again', 'insert again']
    yield 'keys, names taken again', lambda: Keys([], LINES), 'plain', again, anywhere
    yield 'tables, renamed', lambda: Renamed(LINES // 4), 'plain', ['set', 'rename', 'rename again'], anywhere
    yield 'header lines', lambda: Headers(LINES // 4), 'plain', ['section', 'element'], anywhere
    kinds = ['set', 'insert', 'remove', 'insert']
    for name, where in (('front', front), ('middle', middle), ('anywhere', anywhere)):
        yield f'elements, {name}, plain', lambda: Elements(False, LINES), 'plain', kinds, where
        yield f'elements, {name}, follow', lambda: Elements(True, LINES), 'follow', kinds, where


class Runs:
    """Runs of the program in a folder of its own."""

    def __init__(self, program, folder):
        self.program, self.folder = program, folder

    def put(self, name, text):
        with open(os.path.join(self.folder, name), 'w', encoding='utf-8', newline='') as stream:
            stream.write(text)

    def bytes_of(self, name):
        with open(os.path.join(self.folder, name), 'rb') as stream:
            return stream.read()

    def run(self, *words):
        return subprocess.run([self.program, *words], cwd=self.folder, capture_output=True, stdin=subprocess.DEVNULL,
                              timeout=SECONDS, check=False)

    def edited(self, edits, layout='plain'):
        """The text that the edits make of F, or none and the refusal's line."""
        self.put('E', json.dumps(edits))
        if layout == 'plain':
            ended = self.run('edit', 'F', 'E', 'A', 'C')
            return (self.bytes_of('A'), None) if ended.returncode == 0 else (None, ended.stderr)
        ended = self.run('apply', '--layout', layout, '--certificate', 'C', 'F', 'E')
        return (ended.stdout, None) if ended.returncode == 0 else (None, ended.stderr)


def judged(runs, text):
    """What is wrong with the judge's answers of the text in A with the certificate in C."""
    with open(os.path.join(runs.folder, 'A'), 'wb') as stream:
        stream.write(text)
    said = runs.run('verify', 'F', 'E', 'A', 'C')
    if said.stdout != b'yes\n':
        return f'verify: {said.stderr!r}'
    said = runs.run('certify', 'F', 'E', 'A', 'D')
    if said.stdout != b'yes\n':
        return f'certify: {said.stderr!r}'
    return None if runs.bytes_of('C') == runs.bytes_of('D') else 'certify finds another certificate'


def long_list(program, case):
    """What is wrong with a list of 10,000 edits."""
    name, made, layout, kinds, where = case
    rng, model = random.Random(name), made()
    before = model.text()
    edits = [model.edit(rng.choice(kinds), where(rng, done)) for done in range(MANY)]
    with tempfile.TemporaryDirectory() as folder:
        runs = Runs(program, folder)
        runs.put('F', before)
        text, refusal = runs.edited(edits, layout)
        if text is None:
            return f'{name}: {refusal!r}'
        if text != model.text().encode():
            return f'{name}: another text'
        fault = judged(runs, text)
        return f'{name}: {fault}' if fault else None


def seconds(runs, wanted, *words):
    """The processor time of a run that ends with the status, the better one of two, in seconds."""
    took = []
    for _ in range(2):
        child = subprocess.Popen([runs.program, *words], cwd=runs.folder, stdout=subprocess.DEVNULL, stdin=subprocess.DEVNULL,
                                 stderr=subprocess.DEVNULL)
        _, status, used = os.wait4(child.pid, 0)
        child.returncode = os.waitstatus_to_exitcode(status)
        took.append(used.ru_utime + used.ru_stime if child.returncode == wanted else float('inf'))
    return min(took)


def slow_list(program, case):
    """Why a list of 10,000 edits takes too long, if it does."""
    name, made, kinds, where = case
    rng, model = random.Random(name), made()
    before = model.text()
    edits = [model.edit(rng.choice(kinds), where(rng, done)) for done in range(MANY)]
    took = {'edit': [], 'verify': [], 'certify': []}
    with tempfile.TemporaryDirectory() as folder:
        runs = Runs(program, folder)
        runs.put('F', before)
        for count in (1, MANY):
            runs.put('E', json.dumps(edits[:count]))
            for command in ('edit', 'verify'):
                took[command].append(seconds(runs, 0, command, 'F', 'E', 'A', 'C'))
            runs.put('B', runs.bytes_of('A').decode() + '# unasked\n')
            took['certify'].append(seconds(runs, 1, 'certify', 'F', 'E', 'B'))
    slow = [f'{command}: {times[1]:.2f} s, one {times[0]:.3f} s' for command, times in took.items() if not times[1] <= TIMES * times[0]]
    return f'{name}: {"; ".join(slow)}' if slow else None


def timed_cases():
    """The name of each list that is timed, what makes its text, its kinds of edits, and where they are."""
    mixed = ['set', 'insert', 'rename', 'remove']
    for kinds in [[one] for one in mixed] + [mixed]:
        yield f'time of keys, {", ".join(kinds)}', lambda: Keys([], LINES), kinds, anywhere
        yield f'time of tables, {", ".join(kinds)}', lambda: Tables(False, LINES // 4), kinds, anywhere
    yield 'time of array tables, mixed', lambda: Tables(True, LINES // 4), mixed, anywhere
    yield 'time of elements, front', lambda: Elements(True, LINES), ['insert', 'remove', 'insert'], front
    yield 'time of elements, middle', lambda: Elements(True, LINES), ['insert', 'remove', 'insert'], middle


def one_by_one(program, seed):
    """What is wrong with a list of 50 edits beside 50 runs of one."""
    rng = random.Random(seed)
    while True:
        text, root = follow.Maker(rng, 1).document()
        if '\r' not in text and text.count('\n') > 2:
            break
    with tempfile.TemporaryDirectory() as folder:
        runs, made, edits = Runs(program, folder), text, []
        for _ in range(TRIES):
            runs.put('F', made)
            one = follow.edit(rng, root)
            after, _ = runs.edited([one])
            # a text without a newline at its first line has no style of its own
            if after is not None and b'\n' in after:
                made, edits = after.decode(), edits + [one]
            if len(edits) == LENGTH:
                break
        runs.put('F', text)
        after, refusal = runs.edited(edits)
        if after != made.encode():
            return f'list {seed}: {len(edits)} edits: {refusal!r}\n{text!r}\n{edits!r}\n{made!r}\n{after!r}'
        fault = judged(runs, after)
        return f'list {seed}: {fault}' if fault else None


def main(words):
    if not words or words[0].startswith('-'):
        print(__doc__, end='', file=sys.stderr)
        return 2
    program = os.path.abspath(words[0])
    count = int(words[1]) if len(words) > 1 else COUNT
    if not os.path.isfile(program) or not os.access(program, os.X_OK):
        print(f'FAILED {program}: no program')
        print('0 passed, 1 failed')
        return 1
    with concurrent.futures.ThreadPoolExecutor(os.cpu_count()) as pool:
        told = [pool.submit(slow_list, program, case) for case in timed_cases()]
        told += [pool.submit(long_list, program, case) for case in cases()]
        told += [pool.submit(one_by_one, program, seed) for seed in range(count)]
        faults = [one.result() for one in told]
    for fault in faults:
        if fault:
            print(f'FAILED {fault}')
    failed = sum(bool(fault) for fault in faults)
    print(f'{len(faults) - failed} passed, {failed} failed')
    return 1 if failed else 0


if __name__ == '__main__':
    sys.exit(main(sys.argv[1:]))
