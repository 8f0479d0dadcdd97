#!/usr/bin/env python3
"""Times `tomled edit` and `verify` with many edits on texts of 4 MB.

  bench/edits.py --binary crates/tomled/out/tomled
  bench/edits.py --binary crates/tomled/out/tomled --other OLD --peer peer-toml-edit --texts 'flat keys,array'
  bench/edits.py --binary crates/tomled/out/tomled --layout follow

Each row is one text and one kind of edit. For one, a hundred, a thousand and ten thousand edits it prints the best processor
time of some runs, in seconds, and how many times that of one edit the last took. `verify` is given the certificate that `edit`
wrote. OLD is another build of the program, PEER a program that is called as `PEER edit FILE EDITS OUT`: these are run by turns
with the program, and must write the same text (PEER's text is not compared). A run is stopped after LIMIT seconds, and those
with more edits are left out. With `--layout` there is a column more: `apply` in that layout, as `apply` in `plain` beside it.
No test rests on these numbers.
"""
import argparse
import json
import os
import resource
import subprocess
import tempfile

SIZE = 4 * 1024 * 1024
COUNTS = (1, 100, 1000, 10000)
LIMIT = 60
ELEMENTS = 250_000


def lines_of(line):
    """Lines until the text has the size, and how many."""
    out, size, number = [], 0, 0
    while size < SIZE:
        out.append(line(number))
        size += len(out[-1])
        number += 1
    return ''.join(out), number


def flat():
    return lines_of(lambda number: 'key_%d = 1_000_000\n' % number)


def one_table():
    text, number = flat()
    return '[t]\n' + text, number


def tables():
    return lines_of(lambda number: '[table_%d]\n' % number + ''.join('name_%d = %d\n' % (key, number) for key in range(7)))


def array_tables():
    return lines_of(lambda number: '[[a]]\nnumber = 1_000_%03d\nname = "x"\n' % (number % 1000))


def array():
    return 'a = [\n' + ''.join(' %d,\n' % (10_000_000_000_000 + number) for number in range(ELEMENTS)) + ']\n', ELEMENTS


def spread(count, number):
    """So many numbers below the other, all over, in an order of their own."""
    step = number // count
    return [(place * 7919 % count) * step for place in range(count)]


def member_edits(op, at, key, fresh):
    """One edit of the kind in each place."""
    if op == 'insert':
        return {'op': op, 'at': at + [fresh], 'value': '2'}
    edit = {'op': op, 'at': at + [key]}
    if op == 'set':
        edit['value'] = '2'
    if op == 'rename':
        edit['to'] = fresh
    return edit


def members(op, place):
    """The edits of the kind, of members at the places."""
    return lambda count, number: [member_edits(op, *place(one)) for one in spread(count, number)]


def elements(op, index):
    """The edits of the kind, of elements at the indices."""
    def made(count, number):
        edits = []
        for done, one in enumerate(spread(count, number)):
            length = number + {'set': 0, 'insert': done, 'remove': -done}[op]
            edit = {'op': op, 'at': ['a', index(length, one, op == 'insert')]}
            if op in ('insert', 'set'):
                edit['value'] = '2'
            edits.append(edit)
        return edits
    return made


ENDS = {
    'front': lambda length, one, behind: 0,
    'middle': lambda length, one, behind: length // 2,
    'end': lambda length, one, behind: length if behind else length - 1,
    'all over': lambda length, one, behind: one % length,
}
PLACES = (
    ('flat keys', flat, lambda one: ([], 'key_%d' % one, 'new_%d' % one)),
    ('one table', one_table, lambda one: (['t'], 'key_%d' % one, 'new_%d' % one)),
    ('tables', tables, lambda one: (['table_%d' % one], 'name_0', 'new')),
    ('array tables', array_tables, lambda one: (['a', one], 'number', 'new')),
)


def rows():
    for name, text, place in PLACES:
        for op in ('set', 'remove', 'insert', 'rename'):
            yield name, text, op, members(op, place)
    for op in ('set', 'insert', 'remove'):
        for end, index in ENDS.items():
            yield 'array', array, '%s, %s' % (op, end), elements(op, index)


def limits():
    resource.setrlimit(resource.RLIMIT_CPU, (LIMIT, LIMIT + 1))


def seconds(words):
    """The processor time of a run; none where it took too long."""
    child = subprocess.Popen(words, stdout=subprocess.DEVNULL, stderr=subprocess.PIPE, preexec_fn=limits)
    error = child.stderr.read()
    _, code, used = os.wait4(child.pid, 0)
    child.returncode = os.waitstatus_to_exitcode(code)
    if child.returncode < 0 and used.ru_utime + used.ru_stime >= LIMIT - 1:
        return None
    if child.returncode:
        raise SystemExit('%s: %s' % (' '.join(words), error.decode()))
    return used.ru_utime + used.ru_stime


def content(path):
    with open(path, 'rb') as one:
        return one.read()


class Column:
    """The runs of one program and command, over the counts."""

    def __init__(self, name, words):
        self.name, self.words, self.best, self.ended = name, words, [], False

    def run(self, index):
        if self.ended:
            return
        took = seconds(self.words)
        if took is None:
            self.ended = True
            del self.best[index:]
            return
        if len(self.best) <= index:
            self.best.append(took)
        self.best[index] = min(self.best[index], took)

    def show(self, text, kind):
        shown = ['%8.2f' % self.best[index] if index < len(self.best) else '%8s' % '-' for index in range(len(COUNTS))]
        times = '%8.1f' % (self.best[-1] / self.best[0]) if len(self.best) == len(COUNTS) else '%8s' % '-'
        print('%-13s %-17s %-14s %s %s' % (text, kind, self.name, ' '.join(shown), times), flush=True)


def measure(given, folder, name, text, kind, edits_of):
    paths = {part: os.path.join(folder, part) for part in ('before', 'edits', 'after', 'cert', 'after2', 'cert2', 'after3')}
    before, number = text()
    with open(paths['before'], 'w', encoding='ascii') as out:
        out.write(before)
    edit = lambda binary, mark: [binary, 'edit', paths['before'], paths['edits'], paths['after' + mark], paths['cert' + mark]]
    verify = lambda binary: [binary, 'verify', paths['before'], paths['edits'], paths['after'], paths['cert']]
    columns = [Column('edit', edit(given.binary, '')), Column('verify', verify(given.binary))]
    if given.other:
        columns += [Column('edit, old', edit(given.other, '2')), Column('verify, old', verify(given.other))]
    if given.layout:
        applied = lambda layout: [given.binary, 'apply', '--layout', layout, paths['before'], paths['edits']]
        columns += [Column('apply, plain', applied('plain')), Column('apply, ' + given.layout, applied(given.layout))]
    if given.peer:
        columns.append(Column('peer', [given.peer, 'edit', paths['before'], paths['edits'], paths['after3']]))
    for index, count in enumerate(COUNTS):
        with open(paths['edits'], 'w', encoding='ascii') as out:
            json.dump(edits_of(count, number), out)
        for _ in range(given.runs):
            for column in columns:
                column.run(index)
        if given.other and not columns[0].ended and not columns[2].ended:
            for part in ('after', 'cert'):
                if content(paths[part]) != content(paths[part + '2']):
                    raise SystemExit('%s, %s, %d edits: not the same' % (name, kind, count))
        if columns[0].ended:
            break
    for column in columns:
        column.show(name, kind)


def main():
    words = argparse.ArgumentParser(description=__doc__, formatter_class=argparse.RawDescriptionHelpFormatter)
    words.add_argument('--binary', required=True)
    words.add_argument('--other')
    words.add_argument('--peer')
    words.add_argument('--layout', choices=('plain', 'follow'))
    words.add_argument('--runs', type=int, default=3)
    words.add_argument('--texts', help='those of these names alone, parted by commas')
    words.add_argument('--kinds', help='those kinds of edits alone whose names begin with one of these, parted by commas')
    given = words.parse_args()
    for part in ('binary', 'other', 'peer'):
        if getattr(given, part):
            setattr(given, part, os.path.abspath(getattr(given, part)))
    print('%-13s %-17s %-14s %8s %8s %8s %8s %8s' % ('text', 'edits', 'command', *COUNTS, 'last/one'))
    with tempfile.TemporaryDirectory() as folder:
        for name, text, kind, edits_of in rows():
            if given.texts and name not in given.texts.split(','):
                continue
            if given.kinds and not kind.startswith(tuple(given.kinds.split(','))):
                continue
            measure(given, folder, name, text, kind, edits_of)


if __name__ == '__main__':
    main()
