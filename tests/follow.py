#!/usr/bin/env python3
"""Random lists of edits in layout `follow`, and what must be so of what the built program writes.

  tests/follow.py PROGRAM [COUNT [SEED]]

COUNT lists, 2,000 where it is not given, of documents that this script makes: arrays and inline tables over lines and on
one line, with comments, CRLF and tabs, sections, arrays of tables and dotted keys. Of each list:

- `apply` in both layouts answers the same refusal, or a text; never 309.
- `certify` and `verify` say yes of the text and its certificate.
- An item put in beside others, on a line of its own, and taken out again leaves the text as it was.
- No element that is taken out alone leaves a line of blanks.

The last line is 'N passed, M failed'.
"""
import concurrent.futures
import copy
import json
import os
import random
import subprocess
import sys
import tempfile

COUNT = 2000
SECONDS = 30
NAMES = ['a', 'b', 'c', 'key', 'x-y', 'long_name', '"q q"', "'l'"]
MEANT = {'"q q"': 'q q', "'l'": 'l'}
VALUES = ['1', '-2.5', 'true', '"text"', '"# no comment, ]"', "'lit'", '1979-05-27', '"""two\nlines # here"""', '[]', '[1, 2]',
          '{}', '{ p = 1 }']


class Maker:
    """Makes one document, and beside it what it says: dict for a table, list for an array, None for a scalar."""

    def __init__(self, rng, profile):
        self.rng, self.profile = rng, profile
        self.newline = rng.choice(['\n', '\n', '\r\n'])
        self.step = rng.choice(['  ', '    ', '\t', ' '])
        self.spaces = rng.choice([' ', ' ', ' ', '', '\t', '  '])

    def chance(self, part):
        return self.rng.random() < part

    def ws(self):
        return self.rng.choice(['', '', '', ' ', ' ', '\t', '  '])

    def comment(self):
        return '#' + self.rng.choice([' about', '', ' [ "', ' , ]', '\tt'])

    def lines(self, indent):
        """What stands between two items on lines of their own, behind the comma or the bracket: up to the next item."""
        text = self.ws() + self.comment() if self.chance(0.2) else self.ws() if self.chance(0.2) else ''
        text += self.newline
        while self.chance(0.2):
            text += indent + self.comment() + self.newline if self.chance(0.7) else self.ws() + self.newline
        return text + (indent if self.chance(0.9) else self.ws())

    def scalar(self):
        return self.rng.choice(VALUES[:8]).replace('\n', self.newline)

    def value(self, depth, indent):
        kind = self.rng.random()
        if depth > 2 or kind < 0.45:
            return self.scalar(), None
        if kind < 0.8:
            items = [self.value(depth + 1, indent + self.step) for _ in range(self.rng.choice([0, 0, 1, 2, 3, 4]))]
            may_break = True
            brackets = '[]'
            held = [data for _, data in items]
            texts = [text for text, _ in items]
        else:
            held = {}
            texts = []
            for _ in range(self.rng.choice([0, 1, 2, 3])):
                text = self.pair(held, depth, indent)
                if text:
                    texts.append(text)
            may_break = self.profile == 2
            brackets = '{}'
        return self.enclosed(brackets, texts, may_break, indent), held

    def pair(self, held, depth, indent):
        """`key = value`, where the key is free in the table that it goes into; else nothing."""
        name, own = self.rng.choice(NAMES), held
        text = name
        if self.chance(0.25):
            above = self.rng.choice(['d', 'e'])
            own = held.setdefault(above, Dotted())
            text = above + self.rng.choice(['.', '.', ' . ']) + name
            if not isinstance(own, Dotted):
                return None
        if MEANT.get(name, name) in own:
            return None
        value, data = self.value(depth + 1, indent)
        own[MEANT.get(name, name)] = data
        return text + self.ws() + '=' + self.ws() + value

    def enclosed(self, brackets, texts, may_break, indent):
        opening, closing = brackets
        last = may_break and self.chance(0.5)
        if may_break and self.chance(0.55):
            text, inner = opening, indent + self.step
            for index, item in enumerate(texts):
                text += self.lines(inner) if self.chance(0.85) else self.ws()
                text += item + (self.ws() if self.chance(0.2) else '')
                if self.chance(0.05):
                    text += self.lines(inner)
                if last or index + 1 < len(texts):
                    text += ','
            return text + (self.lines(indent) if self.chance(0.85) else self.ws()) + closing
        text = opening + self.ws() + (',' + self.spaces).join(item + self.ws() * self.chance(0.2) for item in texts)
        return text + (',' if last and texts else '') + self.ws() + closing

    def key_lines(self, table, indent):
        text = ''
        for _ in range(self.rng.choice([0, 1, 1, 2, 3])):
            if self.chance(0.2):
                text += indent + self.comment() + self.newline
            if self.chance(0.1):
                text += self.newline
            pair = self.pair(table, 0, indent)
            if pair:
                text += indent + pair + (self.ws() + self.comment() if self.chance(0.2) else self.ws()) + self.newline
        return text

    def document(self):
        root = Section()
        text = (self.comment() + self.newline) * self.rng.choice([0, 0, 0, 1, 2])
        text += self.newline * self.rng.choice([0, 0, 1])
        text += self.key_lines(root, '')
        blocks = []
        for name in self.rng.sample(['s', 't', 'u', 'w'], self.rng.choice([0, 1, 2, 3])):
            blocks += self.family(root, name)
        if self.chance(0.3):
            self.rng.shuffle(blocks)
        text += ''.join(blocks)
        if self.chance(0.2) and text.endswith(self.newline):
            text = text[:-len(self.newline)]
        return text, root

    def family(self, root, name):
        """The sections of one name, in blocks that may stand in any order."""
        kind = self.rng.random()
        indent = self.rng.choice(['', '', '', self.step])
        below = self.rng.choice([indent, indent + self.step])
        if kind < 0.35:
            own, text = Tables(), ''
            for _ in range(self.rng.choice([1, 1, 2, 3])):
                own.append(Section())
                text += self.section(f'[[{name}]]', own[-1], indent)
                if self.chance(0.3):
                    own[-1]['v'] = Section()
                    text += self.section(f'[{name}.v]', own[-1]['v'], below)
            root[name] = own
            return [text]
        root[name], blocks = Section(), []
        if kind < 0.8:
            blocks.append(self.section(f'[{name}]', root[name], indent))
        for sub in self.rng.sample(['v', 'w', 'long'], self.rng.choice([0, 1, 1, 2]) or not blocks):
            root[name][sub] = Section()
            blocks.append(self.section(f'[{name}.{sub}]', root[name][sub], below))
        return blocks

    def section(self, head, table, indent):
        text = self.newline if self.chance(0.6) else ''
        text += indent + self.comment() + self.newline if self.chance(0.2) else ''
        keys = indent + self.step if self.chance(0.3) else indent
        return text + indent + head + self.ws() * self.chance(0.1) + self.newline + self.key_lines(table, keys)


class Dotted(dict):
    """A table that dotted keys make."""


class Section(dict):
    """A table that a header makes, or longer headers alone."""


class Tables(list):
    """An array of tables."""


# ---- edits

def places(data, at=()):
    """Each array and table with its address."""
    if isinstance(data, dict):
        yield at, data
        for name, own in data.items():
            yield from places(own, at + (name,))
    elif isinstance(data, list):
        yield at, data
        for index, own in enumerate(data):
            yield from places(own, at + (index,))


def held_by(rng):
    text = rng.choice(VALUES)
    return text, [None, None] if text == '[1, 2]' else [] if text == '[]' else {} if text == '{}' else {'p': None} if '{' in text else None


def edit(rng, root):
    """One edit, mostly one that is defined; `root` is what it makes of the data."""
    at, own = rng.choice(list(places(root)))
    kind = rng.random()
    text, data = held_by(rng)
    if isinstance(own, list):
        if isinstance(own, Tables):
            if kind < 0.6 or not own:
                own.append(Section())
                return {'op': 'element', 'at': [*at, len(own) - 1]}
            index = rng.randrange(len(own))
            if len(own) > 1:
                del own[index]
            return {'op': 'remove', 'at': [*at, index]}
        if kind < 0.6 or not own:
            index = rng.choice([rng.randrange(len(own) + 1), len(own)])
            own.insert(index, data)
            return {'op': 'insert', 'at': [*at, index], 'value': text}
        index = rng.randrange(len(own))
        if kind < 0.9:
            del own[index]
            return {'op': 'remove', 'at': [*at, index]}
        own[index] = data
        return {'op': 'set', 'at': [*at, index], 'value': text}
    names = list(own)
    new = rng.choice(['n', 'm', 'z z', 'a', 'b'])
    if kind < 0.4 or not names:
        own.setdefault(new, data)
        return {'op': 'insert', 'at': [*at, new], 'value': text}
    if kind < 0.5:
        own.setdefault(new, Section())
        return {'op': 'section', 'at': [*at, new]}
    if kind < 0.55:
        own.setdefault(new, Tables([Section()]))
        return {'op': 'element', 'at': [*at, new, 0]}
    name = rng.choice(names)
    if kind < 0.8:
        own.pop(name)
        return {'op': 'remove', 'at': [*at, name]}
    if kind < 0.9:
        own[name] = data
        return {'op': 'set', 'at': [*at, name], 'value': text}
    if new not in own:
        own[new] = own.pop(name)
    return {'op': 'rename', 'at': [*at, name], 'to': new}


# ---- what must be so

class Runs:
    """Runs of the program in a folder of its own."""

    def __init__(self, program, profile, folder):
        self.program, self.profile, self.folder = program, profile, folder

    def put(self, name, text):
        with open(os.path.join(self.folder, name), 'wb') as stream:
            stream.write(text)

    def run(self, *words):
        return subprocess.run([self.program, *words, '--profile', str(self.profile)], cwd=self.folder, capture_output=True,
                              stdin=subprocess.DEVNULL, timeout=SECONDS, check=False)

    def apply(self, layout, edits):
        """The text and no refusal, or none and the refusal's line."""
        self.put('E', json.dumps(edits).encode())
        ended = self.run('apply', '--layout', layout, '--certificate', 'C', 'F', 'E')
        if ended.returncode == 0:
            return ended.stdout, None
        return None, ended.stderr.split(b'\n')[0].decode()


def blank_lines(text):
    return sum(not line.strip(b' \t\r') for line in text.split(b'\n'))


def added_line(before, after):
    """Whether one line was put in and no other went."""
    return after.count(b'\n') == before.count(b'\n') + 1


def faults(program, seed):
    rng = random.Random(seed)
    profile = rng.choice([1, 2])
    text, root = Maker(rng, profile).document()
    before = text.encode()
    with tempfile.TemporaryDirectory() as folder:
        runs = Runs(program, profile, folder)
        runs.put('F', before)
        copied = copy.deepcopy(root)
        edits = [edit(rng, root) for _ in range(rng.choice([1, 1, 1, 2, 3, 5]))]
        plain, no = runs.apply('plain', edits)
        after, refusal = runs.apply('follow', edits)
        if refusal != no:
            return [f'refused {refusal!r} where plain has {no!r}', edits, text]
        if refusal and not refusal.startswith('refused 3') or refusal and refusal.startswith('refused 309'):
            return [f'refused {refusal!r}', edits, text]
        if refusal:
            return None
        runs.put('A', after)
        for words in (['verify', 'F', 'E', 'A', 'C'], ['certify', 'F', 'E', 'A']):
            said = runs.run(*words)
            if said.stdout != b'yes\n':
                return [f'{words[0]}: {said.stderr.decode()}', edits, text, after.decode()]
        if len(edits) > 1:
            return []
        return list(one_fault(runs, edits[0], copied, before, after))


def one_fault(runs, one, root, before, after):
    """What is wrong with the text that one edit makes."""
    at, above = one['at'], root
    if one['op'] not in ('insert', 'remove') or not isinstance(at[-1], int):
        return
    for step in at[:-1]:
        above = above[step]
    if isinstance(above, Tables):
        return
    if one['op'] == 'insert' and above and added_line(before, after):
        back, refusal = runs.apply('follow', [one, {'op': 'remove', 'at': at}])
        if '\n' not in one['value'] and back != before:
            yield from [f'put in and taken out: {refusal}', one, before.decode(), after.decode(), back and back.decode()]
    if one['op'] == 'remove' and blank_lines(after) > blank_lines(before):
        yield from ['a line of blanks is left', one, before.decode(), after.decode()]


def main(words):
    if not words or words[0].startswith('-'):
        print(__doc__, end='', file=sys.stderr)
        return 2
    program = os.path.abspath(words[0])
    count = int(words[1]) if len(words) > 1 else COUNT
    first = int(words[2]) if len(words) > 2 else 0
    if not os.path.isfile(program) or not os.access(program, os.X_OK):
        print(f'FAILED {program}: no program')
        print('0 passed, 1 failed')
        return 1
    passed = failed = refused = 0
    with concurrent.futures.ThreadPoolExecutor(os.cpu_count()) as pool:
        for seed, what in enumerate(pool.map(lambda seed: faults(program, seed), range(first, first + count)), first):
            if what is None:
                refused += 1
            if what:
                failed += 1
                print(f'FAILED list {seed}', *(repr(part) for part in what), sep='\n  ')
            else:
                passed += 1
    # lists that are refused try little
    if refused * 2 > count:
        failed += 1
        print(f'FAILED {refused} of {count} lists are refused')
    print(f'{passed} passed, {failed} failed')
    return 1 if failed else 0


if __name__ == '__main__':
    sys.exit(main(sys.argv[1:]))
