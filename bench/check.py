#!/usr/bin/env python3
"""Times `tomled check` on large texts, beside `wc -l` and `cat` of the same file.

  bench/check.py --binary crates/tomled/out/tomled

The first texts end in a mistake, so that the time is that of reading the syntax. Those behind them, whose names begin
with "names", are documents, or refused for their names: the table rules are judged too.

For each text it prints the best of some runs: seconds, megabytes a second, the ratio to `wc -l` and to
`cat`, and the peak memory as a multiple of the text. No test rests on these numbers.
"""
import argparse
import os
import random
import subprocess
import sys
import tempfile
import time

LIMIT = 16 * 1024 * 1024


def filled(line):
    """As many whole lines as a text may have."""
    return line * (LIMIT // len(line))


def numbered(front, behind):
    """Lines with a name of their own, as many as a text may have beside one more byte."""
    out, size, number = [], 0, 0
    while True:
        line = b'%s%d%s' % (front, number, behind)
        if size + len(line) >= LIMIT:
            return b''.join(out)
        out.append(line)
        size += len(line)
        number += 1


def array(item, first=10_000_000_000_000):
    """One array of a million items, or of as many as a text may have; the integers have 14 digits, else those of
    their number."""
    out, size, number = [b'a = [\n'], 8, 0
    while number < 1_000_000:
        text = item % (first + number)
        if size + len(text) >= LIMIT:
            break
        out.append(text)
        size += len(text)
        number += 1
    return b''.join(out) + b']\n?'


def grouped(header, keys):
    """A header before so many keys, again and again, as often as a text may have it."""
    out, size, number = [], 0, 0
    while True:
        part = header(number) + b''.join(b'name_%d = "value %d"\n' % (key, number) for key in range(keys))
        if size + len(part) > LIMIT:
            return b''.join(out)
        out.append(part)
        size += len(part)
        number += 1


def elements():
    """An array of tables with a text and a number in each, some 300,000 in all."""
    lines = LIMIT // 56
    return b''.join(b'[[a]]\nname = "some value %06d"\nnumber = 1_000_000_%03d\n' % (number, number % 1000)
                    for number in range(lines))


def alike(front):
    """Names of 48 bytes that begin alike, as many as a text may have."""
    lines = LIMIT // 51
    return b''.join(front + b'%08d' % number + b'abcdefghijklmnop=1\n' for number in range(lines))


MULTIPLIER, SEED, WORD = 0x9e3779b97f4a7c15, 0x243f6a8885a308d3, (1 << 64) - 1
LETTERS = b'abcdefghijklmnopqrstuvwxyzABCDEFGHIJKLMNOPQRSTUVWXYZ0123456789_-'


def front_of_colliding_names():
    """24 bytes of a bare key behind which eight bytes do not count for `indexmap`'s default hash of a name of 48: the
    first 16 bring its state to eight bytes of a key, and those bytes in turn make the product 0."""
    numbers = random.Random(1)
    while True:
        first = bytes(numbers.choice(LETTERS) for _ in range(16))
        product = ((SEED + 48 & WORD ^ int.from_bytes(first[:8], 'little'))
                   * (int.from_bytes(first[8:], 'little') ^ MULTIPLIER))
        state = (product & WORD ^ product >> 64).to_bytes(8, 'little')
        if all(byte in LETTERS for byte in state):
            return first + state


TEXTS = {
    'comment lines': lambda: filled(b'# a comment of a usual length, with a few words in it\n'),
    'spaces': lambda: b' ' * LIMIT,
    'empty lines': lambda: filled(b'\n'),
    'strings': lambda: numbered(b'a', b' = "a string of a usual length, and \\t"\n') + b'?',
    'integers': lambda: numbered(b'a', b' = 1_000_000\n') + b'?',
    'floats': lambda: numbered(b'a', b' = -6.626e-34\n') + b'?',
    'dates': lambda: numbered(b'a', b' = 1979-05-27T07:32:00.999-07:00\n') + b'?',
    'escapes': lambda: numbered(b'a', b' = "\\t\\u00e9\\n\\"\\U0001f600\\\\\\u20ac\\b\\f\\r"\n') + b'?',
    'array': lambda: array(b'%d, '),
    'array, short': lambda: array(b'%d, ', 0),
    'array, comments': lambda: array(b'  %d, # a comment of a usual length\n'),
    'inline tables': lambda: numbered(b'crate', b' = { git = "https://git.example.org/someone/some-repository", branch = "main" }\n') + b'?',
    'inline, short': lambda: numbered(b'point', b' = { name = "a point", x = -1_000.25, y = 0.125 }\n') + b'?',
    'headers': lambda: numbered(b'[profile.release-with-debug.package_number_', b']\n') + b'?',
    'headers, short': lambda: numbered(b'[servers.region.host', b']\n') + b'?',
    'array headers': lambda: filled(b'[[workspace.members-of-the-second-kind.targets]]\n')[:-1] + b'?',
    'array h., short': lambda: filled(b'[[products.variants]]\n')[:-1] + b'?',
    'dotted key': lambda: b'a' + b'.a' * (LIMIT // 2 - 4) + b' = 1\n?',
    'brackets': lambda: b'a = ' + b'[' * (LIMIT - 4),
    'names, integers': lambda: numbered(b'key_', b' = 1_000_000\n'),
    'names, tables': lambda: grouped(lambda number: b'[table_%d]\n' % number, 7),
    'names, arrays': elements,
    'names, elements': lambda: array(b'%d, ')[:-1],
    'names, alike': lambda: alike(b'a_front_of_24_bytes_that'),
    'names, colliding': lambda: alike(front_of_colliding_names()),
    'names, long key': lambda: b'a' + b'.a' * (LIMIT // 2 - 4) + b' = 1\n',
}


def seconds(words):
    start = time.perf_counter()
    done = subprocess.run(words, stdout=subprocess.DEVNULL, stderr=subprocess.PIPE, check=False)
    took = time.perf_counter() - start
    if done.returncode != 0 and not done.stderr.startswith((b'refused 104 ', b'refused 109 ', b'refused 203 ')):
        sys.exit('%s failed: %s' % (' '.join(words), done.stderr.decode()))
    return took


def write(path, text):
    """Writes the text in a process of its own: a child's peak memory begins with what its parent holds."""
    child = os.fork()
    if child == 0:
        status = 1
        try:
            with open(path, 'wb') as out:
                out.write(text())
            status = 0
        finally:
            os._exit(status)
    if os.waitpid(child, 0)[1] != 0:
        sys.exit('no text was written')


def peak(words):
    """The peak memory of a run in bytes."""
    child = subprocess.Popen(words, stdout=subprocess.DEVNULL)
    _, _, usage = os.wait4(child.pid, 0)
    child.returncode = 0
    return usage.ru_maxrss * 1024


def main():
    words = argparse.ArgumentParser(description=__doc__, formatter_class=argparse.RawDescriptionHelpFormatter)
    words.add_argument('--binary', required=True)
    words.add_argument('--runs', type=int, default=5)
    given = words.parse_args()
    binary = os.path.abspath(given.binary)
    with tempfile.TemporaryDirectory() as folder:
        path = os.path.join(folder, 'text.toml')
        for name, text in TEXTS.items():
            write(path, text)
            size = os.path.getsize(path)
            check, lines, cat = (min(seconds(run + [path]) for _ in range(given.runs))
                                 for run in ([binary, 'check'], ['wc', '-l'], ['cat']))
            memory = peak([binary, 'check', path])
            print('%-16s %.3f s  %4.0f MB/s  %.1f of wc -l  %.1f of cat  %.1f of the text in memory'
                  % (name, check, size / check / 1e6, check / lines, check / cat, memory / size))


if __name__ == '__main__':
    main()
