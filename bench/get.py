#!/usr/bin/env python3
"""Times `tomled get` and other commands of one line on a file of 3 KB, beside `tomled check` of the same file.

  bench/get.py --binary crates/tomled/out/tomled

Of such a file nearly all the time is that of a start. The commands are run by turns, so that what else the machine does meets
them all. For each the best and the median of many runs are printed, in milliseconds, and the ratio of its best to that of
`check`. The last line is `get: R of check, N wanted`; the exit status is 1 where R is greater. No test rests on these numbers.
"""
import argparse
import os
import statistics
import subprocess
import sys
import tempfile
import time

SIZE = 3 * 1024
WANTED = 1.2
SECTION = """
[servers.name_%d]
# where it stands, and what it takes
address = "10.0.0.%d"
ports = [8000, 8001, 0x1F90] # some
limits = { cpu = 0.5, memory = 1_000_000 }
since = 1979-05-27T07:32:00Z
enabled = true
"""


def text():
    """A file of settings, with a section more until it has the size."""
    out, number = '# settings of some servers\ntitle = "servers"\n', 0
    while len(out) < SIZE:
        out += SECTION % (number, number)
        number += 1
    return out, 'servers.name_%d.address' % (number - 1)


def commands(place):
    """The words of each command, by what they are called; FILE stands for the file."""
    return {
        'check': ['check', 'FILE'],
        'get': ['get', 'FILE', place],
        'get --toml': ['get', '--toml', 'FILE', place],
        'get .': ['get', 'FILE', '.'],
        'validate': ['validate', 'FILE'],
        'show': ['show', 'FILE'],
        'set': ['set', 'FILE', place, '"10.0.0.1"'],
    }


def milliseconds(words):
    """The time of one run, which has to end with status 0."""
    actions = [(os.POSIX_SPAWN_OPEN, 1, os.devnull, os.O_WRONLY, 0)]
    start = time.perf_counter()
    child = os.posix_spawn(words[0], words, os.environ, file_actions=actions)
    status = os.waitpid(child, 0)[1]
    took = time.perf_counter() - start
    if status:
        sys.exit('%s failed' % ' '.join(words))
    return took * 1000


def main():
    words = argparse.ArgumentParser(description=__doc__, formatter_class=argparse.RawDescriptionHelpFormatter)
    words.add_argument('--binary', required=True)
    words.add_argument('--runs', type=int, default=1000)
    given = words.parse_args()
    with tempfile.TemporaryDirectory() as folder:
        path = os.path.join(folder, 'settings.toml')
        content, place = text()
        with open(path, 'w', encoding='ascii') as out:
            out.write(content)
        asked = {name: [os.path.abspath(given.binary)] + [path if word == 'FILE' else word for word in line]
                 for name, line in commands(place).items()}
        shown = subprocess.run(asked['get'], capture_output=True, check=False).stdout
        if not shown.startswith(b'10.0.0.'):
            sys.exit('get printed %r' % shown)
        took = {name: [] for name in asked}
        for _ in range(given.runs):
            for name, line in asked.items():
                took[name].append(milliseconds(line))
    best = {name: min(times) for name, times in took.items()}
    print('%d bytes, best and median of %d runs' % (len(content), given.runs))
    for name, times in took.items():
        print('%-10s %.3f ms  %.3f ms  %.2f of check' % (name, best[name], statistics.median(times), best[name] / best['check']))
    ratio = best['get'] / best['check']
    print('get: %.2f of check, %.1f wanted' % (ratio, WANTED))
    return 1 if ratio > WANTED else 0


if __name__ == '__main__':
    sys.exit(main())
