#!/usr/bin/env python3
"""Times `tomled verify`, `certify` and `edit` on large texts, beside `tomled check` of the same text.

  bench/verify.py --binary crates/tomled/out/tomled

Each text is edited by `set`, once and a hundred times, and the certificate keeps all that no edit names. For each text it
prints the best of some runs: the seconds of `check`, of `verify` with one edit and with a hundred, the ratios, and the
peak memory of both in megabytes; and the same of `certify`, which has to find that certificate, and of `edit`. No test rests on these numbers.
"""
import argparse
import importlib.util
import json
import os
import subprocess
import tempfile

HERE = os.path.dirname(os.path.abspath(__file__))
spec = importlib.util.spec_from_file_location('check', os.path.join(HERE, 'check.py'))
check = importlib.util.module_from_spec(spec)
spec.loader.exec_module(check)


def edited(text, places):
    """The text with the bytes at each place changed for as many others; and the edits' value."""
    out = bytearray(text)
    for start, end in places:
        out[start:end] = b'7' * (end - start)
    return bytes(out)


def value_at(text, line):
    """Where the value of a line `key = value` stands, the line beginning at the place."""
    start = text.index(b'= ', line) + 2
    end = text.index(b'\n', start)
    return start, end


def flat(count):
    text = check.numbered(b'key_', b' = 1_000_000\n')
    lines = text.count(b'\n')
    places, edits, changed, at = [], [], set(), 0
    for number in range(count):
        start, end = value_at(text, at)
        places.append((start, end))
        edits.append((['key_%d' % number], '7' * (end - start)))
        changed.add(number)
        at = end + 1
    return text, edited(text, places), edits, [unit for unit in range(lines + 1) if unit not in changed]


def tables(count):
    text = check.grouped(lambda number: b'[table_%d]\n' % number, 7).replace(b'"value ', b'"').replace(b'"', b'')
    lines = text.count(b'\n')
    places, edits, changed, at, line = [], [], set(), 0, 0
    for number in range(count):
        at = text.index(b'\n', at) + 1
        start, end = value_at(text, at)
        places.append((start, end))
        edits.append((['table_%d' % number, 'name_0'], '7' * (end - start)))
        changed.add(line + 1)
        line += 8
        for _ in range(7):
            at = text.index(b'\n', at) + 1
    return text, edited(text, places), edits, [unit for unit in range(lines + 1) if unit not in changed]


def array_tables(count):
    lines = check.LIMIT // 30
    text = b''.join(b'[[a]]\nnumber = 1_000_%03d\n' % (number % 1000) for number in range(lines))
    total = text.count(b'\n')
    places, edits, changed, at = [], [], set(), 0
    for number in range(count):
        at = text.index(b'\n', at) + 1
        start, end = value_at(text, at)
        places.append((start, end))
        edits.append((['a', number, 'number'], '7' * (end - start)))
        changed.add(2 * number + 1)
        at = end + 1
    return text, edited(text, places), edits, [unit for unit in range(total + 1) if unit not in changed]


def array(count):
    items = [b' %d,\n' % (10_000_000_000_000 + number) for number in range(900_000)]
    text = b'a = [\n' + b''.join(items) + b']\n'
    places, edits, at = [], [], 6
    for number in range(count):
        places.append((at + 1, at + 15))
        edits.append((['a', number], '7' * 14))
        at += 17
    changed = set(range(count + 1))
    return text, edited(text, places), edits, [unit for unit in range(len(items) + 2) if unit not in changed]


def timed(words, runs, status):
    """The best processor time of some runs, and the peak memory in megabytes. The memory is what `time` says: a child that
    is started from here has this program's own memory in its account."""
    best, memory = None, 0
    for _ in range(runs):
        with tempfile.NamedTemporaryFile() as told:
            child = subprocess.Popen(['/usr/bin/time', '-q', '-f', '%M', '-o', told.name] + words, stdout=subprocess.DEVNULL, stderr=subprocess.PIPE)
            error = child.stderr.read()
            _, code, used = os.wait4(child.pid, 0)
            memory = int(told.read()) / 1024
        if os.waitstatus_to_exitcode(code) != status:
            raise SystemExit('%s: %s' % (' '.join(words), error.decode()))
        time = used.ru_utime + used.ru_stime
        best = time if best is None else min(best, time)
    return best, memory


def main():
    parser = argparse.ArgumentParser()
    parser.add_argument('--binary', required=True)
    parser.add_argument('--runs', type=int, default=3)
    options = parser.parse_args()
    binary = os.path.abspath(options.binary)
    print('%-14s %-7s %8s %8s %8s %8s %8s %9s %9s' % ('text', 'command', 'check', 'one', 'hundred', 'one/chk', 'hun/one', 'MB check', 'MB one'))
    for name, make in (('flat keys', flat), ('tables', tables), ('array tables', array_tables), ('one array', array)):
        plain, verified, certified, made = None, [], [], []
        with tempfile.TemporaryDirectory() as folder:
            for count in (1, 100):
                before, after, edits, kept = make(count)
                paths = []
                for part, data in (('before', before), ('edits', json.dumps([{'op': 'set', 'at': at, 'value': value} for at, value in edits]).encode()),
                                   ('after', after), ('cert', b'kept 1\n' + b''.join(b'%d %d\n' % (unit, unit) for unit in kept))):
                    path = os.path.join(folder, part)
                    with open(path, 'wb') as out:
                        out.write(data)
                    paths.append(path)
                if count == 1:
                    plain = timed([binary, 'check', paths[0]], options.runs, 0)
                verified.append(timed([binary, 'verify'] + paths, options.runs, 0))
                out, cert = os.path.join(folder, 'out'), os.path.join(folder, 'out_cert')
                certified.append(timed([binary, 'certify'] + paths[:3] + [cert], options.runs, 0))
                with open(cert, 'rb') as found, open(paths[3], 'rb') as shown:
                    if found.read() != shown.read():
                        raise SystemExit('%s: another certificate' % name)
                made.append(timed([binary, 'edit', paths[0], paths[1], out, cert], options.runs, 0))
                with open(out, 'rb') as written:
                    if written.read() != after:
                        raise SystemExit('%s: another text' % name)
        for command, ((one, memory), (hundred, _)) in (('verify', verified), ('certify', certified), ('edit', made)):
            print('%-14s %-7s %8.2f %8.2f %8.2f %8.2f %8.2f %9.0f %9.0f' % (name, command, plain[0], one, hundred, one / plain[0], hundred / one, plain[1], memory))


if __name__ == '__main__':
    main()
