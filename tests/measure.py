#!/usr/bin/env python3
"""How much code, how many clauses, specs and proofs there are, by crate and in all.

  tests/measure.py [--words] [COMMIT..]

It prints a table of the work tree, or one of each COMMIT, and of two COMMITs the difference too, the second less the
first. Its columns are

    code     lines of src/**/*.rt that are not blank
    clauses  those of them with `ensures` or `requires`
    specs    lines of specs/**/*.antt
    proofs   lines of proofs/**/*.antt
    calls    public functions: lines of src/**/*.rt with `pub fn`

and the line below it says how many words are defined in two files or more of specs/, whichever their crates. With --words
these words follow, each with its files.
"""
import collections
import io
import os
import re
import subprocess
import sys
import tarfile

ROOT = os.path.dirname(os.path.dirname(os.path.abspath(__file__)))
USAGE = 'usage: tests/measure.py [--words] [COMMIT..]'
COLUMNS = ['code', 'clauses', 'specs', 'proofs', 'calls']
MEASURED = re.compile(r'crates/(\w+)/(?:(src)/.*\.rt|(specs|proofs)/.*\.antt)')
CLAUSE = re.compile(r'\b(?:ensures|requires)\b')

# The word that a line of specs/ defines, and the blocks in which `pub NAME :` or `NAME :` defines one, a step further in.
DEFINED = re.compile(r'^ *(?:pub )?(?:abbrev|unfoldable|record|data) +(?:pub +)?(?!mutual\n)([^\s{]+)', re.MULTILINE)
MUTUAL = re.compile(r'^( *)abbrev mutual\n((?:\n|\1  .*\n)*)', re.MULTILINE)


# What is measured: texts by their paths.

def work_tree():
    """The files of the work tree that are measured."""
    found = {}
    for folder, _, names in os.walk(os.path.join(ROOT, 'crates')):
        for path in (os.path.join(folder, name) for name in names):
            name = os.path.relpath(path, ROOT)
            if MEASURED.fullmatch(name):
                with open(path, encoding='utf-8') as file:
                    found[name] = file.read()
    return found


def committed(commit):
    """The files of a commit that are measured."""
    packed = subprocess.run(['git', 'archive', commit, 'crates'], cwd=ROOT, stdout=subprocess.PIPE, check=True).stdout
    with tarfile.open(fileobj=io.BytesIO(packed)) as files:
        return {it.name: files.extractfile(it).read().decode() for it in files if it.isfile() and MEASURED.fullmatch(it.name)}


# What is counted.

def counts_of(folder, text):
    """What a file of the folder adds to the columns."""
    lines = text.splitlines()
    if folder != 'src':
        return {folder: len(lines)}
    return {'code': sum(bool(line.strip()) for line in lines), 'clauses': sum(bool(CLAUSE.search(line)) for line in lines),
            'calls': sum('pub fn' in line for line in lines)}


def counts_by_crate(files):
    found = collections.defaultdict(collections.Counter)
    for name, text in files.items():
        crate, source, other = MEASURED.fullmatch(name).groups()
        found[crate].update(counts_of(source or other, text))
    return found


def words_defined(text):
    """The words that a file of specs/ defines."""
    found = set(DEFINED.findall(text))
    for indent, block in MUTUAL.findall(text):
        found.update(re.findall(rf'^{indent}  (?:pub )?(\S+) :', block, re.MULTILINE))
    return found


def words_of_two_files(files):
    """Each word that two files of specs/ or more define, with these files."""
    places = collections.defaultdict(list)
    for name in sorted(files):
        if '/specs/' in name:
            for word in words_defined(files[name]):
                places[word].append(name.removeprefix('crates/'))
    return {word: places[word] for word in sorted(places) if len(places[word]) > 1}


def less(new, old):
    """By crate, by how much the counts differ."""
    return {crate: {it: new[crate][it] - old[crate][it] for it in COLUMNS} for crate in set(new) | set(old)}


# What is printed.

def print_table(heading, counts, words, sign=''):
    width = max(len(heading), *map(len, counts))
    print(heading.ljust(width), *(f'{it:>8}' for it in COLUMNS))
    total = {it: sum(row[it] for row in counts.values()) for it in COLUMNS}
    for crate, row in [*sorted(counts.items()), ('in all', total)]:
        print(crate.ljust(width), *(f'{row[it]:{sign}8}' for it in COLUMNS))
    print(f'words in two files or more: {words:{sign}}')


def print_all(versions, with_words):
    measured = [(name, counts_by_crate(files), words_of_two_files(files)) for name, files in versions]
    for name, counts, words in measured:
        print_table(name, counts, len(words))
        if with_words:
            for word, places in words.items():
                print(f'{word}: {", ".join(places)}')
        print()
    if len(measured) == 2:
        (first, old, old_words), (second, new, new_words) = measured
        print_table(f'{second} less {first}', less(new, old), len(new_words) - len(old_words), '+')


def main(words):
    commits = [it for it in words if it != '--words']
    try:
        if any(it.startswith('-') for it in commits):
            raise ValueError
        versions = [(it, committed(it)) for it in commits] or [('work tree', work_tree())]
    except (ValueError, subprocess.CalledProcessError):
        print(USAGE, file=sys.stderr)
        return 2
    print_all(versions, '--words' in words)
    return 0


if __name__ == '__main__':
    sys.exit(main(sys.argv[1:]))
