"""What is asked of the rows of tests/rows.py, and what is to come of it.

FIELDS has for each folder below tests/rows what the lines of its rows may be. Fields that are words are written as in a
shell, behind the name of the program; what they name is a file of the run's folder: FILE the one text, EDITS an edit
list, BEFORE and AFTER two texts, CERT a certificate, LINK a symbolic link to FILE. Where a word is `-` and none is FILE,
the text stands on standard input.
"""
import collections
import re
import shlex

# The words of a run, the files that it finds, what is to come of it, what stands on its standard input, and which
# symbolic links it finds, each with the name to which it leads.
Run = collections.namedtuple('Run', 'words files wanted stdin links', defaults=(b'', {}))
# What a run prints and ends with, and the files that it leaves beside those that it found, or with other bytes.
Outcome = collections.namedtuple('Outcome', 'status out err files')
# A text of which not each byte is known: what is told of it, and a test.
Shape = collections.namedtuple('Shape', 'told fits')
# What is wanted of a run that may say `ok` or refuse.
ANSWERED = Outcome('0 or 1', b'ok, or beside it', b'refused ..', {})


class Fault(Exception):
    """Why a line of a file is none of a row."""


def words_of(field):
    """The words that a field has, as a shell takes them apart."""
    try:
        return shlex.split(field.decode('utf-8', 'surrogateescape'))
    except ValueError as fault:
        raise Fault(f'these are no words: {fault}') from fault


# What is to come of a run.

def done(out, files=None):
    return Outcome(0, out, b'', files or {})


def refused(line):
    return Outcome(1, b'', line + b'\n', {})


def changed(before, after):
    """FILE has another text, and nothing is printed."""
    return done(b'', {} if before == after else {'FILE': after})


def status_of(words, refusal):
    """Of `get` nothing at the place has a status of its own."""
    return 5 if words[0] == 'get' and refusal == b'refused 301 0' else 1


def shape(pattern):
    return Shape(re.sub(rb'\\(\W)', rb'\1', pattern), re.compile(pattern).fullmatch)


def explained(line):
    """The line of a refusal, and one line or more that explain it."""
    return shape(re.escape(line) + rb'\n([^\n]+\n)+')


def refused_and_explained(line, status=1):
    return Outcome(status, b'', explained(line), {})


BAD_WORDS = Outcome(2, b'', shape(rb'[\s\S]+'), {})
NO_FILE = refused_and_explained(b'file fault', 3)
NOTHING_THERE = refused_and_explained(b'refused 301 0', 5)


# Runs of one file.

def asked(words, file, wanted):
    """The words of a text, which is FILE, or standard input where no word is FILE."""
    if 'FILE' in words:
        return Run(words, {'FILE': file}, wanted)
    return Run(words, {}, wanted, stdin=file)


def either_way(words, file, wanted):
    """The words of FILE, and the same of standard input."""
    runs = [asked(words, file, wanted)]
    if words.count('FILE') == 1:
        runs.append(asked(['-' if word == 'FILE' else word for word in words], file, wanted))
    return runs


def in_place(words):
    return [words[0], '-i', *words[1:]]


def with_certificate(words):
    return [words[0], '--certificate', 'CERT', *words[1:]]


def bad_words(words):
    return [Run(words, {'FILE': b'a = 1\n', 'EDITS': b'[]'}, BAD_WORDS, stdin=b'a = 1\n')]


def no_file(words):
    return [Run(words, {}, NO_FILE)]


# `check`, `show`, `edit`, `verify`, `certify`.

def edit(before, edits, wanted):
    return Run('edit FILE EDITS OUT CERT'.split(), {'FILE': before, 'EDITS': edits}, wanted)


def verify(before, edits, after, cert, wanted):
    files = {'BEFORE': before, 'EDITS': edits, 'AFTER': after, 'CERT': cert}
    return Run('verify BEFORE EDITS AFTER CERT'.split(), files, wanted)


def certified(before, edits, after, cert):
    """The certificate is found, and written where it is asked for."""
    files = {'BEFORE': before, 'EDITS': edits, 'AFTER': after}
    return [Run('certify BEFORE EDITS AFTER CERT'.split(), files, done(b'yes\n', {'CERT': cert})),
            Run('certify BEFORE EDITS AFTER'.split(), files, done(b'yes\n'))]


def not_certified(refusal, before, edits, after):
    files = {'BEFORE': before, 'EDITS': edits, 'AFTER': after}
    return [Run('certify BEFORE EDITS AFTER CERT'.split(), files, refused_and_explained(refusal))]


def document(text):
    return [Run('check FILE'.split(), {'FILE': text}, done(b'ok\n')),
            Run('validate FILE'.split(), {'FILE': text}, done(b''))]


def fronts(text):
    """The text up to each of its bytes is a document, or refused with some line."""
    return [Run('check FILE'.split(), {'FILE': text[:end]}, ANSWERED) for end in range(len(text) + 1)]


def no_document(refusal, text):
    """Each command that reads the text refuses it so; `verify` has a refusal of its own for it."""
    alone = ['check FILE', 'show FILE', 'show --list FILE']
    explaining = ['check --explain FILE', 'get FILE .', 'set FILE a 1', 'validate FILE']
    return [asked(words.split(), text, refused(refusal)) for words in alone] + [
        asked(words.split(), text, refused_and_explained(refusal)) for words in explaining] + [
        edit(text, b'[]', refused(refusal)), verify(text, b'[]', text, b'kept 1\n', refused(b'refused 401 0'))]


def shown(text, data):
    return [asked(['show', 'FILE'], text, done(data + b'\n')),
            asked(['get', '--tagged', 'FILE', '.'], text, done(data + b'\n'))]


def value_shown(value, kind, text):
    """The text of a string is written as it stands in JSON."""
    file = b'a = ' + value
    plain = ['get', '--json', 'FILE', 'a'] if kind == b'string' else ['get', 'FILE', 'a']
    printed = b'"%s"\n' % text if kind == b'string' else text + b'\n'
    return [asked(['show', 'FILE'], file, done(b'{"a":{"type":"%s","value":"%s"}}\n' % (kind, text))),
            asked(plain, file, done(printed)),
            asked(['get', '--type', 'FILE', 'a'], file, done(kind + b'\n'))]


def listed(text, addresses):
    return [asked(['show', '--list', 'FILE'], text, done(addresses))]


def edited(before, edits, after, cert):
    """`apply` prints the text that `edit` writes, in layout `plain`."""
    return [edit(before, edits, done(b'ok\n', {'OUT': after, 'CERT': cert})),
            verify(before, edits, after, cert, done(b'yes\n')), *certified(before, edits, after, cert),
            Run(with_certificate(['apply', '--layout', 'plain', 'FILE', 'EDITS']), {'FILE': before, 'EDITS': edits},
                done(after, {'CERT': cert}))]


def not_edited(refusal, before, edits):
    return [edit(before, edits, refused(refusal)),
            Run(with_certificate(['apply', 'FILE', 'EDITS', '-i']), {'FILE': before, 'EDITS': edits},
                refused_and_explained(refusal))]


def judged(verdict, before, edits, after, cert):
    if verdict == b'yes':
        return [verify(before, edits, after, cert, done(b'yes\n')), *certified(before, edits, after, cert)]
    return [verify(before, edits, after, cert, refused(verdict))]


def judged_beside(before, edits, after, cert, found):
    """A certificate with pairs that `certify` does not look for, and what that finds, or says."""
    runs = [verify(before, edits, after, cert, done(b'yes\n'))]
    if found.startswith(b'refused'):
        return runs + not_certified(found, before, edits, after)
    return runs + certified(before, edits, after, found)


# `get`.

def gotten(words, file, printed):
    return either_way(words, file, done(printed))


def not_gotten(words, file, refusal):
    return either_way(words, file, refused_and_explained(refusal))


def nothing_there(words, file):
    """A status of its own, so that a script tells this from a text that is refused."""
    return either_way(words, file, NOTHING_THERE)


# `set`, `insert`, `rename`, `remove`.

def made(words, file, after):
    """The words have no -i: the text is printed, and with -i FILE has it."""
    return [*either_way(words, file, done(after)), asked(in_place(words), file, changed(file, after))]


def made_in_place(words, file, after):
    """The words have -i or --in-place."""
    return [asked(words, file, changed(file, after))]


def made_and_certified(words, file, after, cert):
    put = changed(file, after)
    return [*made(words, file, after),
            asked(with_certificate(words), file, done(after, {'CERT': cert})),
            asked(with_certificate(in_place(words)), file, put._replace(files={**put.files, 'CERT': cert}))]


def made_at_link(words, file, after):
    """LINK stays a link, and FILE has the text."""
    return [Run(words, {'FILE': file}, done(after), links={'LINK': 'FILE'}),
            Run(in_place(words), {'FILE': file}, changed(file, after), links={'LINK': 'FILE'})]


def not_made(words, file, refusal):
    """FILE stays as it was, and no file is made."""
    wanted = refused_and_explained(refusal)
    return [*either_way(words, file, wanted), asked([*words, '--in-place', '--certificate', 'CERT'], file, wanted)]


# `apply`.

def applied(file, edits, after, cert):
    """EDITS or FILE may be standard input. The text is printed, or put in FILE. The layout is `follow`."""
    files = {'FILE': file, 'EDITS': edits}
    words = ['apply', 'FILE', 'EDITS']
    put = changed(file, after)
    return [Run(words, files, done(after)),
            Run(['apply', '--layout', 'follow', 'FILE', 'EDITS'], files, done(after)),
            Run(['apply', 'FILE', '-'], {'FILE': file}, done(after), stdin=edits),
            Run(['apply', '-', 'EDITS'], {'EDITS': edits}, done(after), stdin=file),
            Run(with_certificate(words), files, done(after, {'CERT': cert})),
            Run(in_place(words), files, put),
            Run('apply --in-place FILE EDITS --certificate CERT'.split(), files,
                put._replace(files={**put.files, 'CERT': cert})),
            Run(['apply', 'FILE', '-', '-i'], {'FILE': file}, put, stdin=edits)]


def not_applied(refusal, file, edits):
    wanted = refused_and_explained(refusal)
    files = {'FILE': file, 'EDITS': edits}
    return [Run(['apply', 'FILE', 'EDITS'], files, wanted),
            Run(['apply', 'FILE', '-'], {'FILE': file}, wanted, stdin=edits),
            Run(['apply', '-', 'EDITS'], {'EDITS': edits}, wanted, stdin=file),
            Run(['apply', '-i', 'FILE', 'EDITS'], files, wanted),
            Run('apply --in-place FILE EDITS --certificate CERT'.split(), files, wanted)]


# Explanations. Their sentences have no promise; the position, the line that is shown and the carets have.

def drawn(refusal, at, line, carets):
    """The first four lines of an explained refusal, as a pattern. A place is shown without a number."""
    number = b'' if refusal.startswith(b'refused 340') else at.split(b':')[-2] + b' '
    front, below = b'  %s| ' % number, b'  %s| ' % (b' ' * len(number))
    return (re.escape(refusal) + rb'\n' + re.escape(at) + rb': [^\n]+\n'
            + re.escape(front + line + b'\n' + below + carets + b'\n'))


def alone(words, file, refusal):
    """Without the option nothing is explained."""
    return [asked(words, file, refused(refusal))]


def drawn_so(words, file, refusal, at, line, carets):
    wanted = shape(drawn(refusal, at, line, carets) + rb'([^\n]+\n)*')
    return [asked(words, file, Outcome(1, b'', wanted, {}))]


def drawn_whole(words, file, refusal, at, line, carets, behind):
    """What stands behind the first four lines is known too."""
    wanted = shape(drawn(refusal, at, line, carets) + re.escape(behind))
    return [asked(words, file, Outcome(1, b'', wanted, {}))]


def opened_so(words, file, refusal, at):
    wanted = shape(re.escape(refusal) + rb'\n' + re.escape(at) + rb': [^\n]+\n([^\n]+\n)*')
    return [asked(words, file, Outcome(status_of(words, refusal), b'', wanted, {}))]


def saying(said):
    """These characters, the rest of their line where they do not end it, and lines behind it."""
    return re.escape(said) + (b'' if said.endswith(b'\n') else rb'[^\n]*\n') + rb'([^\n]+\n)*'


def told(words, file, refusal, said):
    """The explanation has these characters."""
    wanted = shape(re.escape(refusal) + rb'\n[^\n]+: [\s\S]*' + saying(said))
    return [asked(words, file, Outcome(status_of(words, refusal), b'', wanted, {}))]


def told_of_edits(file, edits, refusal, said):
    """So too of `edit`, where it explains."""
    files = {'FILE': file, 'EDITS': edits}
    wanted = shape(re.escape(refusal) + rb'\nFILE:[^\n]*' + saying(said))
    return [Run(words.split(), files, Outcome(1, b'', wanted, {}))
            for words in ('apply FILE EDITS', 'edit FILE EDITS OUT CERT --explain')]


def told_of_texts(before, edits, after, refusal, at, line):
    """The judge's reason shows the line, of the text that the position names."""
    files = {'BEFORE': before, 'EDITS': edits, 'AFTER': after}
    number = at.split(b':')[1]
    wanted = shape(re.escape(refusal) + rb'\n' + re.escape(at) + rb': [^\n]+\n([^\n]+\n)*'
                   + re.escape(b'  %s | %s\n' % (number, line)) + rb'([^\n]+\n)*')
    return [Run('certify BEFORE EDITS AFTER'.split(), files, Outcome(1, b'', wanted, {}))]


# `validate`.

def validated(words, first, second, third, lines):
    """The beginnings of the lines that tell what is wrong, two of each file: what is printed first, and its word with the
    position. The files are A, B and C."""
    heads = lines.split(b'\n') if lines else []
    pairs = [re.escape(line) + rb'\n' + re.escape(at) + rb': [^\n]+\n(  [^\n]+\n)*'
             for line, at in zip(heads[::2], heads[1::2])]
    status = 3 if b'file fault' in heads else 1 if heads else 0
    files = {'A': first, 'B': second, 'C': third}
    return [Run(words, files, Outcome(status, b'', shape(b''.join(pairs)), {}))]


OF_WORDS = {'bad words': bad_words, 'words without a file': no_file}
# The fields that rows of a folder may have. The words come as a list, all else as bytes.
FIELDS = {
    'check': {'text': document, 'refusal, text': no_document, 'each front of': fronts},
    'show': {'text, data': shown, 'value, type, shown': value_shown},
    'list': {'text, addresses': listed},
    'edit': {'before, edits, after, cert': edited, 'refusal, before, edits': not_edited},
    'verify': {'verdict, before, edits, after, cert': judged, 'before, edits, after, cert, found': judged_beside},
    'certify': {'before, edits, after, cert': certified, 'refusal, before, edits, after': not_certified},
    'get': {'words, file, printed': gotten, 'words, file, refusal': not_gotten,
            'words, file without it': nothing_there, **OF_WORDS},
    'one': {'words, file, after': made, 'words, file, changed': made_in_place,
            'words, file, after, cert': made_and_certified, 'words of a link, file, after': made_at_link,
            'words, file, refusal': not_made, **OF_WORDS},
    'apply': {'file, edits, after, cert': applied, 'refusal, file, edits': not_applied, **OF_WORDS},
    'explain': {'words, file, refusal, at, shown, carets': drawn_so,
                'words, file, refusal, at, shown, carets, behind': drawn_whole,
                'words, file, refusal, at': opened_so, 'words, file, refusal, said': told,
                'file, edits, refusal, said': told_of_edits,
                'before, edits, after, refusal, at, shown': told_of_texts,
                'words, file, refusal alone': alone},
    'validate': {'words, A, B, C, told': validated},
}
