#!/usr/bin/env python3
"""Gives files that no command wrote to the commands that read them.

    bench/hostile.py [--cmd ./lprolog] [--seed N] [--count N] [--only PART ..]

`random`: images, objects and certificates of the examples with a few bytes changed at random. A change sets, flips, removes, doubles or inserts some
bytes, or cuts the file. No run may end by a signal or with another status than the command has; of an image that `migrate` takes, the file that it
writes has to be the one that was read, since a value has one spelling; and a query on an image that is taken ends within its limits.

`bytes`: a certificate at each length up to its own, which is refused with the place of its end, and with each byte changed to each of some others.
`deep`: proofs, terms and types a million nodes deep. `instances`: types and values that are not those of an instance, and proofs of something else.
`negations`: texts with a `not`. `sessions`: lines and files of all kinds, and `print` in each wrong form. What is to be said of these stands here.
"""
import argparse
import collections
import os
import random
import shutil
import struct
import subprocess
import tempfile
import time

HERE = os.path.dirname(os.path.abspath(__file__))
LONGEST = 300
STATUSES = range(15)
MODULES = [('lists', 'append X Y (1 :: nil)'), ('family', 'anc ann X'), ('stlc', 'of (abs x\\ abs y\\ x) T')]


def run(words, folder):
    """Status of a command; no status where it was ended."""
    try:
        return subprocess.run(words, cwd=folder, stdin=subprocess.DEVNULL, stdout=subprocess.DEVNULL, timeout=LONGEST).returncode
    except subprocess.TimeoutExpired:
        return None


def ran(words, folder):
    """Status and output of a command; no status where it was ended."""
    try:
        ended = subprocess.run(words, cwd=folder, stdin=subprocess.DEVNULL, stdout=subprocess.PIPE, timeout=LONGEST)
        return ended.returncode, ended.stdout
    except subprocess.TimeoutExpired:
        return None, b''


def bytes_of(path):
    with open(path, 'rb') as file:
        return file.read()


def write(path, held):
    with open(path, 'wb') as file:
        file.write(held)


# Files with a few changes at random.

def prepare(program, folder):
    """The examples' texts with their objects, images and certificates; each module with a query."""
    found = []
    for place, query in MODULES:
        source = os.path.join(HERE, '..', 'examples', place)
        names = [it[:-4] for it in os.listdir(source) if it.endswith('.mod')]
        for name in os.listdir(source):
            shutil.copy(os.path.join(source, name), folder)
        for name in names:
            run([program, 'compile', name], folder)
        for name in names:
            taken = run([program, 'prove', name, query], folder) == 0 and run([program, 'link', name], folder) == 0
            if taken:
                found.append((name, query))
    return found


def changed(held, rng):
    """The bytes with one to three changes."""
    held = bytearray(held)
    for _ in range(rng.choice([1, 1, 2, 3])):
        at = rng.randrange(len(held)) if held else 0
        kind = rng.randrange(6) if held else 4
        if kind == 0:
            held[at] = rng.randrange(256)
        elif kind == 1:
            held[at] ^= 1 << rng.randrange(8)
        elif kind == 2:
            del held[at:at + rng.randint(1, 4)]
        elif kind == 3:
            held[at:at] = held[at:at + rng.randint(1, 8)]
        elif kind == 4:
            held.insert(at, rng.choice([0, 1, 255]))
        else:
            del held[at:]
    return bytes(held)


def commands(program, name, query):
    """For each kind of file the commands that read it."""
    limits = ['--steps', '300', '--answers', '3']
    return {
        '.lp': [[program, 'query', name, query] + limits, [program, 'migrate', name]],
        '.lpo': [[program, 'link', name]],
        '.cert': [[program, 'check', name, query]],
    }


def try_one(program, folder, name, query, rng):
    """What is wrong of one changed file, or nothing; and the statuses."""
    ending = rng.choice(['.lp', '.lp', '.lpo', '.cert'])
    path, image = (os.path.join(folder, name + it) for it in (ending, '.lp'))
    held, linked = bytes_of(path), bytes_of(image)
    hostile = changed(held, rng)
    write(path, hostile)
    statuses, wrong = [], None
    for words in commands(program, name, query)[ending]:
        status = run(words, folder)
        statuses.append((words[1], status))
        if status not in STATUSES:
            wrong = 'status %s of %s' % (status, words[1])
    if ending == '.lp' and statuses[-1][1] == 0 and bytes_of(path) != hostile:
        wrong = 'an image that was taken is written with other bytes'
    write(path, held)
    write(image, linked)
    return wrong, hostile, statuses


def at_random(program, folder, options):
    """Faults among so many files that were changed at random."""
    rng, ends, faults = random.Random(options.seed), collections.Counter(), 0
    modules = prepare(program, folder)
    for _ in range(options.count):
        name, query = rng.choice(modules)
        wrong, hostile, statuses = try_one(program, folder, name, query, rng)
        ends.update(statuses)
        if wrong:
            faults += 1
            print(wrong, name, query, hostile.hex())
    print('random: %d files of %d modules, %d faults' % (options.count, len(modules), faults))
    for (command, status), count in sorted(ends.items(), key=str):
        print('  %-8s status %s: %d' % (command, status, count))
    return faults


# Tables of files, each with what is to be said of it.

class Table:
    """Runs commands on files, and compares what they say with what they are to say."""

    def __init__(self, program, folder, name):
        self.program, self.folder, self.name, self.count, self.faults, self.slowest = program, folder, name, 0, 0, 0.0

    def put(self, name, held):
        write(os.path.join(self.folder, name), held if isinstance(held, bytes) else held.encode())

    def wrong(self, what):
        self.faults += 1
        print('%s: %s' % (self.name, what))

    def row(self, what, words, status, said):
        """A run with this status that writes this text, or one for which `said` holds."""
        began = time.time()
        got, output = ran([self.program] + words, self.folder)
        self.slowest = max(self.slowest, time.time() - began)
        self.count += 1
        fits = said(output) if callable(said) else output == (said if isinstance(said, bytes) else said.encode())
        if got != status or not fits:
            shown = output if len(output) < 300 else output[:150] + b' .. ' + output[-100:]
            self.wrong('%s: status %s, %r' % (what, got, shown))

    def told(self):
        print('%s: %d runs, %d faults, the longest took %.1f s' % (self.name, self.count, self.faults, self.slowest))
        return self.faults


# A module of natural numbers whose constants have the numbers 32 `a`, 33 `s`, 34 `q`, 35 `r`, 36 `f`; its kind `i` has the number 8.
SIGNATURE = 'sig u. kind i type. type a i. type s i -> i. type q i -> o. type r o. type f (i -> i) -> o.\n'
CLAUSES = 'module u. q a. q (s X) :- q X. r :- r. r. f F.\n'
ACCEPTED, REJECTED, DEEP = 'accepted 1\n', 'no: certificate 1\n', 'stopped: term too deep\n'


def number(n):
    return struct.pack('<I', n)


def constant(n):
    return b'\x01' + number(n)


A, S, Q, R = (constant(n) for n in (32, 33, 34, 35))
IMPLIES, IF, TRUTH = (constant(n) for n in (2, 3, 6))
TRUE, HIT, NEED = b'\x01', b'\x14', b'\x13'


def applied(f, x):
    return b'\x07' + f + x


def abstracted(body):
    return b'\x06' + body


def numeral(n):
    """`s (s .. a)`, so many times."""
    return (b'\x07' + S) * n + A


def back(clause, focus):
    return b'\x0a' + number(clause) + b'\0\0' + focus


def certificate(values, proof, types=()):
    parts = (number(len(types)), b''.join(types), number(len(values)), b''.join(values), proof)
    return b'LPCT\x01\0' + number(1) + b''.join(parts)


def with_module(program, folder, name):
    table = Table(program, folder, name)
    table.put('u.sig', SIGNATURE)
    table.put('u.mod', CLAUSES)
    return table


class Fields:
    """The places of the fields of a file of certificates, read by the tables of docs/CERTIFICATES.md, and how many nodes its proofs have. The kinds and
    constants of the program have no arguments but for those that are given."""

    # For each leading byte of a type, a term and a proof: the sizes of its fields, and what stands behind them.
    TYPES = {0: ([4], ''), 1: ([4], ''), 2: ([], 'TT')}
    TERMS = {0: ([4], ''), 1: ([4], ''), 2: ([8], ''), 4: ([4], ''), 5: ([4], 'T'), 6: ([], 't'), 7: ([], 'tt')}
    PROOFS = {0: ([], 'tp'), 1: ([], ''), 2: ([], 'pp'), 3: ([], 'p'), 4: ([], 'p'), 5: ([], 'tp'), 6: ([], 'p'), 7: ([], 'p'), 8: ([], ''), 9: ([], ''), 10: ([4, 2], 'f')}
    FOCI = {16: ([], 'tf'), 17: ([], 'tf'), 18: ([1], 'f'), 19: ([], 'pf'), 20: ([], '')}

    # `list` and, of the constants of the language, those with a type.
    KIND_ARGUMENTS = {3: 1}
    CONSTANT_TYPES = {4: 1, 5: 1, 8: 1, 9: 1, 14: 1, 15: 1}

    def __init__(self, held, constants=(), begins=None):
        self.held, self.at, self.begins, self.count = held, 0, begins, 0
        self.constants = {**self.CONSTANT_TYPES, **dict(constants)}

    def take(self, size):
        if self.begins is not None:
            self.begins.append(self.at)
        self.at += size
        return int.from_bytes(self.held[self.at - size:self.at], 'little')

    def nodes(self, left):
        """What stands there: types `T`, terms `t`, proofs `p` and foci `f`."""
        left = list(reversed(left))
        while left:
            kind = left.pop()
            lead = self.take(1)
            if kind == 't' and lead == 3:
                self.take(self.take(4))
                continue
            sizes, behind = {'T': self.TYPES, 't': self.TERMS, 'p': self.PROOFS, 'f': self.FOCI}[kind][lead]
            read = [self.take(size) for size in sizes]
            if (kind, lead) == ('p', 10):
                behind = 'T' * read[1] + behind
            elif (kind, lead) == ('T', 1):
                behind = 'T' * self.KIND_ARGUMENTS.get(read[0], 0)
            elif (kind, lead) == ('t', 1):
                behind = 'T' * self.constants.get(read[0], 0)
            self.count += kind in 'pf'
            left.extend(reversed(behind))

    def read(self):
        self.take(4), self.take(2)
        for _ in range(self.take(4)):
            self.nodes('T' * self.take(4))
            self.nodes('t' * self.take(4) + 'p')
        return self.at == len(self.held)


def every_byte(program, folder, _):
    """Each cut of a certificate of three answers, and each byte changed."""
    table = with_module(program, folder, 'bytes')
    run([program, 'prove', 'u', 'q X', '--answers', '3'], folder)
    held = bytes_of(os.path.join(folder, 'u.cert'))
    begins = []
    if not Fields(held, begins=begins).read():
        table.wrong('the certificates are no spelling')
    for length in range(len(held)):
        # The field that the cut goes through, or the first that is not there.
        place = max(at for at in begins if at <= length)
        table.put('u.cert', held[:length])
        table.row('cut at %d' % length, ['check', 'u', 'q X'], 3, 'image: u.cert: truncated at %d\n' % place)
    ends = collections.Counter()
    for at, byte in enumerate(held):
        for other in {0, 1, 7, 32, 255, byte ^ 1, byte ^ 128, (byte + 1) % 256} - {byte}:
            table.put('u.cert', held[:at] + bytes([other]) + held[at + 1:])
            got, output = ran([program, 'check', 'u', 'q X'], folder)
            table.count += 1
            ends[got] += 1
            fits = {3: b'image: u.cert: ', 14: b'no: certificate ', 0: b'accepted '}.get(got)
            if fits is None or not output.startswith(fits):
                table.wrong('byte %d is %d: status %s, %r' % (at, other, got, output))
            if got == 0:
                # One answer may be changed to another proof only where the file names as many certificates.
                print('  accepted with byte %d changed from %d to %d' % (at, byte, other))
    print('  changed bytes: ' + ', '.join('status %s: %d' % it for it in sorted(ends.items(), key=str)))
    return table.told()


def deep(program, folder, _):
    """Proofs, terms and types of a million nodes in depth; a file may have 16 MiB."""
    table = with_module(program, folder, 'deep')
    million = 1000000
    left = b'\0\0\0\0'

    def check(what, query, status, said, values, proof, types=()):
        table.put('u.cert', certificate(values, proof, types))
        table.row(what, ['check', 'u', query], status, said)

    check('a million calls', 'r', 0, ACCEPTED, [], back(2, NEED) * million + back(3, HIT) + HIT * million)
    check('a million calls, and no end', 'r', 3, lambda said: said.startswith(b'image: u.cert: truncated at '), [], back(2, NEED) * million)
    check('a million calls, and a wrong end', 'r', 14, REJECTED, [], back(2, NEED) * million + back(0, HIT) + HIT * million)
    check('a million conversions to what stands there', 'r', 0, ACCEPTED, [], (b'\0' + R) * million + back(3, HIT))
    check('a million conversions of a clause', 'r', 0, ACCEPTED, [], back(3, (b'\x10' + R) * million + HIT))
    check('a million times And of one goal', 'r', 14, REJECTED, [], b'\x02' * million + TRUE * (million + 1))
    check('a million times All of one goal', 'r', 14, REJECTED, [], b'\x06' * million + TRUE)
    same = abstracted(b'\0' + number(0))
    i = [b'\x01' + number(8)]
    check('a value of a million nodes: its heads', 'X = Y', 0, ACCEPTED, [numeral(million - 1), applied(same, numeral(million - 1))], b'\x08', i)
    check('a value of one more', 'X = Y', 7, DEEP, [numeral(million), applied(same, numeral(million))], b'\x08', i)
    check('two values that differ, of one more', 'X = Y', 7, DEEP, [numeral(million), numeral(million + 1)], b'\x08', i)
    check('a proof of another instance', 'q X', 14, REJECTED, [numeral(400000)], back(0, HIT))
    check('abstractions, a million deep', 'r', 14, REJECTED, [], b'\0' + b'\x06' * million + b'\0' + left + TRUE)
    check('a type a million arrows deep', 'X = X', 14, REJECTED, [b'\x05' + number(0) + (b'\x02\x01' + number(8)) * million + b'\x01' + number(8)], b'\x08', [b'\x01' + number(8)])
    check('a closed type a million arrows deep', 'X = X', 0, ACCEPTED, [b'\x05' + number(0) + (b'\x02\x01' + number(8)) * million + b'\x01' + number(8)], b'\x08', [(b'\x02\x01' + number(8)) * million + b'\x01' + number(8)])
    check('more than 16 MiB', 'r', 11, 'limit: image\n', [], TRUE * (16 << 20))
    return table.told()


def instances(program, folder, _):
    """Certificates that name no instance, or prove something else."""
    table = with_module(program, folder, 'instances')
    one = back(0, HIT)
    own, arrow, i = b'\0' + number(0), b'\x02', b'\x01' + number(8)
    index, eigen, parameter = b'\0' + number(0), b'\x04' + number(1), b'\x05' + number(0)
    text = b'\x03' + number(1) + b'a'
    identity = abstracted(index)
    rows = [
        ('as it is', 'q X', 0, [A], one, []),
        ('no values', 'q X', 14, [], one, []),
        ('two values', 'q X', 14, [A, A], one, []),
        ('a type too many', 'q X', 14, [A], one, [i]),
        ('a value of another type', 'q X', 14, [S], one, []),
        ('an integer', 'q X', 14, [b'\x02' + bytes(8)], one, []),
        ('a string', 'q X', 14, [text], one, []),
        ('a loose index', 'q X', 14, [index], one, []),
        ('a loose index under a binder', 'f F', 14, [abstracted(b'\0' + number(1))], back(4, b'\x11' + identity + HIT), []),
        ('an eigenconstant', 'q X', 14, [eigen], one, []),
        ('a parameter, which is closed, and no fact', 'q X', 14, [parameter + i], one, []),
        ('a parameter, and a clause for all', 'f F', 0, [parameter + arrow + i + i], back(4, b'\x11' + parameter + arrow + i + i + HIT), []),
        ('no type for a type variable', 'X = X', 14, [A], b'\x08', []),
        ('the type of the value', 'X = X', 0, [A], b'\x08', [i]),
        ('a type parameter, and a value of it', 'X = X', 0, [parameter + own], b'\x08', [own]),
        ('a type parameter, and a value of another', 'X = X', 14, [A], b'\x08', [own]),
        ('a value that is a formula', 'X = true', 0, [TRUTH], b'\x08', []),
        ('a value that is not positive', 'X = true', 14, [applied(applied(IMPLIES, TRUTH), TRUTH)], b'\x08', []),
        ('a value that converts to a positive one', 'X = true', 14, [applied(abstracted(TRUTH), applied(applied(IMPLIES, TRUTH), TRUTH))], b'\x08', []),
        ('a proof of another instance', 'q X', 14, [applied(S, A)], one, []),
        ('the proof of this one', 'q X', 0, [applied(S, A)], back(1, b'\x11' + A + b'\x10' + applied(applied(IF, applied(Q, applied(S, A))), applied(Q, A)) + NEED + one + HIT), []),
        ('a clause behind the last', 'q X', 14, [A], back(5, HIT), []),
        ('a clause of the greatest number', 'q X', 14, [A], back(2 ** 32 - 1, HIT), []),
        ('types for a clause without', 'q X', 14, [A], b'\x0a' + number(0) + b'\x01\0' + i + HIT, []),
        ('another node', 'q X', 14, [A], TRUE, []),
        ('the value of another side', '(r ; q X)', 0, [A], b'\x04' + one, []),
        ('the wrong side', '(r ; q X)', 14, [A], b'\x03' + one, []),
        ('an eigenconstant that is there', 'pi x\\ (q x => q x)', 0, [], b'\x06\0' + applied(applied(IMPLIES, applied(Q, eigen)), applied(Q, eigen)) + b'\x07' + back(5, HIT), []),
        ('an eigenconstant that is not yet there', 'sigma x\\ q x', 14, [], b'\x05' + eigen + one, []),
        ('a witness', 'sigma x\\ q x', 0, [], b'\x05' + A + b'\0' + applied(Q, A) + one, []),
        ('a conversion to another type', 'r', 14, [], b'\0' + A + back(3, HIT), []),
        ('a conversion to another goal', 'r', 14, [], b'\0' + applied(Q, A) + one, []),
    ]
    for what, query, status, values, proof, types in rows:
        table.put('u.cert', certificate(values, proof, types))
        table.row(what, ['check', 'u', query], status, ACCEPTED if status == 0 else REJECTED)
    for what, bad, at in (('a kind without a value', b'\x01' + number(9), 15), ('a leading byte of a type', b'\x03', 14)):
        table.put('u.cert', certificate([A], b'\x08', [bad]))
        table.row(what, ['check', 'u', 'X = X'], 3, 'image: u.cert: bad field at %d\n' % at)
    return table.told()


def negations(program, folder, _):
    """A token `not` in a text that is loaded or in the query, the first one in the order of loading."""
    table = with_module(program, folder, 'negations')
    table.put('u.cert', certificate([A], back(0, HIT)))
    table.put('n.sig', 'sig n. type p o.\n')
    table.put('n.mod', 'module n.\n% not here\np :- "not" = "not".\np :- not p, not p.\n')
    table.put('m.sig', 'sig m. type z o.\n')
    table.put('m.mod', 'module m. accumulate n.\nz :- not z.\n')
    table.put('k.sig', 'sig k. type z o.\n')
    table.put('k.mod', 'module k. accumulate n.\nz.\n')
    rows = [
        ('in a query', 'u', 'q X, not (q X)', 'query:1:6'),
        ('in a module', 'n', 'p', 'n.mod:4:6'),
        ('in a module, and the query', 'n', 'not p', 'n.mod:4:6'),
        ('in two modules', 'm', 'z', 'm.mod:2:6'),
        ('in a module that is accumulated', 'k', 'z', 'n.mod:4:6'),
    ]
    for what, module, query, place in rows:
        for command in ('prove', 'check'):
            table.row('%s, %s' % (command, what), [command, module, query], 2, 'source: %s: unsupported not\n' % place)
    return table.told()


# Sessions.

def unexpected(column):
    return 'source: query:1:%d: unexpected token\n' % column


PRINTS = [
    ('print', unexpected(6)),
    ('print ', unexpected(7)),
    ('print.', unexpected(6)),
    ('print .', unexpected(7)),
    ('print . true', unexpected(7)),
    ('print X', unexpected(8)),
    ('print X Y', unexpected(10)),
    ('print _. true', unexpected(7)),
    ('print X _. true', unexpected(9)),
    ('print x. true', unexpected(7)),
    ('print X, Y. true', unexpected(8)),
    ('print X Y true', unexpected(11)),
    ('print (X). true', unexpected(7)),
    ('print 1. true', unexpected(7)),
    ('print "X". true', unexpected(7)),
    ('print print X. true', unexpected(7)),
    ('print X 1.5', unexpected(9)),
    ('print X.true', 'source: query:1:7: undeclared name X\n'),
    ('print Z. true', 'source: query:1:7: undeclared name Z\n'),
    ('print X Z Y. (X = 1, Y = 2)', 'source: query:1:9: undeclared name Z\n'),
    ('\tprint X /* names */ Z Z. X = 1', 'source: query:1:22: undeclared name Z\n'),
    ('print Z. X = "a', 'source: query:1:14: unclosed string\n'),
    ('print 1 "', 'source: query:1:9: unclosed string\n'),
    ('print Z. nothing', 'source: query:1:10: undeclared name nothing\n'),
    ('print Z. (X', 'source: query:1:10: unclosed bracket\n'),
    ('print Z.', unexpected(9)),
    ('print X. print X. X = 1', 'source: query:1:10: unsupported print\n'),
    ('X = print', 'source: query:1:5: unsupported print\n'),
    ('(print X. X = 1)', 'source: query:1:2: unsupported print\n'),
    ('print _x. _x = 1', 'answer 1\n  _x = 1\nno more answers\n'),
    ('print X. X = 1.', 'answer 1\n  X = 1\nno more answers\n'),
    ('print X X. X = 1', 'answer 1\n  X = 1\n  X = 1\nno more answers\n'),
    ('print Y X. (X = 1, Y = 2) % said', 'answer 1\n  Y = 2\n  X = 1\nno more answers\n'),
    ('print X. (X = F, F = F)', 'answer 1\n  X = _1\nno more answers\n'),
    ('printed', 'source: query:1:1: undeclared name printed\n'),
]


def reply_of(table, line):
    """What `query` writes for a text."""
    return ran([table.program, 'query', 'e', line], table.folder)[1].decode()


def session(table, what, text, replies):
    """A session writes these replies, each behind its number."""
    table.put('e.qry', text)
    said = ''.join('query %d\n%s' % (at + 1, reply) for at, reply in enumerate(replies))
    answers = sum(line.startswith('answer ') for reply in replies for line in reply.splitlines())
    table.row(what, ['session', 'e'], 0, said + 'queries %d, answers %d\n' % (len(replies), answers))


def sessions(program, folder, _):
    """Lines and files of all kinds; what is replied to a line is what `query` writes for it."""
    table = Table(program, folder, 'sessions')
    table.put('e.sig', 'sig e.\n')
    table.put('e.mod', 'module e.\n')
    table.row('compile', ['compile', 'e'], 0, 'wrote e.lpo\n')
    table.row('link', ['link', 'e'], 0, 'wrote e.lp\n')
    table.row('no lines', ['session', 'e'], 12, 'missing: e.qry\n')
    one, two = 'answer 1\n  X = 1\nno more answers\n', 'answer 1\n  X = 2\nno more answers\n'
    for what, text, replies in [
        ('nothing', '', []),
        ('a line feed', '\n', []),
        ('line feeds', '\n\n\n', []),
        ('blanks', ' \t \n\t\n  ', []),
        ('a carriage return', '\r', []),
        ('blanks and carriage returns', '\r\n \r\n\t\r\r\n', []),
        ('no line feed behind the last', 'X = 1', [one]),
        ('one behind it', 'X = 1\n', [one]),
        ('two lines', 'X = 1\n\nX = 2', [one, two]),
        ('carriage returns in front of line feeds', 'X = 1\r\nX = 2\r\n', [one, two]),
        ('a carriage return alone ends no line', 'X = 1\rX = 2\n', [reply_of(table, 'X = 1\rX = 2')]),
        ('a comment alone is a query', '% none\n', [reply_of(table, '% none')]),
        ('a comment ends with its line', '/* none\nX = 1\n*/\n', [reply_of(table, '/* none'), one, reply_of(table, '*/')]),
        ('bytes that are no text', 'X = 1\n\x7f\nX = 2\n', [one, reply_of(table, '\x7f'), two]),
    ]:
        session(table, what, text, replies)
    table.put('e.qry', b'X = 1\n\0\xff\nX = 2\n')
    table.row('a null byte', ['session', 'e'], 0, 'query 1\n%squery 2\nsource: query:1:1: bad byte\nquery 3\n%squeries 3, answers 2\n' % (one, two))
    for line, said in PRINTS:
        session(table, line, 'X = 1\n%s\nX = 2' % line, [one, said, two])
    million = 1 << 20
    blank = 'X = 1'.ljust(million)
    session(table, 'a line of 1 MiB', blank, [one])
    session(table, 'a line of 1 MiB of comment', 'X = 1 %'.ljust(million, 'x'), [one])
    session(table, 'a name of 1 MiB', 'x' * million, ['source: query:1:1: undeclared name %s\n' % ('x' * million)])
    session(table, 'a shown name of nearly 1 MiB', 'print %s. true' % ('X' * (million - 13)), ['source: query:1:7: undeclared name %s\n' % ('X' * (million - 13))])
    session(table, 'a string of 1 MiB without its end', '"'.ljust(million, 'x'), ['source: query:1:1: unclosed string\n'])
    session(table, 'brackets', '(' * million, [alone_reply(table, '(' * million)])
    session(table, 'line feeds alone', '\n' * million, [])
    session(table, 'a query to each line', 'X=1\n' * (million // 4), [one] * (million // 4))
    table.put('e.qry', ' ' * (million + 1))
    table.row('more than 1 MiB', ['session', 'e'], 11, 'limit: file\n')
    return table.told()


def alone_reply(table, line):
    """What a session replies to a line alone, where the words of a command cannot hold it."""
    table.put('e.qry', line)
    return ran([table.program, 'session', 'e'], table.folder)[1].decode().split('\n', 1)[1].rsplit('queries ', 1)[0]


PARTS = {'bytes': every_byte, 'deep': deep, 'instances': instances, 'negations': negations, 'sessions': sessions, 'random': at_random}


def main():
    asked = argparse.ArgumentParser()
    asked.add_argument('--cmd', default=os.path.join(HERE, '..', 'lprolog'))
    asked.add_argument('--seed', type=int, default=1)
    asked.add_argument('--count', type=int, default=1000)
    asked.add_argument('--only', nargs='*', choices=PARTS, default=list(PARTS))
    options = asked.parse_args()
    faults = 0
    for part in options.only:
        with tempfile.TemporaryDirectory() as folder:
            faults += PARTS[part](os.path.abspath(options.cmd), folder, options)
    return 1 if faults else 0


if __name__ == '__main__':
    raise SystemExit(main())
