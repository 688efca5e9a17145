#!/usr/bin/env python3
"""Times certificates: `prove` and `check` beside `solve`, and `check` on proofs of many nodes.

    bench/certificates.py [--cmd ./lprolog] [NAME ..]

For each program: processor seconds of `solve`, of `prove`, which writes certificates and has them judged before, and of `check` on the file; the
quotient of `prove` and `solve`, and the nodes of the proofs and the bytes of the file. Of each the least of some runs, less a run that does nothing. Then `check` on a file of
100,000 nodes, and of 1,000,000, each of a proof as deep as that.
"""
import argparse
import os
import tempfile

import hostile
import language
import machine

HERE = os.path.dirname(os.path.abspath(__file__))


# Each program: name, types, clauses, goal, and the numbers of those constants that have a type variable.
def count(steps=8000):
    """A loop of deterministic steps: three goals each."""
    return 'count', ['type count int -> o.'], ['count 0.', 'count N :- 0 < N, M is N - 1, count M.'], 'count %d' % steps, []


def appended(size=40):
    """Every split of a list: one certificate each."""
    goal = 'append X Y [%s]' % ', '.join(map(str, range(size)))
    return 'append', ['type append list A -> list A -> list A -> o.'], ['append nil L L.', 'append (X :: L) K (X :: M) :- append L K M.'], goal, [32]


def reversed_lists():
    name, types, clauses, _, _ = language.reverse()
    return name, types, clauses, 'upto 30 L, times 2 L', [32, 33]


def typed():
    name, types, clauses, _, _ = language.church()
    return name, types, clauses, 'of (%s) T' % language.numeral(100), []


def copied():
    name, types, clauses, _, _ = language.copy()
    return name, types, clauses, 'times 2 ' + language.nested(60), []


def searched():
    name, types, clauses, goal, _ = language.queens()
    return name, types, clauses, goal, []



def seconds_of(words, folder, runs):
    least, _, output = machine.best(words, folder, runs)
    return least, output


def measure(program, command):
    name, types, clauses, goal, typed_constants = program
    with tempfile.TemporaryDirectory() as folder:
        language.write(folder, name + '.sig', ['sig %s.' % name] + types + ['type idle o.'])
        language.write(folder, name + '.mod', ['module %s.' % name] + clauses + ['idle.'])
        limits = ['--steps', '100000000', '--answers', '1000']
        nothing, _ = seconds_of([command, 'solve', name, 'idle'], folder, 3)
        solved, _ = seconds_of([command, 'solve', name, goal] + limits, folder, 3)
        proved, output = seconds_of([command, 'prove', name, goal] + limits, folder, 3)
        checked, said = seconds_of([command, 'check', name, goal], folder, 3)
        path = os.path.join(folder, name + '.cert')
        nodes, size = 0, 0
        if os.path.exists(path):
            fields = hostile.Fields(hostile.bytes_of(path), [(it, 1) for it in typed_constants])
            fields.read()
            nodes, size = fields.count, fields.at
        a, b, c = (max(it - nothing, 0.001) for it in (solved, proved, checked))
        print('%-8s solve %7.3f s  prove %7.3f s: %6.2f times  check %7.3f s  %7d nodes, %8d bytes  (%s; %s)'
              % (name, a, b, b / a, c, nodes, size, output.splitlines()[0], said.strip()), flush=True)


def deep(command, nodes):
    """`check` on a proof of so many nodes, one in the other: calls of `r :- r`, with three nodes each."""
    levels = nodes // 3
    proof = hostile.back(2, hostile.NEED) * levels + hostile.back(3, hostile.HIT) + hostile.HIT * levels
    with tempfile.TemporaryDirectory() as folder:
        language.write(folder, 'u.sig', [hostile.SIGNATURE])
        language.write(folder, 'u.mod', [hostile.CLAUSES])
        for held in (hostile.certificate([], hostile.back(3, hostile.HIT)), hostile.certificate([], proof)):
            hostile.write(os.path.join(folder, 'u.cert'), held)
            seconds, memory, said = machine.best([command, 'check', 'u', 'r'], folder, 3)
            if len(held) < 100:
                nothing = seconds
        print('deep     check of %d nodes, %d bytes: %.3f s, %.0f MiB  (%s)' % (levels * 3 + 2, len(held), seconds - nothing, memory / 1024, said.strip()), flush=True)


def main():
    parser = argparse.ArgumentParser()
    parser.add_argument('--cmd', default=os.path.join(HERE, '..', 'lprolog'))
    parser.add_argument('names', nargs='*')
    words = parser.parse_args()
    command = os.path.abspath(words.cmd)
    for program in (appended(), count(), reversed_lists(), typed(), copied(), searched()):
        if not words.names or program[0] in words.names:
            measure(program, command)
    if not words.names or 'deep' in words.names:
        deep(command, 100000)
        deep(command, 1000000)


if __name__ == '__main__':
    main()
