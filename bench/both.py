#!/usr/bin/env python3
"""Gives random modules and queries to both searches, `solve` on the texts and `query` on the image, and compares every byte that they write.

    bench/both.py [--cmd ./lprolog] [--seed N] [--count N]

The modules have facts and rules over terms, lists, functions and integers; goals are atoms, `,`, `;`, `pi`, `sigma`, `=>`, `=`, `not` and `!`.
Both are followed (`--watch`), so notes and counts are compared, too. A difference is printed with its texts, and the last line counts them.
"""
import argparse
import collections
import os
import random
import subprocess
import tempfile

SIGNATURE = ('sig m. kind i type. type a, b i. type f i -> i. type g i -> i -> i. type p i -> o. type q i -> i -> o. '
             'type l list i -> i -> o. type h (i -> i) -> i -> o. type n int -> i -> o.')
LONGEST = 30


class Texts:
    """Random texts from one seed."""

    def __init__(self, seed):
        self.random = random.Random(seed)

    def pick(self, *weighted):
        """One of the calls, by its weight."""
        calls, weights = zip(*weighted)
        return self.random.choices(calls, weights)[0]()

    def term(self, names, depth):
        leaf = lambda: self.random.choice(names + ['a', 'b'])
        if depth == 0:
            return leaf()
        return self.pick((leaf, 7), (lambda: '(f %s)' % self.term(names, depth - 1), 4),
                         (lambda: '(g %s %s)' % (self.term(names, depth - 1), self.term(names, depth - 1)), 9))

    def list(self, names, depth):
        if depth == 0:
            return 'nil'
        return self.pick((lambda: 'nil', 3), (lambda: self.random.choice(['L', 'K']), 2),
                         (lambda: '(%s :: %s)' % (self.term(names, 1), self.list(names, depth - 1)), 5))

    def function(self, names):
        return self.pick((lambda: '(x\\ %s)' % self.term(names + ['x'], 2), 1), (lambda: 'F', 1))

    def atom(self, names):
        return self.pick(
            (lambda: 'p %s' % self.term(names, 3), 6),
            (lambda: 'q %s %s' % (self.term(names, 2), self.term(names, 2)), 5),
            (lambda: 'l %s %s' % (self.list(names, 3), self.term(names, 1)), 3),
            (lambda: 'h %s %s' % (self.function(names), self.term(names, 1)), 3),
            (lambda: 'n %s %s' % (self.random.choice(['0', '1', 'N', 'M']), self.term(names, 1)), 3))

    def goal(self, names, depth=2):
        if depth == 0:
            return self.atom(names)
        below = lambda more: self.goal(names + more, depth - 1)
        return self.pick(
            (lambda: self.atom(names), 11),
            (lambda: '(%s, %s)' % (below([]), below([])), 2),
            (lambda: '(%s ; %s)' % (below([]), below([])), 2),
            (lambda: '(pi z\\ %s)' % below(['z']), 2),
            (lambda: '(sigma w\\ %s)' % below(['w']), 1),
            (lambda: '(%s => %s)' % (self.atom(names), below([])), 2),
            (lambda: '(%s = %s)' % (self.term(names, 2), self.term(names, 2)), 1),
            (lambda: '(not (%s))' % self.goal(['a'], depth - 1), 1),
            (lambda: '!', 1))

    def clause(self):
        names = ['X', 'Y', 'Z'][:self.random.randint(0, 3)]
        body = [self.goal(names) for _ in range(self.random.choice([0, 0, 1, 1, 2]))]
        return self.atom(names) + (' :- ' + ', '.join(body) if body else '') + '.'

    def module(self):
        return 'module m. ' + ' '.join(self.clause() for _ in range(self.random.randint(3, 9)))

    def query(self):
        return ', '.join(self.goal(['X', 'Y']) for _ in range(self.random.randint(1, 2)))


def run(words, folder):
    """Status and output of a command; no status where it was ended."""
    try:
        ended = subprocess.run(words, cwd=folder, stdin=subprocess.DEVNULL, stdout=subprocess.PIPE, timeout=LONGEST)
    except subprocess.TimeoutExpired:
        return None, b''
    return ended.returncode, ended.stdout


def compare(program, texts):
    """What both searches wrote of one module and query, and the texts."""
    module, query = texts.module(), texts.query()
    with tempfile.TemporaryDirectory() as folder:
        for name, text in (('m.sig', SIGNATURE), ('m.mod', module)):
            with open(os.path.join(folder, name), 'w') as file:
                file.write(text)
        asked = ['m', query, '--steps', '400', '--answers', '30', '--watch']
        by_solve = run([program, 'solve'] + asked, folder)
        for command in ('compile', 'link'):
            status, output = run([program, command, 'm'], folder)
            if status != 0:
                return by_solve, (status, output), module, query
        return by_solve, run([program, 'query'] + asked, folder), module, query


def main():
    asked = argparse.ArgumentParser()
    asked.add_argument('--cmd', default=os.path.join(os.path.dirname(os.path.abspath(__file__)), '..', 'lprolog'))
    asked.add_argument('--seed', type=int, default=1)
    asked.add_argument('--count', type=int, default=1000)
    options = asked.parse_args()
    texts, differ, ends = Texts(options.seed), 0, collections.Counter()
    for _ in range(options.count):
        by_solve, by_query, module, query = compare(os.path.abspath(options.cmd), texts)
        ends[by_query[0]] += 1
        if by_solve != by_query:
            differ += 1
            print(module, query, by_solve, by_query, sep='\n')
    print('%d queries, %d differ; by status: %s' % (options.count, differ, dict(ends)))
    return 1 if differ else 0


if __name__ == '__main__':
    raise SystemExit(main())
