#!/usr/bin/env python3
"""Times the search on programs of the whole language, beside ELPI and SWI-Prolog where they are installed.

    bench/language.py [--cmd ./lprolog] [NAME ..]

For each program: steps (goals and cuts that the watcher counts), seconds, steps a second and peak memory; then the seconds and the peak memory
of ELPI, and of SWI-Prolog where the program is first-order. Start and reading of the files are counted everywhere.
"""
import argparse
import os
import shutil
import subprocess
import tempfile
import time

HERE = os.path.dirname(os.path.abspath(__file__))


def numeral(n):
    """The Church numeral of n, as a term of the simply typed lambda calculus."""
    return 'abs f\\ abs x\\ ' + 'app f (' * n + 'x' + ')' * n


def nested(n):
    """A closed lambda term of n nodes, abstractions and applications in turn."""
    def body(k, depth):
        if k == 0:
            return 'x%d' % depth
        if k % 2 == 1:
            return '(abs x%d\\ %s)' % (depth + 1, body(k - 1, depth + 1))
        return '(app x%d %s)' % (k % depth + 1, body(k - 1, depth))
    return '(abs x1\\ %s)' % body(n, 1)


# Each program: types, clauses, goal, and the clauses and the goal for Prolog where there are any.
def reverse():
    types = ['type app list A -> list A -> list A -> o.', 'type rev list A -> list A -> o.', 'type upto int -> list int -> o.',
             'type times int -> list int -> o.']
    clauses = ['app nil L L.', 'app (X :: L) K (X :: M) :- app L K M.', 'rev nil nil.', 'rev (X :: L) K :- rev L M, app M (X :: nil) K.',
               'upto 0 nil.', 'upto N (N :: L) :- 0 < N, M is N - 1, upto M L.',
               'times 0 L.', 'times N L :- 0 < N, rev L K, M is N - 1, times M L.']
    prolog = ['app([], L, L).', 'app([X|L], K, [X|M]) :- app(L, K, M).', 'rev([], []).', 'rev([X|L], K) :- rev(L, M), app(M, [X], K).',
              'upto(0, []).', 'upto(N, [N|L]) :- 0 < N, M is N - 1, upto(M, L).',
              'times(0, _).', 'times(N, L) :- 0 < N, rev(L, _), M is N - 1, times(M, L).']
    return 'reverse', types, clauses, 'upto 250 L, times 10 L', (prolog, 'upto(250, L), times(10, L)')


def copy():
    types = ['kind tm type.', 'type abs (tm -> tm) -> tm.', 'type app tm -> tm -> tm.', 'type copy tm -> tm -> o.', 'type times int -> tm -> o.']
    clauses = ['copy (app M N) (app P Q) :- copy M P, copy N Q.', 'copy (abs M) (abs P) :- pi x\\ pi y\\ (copy x y => copy (M x) (P y)).',
               'times 0 T.', 'times N T :- 0 < N, copy T S, M is N - 1, times M T.']
    return 'copy', types, clauses, 'times 10 ' + nested(250), None


def church():
    types = ['kind tm, ty type.', 'type abs (tm -> tm) -> tm.', 'type app tm -> tm -> tm.', 'type arr ty -> ty -> ty.', 'type of tm -> ty -> o.']
    clauses = ['of (app M N) B :- of M (arr A B), of N A.', 'of (abs M) (arr A B) :- pi x\\ (of x A => of (M x) B).']
    return 'church', types, clauses, 'of (%s) T' % numeral(200), None


def queens():
    types = ['type pick int -> list int -> list int -> o.', 'type safe int -> int -> list int -> o.', 'type place list int -> list int -> list int -> o.']
    clauses = ['pick X (X :: L) L.', 'pick X (Y :: L) (Y :: M) :- pick X L M.', 'safe Q D nil.',
               'safe Q D (P :: L) :- differ Q (P + D), differ Q (P - D), E is D + 1, safe Q E L.', 'differ X Y :- X < Y ; Y < X.',
               'place nil P P.', 'place L P K :- pick Q L M, safe Q 1 P, place M (Q :: P) K.']
    types.append('type differ int -> int -> o.')
    prolog = ['pick(X, [X|L], L).', 'pick(X, [Y|L], [Y|M]) :- pick(X, L, M).', 'safe(_, _, []).',
              'safe(Q, D, [P|L]) :- differ(Q, P + D), differ(Q, P - D), E is D + 1, safe(Q, E, L).', 'differ(X, Y) :- X < Y ; Y < X.',
              'place([], P, P).', 'place(L, P, K) :- pick(Q, L, M), safe(Q, 1, P), place(M, [Q|P], K).']
    return 'queens', types, clauses, 'place [1, 2, 3, 4, 5, 6, 7, 8] nil K, !', (prolog, 'place([1, 2, 3, 4, 5, 6, 7, 8], [], _)')


def run(words, folder):
    """Seconds, peak memory in MiB, and output of a command."""
    start = time.time()
    child = subprocess.Popen(words, cwd=folder, stdin=subprocess.DEVNULL, stdout=subprocess.PIPE, stderr=subprocess.STDOUT, text=True)
    output = child.stdout.read()
    _, _, usage = os.wait4(child.pid, 0)
    return time.time() - start, usage.ru_maxrss / 1024, output


def steps_of(output):
    """Goals and cuts, from the counter's report."""
    for line in output.splitlines():
        if line.startswith('goals '):
            parts = dict(part.split(' ') for part in line.split(', '))
            return int(parts['goals']) + int(parts['cuts'])
    return 0


def write(folder, name, lines):
    with open(os.path.join(folder, name), 'w') as file:
        file.write('\n'.join(lines) + '\n')


def measure(program, command):
    name, types, clauses, goal, prolog = program
    with tempfile.TemporaryDirectory() as folder:
        write(folder, name + '.sig', ['sig %s.' % name] + types)
        write(folder, name + '.mod', ['module %s.' % name] + clauses)
        seconds, memory, output = run([command, 'solve', name, goal, '--steps', '100000000', '--answers', '1'], folder)
        steps = steps_of(run([command, 'solve', name, goal, '--steps', '100000000', '--answers', '1', '--watch'], folder)[2])
        last = [line for line in output.splitlines() if not line.startswith(' ')][-1:]
        line = '%-8s %9d steps %8.3f s %10.0f steps/s %7.0f MiB  (%s)' % (name, steps, seconds, steps / seconds, memory, ' '.join(last))
        if shutil.which('elpi'):
            write(folder, 'program.elpi', types + clauses + ['main :- %s.' % goal])
            seconds, memory, output = run(['elpi', '-no-tc', '-test', 'program.elpi'], folder)
            line += '  elpi %.3f s %.0f MiB' % (seconds, memory)
        if prolog and shutil.which('swipl'):
            write(folder, 'program.pl', prolog[0])
            seconds, memory, output = run(['swipl', '-q', '-g', prolog[1], '-t', 'halt', 'program.pl'], folder)
            line += '  swipl %.3f s %.0f MiB' % (seconds, memory)
        print(line, flush=True)


def main():
    parser = argparse.ArgumentParser()
    parser.add_argument('--cmd', default=os.path.join(HERE, '..', 'lprolog'))
    parser.add_argument('names', nargs='*')
    words = parser.parse_args()
    for program in (reverse(), copy(), church(), queens()):
        if not words.names or program[0] in words.names:
            measure(program, os.path.abspath(words.cmd))


if __name__ == '__main__':
    main()
