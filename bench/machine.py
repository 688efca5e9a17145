#!/usr/bin/env python3
"""Times the machine: `query` on images beside `solve` on texts, and beside ELPI and SWI-Prolog where they are installed.

    bench/machine.py [--cmd ./lprolog] [--no-solve] [NAME ..]

For each program: steps (goals and cuts that the watcher counts), processor time of `query`, steps a second, and bytes a step (peak memory less
that of a query without a search, by the steps); then the processor time of `solve`, of ELPI, and of SWI-Prolog where the program is first-order.
Of `query` and of the others a run that does nothing is taken off, so that start and loading are not counted. Then a session of many short queries.
A run is ended after 300 s, and shown as such.
"""
import argparse
import os
import resource
import shutil
import subprocess
import tempfile
import time

import language

HERE = os.path.dirname(os.path.abspath(__file__))
LONGEST = 300


def reverse():
    name, types, clauses, _, prolog = language.reverse()
    return name, types, clauses, 'upto 400 L, times 3 L', (prolog[0], 'upto(400, L), times(3, L)')


def chain():
    """A chain of 300 facts and its transitive closure: every pair is found, and none is kept."""
    nodes = ['n%d' % i for i in range(301)]
    types = ['kind p type.', 'type %s p.' % ', '.join(nodes + ['nowhere']), 'type par, anc p -> p -> o.', 'type never p -> o.']
    rules = ['anc X Y :- par X Y.', 'anc X Y :- par X Z, anc Z Y.', 'never nowhere.']
    facts = ['par %s %s.' % pair for pair in zip(nodes, nodes[1:])]
    prolog = ['par(%s, %s).' % pair for pair in zip(nodes, nodes[1:])]
    prolog += ['anc(X, Y) :- par(X, Y).', 'anc(X, Y) :- par(X, Z), anc(Z, Y).', 'never(nowhere).']
    return 'chain', types, facts + rules, 'anc X Y, never Y', (prolog, '(anc(_, Y), never(Y) ; true)')


def loop():
    """Ten million steps of a deterministic loop: a count of 3,333,333, three steps each."""
    types = ['type count int -> o.']
    clauses = ['count 0.', 'count N :- 0 < N, M is N - 1, count M.']
    prolog = ['count(0).', 'count(N) :- 0 < N, M is N - 1, count(M).']
    return 'loop', types, clauses, 'count 3333333', (prolog, 'count(3333333)')


def turn():
    """Ten million calls of a clause that calls itself: nothing is bound."""
    return 'turn', ['type r, q o.'], ['r :- r.', 'q.'], 'r', None


def outward(count=200):
    """A copy of a term of 200 binders, one in the other, each of whose bodies refers to one further out."""
    term = 'x%d' % (count - 1)
    for i in reversed(range(count)):
        term = '(abs x%d\\ app %s x%d)' % (i, term, i // 2)
    types = ['kind tm type.', 'type abs (tm -> tm) -> tm.', 'type app tm -> tm -> tm.', 'type copy tm -> tm -> o.']
    clauses = ['copy (app M N) (app P Q) :- copy M P, copy N Q.', 'copy (abs M) (abs P) :- pi x\\ (copy x x => copy (M x) (P x)).']
    return 'outward', types, clauses, 'copy %s T' % term, None


def run(words, folder):
    """Processor seconds, peak memory in KiB and output of a command; no seconds where it was ended."""
    before = resource.getrusage(resource.RUSAGE_CHILDREN)
    child = subprocess.Popen(['timeout', str(LONGEST)] + words, cwd=folder, stdin=subprocess.DEVNULL, stdout=subprocess.PIPE, stderr=subprocess.STDOUT, text=True)
    output = child.stdout.read()
    _, status, usage = os.wait4(child.pid, 0)
    after = resource.getrusage(resource.RUSAGE_CHILDREN)
    seconds = after.ru_utime + after.ru_stime - before.ru_utime - before.ru_stime
    return (None if os.waitstatus_to_exitcode(status) == 124 else seconds), usage.ru_maxrss, output


def best(words, folder, runs=3):
    """The least seconds of a few runs, with the memory and the output of the last."""
    least, memory, output = run(words, folder)
    for _ in range(runs - 1):
        if least is None or least > 20:
            break
        seconds, memory, output = run(words, folder)
        if seconds is not None and seconds < least:
            least = seconds
    return least, memory, output


def shown(seconds, nothing):
    return '  > %d s' % LONGEST if seconds is None else '%8.3f s' % max(seconds - nothing, 0.001)


def ours(command, program, folder, solves):
    name, types, clauses, goal, _ = program
    language.write(folder, name + '.sig', ['sig %s.' % name] + types + ['type idle o.'])
    language.write(folder, name + '.mod', ['module %s.' % name] + clauses + ['idle.'])
    for word in ('compile', 'link'):
        _, _, output = run([command, word, name], folder)
        if not output.startswith('wrote'):
            return '%-8s %s' % (name, output.strip())
    limits = ['--steps', '10000000' if name == 'turn' else '100000000', '--answers', '1']
    nothing, start, _ = best([command, 'query', name, 'idle'], folder)
    seconds, memory, output = best([command, 'query', name, goal] + limits, folder)
    steps = language.steps_of(run([command, 'query', name, goal] + limits + ['--watch'], folder)[2])
    last = [line for line in output.splitlines() if not line.startswith(' ')][-1:]
    line = '%-8s %9d steps  query %s' % (name, steps, shown(seconds, nothing))
    if seconds is not None and steps:
        line += ' %10.0f steps/s %6.0f bytes/step' % (steps / max(seconds - nothing, 0.001), (memory - start) * 1024 / steps)
    line += '  (%s)' % ' '.join(last)
    if solves:
        idle, _, _ = best([command, 'solve', name, 'idle'], folder)
        line += '  solve %s' % shown(best([command, 'solve', name, goal] + limits, folder, 1)[0], idle)
    return line


def others(program, folder):
    _, types, clauses, goal, prolog = program
    line = ''
    if shutil.which('elpi') and program[0] != 'turn':
        language.write(folder, 'program.elpi', types + clauses + ['idle.', 'main :- %s.' % goal if program[0] != 'chain' else 'main :- %s.\nmain.' % goal])
        language.write(folder, 'nothing.elpi', types + clauses + ['idle.', 'main :- idle.'])
        nothing, _, _ = best(['elpi', '-no-tc', '-test', 'nothing.elpi'], folder)
        line += '  elpi %s' % shown(best(['elpi', '-no-tc', '-test', 'program.elpi'], folder)[0], nothing)
    if prolog and shutil.which('swipl'):
        language.write(folder, 'program.pl', prolog[0])
        nothing, _, _ = best(['swipl', '-q', '-g', 'true', '-t', 'halt', 'program.pl'], folder)
        line += '  swipl %s' % shown(best(['swipl', '-q', '-g', prolog[1], '-t', 'halt', 'program.pl'], folder)[0], nothing)
    return line


def measure(program, command, solves):
    with tempfile.TemporaryDirectory() as folder:
        print(ours(command, program, folder, solves) + others(program, folder), flush=True)


def session(command, queries=10000, clauses=5000):
    """Many short queries on an image of many clauses, by `session`."""
    half = clauses // 2
    types = ['kind p type.', 'type next, prev p -> p -> o.'] + ['type n%d p.' % i for i in range(half + 1)]
    facts = ['next n%d n%d.' % (i, i + 1) for i in range(half)] + ['prev n%d n%d.' % (i + 1, i) for i in range(half)]
    with tempfile.TemporaryDirectory() as folder:
        language.write(folder, 'facts.sig', ['sig facts.'] + types)
        language.write(folder, 'facts.mod', ['module facts.'] + facts)
        for word in ('compile', 'link'):
            run([command, word, 'facts'], folder)
        language.write(folder, 'facts.qry', ['next n0 X.'])
        nothing, start, _ = best([command, 'session', 'facts'], folder)
        language.write(folder, 'facts.qry', ['next n%d X.' % (i % half) for i in range(queries)])
        seconds, memory, output = best([command, 'session', 'facts'], folder)
        last = ' '.join(output.splitlines()[-1:])
        print('session  %d queries on %d clauses: %s, %.0f MiB, loading %.3f s  (%s)' % (queries, clauses, shown(seconds, nothing), memory / 1024, nothing, last), flush=True)


def main():
    parser = argparse.ArgumentParser()
    parser.add_argument('--cmd', default=os.path.join(HERE, '..', 'lprolog'))
    parser.add_argument('--no-solve', action='store_true')
    parser.add_argument('names', nargs='*')
    words = parser.parse_args()
    command = os.path.abspath(words.cmd)
    for program in (reverse(), language.copy(), language.queens(), language.church(), outward(), chain(), loop(), turn()):
        if not words.names or program[0] in words.names:
            measure(program, command, not words.no_solve)
    if not words.names or 'session' in words.names:
        session(command)


if __name__ == '__main__':
    main()
