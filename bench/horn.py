#!/usr/bin/env python3
"""Times the search on Horn programs of constants and variables, beside SWI-Prolog where it is installed.

    bench/horn.py [--cmd ./lprolog]

For each program: steps (atomic goals taken), seconds, steps a second, peak memory, and how often the seconds that SWI-Prolog takes
for the query alone (of ours the start and the reading of the files are counted too).
"""
import argparse
import os
import shutil
import subprocess
import tempfile
import time

HERE = os.path.dirname(os.path.abspath(__file__))


def chain(length):
    """A chain of facts and its transitive closure: every pair is found, and none is kept."""
    nodes = ['n%d' % i for i in range(length + 1)]
    sig = ['sig chain.', 'kind p type.', 'type %s p.' % ', '.join(nodes + ['nowhere']),
           'type par, anc p -> p -> o.', 'type never p -> o.']
    facts = ['par %s %s.' % pair for pair in zip(nodes, nodes[1:])]
    rules = ['anc X Y :- par X Y.', 'anc X Y :- par X Z, anc Z Y.', 'never nowhere.']
    # the query's goal anc and its two goals par; for each pair found a goal anc with two goals par, and a goal never
    pairs = length * (length + 1) // 2
    steps = 3 + 3 * pairs + pairs
    return 'chain', sig, ['module chain.'] + facts + rules, 'anc X Y, never Y', steps


def same_generation(depth):
    """A binary tree and all pairs of one generation, found by going up and down again."""
    facts, last = [], 1
    for node in range(1, 2 ** depth):
        for child in (2 * node, 2 * node + 1):
            facts.append('up n%d n%d.' % (child, node))
            facts.append('down n%d n%d.' % (node, child))
            last = child
    names = ', '.join('n%d' % i for i in range(1, last + 1))
    sig = ['sig tree.', 'kind p type.', 'type %s p.' % names, 'type nowhere p.',
           'type up, down, same p -> p -> o.', 'type never p -> o.']
    rules = ['same X X.', 'same X Y :- up X U, same U V, down V Y.', 'never nowhere.']
    # one goal `up` of the query; for each node its goal `same`, and a goal `never` for every node of its generation
    steps, below = 1, 2
    for level in range(1, depth + 1):
        below = 2 + below + 2 ** (level - 1)
        steps += 2 ** level * (below + 2 ** level)
    return 'tree', sig, ['module tree.'] + facts + rules, 'up X U, same X Y, never Y', steps


def loop():
    return 'loop', ['sig loop.', 'type r, q o.'], ['module loop.', 'r :- r.', 'q.'], 'r', 1000000


def run(words, folder, stdin=None):
    start = time.time()
    child = subprocess.Popen(words, cwd=folder, stdin=subprocess.DEVNULL if stdin is None else stdin,
                             stdout=subprocess.PIPE, stderr=subprocess.PIPE)
    output, errors = child.stdout.read(), child.stderr.read()
    _, status, usage = os.wait4(child.pid, 0)
    return time.time() - start, usage.ru_maxrss / 1024, os.waitstatus_to_exitcode(status), output.decode(), errors.decode()


def prolog_text(sentences):
    """The clauses as Prolog: application as f(a, b)."""
    lines = []
    for sentence in sentences:
        if sentence.startswith('module '):
            continue
        head, _, body = sentence.rstrip('.').partition(' :- ')
        atoms = [head] + (body.split(', ') if body else [])
        terms = ['%s(%s)' % (a.split()[0], ', '.join(a.split()[1:])) if ' ' in a else a for a in atoms]
        lines.append(terms[0] + (' :- ' + ', '.join(terms[1:]) if body else '') + '.')
    return '\n'.join(lines) + '\n'


def prolog_goal(query):
    return prolog_text(['goal :- ' + query + '.']).strip()


def swi(program, folder):
    """The seconds of processor that SWI-Prolog takes for the query alone, its start and the reading of the file left out."""
    name, _, sentences, query, _ = program
    if shutil.which('swipl') is None:
        return None
    path = os.path.join(folder, name + '.pl')
    with open(path, 'w') as f:
        f.write(':- style_check(-discontiguous).\n:- style_check(-singleton).\n' + prolog_text(sentences) + prolog_goal(query) + '\n')
    goal = '(goal, fail ; true)' if name != 'loop' else '(call_with_inference_limit(goal, 1000000, _) ; true)'
    timed = 'statistics(cputime, A), %s, statistics(cputime, B), T is B - A, print(T), nl' % goal
    return float(run(['swipl', '-q', '-g', timed, '-t', 'halt', path], folder)[3])


def main():
    parser = argparse.ArgumentParser()
    parser.add_argument('--cmd', default=os.path.join(HERE, '..', 'lprolog'))
    arguments = parser.parse_args()
    command = os.path.abspath(arguments.cmd)
    print('%-8s %10s %9s %12s %8s %10s  %s' % ('program', 'steps', 'seconds', 'steps/s', 'MiB', 'of SWI', 'last line'))
    for program in (chain(300), same_generation(8), loop()):
        name, sig, sentences, query, steps = program
        folder = tempfile.mkdtemp(prefix='bench')
        try:
            for ending, lines in (('sig', sig), ('mod', sentences)):
                with open(os.path.join(folder, '%s.%s' % (name, ending)), 'w') as f:
                    f.write('\n'.join(lines) + '\n')
            seconds, memory, status, output, errors = run([command, 'solve', name, query], folder)
            other = swi(program, folder)
            last = output.splitlines()[-1] if output else errors[-60:]
            print('%-8s %10s %9.2f %12s %8.0f %10s  %s (%d)' % (
                name, steps or '?', seconds, '%.0f' % (steps / seconds) if steps else '?', memory,
                'x %.0f' % (seconds / other) if other else '-', last, status))
        finally:
            shutil.rmtree(folder)


if __name__ == '__main__':
    main()
