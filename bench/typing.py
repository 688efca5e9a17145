#!/usr/bin/env python3
"""Times the typing of texts: a module of 20,000 clauses, and a query of 1,000 equations whose types double with each.

    bench/typing.py [--cmd ./lprolog]

For each text: its sentences, bytes, seconds, peak memory and the last line. The clauses should take seconds. The equations should take well under
a second: each type is twice the one before, so that only shared types can be typed at all; their answer is not written, since it is too deep.
"""
import argparse
import os
import shutil
import subprocess
import tempfile
import time

HERE = os.path.dirname(os.path.abspath(__file__))


def clauses(count):
    """Clauses with variables and type variables, and a query that one of them answers."""
    sig = ['sig many.', 'type rule int -> A -> list A -> o.']
    pairs = (('rule %d X nil.' % i, 'rule %d X (Y :: L) :- rule %d Y L.' % (i, i)) for i in range(count // 2))
    module = ['module many.'] + [sentence for pair in pairs for sentence in pair]
    return 'many', sig, module, 'rule %d "s" nil' % (count // 2 - 1), count


def doubling(count):
    """X1 = p X0 X0, X2 = p X1 X1 and so on."""
    sig = ['sig chain.', 'kind pr type -> type -> type.', 'type p A -> B -> pr A B.']
    query = ', '.join('X%d = p X%d X%d' % (i + 1, i, i) for i in range(count))
    return 'chain', sig, ['module chain.'], query, count


def run(words, folder):
    start = time.time()
    child = subprocess.Popen(words, cwd=folder, stdin=subprocess.DEVNULL, stdout=subprocess.PIPE, stderr=subprocess.STDOUT)
    output = child.stdout.read()
    _, status, usage = os.wait4(child.pid, 0)
    return time.time() - start, usage.ru_maxrss / 1024, os.waitstatus_to_exitcode(status), output.decode()


def main():
    parser = argparse.ArgumentParser()
    parser.add_argument('--cmd', default=os.path.join(HERE, '..', 'lprolog'))
    command = os.path.abspath(parser.parse_args().cmd)
    print('%-6s %9s %9s %8s %6s  %s' % ('text', 'sentences', 'bytes', 'seconds', 'MiB', 'last line'))
    for name, sig, module, query, count in (clauses(20000), doubling(1000)):
        folder = tempfile.mkdtemp(prefix='bench')
        try:
            for ending, lines in (('sig', sig), ('mod', module)):
                with open(os.path.join(folder, '%s.%s' % (name, ending)), 'w') as f:
                    f.write('\n'.join(lines) + '\n')
            seconds, memory, status, output = run([command, 'solve', name, query], folder)
            size = len('\n'.join(module)) + len(query)
            last = output.splitlines()[-1] if output else ''
            print('%-6s %9d %9d %8.2f %6.0f  %s (%d)' % (name, count, size, seconds, memory, last[-60:], status))
        finally:
            shutil.rmtree(folder)


if __name__ == '__main__':
    main()
