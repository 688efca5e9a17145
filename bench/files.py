#!/usr/bin/env python3
"""Times of compiled code: what `compile`, `link` and `migrate` take, on modules that grow.

    files.py [PROGRAM]      the program is ../lprolog, if none is named

Rows, each in a new folder: a module of 5,000, 10,000 and 20,000 clauses, compiled, linked, and read, verified and written again (`migrate`);
the link of 1,000 and of 4,000 copies of a module with 30 hidden names, and of as many with 66, whose image has nearly as many bytes as one may have; each such image read, verified and asked (`query`), and written again. Processor seconds and greatest memory of each command, and the bytes of
the file that it writes. Twice the clauses should take twice the time.
"""
import os
import resource
import subprocess
import sys
import tempfile
import time


def clauses(folder, count):
    names = 1000
    with open(f"{folder}/big.sig", "w") as file:
        file.write("sig big.\nkind t type.\n")
        file.writelines(f"type c{number} t.\n" for number in range(names))
        file.write("type p t -> t -> o.\ntype q t -> t -> o.\n")
    with open(f"{folder}/big.mod", "w") as file:
        file.write("module big.\n")
        for number in range(count // 2):
            file.write(f"p c{number % names} c{(number * 7 + number // names) % names}.\n")
            file.write(f"q X Y :- p X c{number % names}, p c{number * 3 % names} Y.\n")


def copies(folder, count, names):
    """A root that accumulates modules which each accumulate the same one many times: a module of a list has at most so many words on a line as it likes."""
    with open(f"{folder}/leaf.sig", "w") as file:
        file.write("sig leaf.\ntype out o.\n")
    with open(f"{folder}/leaf.mod", "w") as file:
        file.write("module leaf.\n" + "".join(f"local h{number} o.\n" for number in range(names)) + "out :- h0.\n")
        file.writelines(f"h{number} :- h{number + 1}.\n" for number in range(names - 1))
    with open(f"{folder}/many.sig", "w") as file:
        file.write("sig many.\ntype out o.\n")
    with open(f"{folder}/many.mod", "w") as file:
        file.write("module many.\n" + "accumulate leaf.\n" * (count - 1))


def timed(program, folder, words):
    before = resource.getrusage(resource.RUSAGE_CHILDREN)
    child = subprocess.Popen([program, *words], cwd=folder, stdout=subprocess.PIPE)
    peak = 0
    while child.poll() is None:
        try:
            with open(f"/proc/{child.pid}/status") as file:
                peak = max([peak, *(int(line.split()[1]) for line in file if line.startswith("VmHWM"))])
        except OSError:
            pass
        time.sleep(0.002)
    after = resource.getrusage(resource.RUSAGE_CHILDREN)
    said = child.stdout.read().decode().strip().splitlines()
    took = after.ru_utime + after.ru_stime - before.ru_utime - before.ru_stime
    return took, peak / 1024, said[-1] if said else f"status {child.returncode}"


def row(program, folder, title, words, written):
    took, peak, said = timed(program, folder, words)
    file = f"{folder}/{written}"
    size = os.path.getsize(file) if os.path.isfile(file) else 0
    print(f"{title:34} {' '.join(words):14} {took:7.2f} s {peak:8.0f} MiB {size:10} bytes   {said}")


def main(words):
    program = os.path.abspath(words[0] if words else os.path.join(os.path.dirname(os.path.abspath(__file__)), "..", "lprolog"))
    for count in (5000, 10000, 20000):
        with tempfile.TemporaryDirectory() as folder:
            clauses(folder, count)
            row(program, folder, f"{count} clauses", ["compile", "big"], "big.lpo")
            row(program, folder, f"{count} clauses", ["link", "big"], "big.lp")
            row(program, folder, f"{count} clauses", ["migrate", "big"], "big.lp")
    for count, names in ((1000, 30), (4000, 30), (4000, 66)):
        with tempfile.TemporaryDirectory() as folder:
            copies(folder, count, names)
            for name in ("leaf", "many"):
                subprocess.run([program, "compile", name], cwd=folder, stdout=subprocess.DEVNULL)
            title = f"{count} copies, {names} hidden names each"
            row(program, folder, title, ["link", "many"], "many.lp")
            row(program, folder, title, ["query", "many", "true"], "many.lp")
            row(program, folder, title, ["migrate", "many"], "many.lp")


if __name__ == "__main__":
    main(sys.argv[1:])
