#!/usr/bin/env python3
"""Processor seconds of the gate, by crate and by what they are for.

    gate.py run [COMMAND ..]     runs a command (rt ci from nothing, if none is given) and prints its table
    gate.py attach PID           the same of a command that runs already, from now on, until it ends
    gate.py functions CRATE [N]  the functions of a crate whose check from nothing takes over N seconds (30), dearest first; with --test
                                 behind it, of the crate with its tests

The first two look at the command's processes twice a second. The columns: `proof` is the check of the crate from nothing, `tests` its
second check, with its tests, `seed` the third, over which its must-fail edits are tried, `edits` the edits, `other` compilers and runs.
What ends between two looks is missed: the last line has what the system counted beside what was seen.
"""
import os
import re
import shutil
import subprocess
import sys
import time

TICK = os.sysconf("SC_CLK_TCK")
KINDS = ("proof", "tests", "seed", "edits", "other")


class Gone(Exception):
    """The process has ended."""


def text_of(path):
    try:
        with open(path, errors="replace") as file:
            return file.read()
    except OSError as error:
        raise Gone from error


class Process:
    """A process as the last look saw it."""

    def __init__(self, number):
        said = text_of(f"/proc/{number}/stat")
        fields = said[said.rindex(")") + 2 :].split()
        self.name, self.parent = said[said.index("(") + 1 : said.rindex(")")], int(fields[1])
        self.key = number, fields[19]
        self.seconds = (int(fields[11]) + int(fields[12])) / TICK
        self.waited = (int(fields[13]) + int(fields[14])) / TICK


def purpose(number):
    """The crate that a process works for, and why."""
    words = text_of(f"/proc/{number}/cmdline").split("\0")
    if os.path.basename(words[0]) != "rattle" or "--crate-name" not in words:
        return None
    crate = words[words.index("--crate-name") + 1]
    try:
        folder = os.path.basename(os.readlink(f"/proc/{number}/cwd"))
    except OSError as error:
        raise Gone from error
    if folder.startswith("rt-edit-"):
        over = words[words.index("--incremental") + 1] if "--incremental" in words else ""
        return crate, "seed" if over.endswith("/seed") else "edits"
    if "--crate-checked" in words:
        return crate, "other"
    return crate, "tests" if "--test" in words else "proof"


def watch(root, ended):
    """Looks at the processes below root until it has ended, and returns the seconds by crate and purpose."""
    seen, uses = {}, {}
    while not ended():
        found = {}
        for number in filter(str.isdigit, os.listdir("/proc")):
            try:
                found[int(number)] = Process(int(number))
            except Gone:
                pass
        below = {root}
        while True:
            more = {number for number, it in found.items() if it.parent in below} - below
            if not more:
                break
            below |= more
        for number in below & found.keys():
            it = found[number]
            try:
                if it.key not in uses:
                    uses[it.key] = purpose(number) or uses.get(found[it.parent].key if it.parent in found else None) or ("", "other")
            except Gone:
                continue
            seen[it.key] = it.seconds
        time.sleep(0.5)
    table = {}
    for key, seconds in seen.items():
        crate, kind = uses[key]
        row = table.setdefault(crate or "(rt, programs, tests)", dict.fromkeys(KINDS, 0.0))
        row[kind] += seconds
    return table


def show(table, began, counted):
    width = max([len(it) for it in table] + [5])
    print(f"{'crate':{width}}" + "".join(f"{it:>8}" for it in (*KINDS, "all")))
    whole = dict.fromkeys(KINDS, 0.0)
    for crate, row in sorted(table.items(), key=lambda it: -sum(it[1].values())):
        print(f"{crate:{width}}" + "".join(f"{row[it]:8.0f}" for it in KINDS) + f"{sum(row.values()):8.0f}")
        for it in KINDS:
            whole[it] += row[it]
    print(f"{'all':{width}}" + "".join(f"{whole[it]:8.0f}" for it in KINDS) + f"{sum(whole.values()):8.0f}")
    print(f"wall {time.time() - began:.0f} s; processor {counted:.0f} s counted, {sum(whole.values()):.0f} s seen; load {os.getloadavg()[2]:.1f} in the last 15 minutes")


def run(words):
    began, before = time.time(), os.times()
    command = subprocess.Popen(words)
    table = watch(command.pid, lambda: command.poll() is not None)
    after = os.times()
    show(table, began, after.children_user + after.children_system - before.children_user - before.children_system)
    return command.returncode


def attach(number):
    began, counted = time.time(), 0.0

    def ended():
        nonlocal counted
        try:
            it = Process(number)
        except Gone:
            return True
        counted = it.seconds + it.waited
        return it.key != first

    first = Process(number).key
    show(watch(number, ended), began, counted)
    return 0


def libraries(root):
    """The libraries that each crate names, by crates.txt."""
    with open(f"{root}/crates.txt", encoding="utf-8") as file:
        lines = [it.partition(":") for it in file if ":" in it and not it.startswith("#")]
    return {head.split()[0]: tail.split() for head, _, tail in lines}


def functions(crate, least, more):
    """Checks the crate from nothing, one module at a time, and takes the time from one function's line to the next."""
    root = os.path.dirname(os.path.dirname(os.path.abspath(__file__)))
    kit = os.path.dirname(os.path.dirname(os.path.realpath(shutil.which("rt"))))
    folder, of = f"{root}/crates/{crate}", libraries(root)
    # (builds the libraries below, and proves nothing)
    subprocess.run(["rt", "check", "--only", ""], cwd=folder, stdout=subprocess.DEVNULL, stderr=subprocess.DEVNULL)
    rlib = lambda it: f"{root}/crates/{it}/out/rlib/{it}.rlib" if it in of else f"{kit}/rlibs/{it}.rlib"
    top = "src/main.rt" if os.path.isfile(f"{folder}/src/main.rt") else "src/lib.rt"
    words = [f"{kit}/bin/rattle", "check", "--crate-name", crate, top]
    for it in ["std", *of[crate]]:
        words += ["--extern", f"{it}={rlib(it)}"]
    for it in [f"{kit}/rlibs", *[f"{root}/crates/{it}/out/rlib" for it in of]]:
        words += ["-L", f"dependency={it}"]
    words += ["--antt-project", f"{kit}/rattle/logic/antt-project.json", "--logic-built", f"{kit}/logic_built", "--jobs", "1", "--progress", *more]
    command = subprocess.Popen(words, cwd=folder, stdout=subprocess.PIPE, stderr=subprocess.STDOUT, text=True, errors="replace")
    first, took, line = 0.0, [], ""
    last = None
    for line in command.stdout:
        try:
            now = Process(command.pid).seconds
        except Gone:
            break
        found = re.match(r"checked (\S+), \d+ of \d+", line)
        if found:
            first, last = (now, now) if last is None else (first, last)
            took.append((now - last, found[1]))
            last = now
    rest = command.stdout.read()
    status = command.wait()
    for seconds, name in sorted(took, reverse=True):
        if seconds > least:
            print(f"{seconds:6.0f}  {name}")
    print(f"{len(took)} functions in {(last or 0) - first:.0f} processor seconds, {first:.0f} before the first ended{'' if status == 0 else ', and the crate is NOT proved'}")
    if status:
        print((line + rest)[-2000:])
    return status


def from_nothing():
    """The gate's command; some kits keep what a run passed unless they are told otherwise."""
    said = subprocess.run(["rt", "--help"], capture_output=True, text=True, errors="replace")
    return ["rt", "ci", *(["--anew"] if "--anew" in said.stdout + said.stderr else [])]


def main(words):
    if words[:1] == ["run"]:
        return run(words[1:] or from_nothing())
    if words[:1] == ["attach"] and len(words) == 2 and words[1].isdigit():
        return attach(int(words[1]))
    more = words[-1:] if words[-1:] == ["--test"] else []
    words = words[: len(words) - len(more)]
    if words[:1] == ["functions"] and len(words) in (2, 3):
        return functions(words[1], float(words[2]) if len(words) == 3 else 30, more)
    print(__doc__, end="", file=sys.stderr)
    return 2


if __name__ == "__main__":
    sys.exit(main(sys.argv[1:]))
