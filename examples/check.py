#!/usr/bin/env python3
"""Runs the queries in the comments of the examples and compares each output with what the comment says.

A line `% ? QUERY` in a module's file asks a query; the comment lines behind it, up to an empty one, are its output. `solve` answers it on the texts;
then the modules are compiled and linked in a copy of the folder, where `query` has to write the same bytes on the image, with the same status. A file
`M.qry` is the lines of a `session` on `M`, and `M.replies` what it writes. Without arguments all examples are run; with arguments, these folders.
`--cmd PROGRAM` names another program than the launcher at the top. `--write` runs nothing: it writes the examples as a test of lp_solve_rows, to
be laid out by `rt fmt`.
"""
import os
import shutil
import subprocess
import sys
import tempfile

HERE = os.path.dirname(os.path.abspath(__file__))


def queries(path):
    """The queries of a module's file, each with the lines that it is to give."""
    found = []
    is_open = False
    with open(path, encoding="ascii") as file:
        for line in file:
            line = line.rstrip("\n")
            if line.startswith("% ? "):
                found.append((line[4:], []))
                is_open = True
            elif is_open and line.startswith("% "):
                found[-1][1].append(line[2:])
            else:
                is_open = False
    return found


# The statuses by the last line of an output.
STATUSES = {"no more": "Done", "stopped: answers": "Done", "stopped: steps": "Steps", "stopped: flexible": "Flexible", "stopped: arithmetic": "Arithmetic", "stopped: open": "OpenNot"}

QUERIES = """// The examples, each with its queries. This file is written by `examples/check.py --write`.

// The modules of the examples.
mod texts;

use crate::asking::with_files;
use lp_base::{Memory, Status};
use texts::FILES;

#[test]
fn examples_are_answered(rt: HostRuntime) -> Result<(), Memory> {
    let alloc = rt.alloc();
    for (module, query, status, written) in [
%s    ] {
        with_files(&rt, alloc, &FILES, module, query, status, written)?;
    }
    Ok(())
}
"""

TEXTS = """// The modules of the examples, without their comments. This file is written by `examples/check.py --write`.

/// The files, by name.
pub const FILES: [(&str, &str); %d] = [
%s];
"""


def literal(text):
    return '"%s"' % text.replace("\\", "\\\\").replace('"', '\\"')


def code(path):
    """The text of a file without its comments."""
    with open(path, encoding="ascii") as file:
        lines = [line for line in file if line.strip() and not line.startswith("%")]
    return "".join(lines)


def status_of(lines):
    return next(status for begin, status in STATUSES.items() if lines[-1].startswith(begin))


def write():
    """Writes the examples as a test of lp_solve_rows."""
    files = []
    rows = []
    for name in sorted(name for name in os.listdir(HERE) if os.path.isdir(os.path.join(HERE, name))):
        folder = os.path.join(HERE, name)
        for file in sorted(os.listdir(folder)):
            if not file.endswith((".mod", ".sig")):
                continue
            path = os.path.join(folder, file)
            files.append("    (%s, %s),\n" % (literal(file), literal(code(path))))
            for query, lines in queries(path):
                written = literal("".join(line + "\n" for line in lines)).replace("\n", "\\n")
                rows.append("        (%s, %s, Status::%s, %s),\n" % (literal(file[:-4]), literal(query), status_of(lines), written))
    tests = os.path.join(HERE, "..", "crates", "lp_solve_rows", "src")
    os.makedirs(os.path.join(tests, "examples"), exist_ok=True)
    with open(os.path.join(tests, "examples.rt"), "w", encoding="ascii") as file:
        file.write(QUERIES % "".join(rows))
    with open(os.path.join(tests, "examples", "texts.rt"), "w", encoding="ascii") as file:
        file.write(TEXTS % (len(files), "".join(files)))


class Tally:
    """How many comparisons were right, and how many were not."""

    def __init__(self):
        self.passed = self.failed = 0

    def compare(self, what, wanted, got):
        if wanted == got:
            self.passed += 1
            return
        self.failed += 1
        print(f"{what}\n  wanted: {wanted}\n  got:    {got}")


def ran(command, folder, *words):
    """What a command writes, and its status."""
    run = subprocess.run([command, *words], cwd=folder, capture_output=True, text=True)
    return run.stdout + run.stderr, run.returncode


def run_images(command, folder, modules, solved, tally):
    """Compiles and links the modules in a copy of the folder, and asks their images what was solved on the texts."""
    with tempfile.TemporaryDirectory() as copy:
        built = os.path.join(copy, "built")
        shutil.copytree(folder, built)
        for module in modules:
            tally.compare(f"compile {module}", (f"wrote {module}.lpo\n", 0), ran(command, built, "compile", module))
        for module in modules:
            tally.compare(f"link {module}", (f"wrote {module}.lp\n", 0), ran(command, built, "link", module))
        for module, query, said in solved:
            tally.compare(f"query {module}: {query}", said, ran(command, built, "query", module, query))
        for module in modules:
            replies = os.path.join(built, module + ".replies")
            if os.path.exists(replies):
                with open(replies, encoding="ascii") as file:
                    tally.compare(f"session {module}", (file.read(), 0), ran(command, built, "session", module))


def main(words):
    if words == ["--write"]:
        write()
        return 0
    command = os.path.abspath(os.path.join(HERE, "..", "lprolog"))
    if "--cmd" in words:
        at = words.index("--cmd")
        command = os.path.abspath(words[at + 1])
        del words[at : at + 2]
    folders = words or sorted(name for name in os.listdir(HERE) if os.path.isdir(os.path.join(HERE, name)))
    tally = Tally()
    for name in folders:
        folder = os.path.join(HERE, name)
        modules = sorted(file[:-4] for file in os.listdir(folder) if file.endswith(".mod"))
        solved = []
        for module in modules:
            for query, lines in queries(os.path.join(folder, module + ".mod")):
                said = ran(command, folder, "solve", module, query)
                tally.compare(f"solve {module}: {query}", lines, said[0].splitlines())
                solved.append((module, query, said))
        run_images(command, folder, modules, solved, tally)
    print(f"{tally.passed} passed, {tally.failed} failed")
    return 1 if tally.failed else 0


if __name__ == "__main__":
    sys.exit(main(sys.argv[1:]))
