#!/usr/bin/env python3
"""Declarations of specs/ and proofs/ that no contract and no proof of a function reaches.

unreached.py [CRATE..] prints file, line, lines and names of each, for the crates that are named (none: all), and the lines in all.
It follows names through `use` lines, from the `ghost use` lines of src/ and from the proof files of functions. What a tactic finds by
itself it does not see, and of the names of a `module` or `mutual` block it reaches all or none: look before you delete. Worked rows are
reached by nothing, and stay.
"""
import os
import re
import subprocess
import sys

WORD = re.compile(r"[^\W\d][\w'\-?]*(?:\.[^\W\d][\w'\-?]*)*")
USE = re.compile(r"^(?:ghost )?(?:pub )?use ([A-Za-z0-9_.]+?)(?:\.\{([^}]*)\}| as ([A-Za-z0-9_']+))?;?\s*$")


def module_of(path):
    _, crate, kind, *rest = path.split("/")
    return ".".join(["Rattle", crate, kind, *rest])[: -len(".antt")]


def heads(line):
    """The name that a line of a declaration's signature declares, or None."""
    line = re.sub(r"^(?:(?:abbrev|unfoldable|pub|private)\s+)+", "", line)
    m = re.match(r"(?:data|record|syntax|axiom)\s+(?:pub\s+)?([^\s:({]+)", line)
    if m:
        return m.group(1)
    m = re.match(r"([^\s:({]+)\s*:(?!:)", line)
    return m.group(1) if m else None


class File:
    def __init__(self, path):
        self.path, self.module = path, module_of(path)
        self.names, self.aliases, self.units, self.reexports = {}, {}, [], []
        unit = None
        for number, line in enumerate(open(path, encoding="utf-8").read().split("\n"), 1):
            use = USE.match(line)
            if use:
                self.use(use, line.startswith("pub use"))
                continue
            if not line.strip() or line.startswith("--"):
                continue
            if not line.startswith((" ", "\t")):
                word = line.split()[0]
                if unit and (line.startswith(("]", ")", "}")) or word == "unfolding" or word in unit["names"]):
                    pass
                elif re.match(r"(?:pub )?mod ", line):
                    continue
                else:
                    unit = {"names": set(), "text": [], "line": number, "last": "", "lines": 0, "file": self}
                    self.units.append(unit)
            if unit is None:
                continue
            name = heads(line.strip())
            block = unit["text"] and re.match(r"(?:abbrev )?(?:pub )?mutual|module ", unit["text"][0])
            depth = len(line) - len(line.lstrip())
            if name and (depth == 0 or (depth <= 4 and (block or re.match(r"(?:pub )?(?:data|record)|abbrev .*data", unit["text"][0] if unit["text"] else "")))):
                unit["names"].add(name)
                if depth == 0:
                    unit["last"] = name
            # constructors and fields of data and record
            if unit["text"] and re.match(r"(?:unfoldable |abbrev |pub )*(?:data|record) ", unit["text"][0]):
                m = re.match(r"(?:pub )?([^\s:({]+)\s*:", line.strip())
                if m:
                    unit["names"].add(m.group(1))
            unit["text"].append(line)
            unit["lines"] += 1
        self.own = {n: u for u in self.units for n in u["names"]}

    def use(self, use, public):
        path, group, alias = use.groups()
        if group is not None:
            for item in group.split(","):
                item = item.strip()
                if not item:
                    continue
                name, _, new = item.partition(" as ")
                self.names[new or name] = (path, name)
                if public:
                    self.reexports.append((new or name, path, name))
        elif alias:
            self.aliases[alias] = path


def main():
    os.chdir(subprocess.check_output(["git", "rev-parse", "--show-toplevel"], text=True).strip())
    paths = [p for p in subprocess.check_output(["git", "ls-files", "-co", "--exclude-standard", "crates"], text=True).split("\n") if os.path.exists(p)]
    files = {}
    for p in paths:
        if p.endswith(".antt") and p.split("/")[2] in ("specs", "proofs") and not p.endswith("/Lib.antt"):
            f = File(p)
            files[f.module] = f
    reached, todo = set(), []

    def reach(module, name):
        seen = set()
        while (module, name) not in seen:
            seen.add((module, name))
            f = files.get(module)
            if f is None:
                return
            if name in f.own:
                unit = f.own[name]
                if id(unit) not in reached:
                    reached.add(id(unit))
                    todo.append(unit)
                return
            if name in f.names:
                module, name = f.names[name]

    def follow(text, f):
        for word in set(WORD.findall(text)):
            first, *rest = word.split(".")
            if first in f.aliases and rest:
                reach(f.aliases[first], rest[0])
            for part in [first]:
                if part in f.own:
                    reach(f.module, part)
                elif part in f.names:
                    reach(*f.names[part])
        # operators
        for op, target in list(f.names.items()) + [(n, (f.module, n)) for n in f.own]:
            if "◌" in op:
                core = [c for c in op.split("◌") if c]
                if core and all(c in text for c in core):
                    reach(*target)

    for p in paths:
        parts = p.split("/")
        if p.endswith(".rt"):
            for line in open(p, encoding="utf-8"):
                m = USE.match(line.strip())
                if m and line.strip().startswith("ghost"):
                    path, group, alias = m.groups()
                    if group is None:
                        for u in files[path].units if path in files else []:
                            for n in u["names"]:
                                reach(path, n)
                    else:
                        for item in group.split(","):
                            reach(path, item.strip().partition(" as ")[0])
                for m in re.finditer(r"Rattle((?:\.[A-Za-z0-9_]+)+)\.([a-z_A-Z0-9'\-]+)", line):
                    reach("Rattle" + m.group(1), m.group(2))
        elif p.endswith(".antt") and parts[2] == "proofs" and len(parts) > 4 and parts[-1] in ("Answers.antt", "Invariants.antt", "Proof.antt"):
            f = files[module_of(p)]
            for u in f.units:
                reached.add(id(u))
                follow("\n".join(u["text"]), f)
    while todo:
        u = todo.pop()
        follow("\n".join(u["text"]), u["file"])
    want = set(sys.argv[1:])
    total = 0
    for m in sorted(files):
        f = files[m]
        crate = f.path.split("/")[1]
        if want and crate not in want:
            continue
        for u in f.units:
            if id(u) not in reached and u["names"]:
                total += u["lines"]
                print(f"{f.path}:{u['line']} {u['lines']} {' '.join(sorted(u['names'])[:4])}")
    print("lines:", total)


main()
