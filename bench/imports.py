#!/usr/bin/env python3
"""Lists each `use` of another crate's specs or proofs that names a module which is no `pub mod` there, or a name that is not `pub`.

    bench/imports.py [CLONE]

Two seconds, before a run of the gate: there such a line is told only when its crate is checked.
"""
import glob
import os
import re
import sys

USE = re.compile(r"\s*(?:ghost )?use Rattle\.(lp_\w+)\.(specs|proofs)\.([\w.]+)")


def is_exported(root, crate, kind, module):
    with open(f"{root}/crates/{crate}/{kind}/Lib.antt", encoding="utf-8") as lib:
        return re.search(rf"^pub mod {module}$", lib.read(), re.M)


def is_public(text, name):
    name = re.escape(name)
    return re.search(rf"\bpub\b.*{name}", text) or re.search(rf"^\s+{name} :", text, re.M)


def faults(root, path, line):
    found = USE.match(line)
    own = path.split("/crates/")[1].split("/")[0]
    if not found or found[1] == own:
        return
    parts = [it for it in found[3].split(".") if it]
    if not parts or parts[0] == "declared":
        return
    top = f"{root}/crates/{found[1]}/{found[2]}"
    modules = [it for it in parts if it[0].isupper() or it == "inner" or os.path.isdir(f"{top}/{it}")]
    if not is_exported(root, found[1], found[2], modules[0]):
        yield f"{path}: {found[1]}'s {found[2]}/{modules[0]} is no pub mod"
        return
    names, file = re.search(r"\{([^}]*)\}", line), f"{top}/{'/'.join(modules)}.antt"
    if names and os.path.isfile(file):
        with open(file, encoding="utf-8") as it:
            text = it.read()
        for name in [it.strip().split(" as ")[0] for it in names[1].split(",")]:
            if name and not is_public(text, name):
                yield f"{path}: {name} is not pub in {file.split('/crates/')[1]}"


def main():
    root = os.path.realpath(sys.argv[1] if len(sys.argv) > 1 else ".")
    paths = [*glob.glob(f"{root}/crates/*/**/*.antt", recursive=True), *glob.glob(f"{root}/crates/*/src/**/*.rt", recursive=True)]
    told = []
    for path in paths:
        if "/out/" not in path:
            with open(path, encoding="utf-8") as it:
                told += [fault for line in it for fault in faults(root, path, line)]
    print(*told, f"{len(told)} faults", sep="\n")
    sys.exit(1 if told else 0)


main()
