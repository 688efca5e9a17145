#!/usr/bin/env python3
"""Gives a clone the libraries that other clones on this machine have built of the same text over the same libraries.

    bench/share.py CLONE DONOR..

`rt ci` leaves what it built in its clone's out/, and `rt check` in another one would build it once more. Files are linked, so it takes seconds.
"""
import importlib.machinery
import importlib.util
import os
import shutil
import subprocess
import sys


def toolchain():
    """The command `rt` as a module: its crates know their checksums."""
    loader = importlib.machinery.SourceFileLoader("rt", os.path.realpath(shutil.which("rt")))
    made = importlib.util.module_from_spec(importlib.util.spec_from_loader("rt", loader))
    sys.modules["rt"] = made
    loader.exec_module(made)
    made.rtlib.Crate = made.Crate
    return made.rtlib


def crates(lib, clone):
    os.chdir(clone)
    return {it.name: it for it in lib.crates_below(clone)}


def take(crate, donor):
    """Links the donor's library and says that it is of this text."""
    to = f"{crate.folder}/out/rlib"
    shutil.rmtree(to, ignore_errors=True)
    os.makedirs(os.path.dirname(to), exist_ok=True)
    subprocess.run(["cp", "-al", os.path.dirname(donor.rlib), to], check=True)
    if os.path.exists(f"{to}/stamp"):
        os.unlink(f"{to}/stamp")
    with open(f"{to}/stamp", "w", encoding="utf-8") as stamp:
        stamp.write(crate.stamp())


def main():
    if len(sys.argv) < 3:
        sys.exit(__doc__)
    lib = toolchain()
    clone, *others = [os.path.realpath(it) for it in sys.argv[1:]]
    mine, donors = crates(lib, clone), [crates(lib, it) for it in others]
    stands, took = set(), []
    for crate in sorted(mine.values(), key=lambda it: len(it.below())):
        if any(it.name not in stands for it in crate.below()):
            continue
        if not crate.is_built():
            # (a run writes the file `format` last)
            made = [it[crate.name] for it in donors if crate.name in it]
            fit = [it for it in made if os.path.isfile(f"{it.rlib}/format") and it.stamp() == crate.stamp()]
            if not fit:
                continue
            take(crate, fit[0])
            took.append(crate.name)
        stands.add(crate.name)
    print("took", *took)
    print("lacks", *[it for it in mine if it not in stands])


main()
