#!/usr/bin/env python3
"""The command `rt`, which takes the sum of a crate's text once a run: the kit's own takes it again for each crate above, minutes for the top ones.

    bench/rt_once.py check|lib|run|test .. (as rt)
"""
import importlib.machinery
import importlib.util
import os
import shutil
import sys


def toolchain():
    loader = importlib.machinery.SourceFileLoader("rt", os.path.realpath(shutil.which("rt")))
    made = importlib.util.module_from_spec(importlib.util.spec_from_loader("rt", loader))
    sys.modules["rt"] = made
    loader.exec_module(made)
    return made


def main():
    rt = toolchain()
    whole, sums = rt.rtlib.Crate.stamp, {}

    def stamp(self):
        key = os.path.realpath(self.folder)
        if key not in sums:
            sums[key] = whole(self)
        return sums[key]

    rt.rtlib.Crate.stamp = stamp
    return rt.main(sys.argv[1:])


if __name__ == "__main__":
    sys.exit(main())
