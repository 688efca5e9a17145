#!/usr/bin/env python3
"""Keeps the priorities of the checks that run on this machine, by the folder that each works in.

    bench/priorities.py TABLE

Each line of the table is a folder and a nice number, as `/work/lanes/gen -9`; it may change while this runs. Every four seconds each process of
`rattle` below one of the folders gets its number, all threads too, and each `rt` there two less, since it hands out what is next.
"""
import os
import sys
import time


def wanted(path):
    """The folders of the table with their numbers."""
    lines = (line.split("#")[0].split() for line in open(path))
    return {it[0]: int(it[1]) for it in lines if len(it) == 2}


def nice(number, value):
    """Sets the number for each thread of a process."""
    for thread in map(int, os.listdir(f"/proc/{number}/task")):
        if os.getpriority(os.PRIO_PROCESS, thread) != value:
            os.setpriority(os.PRIO_PROCESS, thread, value)


def look(table):
    for number in filter(str.isdigit, os.listdir("/proc")):
        try:
            words = open(f"/proc/{number}/cmdline").read().split("\0")
            is_check = os.path.basename(words[0]) == "rattle"
            if not is_check and not (len(words) > 1 and words[1].endswith("/rt")):
                continue
            folder = os.readlink(f"/proc/{number}/cwd")
            for below, value in table.items():
                if folder.startswith(below):
                    nice(number, value if is_check else value - 2)
        except (OSError, ValueError):
            # (it has ended meanwhile)
            pass


def main():
    if len(sys.argv) != 2:
        sys.exit(__doc__)
    os.setpriority(os.PRIO_PROCESS, 0, -15)
    while True:
        look(wanted(sys.argv[1]))
        time.sleep(4)


main()
