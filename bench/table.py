#!/usr/bin/env python3
"""Runs a program on the problems and plans that inputs.py wrote, and prints what each family comes to, a row each.

usage: table.py FOLDER PROGRAM [--nodes N] [--seconds S] [--memory MB] [--workers N] [--runs N] [--only WORD]

A family's sizes are run from the smallest, with one worker, until one does not end within so many seconds of processor
time and so much memory. The row has the largest size that ended with its processor time and memory, and those of the
size before. The last column says how many times as fast several workers are as one by the clock, for those two sizes
where one worker takes half a second or more: the least and the greatest ratio of so many pairs of runs. Nothing else
should run meanwhile."""
import argparse
import os
import re
import time

from compare import run, words_for

LEAST_SECONDS = 0.5


def sizes_of(folder, only):
    """Each family with its sizes, the smallest first."""
    families = {}
    for name in os.listdir(folder):
        family, _, size = name.rpartition("-")
        if only in name:
            families.setdefault(family, []).append(int(size))
    return {family: sorted(sizes) for family, sizes in sorted(families.items())}


def clock(words, seconds):
    """The seconds that a run takes by the clock."""
    began = time.monotonic()
    run(words, seconds)
    return time.monotonic() - began


def gain(program, folder, given):
    """How many times as fast several workers are as one, from the least to the greatest of several pairs of runs."""
    one, several = (words_for(folder, given, workers) for workers in (1, given.workers))
    if one[0] != "plan":
        return "one worker always"
    clocks = [[clock([program, *words], 10 * given.seconds) for words in (one, several)] for _ in range(given.runs)]
    ratios = sorted(it[0] / it[1] for it in clocks)
    return f"{ratios[0]:.2f} to {ratios[-1]:.2f}"


def cell(found):
    """Time and memory of a run. Of less memory than this script's own nothing is known."""
    seconds = f"{found[2]:.2f} s" if found[2] < 10 else f"{found[2]:.0f} s"
    return seconds if found[3] < 15 else f"{seconds}, {found[3]:,.0f} MB"


def row(program, family, sizes, given):
    """The row of a family."""
    ended, stopped = [], ""
    for size in sizes:
        folder = f"{given.folder}/{family}-{size}"
        found = run([program, *words_for(folder, given, 1)], given.seconds, given.memory << 20)
        if not found or found[0] > 1:
            stopped = f" ({size}: {'status ' + str(found[0]) if found else 'time'})"
            break
        ended.append((size, found, folder))
    if not ended:
        return f"| `{family}` | none{stopped} | | | |"
    before = f"{ended[-2][0]}: {cell(ended[-2][1])}" if len(ended) > 1 else ""
    gains = [f"{size}: {gain(program, folder, given)}" for size, found, folder in ended[-2:] if found[2] >= LEAST_SECONDS]
    return f"| `{family}` | {ended[-1][0]} of {sizes[-1]}{stopped} | {cell(ended[-1][1])} | {before} | {'; '.join(gains)} |"


def main():
    words = argparse.ArgumentParser(description=__doc__, formatter_class=argparse.RawDescriptionHelpFormatter)
    words.add_argument("folder")
    words.add_argument("program")
    words.add_argument("--nodes", type=int, default=200)
    words.add_argument("--seconds", type=int, default=60)
    words.add_argument("--memory", type=int, default=3000)
    words.add_argument("--workers", type=int, default=4)
    words.add_argument("--runs", type=int, default=3)
    words.add_argument("--only", default="")
    given = words.parse_args()
    print(f"| Problem | Largest size that ends | Time, memory | The size before | {given.workers} workers |")
    print("|---|---|---|---|---|")
    for family, sizes in sizes_of(given.folder, given.only).items():
        print(row(given.program, family, sizes, given), flush=True)


main()
