#!/usr/bin/env python3
"""Runs programs side by side on the problems and plans that inputs.py wrote, and prints a table.

usage: compare.py FOLDER NAME=PROGRAM [NAME=PROGRAM].. [--nodes N] [--seconds S] [--workers N] [--only WORD]

Each line of the table is a problem: the first word of the answer, and for each program its processor time in seconds
(user and system), its greatest memory in MB, and both as ratios to the first program. Less memory than this script's
own, about 14 MB, isn't told. `>` is a run that did not end in so many seconds of processor time, which other work on
the machine doesn't take away. A family's larger problems are left out once no program has ended on one. All that end
have to give the same bytes and status; where they don't, the line says so, and the exit status is 1."""
import argparse
import math
import os
import re
import resource
import signal
import subprocess
import sys
import tempfile


def run(words, seconds, memory=resource.RLIM_INFINITY):
    """The status, the output, the processor time and the greatest memory of a run; None if it did not end in time."""
    def limit():
        resource.setrlimit(resource.RLIMIT_CPU, (seconds, seconds + 1))
        resource.setrlimit(resource.RLIMIT_AS, (memory, memory))

    with tempfile.TemporaryFile() as out:
        program = subprocess.Popen(
            words, stdin=subprocess.DEVNULL, stdout=out, stderr=subprocess.DEVNULL, preexec_fn=limit
        )
        _, status, used = os.wait4(program.pid, 0)
        program.returncode = os.waitstatus_to_exitcode(status)
        if -program.returncode in (signal.SIGXCPU, signal.SIGKILL):
            return None
        out.seek(0)
        return program.returncode, out.read(), used.ru_utime + used.ru_stime, used.ru_maxrss / 1024


def cells(found, base):
    """The columns of a run, with its ratios to the first program's."""
    if not found:
        return "> | "
    if found[0] > 1:
        return f"status {found[0]} | "
    time, memory = f"{found[2]:.2f}", f"{found[3]:.0f}"
    if base and base is not found and base[0] <= 1:
        time += f" ({found[2] / max(base[2], 0.005):.1f})"
        memory += f" ({found[3] / base[3]:.1f})"
    return f"{time} | {memory}"


def mean(ratios):
    return math.exp(sum(math.log(max(it, 1e-3)) for it in ratios) / len(ratios)) if ratios else float("nan")


def words_for(folder, given, workers):
    """The words of a run: a plan to verify, where there is one, and else a problem to plan."""
    texts, plan = [f"{folder}/{name}.hddl" for name in ("domain", "problem")], f"{folder}/plan.txt"
    if os.path.exists(plan):
        return ["verify", *texts, plan]
    return ["plan", *texts, "--nodes", str(given.nodes), "--workers", str(workers)]


def main():
    words = argparse.ArgumentParser(description=__doc__, formatter_class=argparse.RawDescriptionHelpFormatter)
    words.add_argument("folder")
    words.add_argument("programs", nargs="+", metavar="NAME=PROGRAM")
    words.add_argument("--nodes", type=int, default=200)
    words.add_argument("--seconds", type=int, default=60)
    words.add_argument("--workers", type=int, default=1)
    words.add_argument("--only", default="")
    given = words.parse_args()
    programs = [it.split("=", 1) for it in given.programs]
    print("| Problem | Answer | " + " | ".join(f"{name}: s | MB" for name, _ in programs) + " |")
    print("|---|---|" + "---|" * (2 * len(programs)))
    ended, differs, lost = {name: [] for name, _ in programs}, False, set()
    key = lambda name: [int(it) if it.isdigit() else it for it in re.split(r"(\d+)", name)]
    for problem in sorted((it for it in os.listdir(given.folder) if given.only in it), key=key):
        family = problem.rpartition("-")[0]
        if family in lost:
            continue
        words = words_for(f"{given.folder}/{problem}", given, given.workers)
        found = [run([program, *words], given.seconds) for _, program in programs]
        answers = {it[:2] for it in found if it and it[0] <= 1}
        answer = next((it[1].split(b"\n")[0].decode() for it in found if it), "")
        if len(answers) > 1:
            differs, answer = True, "DIFFERENT"
        if not answers:
            lost.add(family)
        for (name, _), it in zip(programs, found):
            if it and found[0] and max(it[0], found[0][0]) <= 1:
                ended[name].append(it[2] / max(found[0][2], 0.005))
        print(f"| {problem} | {answer} | " + " | ".join(cells(it, found[0]) for it in found) + " |", flush=True)
    for name, _ in programs[1:]:
        ratio, count = mean(ended[name]), len(ended[name])
        print(f"\n{name}: {ratio:.2f} times the time of {programs[0][0]} in the geometric mean over {count} problems")
    sys.exit(differs)


if __name__ == "__main__":
    main()
