#!/usr/bin/env python3
"""Lists the modules of a crate whose proof took longest: python3 bench/modules.py CRATE [ROWS].

`rt check` saves each module of proofs in crates/CRATE/out/incremental once it is checked, so the times of the files say
how long each took. Remove that folder and run `rt check --jobs 1` first: with several jobs the times overlap. The
seconds are those of a clock, so leave the machine alone. `.Lts` is the part of a function's proof that grows with the
values that live at its ways out (docs/CHANGING.md, "A check that takes long").
"""
import sys
from pathlib import Path


def saved_modules(crate):
    """The modules in the order in which they were saved, each with its seconds and kilobytes."""
    root = Path(__file__).parent.parent / "crates" / crate / "out" / "incremental"
    files = [(it.stat().st_mtime_ns, it) for it in root.rglob("*.oantt") if it.parent.name != "records"]
    before, found = None, []
    for time, file in sorted(files, key=lambda it: it[0]):
        seconds = 0 if before is None else (time - before) / 1e9
        found.append((seconds, file.stat().st_size // 1000, file.stem))
        before = time
    return found


def main():
    if len(sys.argv) not in (2, 3):
        sys.exit(__doc__)
    found = saved_modules(sys.argv[1])
    if not found:
        sys.exit("no module is saved: run `rt check --jobs 1` in the folder of the crate")
    print(f"{len(found)} modules, {sum(it[0] for it in found):.0f} s")
    for seconds, size, name in sorted(found, reverse=True)[: int(sys.argv[2]) if len(sys.argv) > 2 else 20]:
        print(f"{seconds:7.1f} s {size:7d} kB  {name}")


if __name__ == "__main__":
    main()
