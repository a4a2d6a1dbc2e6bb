#!/usr/bin/env python3
"""Proves and builds the programs, and says which crate it is at and how many are left.

usage: build.py [PROGRAM..]      Without names: all programs of crates.txt

From nothing the proofs take an hour or two of one processor; after that a build takes seconds. The programs come to stand
as crates/PROGRAM/out/PROGRAM. What the prover prints stands in build/proofs.log.
"""
import os
import re
import subprocess
import sys
import time

sys.path.insert(0, os.path.dirname(os.path.realpath(__file__)))
from quick import TOP, crates, order, programs  # noqa: E402

LOG = os.path.join(TOP, "build", "proofs.log")


def below(table, names):
    """All crates of the programs, lowest first."""
    found = []
    for name in names:
        found += [crate for crate in order(table, name) if crate not in found]
    return found


def prove(name, at, count, log):
    """Builds one program by `rt run`, which proves each crate below it that isn't proved. With no words the program prints its usage and ends with 6."""
    began = time.monotonic()
    with subprocess.Popen(["rt", "run"], cwd=os.path.join(TOP, "crates", name), stdin=subprocess.DEVNULL, stdout=subprocess.PIPE,
                          stderr=subprocess.STDOUT, text=True) as run:
        for line in run.stdout:
            log.write(line)
            log.flush()
            crate = re.match(r"rt: chose --jobs \d+ for (\w+)", line)
            if crate and crate[1] in at:
                number = at[crate[1]]
                print(f"[{number}/{count}] {crate[1]}, {count - number} left, {(time.monotonic() - began) / 60:.0f} min", flush=True)
    return run.returncode


def main():
    if any(word.startswith("-") for word in sys.argv[1:]):
        sys.exit(__doc__)
    table = crates()
    names = sys.argv[1:] or programs(table)
    unknown = [name for name in names if name not in programs(table)]
    if unknown:
        sys.exit(f"build.py: no program {unknown[0]}; there are {' '.join(programs(table))}")
    every = below(table, names)
    at = {crate: number for number, crate in enumerate(every, 1)}
    os.makedirs(os.path.dirname(LOG), exist_ok=True)
    with open(LOG, "w") as log:
        for name in names:
            status = prove(name, at, len(every), log)
            if not os.path.exists(os.path.join(TOP, "crates", name, "out", name)):
                sys.exit(f"build.py: {name} wasn't built (status {status}); the prover's words stand in build/proofs.log")
            print(f"{name} is proved: crates/{name}/out/{name}", flush=True)


if __name__ == "__main__":
    main()
