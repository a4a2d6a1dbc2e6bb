"""Measures a run of the merge gate, crate by crate.

usage: gate COMMAND..      as gate rt ci --anew, at the top of a clean clone

It runs the command, passes on what it prints, and looks every half second at the checks that run below it. After the command's own output it prints
a table: for each crate the seconds of processor time of its proof, of its tests' proof and of its wrong bodies, and the most memory that one of its
checks took; and their sums. A check's last half second isn't seen in the table; the last line has what the system counted for the command and all
that it ran.
"""
import os
import resource
import subprocess
import time

TICKS = os.sysconf("SC_CLK_TCK")
PHASES = ("proof", "tests", "edits")


def read(path):
    try:
        with open(path, "rb") as file:
            return file.read()
    except OSError:
        return b""


def parents():
    """The parent of each process."""
    table = {}
    for entry in os.listdir("/proc"):
        if entry.isdigit():
            stat = read(f"/proc/{entry}/stat").rpartition(b")")[2].split()
            if stat:
                table[int(entry)] = int(stat[1])
    return table


def is_below(pid, top, table):
    while pid in table:
        if pid == top:
            return True
        pid = table[pid]
    return False


def check_of(pid):
    """The crate and the phase of a check, or None for another process."""
    words = read(f"/proc/{pid}/cmdline").split(b"\0")
    if len(words) < 2 or not words[0].endswith(b"/rattle") or b"--crate-name" not in words:
        return None
    crate = words[words.index(b"--crate-name") + 1].decode()
    try:
        folder = os.readlink(f"/proc/{pid}/cwd")
    except OSError:
        return None
    if os.path.basename(folder).startswith("rt-edit"):
        return crate, "edits"
    return crate, "tests" if b"--test" in words else "proof"


def seconds_of(pid):
    stat = read(f"/proc/{pid}/stat").rpartition(b")")[2].split()
    return sum(int(n) for n in stat[11:15]) / TICKS if stat else 0


def mebibytes_of(pid):
    for line in read(f"/proc/{pid}/status").split(b"\n"):
        if line.startswith(b"VmHWM"):
            return int(line.split()[1]) // 1024
    return 0


def look(top, seen):
    table = parents()
    for pid in table:
        if is_below(pid, top, table):
            check = check_of(pid)
            if check:
                seen[pid, check] = max(seen.get((pid, check), (0, 0)), (seconds_of(pid), mebibytes_of(pid)))


def together(row):
    return sum(row[phase] for phase in PHASES)


def summed(rows):
    """The row below a table: sums of seconds, and the most memory."""
    rows = list(rows)
    return {phase: sum(row[phase] for row in rows) for phase in PHASES} | {"memory": max((row["memory"] for row in rows), default=0)}


def main(words):
    begin = time.time()
    seen = {}
    gate = subprocess.Popen(words)
    while gate.poll() is None:
        look(gate.pid, seen)
        time.sleep(0.5)
    elapsed = time.time() - begin
    rows = {}
    for (_, (crate, phase)), (seconds, memory) in seen.items():
        row = rows.setdefault(crate, {"proof": 0, "tests": 0, "edits": 0, "memory": 0})
        row[phase] += seconds
        row["memory"] = max(row["memory"], memory)
    print("| Crate | Proof | Tests | Edits | Together | Most memory |")
    print("|---|---|---|---|---|---|")
    whole = summed(rows.values())
    for crate, row in [*sorted(rows.items(), key=lambda it: -together(it[1])), ("all", whole)]:
        seconds = [f"{row[phase]:.0f} s" for phase in PHASES]
        print(f"| {crate} | {' | '.join(seconds)} | {together(row):.0f} s | {row['memory']} MiB |")
    counted = resource.getrusage(resource.RUSAGE_CHILDREN)
    print(f"checks: {together(whole) / 60:.1f} minutes of one processor")
    print(f"all: {(counted.ru_utime + counted.ru_stime) / 60:.1f} minutes of one, {elapsed / 60:.1f} on {os.cpu_count()}")
    return gate.returncode
