"""Opens compressed dumps of many runs of page frames: a real one, with pairs of page frames after its own.

usage: rows PROGRAMS FOLDER [PLAN [RUNS..]]

makedumpfile packs FOLDER/vmcore (`-c -d 31`). A copy of it gets so many page frames more that it has RUNS runs: of each pair the first is in the dump,
and the second was left out, and nobody asks for either. `kplain word` and `kplain check` with a PLAN (core.toml) of FOLDER, `kfiles log`, `kmatch` and
`kwhy` of `init_task` have to print of it what they print of the dump that was packed, but for file offsets; with one run more than 2^22 each has to refuse
it by K8. Without RUNS: 70,000, 1,000,000, 2^22 and 2^22 + 1. For up to 100,000 runs `kaudit check` of the core that `kplain core` writes has to end in
E8, and `kplain check` of that core has to print what it printed; then the new page frames have a page, and else no descriptors. It prints how long each
command takes, and its most memory.
"""
import os
import re
import struct
import subprocess
import sys
import tempfile

import files
import timer

PAGE, MOST, WRITTEN, DEFAULT = 4096, 1 << 22, 100_000, (70_000, 1_000_000, 1 << 22, (1 << 22) + 1)


def number(data, at, width):
    return int.from_bytes(data[at : at + width], "little")


def run_count(memory, dumped, frames):
    """How many runs there are: a row of page frames in the dump with those after it that were left out, or a row of these alone."""
    count, last = 0, "hole"
    for frame in range(frames):
        bits = (memory[frame // 8] >> frame % 8 & 1, dumped[frame // 8] >> frame % 8 & 1)
        kind = "dumped" if bits[1] else "left" if bits[0] else "hole"
        count += kind != last and (kind == "dumped" or (kind == "left" and last == "hole"))
        last = kind
    return count


def widen(data, path, runs):
    """Writes the dump with so many runs."""
    sub, blocks, frames = number(data, 432, 4), number(data, 436, 4), number(data, PAGE + 96, 8)
    first, half = (1 + sub) * PAGE, blocks // 2 * PAGE
    table = first + 2 * half
    memory, dumped = data[first : first + half], data[first + half : table]
    own = sum(bin(byte).count("1") for byte in dumped)
    more = runs - run_count(memory, dumped, frames)
    begin = (frames // 8 + 2) * 8
    rows = [some[: frames // 8 + 1].ljust(begin // 8, b"\0") + byte * (more // 4) + bytes([byte[0] & (1 << more % 4 * 2) - 1])
            for some, byte in ((memory, b"\xff"), (dumped, b"\x55"))]
    size = -(-len(rows[0]) // PAGE) * PAGE
    head = bytearray(data[:first])
    frames = begin + 2 * more
    struct.pack_into("<I", head, 436, 2 * size // PAGE)
    struct.pack_into("<I", head, 440, frames & 0xFFFFFFFF)
    struct.pack_into("<Q", head, PAGE + 96, frames)
    start = -(-(first + 2 * size + 24 * (own + more)) // PAGE) * PAGE
    with open(path, "wb") as file:
        file.write(head + rows[0].ljust(size, b"\0") + rows[1].ljust(size, b"\0"))
        for at in range(table, table + 24 * own, 24):
            file.write(struct.pack("<Q", number(data, at, 8) - (table + 24 * own) + start) + data[at + 8 : at + 24])
        if runs <= WRITTEN:
            page = start + len(data) - table - 24 * own
            file.write(more * struct.pack("<QIIQ", page, PAGE, 0, 0))
        file.truncate(start)
        file.seek(start)
        file.write(data[table + 24 * own :])
        file.write(bytes(PAGE))


def is_same(wanted, found):
    """Whether two texts are the same but for file offsets, which are all higher by one number."""
    pairs = list(zip(wanted.split(), found.split()))
    others = [pair for pair in pairs if pair[0] != pair[1]]
    return (len(wanted.splitlines()), len(wanted.split())) == (len(found.splitlines()), len(found.split())) and (
        all(re.fullmatch(rb"[0-9a-f]{16}", word) for pair in others for word in pair) and len({int(pair[1], 16) - int(pair[0], 16) for pair in others}) < 2)


class Tried:
    """The commands, and what they print of the dump that was packed."""

    def __init__(self, programs, folder, plan):
        self.programs = programs
        self.words = [files.program(programs, "kplain"), files.program(programs, "kaudit")]
        self.types, self.map, self.plan = os.path.join(folder, "btf"), os.path.join(folder, "System.map"), files.plan_path(folder, plan)
        with open(self.map) as rows:
            self.task = next(row.split()[0] for row in rows if row.split()[2] == "init_task")
        self.wanted, self.bad = {}, 0

    def commands(self, dump):
        kfiles, kmatch, kwhy = (files.program(self.programs, name) for name in ("kfiles", "kmatch", "kwhy"))
        return {"kplain word": [self.words[0], "word", dump, "-", self.task], "kplain check": [self.words[0], "check", dump, self.types, self.map, self.plan],
                "kfiles log": [kfiles, dump, "log"], "kmatch": [kmatch, dump, self.types, self.map], "kwhy": [kwhy, dump, self.types, self.map, self.task]}

    def want(self, dump):
        for name, command in self.commands(dump).items():
            self.wanted[name] = self.told(command)

    def told(self, command):
        done = timer.run(command)
        return done[:3]

    def compare(self, name, command, wanted):
        found = self.told(command)
        same = found[0] == wanted[0] and is_same(wanted[1], found[1]) and wanted[2] in found[2]
        self.bad += not same
        print(f"  {name}: {'as wanted' if same else f'OTHER: {found[0]} {found[1][:200]} {found[2][:200]}'}; {timer.processor(command, found[0]):.2f} s of "
              f"the processor, {timer.most_memory(command):.1f} MiB", flush=True)

    def try_core(self, dump, core):
        """The plain core file, by kaudit and by kplain."""
        with open(core, "wb") as file:
            subprocess.run([self.words[0], "core", dump], stdout=file, check=True)
        self.compare("kaudit check of the core", [self.words[1], "check", core, self.types, self.map, self.plan], (2, b"", b"E8"))
        self.compare("kplain check of the core", [self.words[0], "check", core, self.types, self.map, self.plan], self.wanted["kplain check"])


def main(words):
    if len(words) < 2:
        sys.exit(__doc__)
    tried = Tried(words[0], words[1], words[2] if len(words) > 2 else "core.toml")
    with tempfile.TemporaryDirectory() as work:
        packed, wide, core = (os.path.join(work, name) for name in ("packed", "wide", "core"))
        subprocess.run(["makedumpfile", "-c", "-d", "31", os.path.join(words[1], "vmcore"), packed], check=True, stdout=subprocess.DEVNULL, stderr=subprocess.DEVNULL)
        tried.want(packed)
        for runs in [int(word) for word in words[3:]] or DEFAULT:
            widen(files.read(packed), wide, runs)
            print(f"{runs} runs, {os.path.getsize(wide)} bytes, {os.stat(wide).st_blocks * 512} of them on disk")
            for name, command in tried.commands(wide).items():
                tried.compare(name, command, tried.wanted[name] if runs <= MOST else (2, b"", b"K8"))
            if runs <= WRITTEN:
                tried.try_core(wide, core)
    return tried.bad != 0
