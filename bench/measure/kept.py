"""Measures what kept blocks and kept translations save: two programs on a real dump and on made ones, in one run.

usage: kept OLD NEW FOLDER PLAN..
       kept --word PROGRAMS FOLDER ADDRESS

OLD and NEW are folders of two builds of kaudit. For each plan it prints the reads and seeks of each program, as strace counts them, and the least
time of seven runs by turns, in seconds. Then, with NEW alone, the same plans on a copy of the dump whose memory is cut into 1,000 segments, and
`word` on made dumps of 65,000 segments: rising, falling, each around the one before, each inside the one before. With `--word` it prints the system
calls of `word` on the dump, and its instructions, so that two versions can be compared. It wants strace, and for instructions valgrind.
"""
import collections
import os
import re
import shutil
import struct
import subprocess
import tempfile

import files
import timer

RUNS = 7
PIECES = 1000
MANY = 65000
HEADER = "<IIQQQQQQ"
LOAD, NOTE = 1, 4


def calls(command, folder, log):
    """How many system calls of each name a command makes."""
    subprocess.run(["strace", "-f", "-c", "-o", log] + command, cwd=folder, capture_output=True)
    told = {}
    for line in open(log):
        row = line.split()
        if len(row) >= 5 and re.fullmatch(r"[\d.]+", row[0]) and row[3].isdigit():
            told[row[-1]] = int(row[3])
    return told.get("read", 0) + told.get("pread64", 0), told.get("lseek", 0)


def headers_of(path):
    """The program headers of a core file."""
    with open(path, "rb") as file:
        head = file.read(64)
        (table,), (count,) = struct.unpack_from("<Q", head, 32), struct.unpack_from("<H", head, 56)
        file.seek(table)
        return [struct.unpack(HEADER, file.read(56)) for _ in range(count)]


def put_headers(path, headers):
    """Appends a table of program headers to a core file, and has the file header name it."""
    with open(path, "r+b") as file:
        table = file.seek(0, os.SEEK_END)
        file.write(b"".join(struct.pack(HEADER, *header) for header in headers))
        file.seek(32)
        file.write(struct.pack("<Q", table))
        file.seek(56)
        file.write(struct.pack("<H", len(headers)))


def cut(headers, pieces):
    """The same memory in some number of segments, each longer than a page cut at pages."""
    loads = [h for h in headers if h[0] == LOAD]
    step = max(4096, sum(h[5] for h in loads) // pieces // 4096 * 4096)
    made = [h for h in headers if h[0] != LOAD]
    for kind, flags, offset, va, pa, size, _, align in loads:
        for at in range(0, size, step):
            length = min(step, size - at)
            made.append((kind, flags, offset + at, va + at, pa + at, length, length, align))
    return made


def many(order, count, offset, beyond):
    """Segments at physical addresses that the kernel's memory doesn't have, in some order."""
    for i in range(count):
        if order == "rising":
            yield offset, beyond + 0x1000 * i, 0x800
        elif order == "falling":
            yield offset, beyond + 0x1000 * (count - i), 0x800
        elif order == "around the one before":
            yield offset, beyond + 8 * (count - i), 16 * i + 8
        else:
            yield offset, beyond + 8 * i, 16 * (count - i)


def of_word(programs, folder, address):
    """The calls on the dump and the instructions of `word`."""
    dump = os.path.join(os.path.abspath(folder), "vmcore")
    command = [files.program(programs, "kaudit"), "word", dump, "-", address]
    with tempfile.TemporaryDirectory() as work:
        log = os.path.join(work, "log")
        names = "openat,lseek,read,pread64,fstat,newfstatat,statx"
        subprocess.run(["strace", "-f", "-o", log, "-e", f"trace={names}", *command], capture_output=True)
        lines = open(log).read().split("\n")
    first = next(number for number, line in enumerate(lines) if dump in line)
    counts = collections.Counter(found[1] for found in (re.match(r"\d+ +([a-z0-9]+)\(", line) for line in lines[first:]) if found)
    for name, count in sorted(counts.items()):
        print(f"calls of {name}: {count}")
    if not shutil.which("valgrind"):
        print("valgrind isn't installed: no instructions counted")
        return
    told = timer.run(["valgrind", "--tool=callgrind", "--callgrind-out-file=/dev/null", *command])[2].decode()
    print("instructions:", re.search(r"Collected *: *(\d+)", told)[1])


def main(words):
    if words[0] == "--word":
        return of_word(*words[1:])
    old, new, folder, *plans = words
    old, new = (files.program(programs, "kaudit") for programs in (old, new))

    def check(program, dump, plan):
        return [program, "check", dump, *files.NAMES[1:], files.plan_path(folder, plan + ".toml")]

    with tempfile.TemporaryDirectory(dir=folder) as work:
        log, copy = os.path.join(work, "log"), os.path.join(work, "copy")
        for plan in plans:
            both = [check(program, "vmcore", plan) for program in (old, new)]
            before, after = timer.least(both, folder, RUNS)
            (reads, seeks), (fewer, kept) = (calls(command, folder, log) for command in both)
            print(f"{plan}: reads {reads} -> {fewer}, seeks {seeks} -> {kept}; {before:.3f} s -> {after:.3f} s, {before / after:.1f} times as fast")

        subprocess.run(["cp", "--reflink=auto", os.path.join(folder, "vmcore"), copy], check=True)
        put_headers(copy, cut(headers_of(copy), PIECES))
        count = sum(h[0] == LOAD for h in headers_of(copy))
        for plan in plans:
            few, pieces = timer.least([check(new, "vmcore", plan), check(new, os.path.abspath(copy), plan)], folder, RUNS)
            print(f"{plan} over {count} segments: {few:.3f} s -> {pieces:.3f} s, {pieces / few:.2f} times as long")

        whole = headers_of(os.path.join(folder, "vmcore"))
        first = next(h for h in whole if h[0] == LOAD)
        word = [new, "word", "vmcore", "-", "ffffffff81000000"]
        for order in ("rising", "falling", "around the one before", "inside the one before"):
            headers = [(LOAD, 0, at, 0, pa, size, size, 0) for at, pa, size in many(order, MANY, first[2], 1 << 44)]
            put_headers(copy, headers + whole)
            few, lots = timer.least([word, [new, "word", os.path.abspath(copy), "-", "ffffffff81000000"]], folder, RUNS)
            print(f"word over {MANY} segments, {order}: {few * 1000:.1f} ms -> {lots * 1000:.1f} ms")
