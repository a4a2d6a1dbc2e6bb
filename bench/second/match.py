"""Runs `kmatch` on a real dump with its own files, with a map and with types of which one row was changed, and measures it.

usage: match PROGRAMS FOLDER

With its own files nothing may differ and the types have to be the dump's, and 60 lines or more have to be the same; a second reader, below, counts
the symbols and the sizes that have to be among them. Then the row of one symbol is changed, and then the size of one struct: each time that line
alone has to differ, and the types from the byte on that is changed; then a byte is added to them. It runs five times; the time is the least in
seconds, and the memory the greatest, in MiB.
"""
import re
import struct
import tempfile

import files
import timer

IMAGE = 0xFFFFFFFF80000000
# How many numbers follow a record, by its kind: as many for each item, or as many in all.
EACH = {4: 3, 5: 3, 6: 2, 13: 2, 15: 3, 19: 3}
ALL = {1: 1, 3: 3, 14: 1, 17: 1}


def note_lines(dump):
    """The lines of the dump's VMCOREINFO."""
    with open(dump, "rb") as file:
        front = file.read(1 << 24)
    text = front[front.index(b"VMCOREINFO\0") + 12 :]
    return text[: text.index(b"\0")].decode().split("\n")


def addresses(path):
    """The addresses of each name of a map."""
    rows = {}
    for line in open(path, encoding="ascii"):
        address, _, name = line.split()
        rows.setdefault(name, set()).add(int(address, 16))
    return rows


def sizes(btf):
    """The size of each struct and union with a name, and where it stands in the file."""
    length, at, types, strings, names = struct.unpack_from("<IIIII", btf, 4)
    at, end, strings = length + at, length + at + types, length + strings
    found = {}
    while at < end:
        name, info, size = struct.unpack_from("<III", btf, at)
        kind = info >> 24 & 31
        if kind in (4, 5) and name:
            text = btf[strings + name : btf.index(b"\0", strings + name)].decode()
            found.setdefault(text, (size, at + 8))
        at += 12 + 4 * (EACH.get(kind, 0) * (info & 0xFFFF) + ALL.get(kind, 0))
    return found


def second_reader(lines, rows, types):
    """How many symbols and sizes a plain reader finds to be the same."""
    told = dict(line.split("=", 1) for line in lines if "=" in line)
    kaslr = int(told.get("KERNELOFFSET", "0"), 16)
    same = 0
    for line in lines:
        symbol = re.fullmatch(r"SYMBOL\((\w+)\)=([0-9a-f]+)", line)
        if symbol and int(symbol[2], 16) >= IMAGE and symbol[1] in rows:
            same += {address + kaslr for address in rows[symbol[1]]} == {int(symbol[2], 16)}
        size = re.fullmatch(r"SIZE\((\w+)\)=([0-9]+)", line)
        if size and size[1] in types:
            same += types[size[1]][0] == int(size[2])
    return same


def matched(kmatch, folder, btf, map_):
    """The status of a run, the lines that differ, the counts, and the line of the types."""
    status, out, err, _ = timer.run([kmatch, "vmcore", btf, map_], folder)
    assert err == b"", err
    lines = out.decode().splitlines()
    counts = re.fullmatch(r"same (\d+) differ (\d+) unknown (\d+)", lines[-1])
    return status, [line for line in lines if line.startswith("differ ")], [int(n) for n in counts.groups()], lines[-2]


def main(words):
    programs, folder = words
    kmatch = files.program(programs, "kmatch")
    lines = note_lines(f"{folder}/vmcore")
    btf = open(f"{folder}/btf", "rb").read()
    rows, types = addresses(f"{folder}/System.map"), sizes(btf)

    status, differ, counts, told = matched(kmatch, folder, "btf", "System.map")
    print("own files:", *counts, told)
    assert (status, differ, counts[1], told) == (0, [], 0, "types same") and counts[0] >= 60
    assert sum(counts) == sum(re.match(r"(SYMBOL|SIZE|OFFSET)\(.*\)=", line) is not None for line in lines)
    assert counts[0] >= second_reader(lines, rows, types)

    with tempfile.TemporaryDirectory() as changed:
        row = next(iter(rows["init_uts_ns"]))
        text = open(f"{folder}/System.map", encoding="ascii").read()
        text = text.replace(f"{row:016x} D init_uts_ns\n", f"{row + 64:016x} D init_uts_ns\n")
        with open(f"{changed}/map", "w", encoding="ascii") as file:
            file.write(text)
        status, differ, _, told = matched(kmatch, folder, "btf", f"{changed}/map")
        print(*differ, told)
        assert status == 1 and told == "types same" and len(differ) == 1 and differ[0].startswith("differ SYMBOL(init_uts_ns)=")

        size, at = types["page"]
        with open(f"{changed}/btf", "wb") as file:
            file.write(btf[:at] + struct.pack("<I", size - 8) + btf[at + 4 :])
        status, differ, _, told = matched(kmatch, folder, f"{changed}/btf", "System.map")
        print(*differ, told)
        assert (status, differ, told) == (1, [f"differ SIZE(page)={size} btf {size - 8}"], f"types differ at {at}")

        with open(f"{changed}/btf", "wb") as file:
            file.write(btf + b"\0")
        status, differ, _, told = matched(kmatch, folder, f"{changed}/btf", "System.map")
        print(*differ, told)
        assert (status, differ, told) == (1, [], f"types differ at {len(btf)}")

    command = [kmatch, *files.NAMES]
    print(f"{timer.least([command], folder)[0]:.3f} s {timer.most_memory(command, folder):.1f} MiB")
