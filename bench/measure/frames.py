"""Measures how long kslab looks at a frame that is no slab: a dump with 64 GiB more, whose page descriptors are mapped and hold zero.

usage: frames PROGRAMS FOLDER

One program header of the dump's is turned into that of 64 GiB of holes at the physical address 64 GiB, and an entry of the page tables maps the
descriptors of these frames, 1 GiB of them, to its first bytes. It prints the seconds of the processor, those of a frame, and the memory.
"""
import mmap
import os
import shutil
import struct
import tempfile

import files
import timer
from plans.reader import Core, Info, Memory, address, symbols

GIB = 1 << 30


def spread(folder, dump, first, size):
    """Makes the dump with so many bytes more."""
    shutil.copyfile(f"{folder}/vmcore", dump)
    end = (os.path.getsize(dump) + GIB - 1) // GIB * GIB
    os.truncate(dump, end + size)
    with open(dump, "r+b") as handle, mmap.mmap(handle.fileno(), end) as data:
        table, count = struct.unpack_from("<Q", data, 32)[0], struct.unpack_from("<H", data, 56)[0]
        loads = [table + 56 * k for k in range(count) if struct.unpack_from("<I", data, table + 56 * k)[0] == 1]
        core = Core(data)
        info = Info(core)
        memory = Memory(core, info.table, info.levels, info.mask)
        rows = symbols(files.read(folder, "System.map"))
        at = memory.place(address(rows, "vmemmap_base", info.kaslr))[3] + 64 * (first // 4096)
        entries = info.table
        for level in range(info.levels, 3, -1):
            entries = core.word(entries + 8 * (at >> 12 + 9 * (level - 1) & 511)) & 0x000FFFFFFFFFF000
        struct.pack_into("<Q", data, core.offset(entries + 8 * (at >> 30 & 511)), first | 0xE3)
        small = min(loads, key=lambda place: struct.unpack_from("<Q", data, place + 32)[0])
        struct.pack_into("<QQQQQ", data, small + 8, end, 0, first, size, size)
        data.flush()


def main(words):
    programs, folder = words
    kslab, size = files.program(programs, "kslab"), 64 * GIB
    with tempfile.TemporaryDirectory() as made:
        spread(folder, f"{made}/vmcore", 64 * GIB, size)
        command = [kslab, f"{made}/vmcore", f"{folder}/btf", f"{folder}/System.map"]
        status, text, _, _ = timer.run(command)
        seconds, memory = timer.processor(command), timer.most_memory(command)
    print(status, text.decode()[-200:])
    print(f"{seconds:.1f} s of the processor, {1e6 * seconds / (size // 4096):.3f} us a frame, {memory:.1f} MiB")
