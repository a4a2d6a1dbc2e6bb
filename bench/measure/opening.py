"""Measures how long a compressed dump of a large memory takes to open, and how much memory: sparse made files.

usage: opening PROGRAMS [FRAMES..]

For each number of page frames, 2^27 without words (512 GiB), it makes two containers in full but for their pages: one whose page frames are all in the
dump, and one with 60,000 rows of page frames in the dump, left out and no memory, which begin at no byte's edge. `kplain word DUMP 0 0` opens each,
makes the head of its core, and reads one page of zeros, in which no entry is present (status 1). Beside it: the bitmaps read alone. It prints the least
time of five runs by the clock, the least seconds of one processor, the most memory, and the file's size. It ends with 1 where a dump takes half a
second of a processor.
"""
import os
import struct
import tempfile

import files
import timer

PAGE, FRAMES, ROWS, RUNS, MOST = 4096, 1 << 27, 60_000, 5, 0.5


def whole(frames):
    return (b"\xff" * (frames // 8),) * 2


def rows(frames):
    """Rows of page frames, of which 45 of 100 are in the dump, and 50 were left out; the first is in it."""
    period = frames // ROWS | 1
    dumped = (1 << period * 45 // 100) - 1
    memory = (1 << period * 95 // 100) - 1
    eight = [sum(bits << period * i for i in range(8)).to_bytes(period, "little") for bits in (memory, dumped)]
    return [(some * (frames // 8 // period + 1))[: frames // 8] for some in eight]


def make(path, frames, memory, dumped):
    """Writes a container without pages but the first, and answers how many are in the dump."""
    half = -(-frames // 8 // PAGE) * PAGE
    count = sum(dumped.count(byte) * bin(byte).count("1") for byte in range(1, 256))
    header, sub = bytearray(PAGE), bytearray(PAGE)
    header[:8] = b"KDUMP   "
    struct.pack_into("<I", header, 8, 6)
    struct.pack_into("<IIIII", header, 424, 1, PAGE, 1, 2 * half // PAGE, frames & 0xFFFFFFFF)
    struct.pack_into("<QQ", sub, 48, PAGE + 104, 0)
    struct.pack_into("<Q", sub, 96, frames)
    table = 2 * PAGE + 2 * half
    page = table + 24 * count
    with open(path, "wb") as file:
        file.write(header + sub + memory.ljust(half, b"\0") + dumped.ljust(half, b"\0") + struct.pack("<QIIQ", page, PAGE, 0, 0))
        file.truncate(page + PAGE)
    return count, half


def main(words):
    program, slow = files.program(words[0], "kplain"), 0
    for frames in [int(word) for word in words[1:]] or [FRAMES]:
        for name, bits in (("whole", whole), ("rows", rows)):
            with tempfile.TemporaryDirectory() as folder:
                path = os.path.join(folder, "dump")
                count, half = make(path, frames, *bits(frames))
                command = [program, "word", path, "0", "0"]
                opened, read = timer.measured([command, ["dd", "if=" + path, "of=/dev/null", "bs=4096", "skip=2", f"count={2 * half // PAGE}"]], runs=RUNS)
                assert opened[0][0] == 1, opened[0]
                seconds = min(timer.processor(command, 1) for _ in range(RUNS))
                slow += seconds >= MOST
                print(f"{frames} page frames, {name}: {count} pages, {os.path.getsize(path)} bytes; {timer.seconds_of(opened):.3f} s, of the processor "
                      f"{seconds:.3f} s; the bitmaps read alone {timer.seconds_of(read):.3f} s; {timer.most_memory(command):.1f} MiB")
    return slow != 0
