"""Measures kaudit on large made files: structures of many elements, types with long names, a dump of 1 TiB.

usage: large structures PROGRAMS [ELEMENTS..]
       large names PROGRAMS
       large sparse PROGRAMS

`structures`: to the small made dump a segment with one structure is added, mapped by one page of 1 GiB: a ring, a red-black tree or an xarray of so
many elements, its nodes in memory in the order in which they are walked, and then in random order. For each it prints the least time of three runs
of `check`, that of an element without that of the start, and the most memory, with that of an element.
`names`: `layout` on a file of types in which every record has one name of 20 MB, against the same with a short name. A name is compared no further
than the one that is asked, so both take about as long.
`sparse`: `word` on a sparse dump of 1 TiB with 1,000 segments and on the small made dump, the time and the most memory of each. The last segment
holds the words, so the search goes through all of them. It ends with 1 where that takes 50 ms or 16 MiB.
"""
import os
import random
import struct
import sys
import tempfile

import files
import timer

RUNS = 3
RECORDS, LONG = 1_500_000, 20_000_000
SEGMENTS, TEBIBYTE = 1000, 1 << 40
PHYSICAL = 0x10000000
DIRECT = 0xFFFF888000000000
BASE = DIRECT + PHYSICAL
# The head's place, and then that of an item, or of a node of an xarray with 16 slots.
HEAD_BYTES, ITEM_BYTES, XA_BYTES, CHUNK = 64, 64, 192, 16
PLAN = """version = 1
[[audit]]
name = "large"
kind = "{kind}"
root = "large"
element = "item"
"""
LINKS = {"ring": "link", "rbtree": "rb"}
# The byte of `rb` in an item.
RB = 40


def item(place):
    """Where an item stands, by its place."""
    return HEAD_BYTES + ITEM_BYTES * place


def ring(count, places):
    """A ring of items; the head's words stand first."""
    memory = bytearray(item(count))
    nodes = [0] + [item(place) for place in places]
    for at, node in enumerate(nodes):
        struct.pack_into("<QQ", memory, node, BASE + nodes[(at + 1) % len(nodes)], BASE + nodes[at - 1])
    return memory


def in_order(count):
    """The numbers of a complete tree's nodes, from left to right; those below `n` are `2n` and `2n + 1`."""
    above, node = [], 1
    while above or node <= count:
        while node <= count:
            above.append(node)
            node *= 2
        node = above.pop()
        yield node
        node = 2 * node + 1


def tree(count, places):
    """A complete tree: black, but for a last level that isn't full."""
    memory = bytearray(item(count))
    at = [0] * (count + 1)
    for place, node in zip(places, in_order(count)):
        at[node] = BASE + item(place) + RB
    full = count & (count + 1) == 0
    for node in range(1, count + 1):
        red = not full and node.bit_length() == count.bit_length()
        right, left = (at[below] if below <= count else 0 for below in (2 * node + 1, 2 * node))
        struct.pack_into("<QQQ", memory, at[node] - BASE, at[node // 2] | (not red), right, left)
    struct.pack_into("<Q", memory, 0, at[1])
    return memory


def xarray(count, places):
    """An xarray with the entries 0 to `count - 1`, its nodes in the order of their levels, or mixed where the places are."""
    levels = [-(-count // CHUNK)]
    while levels[-1] > 1:
        levels.append(-(-levels[-1] // CHUNK))
    numbers = list(range(sum(levels)))
    if places != sorted(places):
        random.Random(2).shuffle(numbers)
    memory = bytearray(HEAD_BYTES + XA_BYTES * sum(levels))
    rows, before = [], 0
    for nodes in levels:
        rows.append([BASE + HEAD_BYTES + XA_BYTES * number for number in numbers[before : before + nodes]])
        before += nodes
    for level, nodes in enumerate(rows):
        items = count if level == 0 else levels[level - 1]
        for number, node in enumerate(nodes):
            first, last = CHUNK * number, min(CHUNK * (number + 1), items)
            slots = [DIRECT + 64 * i if level == 0 else rows[level - 1][i] | 2 for i in range(first, last)]
            parent = rows[level + 1][number // CHUNK] if level + 1 < len(rows) else 0
            struct.pack_into("<BBBB4xQQ", memory, node - BASE, 4 * level, number % CHUNK if parent else 0, last - first, 0, parent, BASE)
            struct.pack_into(f"<{len(slots)}Q", memory, node - BASE + 24, *slots)
    struct.pack_into("<Q", memory, 8, rows[-1][0] | 2)
    return memory


def make(path, memory):
    """The small dump with one more segment, and the first GiB of the direct map as one page."""
    core = bytearray(files.read(files.DATA, "z.core"))
    table, count = struct.unpack_from("<Q", core, 32)[0], struct.unpack_from("<H", core, 56)[0]
    headers = [struct.unpack_from("<IIQQQQQQ", core, table + 56 * i) for i in range(count)]
    pdpte = next(h[2] + 0x9000 - h[4] for h in headers if h[0] == 1 and h[4] <= 0x9000 < h[4] + h[5])
    struct.pack_into("<Q", core, pdpte, 0x83)
    headers.append((1, 0, len(core), 0, PHYSICAL, len(memory), len(memory), 0))
    struct.pack_into("<Q", core, 32, len(core) + len(memory))
    struct.pack_into("<H", core, 56, len(headers))
    with open(path, "wb") as file:
        file.write(core + memory + b"".join(struct.pack("<IIQQQQQQ", *h) for h in headers))


def measured(command, work, count):
    """The least time of a command, and its memory in bytes."""
    runs = timer.measured([command], work, RUNS)[0]
    assert runs[0][:2] == (0, f"clean\naudit large walks 1 elements {count}\n".encode()), runs[0]
    return timer.seconds_of(runs), timer.most_memory(command, work) * 2**20


def structures(kaudit, *counts):
    counts = [int(word) for word in counts] or [10_000, 100_000, 1_000_000]
    with tempfile.TemporaryDirectory() as work:
        with open(os.path.join(work, "map"), "w") as file:
            file.write(files.read(files.DATA, "z.map").decode() + f"{BASE:016x} D large\n")
        command = [kaudit, "check", "core", os.path.join(files.DATA, "z.btf"), "map", "plan"]
        for kind, build in (("ring", ring), ("rbtree", tree), ("xarray", xarray)):
            link = f'link = "{LINKS[kind]}"\n' if kind in LINKS else ""
            open(os.path.join(work, "plan"), "w").write(PLAN.format(kind=kind) + link)
            for name in ("in order", "at random"):
                one_structure(command, work, f"{kind} {name}", build, counts)


def one_structure(command, work, name, build, counts):
    """A structure of each number of elements."""
    make(os.path.join(work, "core"), build(1, [0]))
    start, least = measured(command, work, 1)
    for count in counts:
        places = list(range(count))
        if name.endswith("at random"):
            random.Random(1).shuffle(places)
        make(os.path.join(work, "core"), build(count, places))
        seconds, memory = measured(command, work, count)
        each, bytes_each = (seconds - start) / count * 1e6, (memory - least) / count
        print(f"{name}, {count}: {seconds:.3f} s, {each:.3f} us an element, {memory / 2**20:.1f} MiB, {bytes_each:.0f} bytes an element", flush=True)


def make_names(path, name):
    """A file of types whose records are empty structs with one name; the strings have 20 MB in either case."""
    strings = b"\0" + name + b"\0" + b"b" * (LONG - len(name)) + b"\0"
    types = struct.pack("<III", 1, 4 << 24, 0) * RECORDS
    header = struct.pack("<HBBIIIII", 0xEB9F, 1, 0, 24, 0, len(types), len(types), len(strings))
    with open(path, "wb") as file:
        file.write(header + types + strings)


def names(kaudit):
    seconds = []
    with tempfile.TemporaryDirectory() as work:
        for name in (b"a", b"a" * LONG):
            make_names(os.path.join(work, "btf"), name)
            runs = timer.measured([[kaudit, "layout", "btf", "slab"]], work)[0]
            assert runs[0][2] == b"refused path Q1 step 0\n", runs[0]
            seconds.append(timer.seconds_of(runs))
    print(f"short {seconds[0]:.3f} s, long {seconds[1]:.3f} s, ratio {seconds[1] / seconds[0]:.2f}")


def make_sparse(path):
    """The small dump's memory as the last of many segments, at the end of a file of 1 TiB."""
    small = files.read(files.DATA, "z.core")
    memory, note = small[0x2000:], small[0x1000 : 0x1000 + 160]
    notes = 64 + 56 * (SEGMENTS + 1)
    first = TEBIBYTE - len(memory)
    gap = (first - (notes + len(note))) // SEGMENTS // 4096 * 4096
    headers = struct.pack("<IIQQQQQQ", 4, 0, notes, 0, 0, len(note), len(note), 0)
    for i in range(SEGMENTS - 1):
        headers += struct.pack("<IIQQQQQQ", 1, 0, 0x100000 + gap * i, 0, (1 << 41) + gap * i, gap, gap, 0)
    headers += struct.pack("<IIQQQQQQ", 1, 0, first, 0, 0, len(memory), len(memory), 0)
    header = bytearray(64)
    header[:7] = b"\x7fELF\x02\x01\x01"
    struct.pack_into("<HH", header, 16, 4, 62)
    struct.pack_into("<Q", header, 32, 64)
    struct.pack_into("<HH", header, 54, 56, SEGMENTS + 1)
    with open(path, "wb") as file:
        file.write(bytes(header) + headers + note)
        file.seek(first)
        file.write(memory)
    assert os.path.getsize(path) == TEBIBYTE


def sparse(kaudit):
    with tempfile.TemporaryDirectory() as work:
        make_sparse(os.path.join(work, "core"))
        commands = [[kaudit, "word", dump, "-", "ffffffff8000b120"] for dump in (os.path.join(files.DATA, "z.core"), "core")]
        for command in commands:
            status, out, _, _ = timer.run(command, work)
            assert status == 0 and out.startswith(b"ffffffff8000b120 000000000000b120 "), out
        one, many = timer.least(commands, work, 20)
        small, large = (timer.most_memory(command, work) for command in commands)
    print(f"small dump:  {one * 1e3:.2f} ms, {small:.1f} MiB")
    print(f"1 TiB dump:  {many * 1e3:.2f} ms, {large:.1f} MiB, {many / one:.1f} times as long")
    return many >= 0.05 or large >= 16


WAYS = {"structures": structures, "names": names, "sparse": sparse}


def main(words):
    if words[0] not in WAYS or len(words) < 2:
        sys.exit(__doc__)
    return WAYS[words[0]](files.program(words[1], "kaudit"), *words[2:])
