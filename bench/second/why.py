"""Compares what kwhy prints of addresses, and of the words that hold them, with a second reader's answers, and measures it.

usage: why PROGRAMS FOLDER [ADDRESS ..]

FOLDER has vmcore, btf and System.map, or z.core, z.btf and z.map, as crates/kaudit/data. The addresses are in hex, and else are made from the map
and the page tables at random, and of words of the dump. The second reader is the core and page tables of plans/reader.py and a search of the file
for eight bytes, and shares no code with the program.
"""
import array
import os
import random
import re

import files
import timer
from plans.reader import IMAGE, TOP, Broken, Core, Info, Memory, Refused, Types, address, dec_of, symbols, vmcoreinfo
from second.areas import NO_VARIABLE, Areas
from second.descriptors import Descriptors
from second.inside import covers, named, object_of
from second.objects import Objects, all_rows
from second.rings import reached
from second.verdict import POISON, Kernel

POISON_H = """
PAGE_POISON 0xaa
SLUB_RED_INACTIVE 0xbb
SLUB_RED_ACTIVE 0xcc
POISON_INUSE 0x5a
POISON_FREE 0x6b
POISON_END 0xa5
POISON_FREE_INITMEM 0xcc
"""
FILLS = ("zero", "pattern", "text")
ESCAPES = {ord(a): "\\" + b for a, b in zip('\t\n\r"\\', 'tnr"\\')}


def patterns():
    """The names that the kernel's include/linux/poison.h has for each byte, in its order."""
    found = {}
    for name, byte in (line.split() for line in POISON_H.split("\n") if line):
        found.setdefault(int(byte, 0), []).append(name)
    return {byte: "|".join(names) for byte, names in found.items()}


PATTERNS = patterns()


def entries(memory, va):
    """The level and the place of each entry that the walk reads, and the size of the page, if it maps one."""
    top = 47 if memory.levels == 4 else 56
    if va >> top not in (0, (1 << 64 - top) - 1):
        return [], None
    found, table = [], memory.table
    for level in range(memory.levels, 0, -1):
        shift = 12 + 9 * (level - 1)
        place = memory.entry_place(table + 8 * (va >> shift & 511))
        if place[3] is None:
            return found, None
        found.append((level, place))
        plain = place[3] & ~memory.mask
        if level == 1 or plain >> 7 & 1:
            return found, 1 << shift
        if not plain & 1:
            return found, None
        table = plain & 0x000FFFFFFFFFF000
    return found, None


def phys_base(core):
    """The value of the first line of the key."""
    head = b"NUMBER(phys_base)="
    return next(dec_of(line[len(head) :]) for line in vmcoreinfo(core).split(b"\n") if line.startswith(head))


def origin_text(origin):
    return origin if origin == "tail" else f"{origin:016x}"


def is_visible(c):
    return 0x20 <= c <= 0x7E


def is_text(data):
    """Whether a word is text: five bytes or more, then NULs; four of them are visible, others may be tabs and ends of lines."""
    front = data.rstrip(b"\0")
    return len(front) > 4 and sum(map(is_visible, front)) > 3 and all(is_visible(c) or c in b"\t\n\r" for c in front)


def meaning(va, value):
    """What a word says by itself."""
    data = value.to_bytes(8, "little")
    if value == 0:
        return "zero"
    if value == va:
        return "self"
    if value in POISON:
        return "unlisted"
    if len(set(data)) == 1 and data[0] in PATTERNS:
        return "pattern"
    if is_text(data):
        return "text"
    return "small" if value < 1 << 16 else "number"


class Why:
    """A dump and its map."""

    def __init__(self, core, map_):
        self.core = Core(core)
        info = Info(self.core)
        self.memory = Memory(self.core, info.table, info.levels, info.mask)
        rows = symbols(map_)
        self.end = self.one(rows, info, "_end")
        self.base, self.phys_base = self.direct_base(rows, info), phys_base(self.core)
        self.rows = [row for row in all_rows(map_, info.kaslr) if row[0] >= IMAGE and row[1] not in NO_VARIABLE]
        self.freed = [self.one(rows, info, name) for name in ("__init_begin", "__init_end")]
        self.lead = lambda value: "number"

    def one(self, rows, info, name):
        """The address of a symbol, if the map's rows say one."""
        try:
            return address(rows, name, info.kaslr) if name.encode() in rows else None
        except Refused:
            return None

    def is_freed(self, at):
        """Whether an address is in the memory that the kernel frees when it has started."""
        return None not in self.freed and self.freed[0] <= at < self.freed[1]

    def direct_base(self, rows, info):
        """Where the direct map begins: the kernel's variable, or else the fixed address."""
        try:
            variable = address(rows, "page_offset_base", info.kaslr)
        except Refused:
            return None
        if variable is None:
            return 0xFF11000000000000 if info.levels == 5 else 0xFFFF888000000000
        place, _ = self.seen(variable)
        return place[3] if place else None

    def aliases(self, place):
        """The lines of other addresses of the same word."""
        others = [] if self.base is None else [(self.base + place[1]) % TOP]
        for at in others + [(IMAGE + place[1] - self.phys_base) % TOP]:
            other, _ = self.seen(at) if at % 8 == 0 else (None, None)
            if at != place[0] and other and other[1] == place[1]:
                yield f"alias {at:016x}"

    def symbol(self, at):
        if self.end is None or not IMAGE <= at < self.end or self.is_freed(at):
            return None
        below = [row for row in self.rows if row[0] <= at]
        if not below:
            return None
        most = max(row[0] for row in below)
        name = next(row[1] for row in below if row[0] == most)
        return f"{name}+{at - most}"

    def is_outside(self, at):
        """Whether an address isn't one of the image."""
        return self.end is None or not IMAGE <= at < self.end

    def seen(self, va):
        """The place of a word, or the text of what stopped its reading."""
        try:
            return self.memory.place(va), None
        except Broken as stop:
            level, pa = stop.stop or (0, 0)
            return None, f"stopped {stop.rule} {level} {pa:016x}"

    def said(self, va, value):
        kind = meaning(va, value)
        if kind == "text":
            return f'text "{value.to_bytes(8, "little").rstrip(bytes(1)).decode().translate(ESCAPES)}"'
        if kind == "small":
            return f"small {value}"
        if kind == "pattern":
            return f"pattern {value & 255:02x} {PATTERNS[value & 255]}"
        if kind != "number":
            return kind
        symbol = self.symbol(value)
        return f"image {symbol}" if symbol else self.lead(value)

    def near(self, va):
        place, stopped = self.seen(va)
        return f"near {va:016x} " + (f"{place[3]:016x} {self.said(va, place[3])}" if place else stopped)

    def fills(self, va, value):
        """Whether the word at an address goes on with what one says that has this value."""
        place, _ = self.seen(va)
        kind = meaning(va, place[3]) if place else None
        return kind in FILLS and kind == value[0] and (kind != "pattern" or place[3] == value[1])

    def span(self, va, value):
        kind, low, high = (meaning(va, value), value), va, va
        while low % 4096 and self.fills(low - 8, kind):
            low -= 8
        while (high + 8) % 4096 and self.fills(high + 8, kind):
            high += 8
        return f"span {low:016x} {high + 7:016x}"

    def text(self, at, areas):
        lines, va = [f"address {at:016x}"], at - at % 8
        if self.symbol(at):
            lines.append(f"symbol {self.symbol(at)}")
        if self.is_outside(at):
            lines += areas
        found, size = entries(self.memory, va)
        for level, (_, pa, origin, value) in found:
            lines.append(f"entry {level} {pa:016x} {origin_text(origin)} {value:016x}")
        place, stopped = self.seen(va)
        if place or " M6 " in stopped:
            lines.append(f"page {size}")
        if not place:
            return "\n".join(lines + [stopped, ""])
        lines.append(f"place {va:016x} {place[1]:016x} {origin_text(place[2])} {place[3]:016x}")
        lines += self.aliases(place)
        lines += [self.near((va + 8 * k) % TOP) for k in range(-4, 5)]
        if meaning(va, place[3]) in FILLS:
            lines.append(self.span(va, place[3]))
        return "\n".join(lines + [""])

    def encoded(self, values, keys):
        """The places of the words that hold one of some values as a free pointer that a cache encodes, by value, in one pass."""
        direct, caches = keys
        table = {}
        for value in values:
            for cache, name, coded in reversed(caches):
                table[value ^ coded] = value, f"encoded {cache:016x} {name}\n"
        found = {value: {} for value in values}
        for offset, start, size in self.core.loads:
            skipped = -start % 8
            words = array.array("Q", self.core.data[offset + skipped : offset + skipped + max(size - skipped, 0) // 8 * 8])
            for k, word in enumerate(words):
                pa = start + skipped + 8 * k
                at = int.from_bytes(((direct + pa) % TOP).to_bytes(8, "little"), "big")
                if word ^ at in table:
                    value, line = table[word ^ at]
                    if word != value:
                        found[value].setdefault((offset, start), []).append((pa, offset + skipped + 8 * k, word, line))
        return found

    def refs(self, value, found):
        """The text of the words that hold a value, one segment after the other."""
        wanted, data, lines = value.to_bytes(8, "little"), self.core.data, []
        for offset, start, size in self.core.loads:
            some = [(pa, at, f"place - {pa:016x} {at:016x} {word:016x}\n{line}") for pa, at, word, line in found.get((offset, start), [])]
            at = data.find(wanted, offset, offset + size)
            while at >= 0:
                pa = start + at - offset
                if pa % 8 == 0:
                    some.append((pa, at, f"place - {pa:016x} {at:016x} {value:016x}\n"))
                at = data.find(wanted, at + 1, offset + size)
            lines += [line for _, _, line in sorted(some)]
        return "".join(lines) + f"words {len(lines)}\n"


def made(why, areas, count):
    """Addresses of symbols, of words that are there, of areas, and others, by a fixed seed."""
    rng, some = random.Random(43), made_areas(areas, count)
    for _ in range(count):
        some.append(rng.choice(why.rows)[0] + rng.randrange(64))
        offset, start, size = rng.choice(why.core.loads)
        pa = start + rng.randrange(max(size, 1))
        some += [0xFFFF888000000000 + pa, rng.randrange(TOP), 0xFFFFC90000000000 + rng.randrange(1 << 25), rng.randrange(1 << 32)]
    return some


def made_areas(areas, count):
    """Addresses of modules, of processors' areas and of stacks, by a fixed seed."""
    rng, some, kernel = random.Random(59), [], areas.kernel
    try:
        for node in kernel.ring(areas.symbol("modules"))[:count]:
            module = (node - kernel.byte("module", "list")) % TOP
            base, size = (kernel.field(module, "module", f"{areas.parts()[0]}.{name}")[0] for name in ("base", "size"))
            some += [(base + rng.randrange(max(size, 1))) % TOP, (base + size) % TOP]
        for number in range(kernel.memory.number(areas.symbol("nr_cpu_ids"), 0, 32)[0]):
            offset = kernel.memory.place(areas.symbol("__per_cpu_offset") + 8 * number)[3]
            some += [(offset + rng.randrange(areas.symbol("__per_cpu_end"))) % TOP, offset, (offset + areas.symbol("__per_cpu_end")) % TOP]
        stacks = [areas.stack_of(task) for task in areas.tasks()[0]]
        some += [(stack + rng.randrange(16384)) % TOP for stack in rng.sample(stacks, min(count, len(stacks)))]
    except (Broken, Refused, TypeError):
        pass
    return some


def made_values(why, count):
    """Addresses of symbols, others, and twice as many that words of the dump hold, by a fixed seed."""
    rng, some = random.Random(43), []
    for _ in range(count):
        some += [rng.choice(why.rows)[0], 0xFFFF888000000000 + 8 * rng.randrange(1 << 24)]
    while len(some) < 4 * count:
        offset, _, size = rng.choice(why.core.loads)
        at = offset + 8 * rng.randrange(max(size // 8, 1))
        value = int.from_bytes(why.core.data[at : at + 8], "little")
        if value >> 47 == 0x1FFFF:
            some.append(value)
    return some


def made_objects(objects, count):
    """Objects that a free pointer leads to, of the slabs that caches have in their lists, by a fixed seed."""
    rng, some = random.Random(61), []
    for cache, _, _ in objects.keys()[1]:
        for slab, found in objects.free_lists(cache):
            some += found[1:]
    return rng.sample(some, min(count, len(some)))


def held(objects, at):
    """The lines of the object that holds an address, where the types tell it."""
    try:
        return objects.lines(at)
    except Refused:
        return []


class Sights:
    """What is printed of the addresses of a dump: what is seen of one, and what is told of it."""

    def __init__(self, core, btf, map_):
        self.why = Why(core, map_)
        kernel = Kernel(self.why.memory, Types(btf), symbols(map_), Info(self.why.core))
        self.areas = Areas(kernel, all_rows(map_, kernel.info.kaslr))
        try:
            self.objects = Objects(core, btf, map_)
            self.why.lead, self.descriptors = self.objects.lead, Descriptors(self.objects)
        except (Refused, TypeError):
            self.objects = None

    def parts(self, at):
        """The lines of the areas of an address, and those of what holds it, with what its page's descriptor says."""
        lines = [] if self.objects is None else held(self.objects, at)
        slab = any(line.startswith("slab ") and " first " in line for line in lines)
        return self.areas.lines(at, slab), lines[:1] + (self.descriptors.said(lines) if lines else []) + lines[1:]

    def inside(self, at, lines):
        """The lines of what the object that has an address says it is, and of how words that say the same lie in it."""
        found, place = object_of(self.objects, lines), self.why.seen(at - at % 8)[0]
        spans = place is not None and meaning(place[0], place[3]) in FILLS
        return named(self.areas, found) + (covers(at, self.why.span(place[0], place[3]), found) if spans else [])

    def text(self, at):
        areas, lines = self.parts(at)
        return self.why.text(at, areas) + "".join(line + "\n" for line in lines + self.inside(at, lines))

    def refs(self, value):
        """The text of the words that hold a value, with what stops the search for encoded ones."""
        unknown, keys, broken = "", (0, []), None
        try:
            keys = self.objects.keys() if self.objects else keys
            unknown = "".join(f"unread {cache:016x} {name}\n" for cache, name in (self.objects.unread() if self.objects else []))
            broken = reached(self.objects.kernel, self.objects.caches)[1] if self.objects else None
        except Broken as one:
            broken = one
        except (Refused, TypeError):
            pass
        text = self.why.refs(value, self.why.encoded([value], keys)[value])
        if broken:
            unknown += f"encoded unknown {broken.rule} {broken.at:016x}\n"
        return re.sub(r"(words \d+\n)$", unknown + r"\1", text)

    def says(self, va, value):
        """What a word of a violation says by itself, and how far that goes on."""
        kind = meaning(va, value)
        lines = [] if kind == "number" else [f"says {self.why.said(va, value)}"]
        return "".join(line + "\n" for line in lines + ([self.why.span(va, value)] if kind in FILLS else []))

    def told(self, at):
        """What stands after a word of a violation."""
        symbol, (areas, lines) = self.why.symbol(at), self.parts(at)
        first = [f"symbol {symbol}"] if symbol else []
        return "".join(line + "\n" for line in first + (areas if self.why.is_outside(at) else []) + lines + self.inside(at, lines))


def compare(command, words, folder, wanted):
    """Whether a run of some words prints what is wanted."""
    status, out, err, _ = timer.run(command + words, folder)
    assert (status, err) == (0, b""), (words, status, err)
    assert out.decode() == wanted, f"{words}\n{out.decode()}wanted\n{wanted}"


def measure(command, folder):
    """The least time of a run, and its memory."""
    return f"{timer.least([command], folder)[0]:.3f} s {timer.most_memory(command, folder):.1f} MiB"


def main(words):
    programs, folder, *given = words
    names = files.NAMES if os.path.exists(os.path.join(folder, "vmcore")) else ("z.core", "z.btf", "z.map")
    given, command = [int(word, 16) for word in given], [files.program(programs, "kwhy"), *names]
    sights = Sights(files.opened(folder, names[0]), *(files.read(folder, name) for name in names[1:]))
    why, objects, areas = sights.why, sights.objects, sights.areas
    addresses, values = given or made(why, areas, 40), given or made_values(why, 8)
    for at in addresses:
        compare(command, [f"{at:x}"], folder, sights.text(at))
    values += [] if given or objects is None else made_objects(objects, 8)
    found = why.encoded(values, objects.keys() if objects else (0, []))
    for value in values:
        compare(command, ["refs", f"{value:x}"], folder, why.refs(value, found[value]))
    print(len(addresses), "addresses", measure(command + [f"{addresses[0]:x}"], folder))
    print(len(values), "values", measure(command + ["refs", f"{values[0]:x}"], folder))
