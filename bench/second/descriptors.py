"""Compares what kwhy prints of the words of a page's descriptor with a second reader's answer.

usage: descriptors PROGRAMS FOLDER [ADDRESS ..]
       descriptors lists FOLDER

Without addresses it takes some of the direct map at random. With `lists` no program is run: the lists of free blocks that the zones keep are walked,
and every page of the dump is in one of their blocks exactly where its descriptor and those that may begin its block say so. The second reader stands
on `verdict.py`, and shares no code with the program.
"""
import collections
import random
import re

import files
import timer
from plans.reader import TOP, Broken, Refused, dec_of, vmcoreinfo
from second.areas import shown
from second.objects import Objects

LINES = re.compile(r"^(flags|mapping|anonymous|movable|ksm|free) ")


class Descriptors:
    """What the descriptors of a dump's pages say. include/linux/mm_types.h, `struct page`; include/linux/page-flags.h; mm/page_alloc.c."""

    def __init__(self, objects):
        self.objects, self.kernel = objects, objects.kernel
        values = {}
        for line in vmcoreinfo(objects.core).split(b"\n"):
            key, _, value = line.partition(b"=")
            values.setdefault(key, value)
        buddy, lists = (dec_of(values.get(key, b"")) for key in (b"NUMBER(PAGE_BUDDY_MAPCOUNT_VALUE)", b"LENGTH(zone.free_area)"))
        self.buddy = None if buddy is None else buddy % (1 << 32)
        self.orders = 0 if lists is None or lists > 64 else lists

    def known(self, at, *paths, struct="page"):
        """The number of the first member that there is, where it can be read."""
        for path in paths:
            try:
                return self.kernel.field(at, struct, path)[0]
            except Refused:
                continue
            except Broken:
                return None
        return None

    def is_marked(self, head):
        """Whether a head page has the mark of a slab."""
        if self.objects.mark is None:
            return False
        field, is_marked = self.objects.mark
        value = self.known(head, field)
        return value is not None and is_marked(value)

    def at(self, number):
        """The descriptor of a page."""
        base = self.objects.base("vmemmap_base", 0xFFFFEA0000000000, 0xFFD4000000000000)
        return (base + self.objects.page_size * number) % TOP

    def block(self, number):
        """The order of the free block that has a page, and which of its pages it is."""
        for order in range(self.orders):
            first = number >> order << order
            kind, own = self.known(self.at(first), "_mapcount.counter"), self.known(self.at(first), "private")
            if None not in (self.buddy, kind) and kind % (1 << 32) == self.buddy and own == order:
                return order, number - first
        return None

    def nodes(self):
        """The nodes of memory, 64 at most."""
        array, only = self.objects.one("node_data"), self.objects.one("contig_page_data")
        for number in range(64):
            try:
                at = self.kernel.memory.place((array + 8 * number) % TOP)[3] if array is not None else 0 if number else only
            except Broken:
                continue
            if at:
                yield at

    def zones(self):
        """The zones of all nodes, 8 of each at most."""
        types = self.kernel.types
        _, byte, kind = types.located(self.kernel.struct("pglist_data"), "node_zones")
        record = types.records[types.bare(kind)]
        for node in self.nodes():
            for number in range(min(record[4][2], 8) if record[4][2] <= 64 else 0):
                yield (node + byte + types.size(record[4][0]) * number) % TOP

    def text(self, at):
        """A name: the bytes before a NUL, or before what can't be read, 64 at most."""
        found = []
        while len(found) < 64:
            try:
                byte = self.kernel.memory.number((at + len(found)) % TOP, 0, 8)[0]
            except Broken:
                break
            if byte == 0:
                break
            found.append(byte)
        return shown(found)

    def zone(self, number):
        """The name of the first zone that spans a page."""
        try:
            zones = self.zones()
            for zone in zones:
                start, spanned, name = (self.known(zone, field, struct="zone") for field in ("zone_start_pfn", "spanned_pages", "name"))
                if None not in (start, spanned, name) and start <= number < start + spanned:
                    return self.text(name)
        except Refused:
            pass
        return None

    def flags(self, head, slab):
        value, count = self.known(head, "flags", "flags.f"), self.known(head, "_refcount.counter")
        if None in (value, count):
            return
        line = f"flags {value:016x} count {(count + (1 << 63)) % TOP - (1 << 63)}"
        maps = None if slab else self.known(head, "_mapcount.counter")
        if maps is not None and (maps + 1) % TOP < 1 << 63:
            line += f" mapcount {(maps + 1) % TOP}"
        yield line

    def mapping(self, head):
        value, index = self.known(head, "mapping"), self.known(head, "index", "__folio_index")
        if value and index is not None:
            kind = ("mapping", "anonymous", "movable", "ksm")[value & 3]
            yield f"{kind} {value & ~3:016x}" + ("" if value & 2 else f" index {index}")

    def lines(self, number, head, slab):
        """What is printed of a page, by its head page's descriptor; `slab` where it is known to be a slab's."""
        slab = slab or self.is_marked(head)
        found = list(self.flags(head, slab))
        if not slab:
            found += self.mapping(head)
            block = self.block(number)
            if block:
                zone = self.zone(number)
                found.append(f"free order {block[0]} page {block[1]}" + ("" if zone is None else f" zone {zone}"))
        return found

    def said(self, lines):
        """The lines of the page of which the other second reader prints these; one whose slab it can't tell is taken for a slab's."""
        first = lines[0].split() if lines else []
        if len(first) != 6:
            return []
        return self.lines(int(first[3], 16), int(first[5], 16), len(lines) > 1)

    def told(self, va):
        """The lines of the page that has an address."""
        return self.said(self.objects.lines(va))


def listed(descriptors):
    """The blocks of the zones' free lists: the number of the first page, with the order and the zone's name."""
    kernel, found, base = descriptors.kernel, {}, descriptors.at(0)
    area, head = kernel.types.size(kernel.struct("free_area")), kernel.types.size(kernel.struct("list_head"))
    for zone in descriptors.zones():
        if kernel.field(zone, "zone", "spanned_pages")[0] == 0:
            continue
        counts, name = [], descriptors.text(kernel.field(zone, "zone", "name")[0])
        for order in range(descriptors.orders):
            at = zone + kernel.byte("zone", "free_area") + area * order
            blocks = []
            for kind in range(5):
                for node in kernel.ring((at + kernel.byte("free_area", "free_list") + head * kind) % TOP):
                    number, rest = divmod((node - kernel.byte("page", "lru") - base) % TOP, descriptors.objects.page_size)
                    assert rest == 0, hex(node)
                    blocks.append(number)
            assert len(blocks) == kernel.field(at, "free_area", "nr_free")[0], (zone, order)
            assert all(number % (1 << order) == 0 for number in blocks), (zone, order)
            found.update((number, (order, name)) for number in blocks)
            counts.append(len(blocks))
        print(f"zone {name} free blocks by order", *counts)
    return found


def against_lists(descriptors):
    """Holds the answers for every page of the dump against the zones' lists."""
    blocks = listed(descriptors)
    wanted = {first + k: (order, k, zone) for first, (order, zone) in blocks.items() for k in range(1 << order)}
    assert len(wanted) == sum(1 << order for order, _ in blocks.values())
    seen = collections.Counter()
    numbers = sorted({pa >> 12 for _, start, size in descriptors.objects.core.loads for pa in range(start, start + size, 4096)} | set(wanted))
    for number in numbers:
        block = descriptors.block(number)
        block = block and (*block, descriptors.zone(number))
        seen[block and block[0]] += 1
        if block != wanted.get(number):
            print(f"page {number:x} told {block} listed {wanted.get(number)} {descriptors.lines(number, descriptors.at(number), False)}")
            seen["other"] += 1
    print(len(numbers), "pages", len(wanted), "of free blocks; by order", dict(sorted(seen.items(), key=str)))


def made(descriptors, count):
    """Addresses of the direct map, by a fixed seed; half of them of pages that the dump has."""
    rng, some, objects = random.Random(67), [], descriptors.objects
    direct = objects.base("page_offset_base", 0xFFFF888000000000, 0xFF11000000000000)
    for _ in range(count):
        _, start, size = rng.choice(objects.core.loads)
        some.append((direct + start + rng.randrange(max(size, 1))) % TOP)
    return some


def main(words):
    programs, folder, *given = words
    objects = Objects(files.opened(folder, "vmcore"), files.read(folder, "btf"), files.read(folder, "System.map"))
    descriptors = Descriptors(objects)
    if programs == "lists":
        return against_lists(descriptors)
    kwhy, seen = files.program(programs, "kwhy"), collections.Counter()
    for va in [int(word, 16) for word in given] or made(descriptors, 400):
        status, out, err, _ = timer.run([kwhy, *files.NAMES, f"{va:x}"], folder)
        assert (status, err) == (0, b""), (hex(va), status, err)
        told, wanted = [line for line in out.decode().splitlines() if LINES.match(line)], descriptors.told(va)
        assert told == wanted, f"{va:016x}\ntold\n" + "\n".join(told) + "\nwanted\n" + "\n".join(wanted)
        seen.update(line.split()[0] for line in wanted)
    print(dict(seen))
