"""Compares what kwhy prints of the object that has an address with a second reader's answer.

usage: objects PROGRAMS FOLDER [ADDRESS ..]

Without addresses it takes some of the direct map and of partial slabs at random; and of each changed word that damage.txt lists, and of a free
list, a compound page and the ring of caches that it changes itself, in a copy of the dump with that word, its own address and some beside it. The
second reader stands on `verdict.py`, and shares no code with the program.
"""
import random
import re
import shutil
import tempfile

import files
import timer
from plans.reader import IMAGE, TOP, Broken, Core, Info, Memory, Refused, Types, address, symbols, vmcoreinfo
from second.areas import Holders, shown
from second.rings import reached
from second.slabs import list_of, mark_of, processors
from second.verdict import Kernel, free_list, slub

LINES = re.compile(r"^(descriptor |cache |held by |slab |object |pad |past|before)")


def all_rows(map_, kaslr):
    """The run-time address and the name of each row, in the order of the file, so that the first of several at one address is found first."""
    listed = ((int(line[:16], 16), line[19:].decode()) for line in map_.splitlines())
    return [((at + kaslr) % TOP if at >= IMAGE else at, name) for at, name in listed]


class Objects:
    """The objects of a dump."""

    def __init__(self, core, btf, map_):
        self.core = Core(core)
        info = Info(self.core)
        self.memory = Memory(self.core, info.table, info.levels, info.mask)
        self.kernel = Kernel(self.memory, Types(btf), symbols(map_), info)
        self.caches = address(self.kernel.rows, "slab_caches", info.kaslr)
        self.page_size = self.kernel.types.size(self.kernel.struct("page"))
        self.kernel.types.plain(self.kernel.struct("page"), "compound_head")  # without it no object is told, nor what encodes free pointers
        self.rows, self.holders = all_rows(map_, info.kaslr), None
        try:
            self.mark = mark_of(self.kernel, vmcoreinfo(self.core))
        except (KeyError, TypeError):
            self.mark = None

    def base(self, name, four, five):
        symbol = address(self.kernel.rows, name, self.kernel.info.kaslr)
        return (five if self.kernel.info.levels == 5 else four) if symbol is None else self.memory.place(symbol)[3]

    def optional(self, cache, name):
        try:
            return self.kernel.field(cache, "kmem_cache", name)[0]
        except (Broken, Refused):
            return None

    def name(self, cache):
        at, text = self.optional(cache, "name"), ""
        while at is not None and len(text) < 64:
            try:
                byte = self.memory.number(at % TOP, 0, 8)[0]
            except Broken:
                break
            if byte == 0:
                break
            text, at = text + shown([byte]), at + 1
        return text

    def keys(self):
        """Where the direct map begins, and the caches that encode free pointers: the address, the name and the random number of each."""
        found = []
        for node in reached(self.kernel, self.caches)[0]:
            cache = (node - self.kernel.byte("kmem_cache", "list")) % TOP
            coded = self.optional(cache, "random")
            if coded is not None:
                found.append((cache, self.name(cache), coded % TOP))
        return self.keys_base(), found

    def unread(self):
        """The caches whose random number can't be read: the address and the name of each."""
        for node in reached(self.kernel, self.caches)[0]:
            cache = (node - self.kernel.byte("kmem_cache", "list")) % TOP
            try:
                self.kernel.field(cache, "kmem_cache", "random")
            except Broken:
                yield cache, self.name(cache)
            except Refused:
                return

    def keys_base(self):
        """Where the direct map begins."""
        return self.base("page_offset_base", 0xFFFF888000000000, 0xFF11000000000000)

    def free_lists(self, cache):
        """The slabs of a cache's partial lists, each with the objects of its free list."""
        kernel, bases = self.kernel, (self.base("vmemmap_base", 0xFFFFEA0000000000, 0xFFD4000000000000), self.keys_base())
        offset, size = (kernel.field(cache, "kmem_cache", name)[0] for name in ("offset", "size"))
        coded, pad = self.optional(cache, "random"), self.optional(cache, "red_left_pad") or 0
        for slab in slub(kernel, cache):
            base = (bases[1] + (slab - bases[0]) // self.page_size * 4096 + pad) % TOP
            yield slab, free_list(kernel, slab, kernel.field(slab, "slab", "objects")[0], base, size, offset, coded)

    def free(self, slab, first, counts, cache, of_cache):
        """Where the slab's own free list has the object."""
        base, size, offset, coded = of_cache
        try:
            found = free_list(self.kernel, slab, counts[0], base, size, offset, coded)
        except Broken as broken:
            return f"unknown {broken.rule} {broken.at:016x}"
        if first in found:
            return f"free {found.index(first) + 1} of {len(found)}"
        return self.kept(slab, first, counts[0], cache, of_cache) if counts[2] else "used"

    def kept(self, slab, first, objects, cache, grid):
        """Where the list of a processor that owns the slab has the object."""
        kernel = self.kernel
        try:
            for struct, name in (("kmem_cache", "cpu_slab"), ("kmem_cache_cpu", "slab"), ("kmem_cache_cpu", "freelist")):
                kernel.byte(struct, name)
            numbered = processors(kernel)
            if numbered is None:
                return "frozen"
            for number, offset in numbered:
                at = (kernel.field(cache, "kmem_cache", "cpu_slab")[0] + offset) % TOP
                if kernel.field(at, "kmem_cache_cpu", "slab")[0] == slab:
                    led, _, places = kernel.field(at, "kmem_cache_cpu", "freelist")
                    found = list_of(kernel, (led, places), objects, *grid)
                    if first in found:
                        return f"free {found.index(first) + 1} of {len(found)} processor {number}"
            return "used"
        except Broken as broken:
            return f"frozen unknown {broken.rule} {broken.at:016x}"
        except Refused:
            return "frozen"

    def of_slab(self, slab, cache, pa, bases):
        """The lines of a slab of a cache that stands in the ring."""
        kernel = self.kernel
        distance = (slab - bases[0]) % TOP
        if distance % self.page_size or distance // self.page_size >= 1 << 40:
            raise Broken("U4", slab)
        offset, size = kernel.field(cache, "kmem_cache", "offset")[0], kernel.field(cache, "kmem_cache", "size")
        coded, pad = self.optional(cache, "random"), self.optional(cache, "red_left_pad") or 0
        if size[0] == 0 or offset + 8 > size[0]:
            raise Broken("U3", size[1])
        objects, inuse, frozen = (kernel.field(slab, "slab", name) for name in ("objects", "inuse", "frozen"))
        if objects[0] == 0 or inuse[0] > objects[0]:
            raise Broken("U3", objects[1])
        start = distance // self.page_size * 4096
        users = self.optional(cache, "refcount")
        yield f"cache {cache:016x} {self.name(cache)} size {size[0]}" + ("" if users is None or users % TOP >> 63 else f" users {users}")
        if users is not None and 1 < users % TOP < 1 << 63:
            yield from self.held_by(cache)
        yield f"slab {slab:016x} first {(bases[1] + start) % TOP:016x} objects {objects[0]} inuse {inuse[0]}"
        number, byte = divmod(pa - start, size[0])
        if pa < start:
            yield "before"
        elif number >= objects[0]:
            yield "past"
        elif byte < pad:
            yield f"pad number {number}"
        else:
            base = (bases[1] + start + pad) % TOP
            first = (base + number * size[0]) % TOP
            counts = objects[0], inuse[0], frozen[0]
            free = self.free(slab, first, counts, cache, (base, size[0], offset, coded))
            yield f"object {first:016x} number {number} byte {byte - pad} {free}"

    def one(self, name):
        """The address of a symbol that has one alone."""
        try:
            return address(self.kernel.rows, name, self.kernel.info.kaslr)
        except Refused:
            return None

    def held_by(self, cache):
        """The line of the symbols whose words hold a cache's address."""
        if self.holders is None:
            self.holders = Holders(self.memory, self.rows, *(self.one(name) for name in ("_etext", "_end", "__init_begin", "__init_end")))
        if self.holders.of(cache):
            yield "held by " + " ".join(self.holders.of(cache))

    def is_unmarked(self, head):
        """Whether a page hasn't the kernel's mark of a slab, where that is known and can be read."""
        if self.mark is None:
            return False
        field, is_marked = self.mark
        try:
            return not is_marked(self.kernel.field(head, "page", field)[0])
        except (Broken, Refused):
            return False

    def lines(self, va):
        try:
            pa = self.memory.place(va - va % 8)[1] + va % 8
        except Broken:
            return []
        try:
            bases = self.base("vmemmap_base", 0xFFFFEA0000000000, 0xFFD4000000000000), self.base("page_offset_base", 0xFFFF888000000000, 0xFF11000000000000)
            descriptor = (bases[0] + self.page_size * (pa // 4096)) % TOP
            compound = self.kernel.field(descriptor, "page", "compound_head")[0]
        except Broken as broken:
            return [f"descriptor unknown {broken.rule} {broken.at:016x}"]
        head = compound - 1 if compound % 2 else descriptor
        lines = [f"descriptor {descriptor:016x} page {pa // 4096:016x} head {head:016x}"]
        if self.is_unmarked(head):
            return lines
        try:
            cache = self.kernel.field(head, "slab", "slab_cache")[0]
            nodes, broken = reached(self.kernel, self.caches)
            if (cache + self.kernel.byte("kmem_cache", "list")) % TOP in nodes:
                lines += self.of_slab(head, cache, pa, bases)
            elif broken:
                raise broken
        except Broken as broken:
            lines = lines[:1] + [f"slab unknown {broken.rule} {broken.at:016x}"]
        return lines

    def described(self, va):
        """The page whose descriptor has an address."""
        try:
            bases = self.base("vmemmap_base", 0xFFFFEA0000000000, 0xFFD4000000000000), self.keys_base()
        except Broken:
            return "number"
        number, byte = divmod((va - bases[0]) % TOP, self.page_size)
        return f"descriptor {number:016x}+{byte}" if number < 1 << (40 if self.kernel.info.levels == 5 else 34) else "number"

    def lead(self, va):
        """What a number leads to, taken as an address."""
        try:
            self.memory.place(va - va % 8)
        except Broken:
            return "number"
        lines = [line.split(" ") for line in self.lines(va)]
        if lines[-1][0] == "object":
            name = next(words[2] for words in lines if words[0] == "cache")
            state = lines[-1][6]
            return f"object {name}+{lines[-1][5]}" + ("" if state == "used" else f" {state}")
        return self.described(va)


def compare(kwhy, folder, objects, given):
    """How many lines agree, by their first words."""
    seen = {}
    for va in given:
        status, out, err, _ = timer.run([kwhy, *files.NAMES, f"{va:x}"], folder)
        assert (status, err) == (0, b""), (hex(va), status, err)
        told = [line for line in out.decode().splitlines() if LINES.match(line)]
        wanted = objects.lines(va)
        assert told == wanted, f"{va:016x}\ntold\n" + "\n".join(told) + "\nwanted\n" + "\n".join(wanted)
        last = wanted[-1] if wanted else "nothing"
        kind = " ".join(word for word in last.split() if not re.fullmatch(r"[0-9a-f]{16}|\d+", word))
        seen[kind] = seen.get(kind, 0) + 1
    return seen


def address_of(objects, offset):
    """The direct map's address of a word of the file."""
    for at, start, size in objects.core.loads:
        if at <= offset < at + size:
            return (objects.base("page_offset_base", 0xFFFF888000000000, 0xFF11000000000000) + start + offset - at) % TOP
    raise AssertionError(hex(offset))


def made(objects, count):
    """Addresses of the direct map, by a fixed seed."""
    rng, some = random.Random(47), []
    for _ in range(count):
        _, start, size = rng.choice(objects.core.loads)
        some.append((objects.base("page_offset_base", 0xFFFF888000000000, 0xFF11000000000000) + start + rng.randrange(max(size, 1))) % TOP)
    return some


def partial(objects, count):
    """Addresses in partial slabs, by a fixed seed."""
    rng, some = random.Random(53), []
    kernel = objects.kernel
    for node in kernel.ring(objects.caches):
        cache = (node - kernel.byte("kmem_cache", "list")) % TOP
        try:
            slabs = slub(kernel, cache)
        except Broken:
            continue
        for slab in slabs[:2]:
            bases = objects.base("vmemmap_base", 0xFFFFEA0000000000, 0xFFD4000000000000), objects.base("page_offset_base", 0xFFFF888000000000, 0xFF11000000000000)
            first = (bases[1] + (slab - bases[0]) // objects.page_size * 4096) % TOP
            free = kernel.field(slab, "slab", "freelist")[0]
            some += [(first + rng.randrange(4096)) % TOP, (first + 4095) % TOP, free]
    return rng.sample(some, min(count, len(some)))


def own_damages(objects):
    """A free list, a compound page and the ring of caches: of each a changed word, and an address."""
    kernel, va = objects.kernel, partial(objects, 1)[0]
    head = int(objects.lines(va)[2].split()[1], 16)
    fields = kernel.field(head, "slab", "freelist"), kernel.field(head, "slab", "slab_cache")
    node = kernel.ring(objects.caches)[0]
    places = [fields[0][2][0], fields[0][2][0], fields[1][2][0], objects.memory.place((node + kernel.offset("list_head", "prev")) % TOP)]
    for name, place, new in zip(("free-list", "free-loop", "tail", "caches"), places, (1, va - va % 8, head + 65, 0)):
        yield files.Damage(name, name, None, place[2], place[3], new, 1, ""), va


def damaged(kwhy, folder, btf, map_, own):
    """Each changed word, in a copy of the dump."""
    with tempfile.TemporaryDirectory() as copy:
        for name in files.NAMES:
            shutil.copy(f"{folder}/{name}", copy)
        for damage, at in [(damage, None) for damage in files.damages(folder)] + own:
            with files.changed(f"{copy}/vmcore", damage):
                objects = Objects(files.opened(copy, "vmcore"), btf, map_)
                va = address_of(objects, damage.offset) if at is None else at
                print(damage.name, compare(kwhy, copy, objects, [va, va + 3, va - 64, va + 256]), flush=True)


def main(words):
    programs, folder, *given = words
    kwhy, given = files.program(programs, "kwhy"), [int(word, 16) for word in given]
    btf, map_ = files.read(folder, "btf"), files.read(folder, "System.map")
    objects = Objects(files.opened(folder, "vmcore"), btf, map_)
    print(compare(kwhy, folder, objects, given or made(objects, 200) + partial(objects, 200)))
    if not given:
        damaged(kwhy, folder, btf, map_, list(own_damages(objects)))
