"""Makes the dump on which kslab is tried in crates/kslab: slabs of five caches, whole and damaged ones, two of them with slub_debug, a page that
only claims a cache, a page of KFENCE's pool, two processors, and a frame without a descriptor; and the dumps of slabcases.py.

usage: madeslabs FOLDER

It writes small.core, small.btf and small.map into FOLDER, and prints what the second reader of slabs.py finds of them.
"""
import os
import struct

from second.made import DIRECT, IMAGE, VMEMMAP

TOP = 1 << 64
NOTE = (
    b"PAGESIZE=4096\nNUMBER(phys_base)=0\nSYMBOL(init_top_pgt)=ffffffff80001000\n"
    b"NUMBER(pgtable_l5_enabled)=0\nKERNELOFFSET=0\nNUMBER(sme_mask)=0\nNUMBER(PG_slab)=9\n"
)
MAP = b"""ffffffff8000b000 D nr_cpu_ids
ffffffff8000b008 D __cpu_possible_mask
ffffffff8000b010 D __per_cpu_offset
ffffffff8000b0f8 D __kfence_pool
ffffffff8000b100 D slab_caches
ffffffff8000b900 D kfence_metadata
"""
WORD, NUMBER, POINTER, LIST, ARRAY = 1, 2, 3, 4, 6
# The structs: name, bytes, and the members by name, type, bit, and width where it is a bit-field's.
STRUCTS = (
    ("list_head", 16, (("next", POINTER, 0), ("prev", POINTER, 64))),
    ("kmem_cache_node", 32, (("nr_partial", WORD, 64), ("partial", LIST, 128))),
)
MORE = (
    ("kmem_cache_cpu", 24, (("freelist", POINTER, 0), ("tid", WORD, 64), ("slab", POINTER, 128))),
    ("kmem_cache", 80, (("cpu_slab", POINTER, 0), ("size", NUMBER, 64), ("offset", NUMBER, 96), ("random", WORD, 128), ("name", POINTER, 192),
                        ("list", LIST, 256), ("node", ARRAY, 384), ("flags", NUMBER, 448), ("object_size", NUMBER, 480), ("inuse", NUMBER, 512),
                        ("red_left_pad", NUMBER, 544), ("ctor", POINTER, 576))),
    ("slab", 64, (("__page_flags", WORD, 0), ("slab_cache", POINTER, 64), ("slab_list", LIST, 128), ("freelist", POINTER, 256),
                  ("inuse", NUMBER, 320, 16), ("objects", NUMBER, 336, 15), ("frozen", NUMBER, 351, 1))),
    ("kfence_metadata", 64, (("list", LIST, 0), ("state", NUMBER, 128), ("addr", WORD, 192), ("size", WORD, 256))),
    ("page", 64, (("flags", WORD, 0), ("compound_head", WORD, 64))),
)
CACHES, CACHE, NAMES, CPUS = 0xB100, (0xB200, 0xB300, 0xB400, 0xB500, 0xB600), 0xB800, (0xC000, 0xC400)
FRAMES, SIZE, FAR, RANDOM = 0x8000, 0x1C000, 0x40000, 0x1122334455667788
POOL, METADATA = 0xB0F8, 0xB900
OBJECTS, BYTES, OFFSET = 8, 512, 256
# SLAB_RED_ZONE and SLAB_POISON, by constants and by the bits of an enumeration.
ZONES, POISON, BITS = 0x400, 0x800, {0x400: 1 << 1, 0x800: 1 << 2, 0x80000: 1 << 9}
# Of each cache its name, `size`, `flags`, `object_size`, `inuse` and `red_left_pad`.
MADE = (
    (b"made", BYTES, 0, 256, 256, 0), (b"n\x01 t", BYTES, 0, 256, 256, 0), (b"small", 8, 0, 8, 8, 0),
    (b"zones", BYTES, ZONES | POISON, 250, 256, 64), (b"padded", BYTES, POISON, 251, 256, 0),
)


def btf(extra=(), without=()):
    """The types: with these further structs or enumerations, and without these members."""
    names, types = bytearray(b"\0"), bytearray()

    def name(text):
        at = names.find(b"\0" + text.encode() + b"\0") + 1
        if at == 0:
            at = len(names)
            names.extend(text.encode() + b"\0")
        return at

    def put(title, size, members):
        fields = any(len(member) > 3 for member in members)
        types.extend(struct.pack("<III", name(title), fields << 31 | 4 << 24 | len(members), size))
        for member in members:
            width = member[3] if len(member) > 3 else 0
            types.extend(struct.pack("<III", name(member[0]), member[1], width << 24 | member[2]))

    types.extend(struct.pack("<IIII", name("unsigned long"), 1 << 24, 8, 64))
    types.extend(struct.pack("<IIII", name("unsigned int"), 1 << 24, 4, 32))
    types.extend(struct.pack("<III", 0, 2 << 24, 0))
    put(*STRUCTS[0])
    put(*STRUCTS[1])
    types.extend(struct.pack("<IIIIII", 0, 3 << 24, 0, POINTER, NUMBER, 1))
    for title, size, members in MORE:
        put(title, size, [member for member in members if (title, member[0]) not in without])
    for kind, title in extra:
        types.extend(struct.pack("<III", name(title), kind << 24, 4))
    return struct.pack("<HBBIIIII", 0xEB9F, 1, 0, 24, 0, len(types), len(types), len(names)) + bytes(types) + bytes(names)


class Slabs:
    """The memory, and the physical address of a page without a descriptor."""

    far = FAR

    def __init__(self):
        self.memory = bytearray(SIZE)
        for pa, word in ((0x1FF8, 0x2003), (0x2FF0, 0x3003), (0x3000, 0x4003), (0x1EA0, 0x5003), (0x5000, 0x6003), (0x6000, 0x7003),
                         (0x7000, FRAMES + 3), (0x1888, 0x9003), (0x9000, 0xA003), (0xA000, 0x83)):
            self.put(pa, word)
        for k in range(SIZE // 4096):
            self.put(0x4000 + 8 * k, 0x1000 * k + 3)
        self.put(0xB000, 2)
        self.put(0xB008, 3)
        self.put(0xB010, 0)
        self.put(0xB018, CPUS[1] - CPUS[0])
        self.caches()

    def put(self, pa, word):
        struct.pack_into("<Q", self.memory, pa, word % TOP)

    def caches(self):
        """The ring of caches: objects of 512 bytes, the same with a name that isn't printable, and one whose objects can't be laid out."""
        nodes = [IMAGE + CACHES] + [IMAGE + cache + 32 for cache in CACHE]
        for k, node in enumerate(nodes):
            self.put(node - IMAGE, nodes[(k + 1) % len(nodes)])
            self.put(node - IMAGE + 8, nodes[k - 1])
        for k, (cache, (title, size, flags, there, inuse, pad)) in enumerate(zip(CACHE, MADE)):
            struct.pack_into("<QIIQQ", self.memory, cache, IMAGE + CPUS[0] + 64 * k, size, OFFSET, RANDOM, IMAGE + NAMES + 16 * k)
            struct.pack_into("<IIIIQ", self.memory, cache + 56, flags, there, inuse, pad, 0)
            self.memory[NAMES + 16 * k : NAMES + 16 * k + len(title)] = title

    def code(self, at, pointer):
        """A free pointer as it is kept."""
        return pointer ^ RANDOM ^ int.from_bytes(at.to_bytes(8, "little"), "big")

    def chain(self, frame, numbers, pad=0):
        """A free list of these objects, and the address of its first."""
        objects = [DIRECT + 4096 * frame + pad + BYTES * number for number in numbers] + [0]
        for one, after in zip(objects, objects[1:]):
            self.put(one - DIRECT + OFFSET, self.code(one + OFFSET, after))
        return objects[0]

    def slab(self, frame, cache, free, inuse, frozen=0, flags=1 << 9):
        """A page that names a cache, with a free list of its own."""
        at, first = FRAMES + 64 * frame, self.chain(frame, free, MADE[cache][5])
        struct.pack_into("<QQ", self.memory, at, flags, IMAGE + CACHE[cache])
        struct.pack_into("<QI", self.memory, at + 32, first, inuse | OBJECTS << 16 | frozen << 31)

    def guard(self, frame, cache, free):
        """The bytes that slub_debug keeps at the objects of a page: red zones, padding and poison."""
        _, _, flags, there, inuse, pad = MADE[cache]
        for number in range(OBJECTS):
            at, fill = 4096 * frame + pad + BYTES * number, 0xBB if number in free else 0xCC
            if number in free and flags & POISON:
                self.memory[at : at + there] = b"\x6b" * (there - 1) + b"\xa5"
            self.memory[at - pad : at] = bytes([fill]) * pad
            self.memory[at + there : at + inuse] = bytes([fill if flags & ZONES else 0x5A]) * (inuse - there)

    def guarded(self, frame, cache, free):
        """A whole slab of a cache with slub_debug."""
        self.guard(frame, cache, free)
        self.slab(frame, cache, free, OBJECTS - len(free))

    def fence(self, first, frame, cache, counts, flags=1 << 9, freelist=0):
        """KFENCE's pool from one page on, and another page of it, with its object's metadata."""
        self.put(POOL, DIRECT + 4096 * first)
        self.put(METADATA + 64 * ((frame - first) // 2 - 1) + 24, DIRECT + 4096 * frame + 16)
        for at, word in ((0, flags), (8, cache), (32, freelist), (40, counts)):
            self.put(FRAMES + 64 * frame + at, word)

    def processor(self, number, cache, frame, first):
        """A processor's slab of a cache, and the first object of its list."""
        at = CPUS[number] + 64 * cache
        self.put(at, first)
        self.put(at + 16, VMEMMAP + 64 * frame)

    def core(self, text=NOTE):
        """The file: a note with this text, the memory, and a page whose descriptor isn't mapped."""
        head = bytearray(0x400)
        head[:7] = b"\x7fELF\x02\x01\x01"
        struct.pack_into("<HHI", head, 16, 4, 62, 1)
        struct.pack_into("<QQ", head, 32, 64, 0)
        struct.pack_into("<HHH", head, 54, 56, 3, 0)
        note = struct.pack("<III", 11, len(text), 0) + b"VMCOREINFO\0\0" + text + b"\0" * (-len(text) % 4)
        head[0x200 : 0x200 + len(note)] = note
        for k, (kind, at, pa, size) in enumerate(((4, 0x200, 0, len(note)), (1, 0x400, 0, SIZE), (1, 0x400 + SIZE, self.far, 4096))):
            struct.pack_into("<IIQQQQQQ", head, 64 + 56 * k, kind, 0, at, 0, pa, size, size, 0)
        return bytes(head) + bytes(self.memory) + bytes(4096)


def damaged():
    """Whole slabs, and one for each rule that is broken."""
    made = Slabs()
    made.slab(0xD, 0, (6, 2, 4), 5)
    made.slab(0xE, 0, (1,), 7, frozen=1)
    made.slab(0xF, 1, (0, 3), 6)
    made.slab(0x10, 1, (5, 1, 7), 5)
    made.slab(0x11, 0, (), 8, flags=0)
    made.slab(0x12, 2, (), 8)
    made.slab(0x13, 1, (2, 3), 7)
    made.processor(0, 0, 0xE, made.chain(0xE, (3, 0)))
    made.processor(1, 0, 0xF, DIRECT + 0xF000)
    made.processor(1, 1, 0xF, made.chain(0xF, (3,)))
    made.slab(0xF, 1, (0, 3), 6)
    # text over the second free object
    made.memory[0x10000 + BYTES + OFFSET : 0x10000 + BYTES + OFFSET + 8] = b"AAAAAAAA"
    # slabs with slub_debug: whole ones, the last byte of a free object, the red zones around one in use, and its padding
    for frame, cache, free, harmed in (
        (0x14, 3, (1, 4), None), (0x15, 3, (1, 4), 64 + BYTES + 249), (0x16, 3, (0, 7), 64 + 3 * BYTES - 1), (0x17, 4, (2,), None), (0x18, 4, (2, 5), 6 * BYTES + 253),
    ):
        made.guarded(frame, cache, free)
        if harmed is not None:
            made.memory[4096 * frame + harmed] ^= 1
    made.fence(0x19, 0x1B, IMAGE + CACHE[0], 1 << 16)
    return made


def main(words):
    folder = words[0]
    for name, data in (("small.core", damaged().core()), ("small.btf", btf()), ("small.map", MAP)):
        with open(os.path.join(folder, name), "wb") as file:
            file.write(data)
    from second import slabs
    with open(os.path.join(folder, "small.core"), "rb") as file:
        text, status, _ = slabs.second(file.read(), btf(), MAP).look()
    print(text, end="")
    return status
