"""Makes the made inputs a second time: the four files of N items, with one of them hurt or none.

usage: gen FOLDER N [HURT]      writes dump, btf, map and plan into FOLDER
       gen --sums N [HURT]      prints the length of each and its sum, by FNV-1a of 64 bits over its words of 8 bytes

The page tables, the note and the map stand here as they are written in the worked rows; nothing is taken from the program.
"""
import os
import struct

I = 0xFFFFFFFF80000000
D = 0xFFFF888000000000
ITEMS = 0x100000
MAP = """ffffffff8000b000 D init_task
ffffffff8000b100 D slab_caches
ffffffff8000b110 D my_xa
ffffffff8000b120 D my_ring
ffffffff8000b130 D my_rb
ffffffff8000b140 D my_hl
ffff888000011000 D an_item
ffffea00000003c0 D a_slab
ffff888000020000 D far_ring
"""
NOTE = """PAGESIZE=4096
NUMBER(phys_base)=0
SYMBOL(init_top_pgt)=ffffffff80001000
NUMBER(pgtable_l5_enabled)=0
KERNELOFFSET=0
NUMBER(sme_mask)=0
"""
PLAN = """version = 1
[[audit]]
name = "ring"
kind = "ring"
root = "my_ring"
element = "item"
link = "link"
[[audit]]
name = "tree"
kind = "rbtree"
root = "my_rb"
element = "item"
link = "rb"
key = "key"
unique = true
[[audit]]
name = "array"
kind = "xarray"
root = "my_xa"
element = "item"
"""
# the types, a line each: kind, name, size or type; then the members of a struct or union: name, type, bit and maybe a width
TYPES = """int unsigned_long 8 0 64
int unsigned_char 1 0 8
int unsigned_int 4 0 32
int int 4 1 32
ptr 0
struct list_head 16: next 7 0, prev 7 64
ptr 6
struct hlist_node 16: next 9 0, pprev 5 64
ptr 8
struct hlist_head 8: first 9 0
struct rb_node 24: __rb_parent_color 1 0, rb_right 12 64, rb_left 12 128
ptr 11
struct rb_root 8: rb_node 12 0
struct rb_root_cached 16: rb_root 13 0, rb_leftmost 12 64
array 16 5
struct xa_node 152: shift 2 0, offset 2 8, count 2 16, nr_values 2 24, parent 17 64, array 5 128, slots 15 192
ptr 16
struct xarray 16: xa_lock 3 0, xa_flags 3 32, xa_head 5 64
struct kmem_cache_node 32: list_lock 3 0, nr_partial 1 64, partial 6 128
ptr 19
array 1 20
struct kmem_cache 48: size 3 0, object_size 3 32, offset 3 64, red_left_pad 3 96, random 1 128, list 6 192, node 21 320
ptr 22
struct - 4: inuse 3 0 16, objects 3 16 15, frozen 3 31 1
union - 8: counters 1 0, - 24 0
struct slab 64: __page_flags 1 0, slab_cache 23 64, slab_list 6 128, freelist 5 256, - 25 320
struct page 64: flags 1 0
struct signal_struct 16: thread_head 6 0
ptr 28
ptr 31
struct task_struct 104: stack 5 0, tasks 6 64, pid 4 192, tgid 4 224, real_parent 30 256, children 6 320, sibling 6 448, group_leader 30 576, signal 29 640, thread_node 6 704
struct item 64: link 6 0, hnode 8 128, key 4 256, small 4 288 3, rb 11 320
"""


class Names:
    def __init__(self):
        self.bytes = b"\0"
        self.places = {"": 0}

    def place(self, name):
        name = "" if name == "-" else name
        # the two names of more words than one are written with a line between
        if name in ("unsigned_long", "unsigned_char", "unsigned_int"):
            name = name.replace("_", " ")
        if name not in self.places:
            self.places[name] = len(self.bytes)
            self.bytes += name.encode() + b"\0"
        return self.places[name]


def btf():
    names, out = Names(), b""
    for line in TYPES.splitlines():
        head, _, members = line.partition(": ")
        kind, *words = head.split()
        if kind == "int":
            name, size, signed, bits = words
            out += struct.pack("<4I", names.place(name), 1 << 24, int(size), int(signed) << 24 | int(bits))
        elif kind == "ptr":
            out += struct.pack("<3I", 0, 2 << 24, int(words[0]))
        elif kind == "array":
            out += struct.pack("<6I", 0, 3 << 24, 0, int(words[1]), 3, int(words[0]))
        else:
            rows = [m.split() for m in members.split(", ")]
            flag = any(len(row) == 4 for row in rows)
            at = names.place(words[0])
            out += struct.pack("<3I", at, flag << 31 | {"struct": 4, "union": 5}[kind] << 24 | len(rows), int(words[1]))
            for row in rows:
                width = int(row[3]) if len(row) == 4 else 0
                out += struct.pack("<3I", names.place(row[0]), int(row[1]), width << 24 | int(row[2]))
    header = struct.pack("<HBBIIIII", 0xEB9F, 1, 0, 24, 0, len(out), len(out), len(names.bytes))
    return header + out + names.bytes


def up(number, step):
    return -(-number // step) * step


def dump(n, hurt):
    words = {}

    def put(pa, word):
        assert pa not in words and pa % 8 == 0
        words[pa] = word

    # page tables
    for pa, word in [(0x1FF8, 0x2003), (0x2FF0, 0x3003), (0x3000, 0x4003), (0x1EA0, 0x5003), (0x5000, 0x6003),
                     (0x6000, 0x7003), (0x7000, 0x8003), (0x1888, 0x9003), (0x9000, 0xA003)]:
        put(pa, word)
    for i in range(32):
        put(0x4000 + 8 * i, 0x1000 * i + 3)
    for j in range(512):
        put(0xA000 + 8 * j, 0x200000 * j + 0x83)

    def item(k):
        return ITEMS + 64 * k

    # the ring
    ring = [I + 0xB120] + [D + item(k) for k in range(n)]
    places = [0xB120] + [item(k) for k in range(n)]
    for i, place in enumerate(places):
        put(place, ring[(i + 1) % len(ring)])
        word = ring[i - 1]
        if hurt is not None and i == hurt % n + 1:
            word = 0
        put(place + 8, word)
    for k in range(n):
        put(item(k) + 32, k)

    # the tree, by a stack of what is still to be built
    d = 0
    while 2 ** (d + 1) <= n:
        d += 1

    def node(lo, hi):
        return D + item(lo + (hi - lo) // 2) + 40 if lo < hi else 0

    put(0xB130, node(0, n))
    todo = [(0, n, 0, 0)]
    while todo:
        lo, hi, parent, depth = todo.pop()
        if lo == hi:
            continue
        k = lo + (hi - lo) // 2
        red = depth == d and depth > 0
        put(item(k) + 40, parent + (0 if red else 1))
        put(item(k) + 48, node(k + 1, hi))
        put(item(k) + 56, node(lo, k))
        todo.append((lo, k, D + item(k) + 40, depth + 1))
        todo.append((k + 1, hi, D + item(k) + 40, depth + 1))

    # the xarray: a node is numbered as it is come to
    end = item(n)
    if n == 1:
        put(0xB118, D + item(0))
    else:
        shift = 0
        while 16 * 2 ** shift < n:
            shift += 4
        base = up(item(n), 4096)
        made = []

        def build(shift, first, offset, parent):
            at = base + 160 * len(made)
            made.append(at)
            slots = 0
            for i in range(16):
                index = first + (i << shift)
                if index < n:
                    slots += 1
                    entry = D + item(index) if shift == 0 else build(shift - 4, index, i, D + at) + 2
                    put(at + 24 + 8 * i, entry)
            put(at, shift | offset << 8 | slots << 16)
            put(at + 8, parent)
            put(at + 16, I + 0xB110)
            return D + at

        put(0xB118, build(shift, 0, 0, 0) + 2)
        end = made[-1] + 152
    size = up(end, 4096)
    memory = bytearray(size)
    for pa, word in words.items():
        memory[pa:pa + 8] = struct.pack("<Q", word)

    head = bytearray(0x2000)
    head[:7] = b"\x7fELF\x02\x01\x01"
    struct.pack_into("<HH", head, 16, 4, 62)
    struct.pack_into("<Q", head, 32, 64)
    struct.pack_into("<HH", head, 54, 56, 2)
    struct.pack_into("<IIQQQQQQ", head, 64, 4, 0, 0x1000, 0, 0, 160, 0, 0)
    struct.pack_into("<IIQQQQQQ", head, 120, 1, 0, 0x2000, 0, 0, size, size, 0)
    note = struct.pack("<III", 11, len(NOTE), 0) + b"VMCOREINFO\0\0" + NOTE.encode() + b"\0"
    assert len(note) == 160
    head[0x1000:0x1000 + len(note)] = note
    return bytes(head) + bytes(memory)


def files(n, hurt):
    return {"dump": dump(n, hurt), "btf": btf(), "map": MAP.encode(), "plan": PLAN.encode()}


def checksum(data):
    """FNV-1a of 64 bits over words of 8 bytes, the last one filled up with zeros"""
    h = 0xCBF29CE484222325
    data += bytes(-len(data) % 8)
    for (word,) in struct.iter_unpack("<Q", data):
        h = (h ^ word) * 0x100000001B3 & 0xFFFFFFFFFFFFFFFF
    return h


def main(words):
    where, n, *rest = words
    made = files(int(n), int(rest[0]) if rest else None)
    for name, data in made.items():
        if where == "--sums":
            print(name, len(data), f"{checksum(data):016x}")
        else:
            os.makedirs(where, exist_ok=True)
            with open(os.path.join(where, name), "wb") as file:
                file.write(data)

