"""Makes small kernels at random, for scripts that try the programs: a dump with page tables, rings, a hash chain, a tree, an xarray, slab caches,
tasks and a table of process ids that stand by their rules, over the types of the made dump in crates/kaudit/data, or these with process ids
(`with_pids`). Words can then be changed.
"""
import struct

IMAGE, DIRECT, VMEMMAP = 0xFFFFFFFF80000000, 0xFFFF888000000000, 0xFFFFEA0000000000
TOP = 1 << 64
SIZE = 0x80000
NOTE = (
    b"PAGESIZE=4096\nNUMBER(phys_base)=0\nSYMBOL(init_top_pgt)=ffffffff80001000\n"
    b"NUMBER(pgtable_l5_enabled)=0\nKERNELOFFSET=0\nNUMBER(sme_mask)=0\n"
)
MAP = (
    b"ffffffff8000b000 D init_task\nffffffff8000b100 D slab_caches\nffffffff8000b110 D my_xa\nffffffff8000b120 D my_ring\n"
    b"ffffffff8000b130 D my_rb\nffffffff8000b140 D my_hl\nffff888000011000 D an_item\nffffea00000003c0 D a_slab\n"
    b"ffff888000020000 D far_ring\nffffffff8000b200 D my_idr\n"
)


def with_pids(btf):
    """The types with those of process ids: two members more of `task_struct`, and seven types after the last."""
    types, names = btf[24 : 24 + struct.unpack_from("<I", btf, 12)[0]], bytearray(btf[24 + struct.unpack_from("<I", btf, 16)[0] :])

    def name(text):
        at = names.find(b"\0" + text + b"\0")
        if at < 0:
            at = len(names) - 1
            names.extend(text + b"\0")
        return at + 1

    def struct_of(text, size, members):
        rows = b"".join(struct.pack("<III", name(m), kind, bit) for m, kind, bit in members)
        return struct.pack("<III", name(text), 4 << 24 | len(members), size) + rows

    def array(kind, count):
        return struct.pack("<IIIIII", 0, 3 << 24, 0, kind, 3, count)

    at = types.index(struct.pack("<II", name(b"task_struct"), 4 << 24 | 10))
    task = struct.pack("<III", name(b"task_struct"), 4 << 24 | 12, 128) + types[at + 12 : at + 132]
    task += struct.pack("<IIIIII", name(b"pid_links"), 33, 832, name(b"thread_pid"), 34, 960)
    more = array(8, 1) + struct.pack("<III", 0, 2 << 24, 36) + array(10, 1)
    more += struct_of(b"pid", 16, ((b"count", 4, 0), (b"level", 3, 32), (b"tasks", 35, 64), (b"numbers", 38, 128)))
    more += struct_of(b"upid", 16, ((b"nr", 4, 0), (b"ns", 5, 64))) + array(37, 0)
    more += struct_of(b"idr", 24, ((b"idr_rt", 18, 0), (b"idr_base", 3, 128), (b"idr_next", 3, 160)))
    types = types[:at] + task + types[at + 132 :] + more
    return btf[:8] + struct.pack("<IIII", 0, len(types), len(types), len(names)) + types + bytes(names)


def image(pa):
    return IMAGE + pa


def direct(pa):
    return DIRECT + pa


class Made:
    """Physical memory below SIZE: page tables, symbols, pages of slabs from 0x10000 on, and from 0x40000 on all else."""

    def __init__(self, rng):
        self.rng, self.memory, self.free = rng, bytearray(SIZE), list(range(0x40000, SIZE, 256))
        rng.shuffle(self.free)
        self.tables()
        self.tasks()
        self.caches()
        items = [self.item(k) for k in range(rng.choice((0, 1, 2, 3, 5, 9, 20, 60)))]
        rng.shuffle(items)
        self.ring(image(0xB120), [va for va in items], 0)
        self.chain(items)
        self.tree(items)
        self.xarray(items)
        self.pids()

    def put(self, pa, word):
        struct.pack_into("<Q", self.memory, pa, word % TOP)

    def get(self, pa):
        return struct.unpack_from("<Q", self.memory, pa)[0]

    def room(self):
        """256 bytes of their own, and one of their two names."""
        pa = self.free.pop()
        return pa, (direct if self.rng.random() < 0.7 else image)(pa)

    def at(self, va):
        """The physical address of a name."""
        return va - (IMAGE if va >= IMAGE else VMEMMAP - 0x8000 if VMEMMAP <= va < VMEMMAP + 0x1000 else DIRECT)

    def tables(self):
        for pa, word in ((0x1FF8, 0x2003), (0x2FF0, 0x3003), (0x3000, 0x4003), (0x1EA0, 0x5003), (0x5000, 0x6003), (0x6000, 0x7003),
                         (0x7000, 0x8003), (0x1888, 0x9003), (0x9000, 0xA003), (0xA000, 0x83)):
            self.put(pa, word)
        for k in range(SIZE // 4096):
            self.put(0x4000 + 8 * k, 0x1000 * k + 3)

    def ring(self, head, nodes, offset):
        """A ring through a head and the nodes at an offset of their structures."""
        names = [head] + [va + offset for va in nodes]
        for k, va in enumerate(names):
            self.put(self.at(va), names[(k + 1) % len(names)])
            self.put(self.at(va) + 8, names[k - 1])

    def item(self, k):
        pa, va = self.room()
        self.memory[pa + 32 : pa + 36] = struct.pack("<i", k * 3 - 20)
        self.memory[pa + 36] = self.rng.randrange(8)
        return va

    def chain(self, items):
        led = image(0xB140)
        for va in items[: self.rng.randrange(len(items) + 1)]:
            self.put(self.at(led), va + 16)
            self.put(self.at(va) + 24, led)
            led = va + 16
        self.put(self.at(led), 0)

    def tree(self, items):
        items = sorted(items, key=lambda va: struct.unpack_from("<i", self.memory, self.at(va) + 32)[0])
        deepest = len(items).bit_length() - 1

        def build(low, high, parent, depth):
            if low == high:
                return 0
            middle = low + (high - low) // 2
            pa, node = self.at(items[middle]) + 40, items[middle] + 40
            self.put(pa, parent + (0 if depth == deepest and depth else 1))
            self.put(pa + 16, build(low, middle, node, depth + 1))
            self.put(pa + 8, build(middle + 1, high, node, depth + 1))
            return node

        self.put(0xB130, build(0, len(items), 0, 0))
        self.put(0xB138, items[0] + 40 if items else 0)

    def xarray(self, items):
        """Some indexes, near one another or far apart, and values among the pointers."""
        entries = {}
        for va in items:
            index = self.rng.choice((self.rng.randrange(20), self.rng.randrange(300), self.rng.randrange(1 << 20), self.rng.randrange(TOP)))
            entries[index] = va if self.rng.random() < 0.8 else self.rng.randrange(1 << 30) * 2 + 1
        self.array_of(0xB110, entries)

    def array_of(self, at, entries):
        """An xarray at a physical address, with these entries by their indexes."""
        self.put(at + 8, 0)
        if entries and (len(entries) > 1 or 0 not in entries):
            shift = 0
            while max(entries) >> shift + 4:
                shift += 4
            self.put(at + 8, self.xa_node(at, entries, shift, 0, 0) + 2)
        elif entries:
            self.put(at + 8, entries[0])

    def xa_node(self, at, entries, shift, parent, offset):
        pa, va = self.room()
        slots = {}
        for index, entry in entries.items():
            slots.setdefault(index >> shift & 15, {})[index & (1 << shift) - 1] = entry
        held = [0] * 16
        for slot, below in slots.items():
            held[slot] = self.xa_node(at, below, shift - 4, va, slot) + 2 if shift else below[0]
        self.memory[pa : pa + 4] = bytes((shift, offset, len(slots), sum(e & 1 for e in held)))
        self.put(pa + 8, parent)
        self.put(pa + 16, image(at))
        for slot, entry in enumerate(held):
            self.put(pa + 24 + 8 * slot, entry)
        return va

    def caches(self):
        rng, caches, slab = self.rng, [], 16
        for _ in range(rng.randrange(4)):
            pa, cache = self.room()
            size, offset, pad = rng.choice((16, 64, 192)), rng.choice((0, 8)), 0
            random = rng.choice((0, rng.randrange(TOP)))
            self.memory[pa : pa + 16] = struct.pack("<IIII", size, size, offset, pad)
            self.put(pa + 16, random)
            node, name = self.room()
            self.put(pa + 40, name if rng.random() < 0.9 else 0)
            slabs = []
            for _ in range(rng.randrange(3)):
                if slab < 60:
                    slabs.append(self.slab(slab, cache, size, offset, random))
                    slab += 1
            self.put(node + 8, len(slabs))
            self.ring(name + 16, slabs, 16)
            caches.append(cache)
        self.ring(image(0xB100), caches, 24)

    def slab(self, page, cache, size, offset, random):
        """A slab over a page, with some free objects in some order."""
        pa, va, base = 0x8000 + 64 * page, VMEMMAP + 64 * page, direct(4096 * page)
        objects = 1024 // size
        free = self.rng.sample(range(objects), self.rng.randrange(min(objects, 9) + 1))
        self.put(pa + 8, cache)
        self.put(pa + 32, base + size * free[0] if free else 0)
        self.put(pa + 40, (objects - len(free)) | objects << 16)
        for k, number in enumerate(free):
            at = base + size * number + offset
            value = base + size * free[k + 1] if k + 1 < len(free) else 0
            self.put(at - DIRECT, value ^ random ^ int.from_bytes(at.to_bytes(8, "little"), "big"))
        return va

    def tasks(self):
        rng, leaders, threads, pid = self.rng, [], [], 1
        for group in range(rng.randrange(1, 5)):
            signal, signal_va = self.room()
            group_threads = []
            for number in range(rng.randrange(1, 4)):
                pa, va = (0xB000, image(0xB000)) if not group and not number else self.room()
                leader = group_threads[0] if group_threads else va
                tgid = pid if not group_threads else struct.unpack_from("<i", self.memory, self.at(leader) + 28)[0]
                self.memory[pa + 24 : pa + 32] = struct.pack("<ii", pid, tgid)
                self.put(pa + 72, leader)
                self.put(pa + 80, signal_va)
                stack, stack_va = self.room()
                self.put(stack, 0x57AC6E9D)
                self.put(pa, stack_va if rng.random() < 0.8 else 0)
                group_threads.append(va)
                pid += 1
            self.ring(signal_va, group_threads, 88)
            leaders.append(group_threads[0])
            threads += group_threads
        self.ring(leaders[0] + 8, leaders[1:], 8)
        children = {va: [] for va in threads}
        for va in leaders[1:]:
            parent = rng.choice(threads)
            self.put(self.at(va) + 32, parent)
            children[parent].append(va)
        for va in threads:
            self.ring(va + 40, children[va], 56)
        self.threads = threads

    def pids(self):
        """A table that has some of the tasks by their numbers, some without a task, and now and then a slot that is reserved."""
        entries = {}
        for va in self.threads:
            pid = struct.unpack_from("<i", self.memory, self.at(va) + 24)[0]
            if self.rng.random() < 0.9:
                entries[pid] = self.pid(pid, [va])
        for _ in range(self.rng.choice((0, 0, 1, 3))):
            number = self.rng.choice((self.rng.randrange(300), self.rng.randrange(1 << 22)))
            entries.setdefault(number, self.pid(number, []))
        self.array_of(0xB200, entries)
        head = self.get(0xB208)
        if head & 3 == 2 and self.rng.random() < 0.3:
            count = self.at(head - 2) + 2
            self.memory[count] = min(16, self.memory[count] + self.rng.randrange(1, 3))

    def pid(self, number, tasks):
        pa, va = self.room()
        self.memory[pa + 16 : pa + 20] = struct.pack("<i", number)
        led = va + 8
        for task in tasks:
            self.put(self.at(led), task + 104)
            self.put(self.at(task) + 112, led)
            self.put(self.at(task) + 120, va)
            led = task + 104
        self.put(self.at(led), 0)
        return va

    def core(self, damaged=()):
        """The file: one segment, or a second one that holds some pages again. Now and then a segment has a tail that the file leaves out."""
        twice = self.rng.random() < 0.3
        count = 3 if twice else 2
        head = bytearray(0x2000)
        head[:7] = b"\x7fELF\x02\x01\x01"
        struct.pack_into("<HHI", head, 16, 4, 62, 1)
        struct.pack_into("<QQ", head, 32, 64, 0)
        struct.pack_into("<HHH", head, 54, 56, count, 0)
        note = struct.pack("<III", 11, len(NOTE), 0) + b"VMCOREINFO\0\0" + NOTE + b"\0" * (-len(NOTE) % 4)
        head[0x1000 : 0x1000 + len(note)] = note
        start = 0x2000 + (self.rng.choice((0, 4, 0x534)) if twice else 0)
        rows = [(4, 0x1000, 0, len(note)), (1, start, 0, SIZE)]
        if twice:
            rows.append((1, start + 0x9000, 0x9000, 0x30000))
            rows[1:] = self.rng.sample(rows[1:], 2)
        for k, (kind, offset, pa, size) in enumerate(rows):
            kept, whole = size, size
            if kind == 1 and self.rng.random() < 0.2:
                kept = max(0, size - self.rng.choice((4, 8, 0x1000, 0x8000, self.rng.randrange(size))))
                whole = self.rng.choice((size, size, size + 0x10000, kept + 4, 0))
            struct.pack_into("<IIQQQQQQ", head, 64 + 56 * k, kind, 0, offset, 0, pa, kept, whole, 0)
        return bytes(head) + bytes(start - 0x2000) + bytes(self.memory)
