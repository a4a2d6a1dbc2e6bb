"""Compares kslab with a second reader, which shares no code with it: on a dump, and on the dump with damages.

usage: slabs PROGRAMS FOLDER [COUNT [SEED]]
       slabs PROGRAMS FOLDER each

The dump is copied, damaged word by word and mended. Each damage is one word: a free pointer, a slab's `freelist`, its counts, its `slab_cache`, at a
slab that is taken at random, what a processor has of a cache, a pointer of the ring of all caches, or a byte that slub_debug keeps: of a red zone, of the padding, of the poison of a free
object. The texts and the statuses have to be the same, also where a damage does no harm.
With `each` the slabs are compared one by one: in run K those whose number among all has bit K have one word damaged, `freelist` or `inuse`, so that each
slab is broken in runs of its own and whole in the others. It ends with 1 where one differs.
"""
import collections
import mmap
import os
import random
import shutil
import subprocess
import tempfile
import time

import files
from plans.reader import TOP, Broken, Core, Info, Memory, Refused, Types, address, dec_of, symbols, vmcoreinfo
from second.areas import shown
from second.rings import reached
from second.verdict import Kernel, free_list, place_line


# What slub_debug keeps at free objects and at those in use: red zones, padding, poison and its last byte.
RED, PADDING, POISON, POISON_END = (0xBB, 0xCC), (0x5A, 0x5A), (0x6B, None), (0xA5, None)


class Spoiled(Exception):
    """A byte that slub_debug keeps is another one."""

    def __init__(self, rule, at, expected, place, thing):
        self.rule, self.at, self.expected, self.place, self.object = rule, at, expected, place, thing


class Cached(Memory):
    """Memory that keeps the translations of pages."""

    def walk(self, va):
        page = va >> 12
        if page not in self.kept:
            self.kept[page] = super().walk(va) & ~4095
        return self.kept[page] + va % 4096

    def __init__(self, *words):
        super().__init__(*words)
        self.kept = {}


def mark_of(kernel, note):
    """The field that has the mark of a slab's first page, and whether a value of it has."""
    values = dict(line.split(b"=", 1) for line in reversed(note.split(b"\n")) if b"=" in line)
    flag = dec_of(values.get(b"NUMBER(PG_slab)", b""))
    if flag is not None and flag < 64:
        return "flags", lambda value: value >> flag & 1 == 1
    kind = dec_of(values[b"NUMBER(PAGE_SLAB_MAPCOUNT_VALUE)"]) % (1 << 32)
    return "page_type", lambda value: value == kind


def processors(kernel):
    """The numbers of the processors that there may be, with their offsets, or none where the kernel lacks what tells them."""
    memory, rows, info = kernel.memory, kernel.rows, kernel.info
    try:
        possible, offsets, count = places = [address(rows, name, info.kaslr) for name in ("__cpu_possible_mask", "__per_cpu_offset", "nr_cpu_ids")]
    except Refused:
        return None
    if None in places:
        return None
    numbers = range(min(memory.number(count, 0, 32)[0], 8192))
    return [(k, memory.place(offsets + 8 * k)[3]) for k in numbers if memory.place(possible + k // 64 * 8)[3] >> k % 64 & 1]


def list_of(kernel, first, *grid):
    """A free list from this pointer on."""

    class Led:
        memory = kernel.memory

        def field(self, *_):
            return first[0], 0, first[1]

    return free_list(Led(), 0, *grid)


def frames(core):
    found = set()
    for _, start, size in core.loads:
        found.update(range((start + 4095) // 4096, (start + size) // 4096))
    return sorted(found)


class Slabs:
    def __init__(self, kernel, note, wanted=None):
        self.kernel, memory, info = kernel, kernel.memory, kernel.info
        self.bases = []
        for name, four, five in (
            ("vmemmap_base", 0xFFFFEA0000000000, 0xFFD4000000000000),
            ("page_offset_base", 0xFFFF888000000000, 0xFF11000000000000),
        ):
            symbol = address(kernel.rows, name, info.kaslr)
            self.bases.append((five if info.levels == 5 else four) if symbol is None else memory.place(symbol)[3])
        self.page = kernel.types.size(kernel.struct("page"))
        self.field, self.marked = mark_of(kernel, note)
        kinds = {(kind, kernel.types.name(name)) for kind, name, *_ in kernel.types.records[1:] if kind in (4, 6)}
        self.kasan = (4, b"kasan_cache") in kinds
        # SLAB_RED_ZONE, SLAB_POISON, SLAB_TYPESAFE_BY_RCU
        self.flags = (1 << 1, 1 << 2, 1 << 9) if (6, b"_slab_flag_bits") in kinds else (0x400, 0x800, 0x80000)
        self.caches = {}
        self.nodes, self.ring = reached(kernel, address(kernel.rows, "slab_caches", info.kaslr))
        self.all_caches = wanted is None and self.ring is None
        self.named, self.pool = {}, self.pool_of()
        for node in self.nodes:
            cache = (node - kernel.byte("kmem_cache", "list")) % TOP
            name = self.text(self.value(cache, "kmem_cache", "name"))
            if wanted is None or name == wanted:
                laid = self.laid(cache)
                self.caches[cache] = name, laid, self.runs(cache, laid)

    def pool_of(self):
        """KFENCE's pool: its first page, the address of its metadata and the size of those of one object; or none."""
        kernel, found = self.kernel, []
        for name in ("__kfence_pool", "kfence_metadata", "kfence_metadata_init"):
            try:
                found.append(address(kernel.rows, name, kernel.info.kaslr))
            except Refused:
                found.append(None)
        pool, metadata, pointed = found
        try:
            size = kernel.types.size(kernel.struct("kfence_metadata"))
        except Refused:
            return None
        if pool is None or metadata is None:
            return None
        first, metadata = self.word(pool), metadata if pointed is None else self.word(metadata)
        return (self.frame_at(first), metadata, size) if first and metadata is not None else None

    def frame_at(self, at):
        """The number of the page at an address of the direct map."""
        return (at - self.bases[1]) % TOP // 4096

    def fenced(self, slab, number):
        """Whether a page frame is one of that pool (mm/kfence/core.c, kfence_init_pool): an even one from the second on, marked, in which its object's metadata say that it lies."""
        if self.pool is None:
            return False
        first, metadata, size = self.pool
        if number % 2 != first % 2 or not 0 < number - first <= 2 * 65535:
            return False
        at = self.value((metadata + ((number - first) // 2 - 1) * size) % TOP, "kfence_metadata", "addr")
        mark = self.value(slab, "page", self.field)
        return at is not None and self.frame_at(at) == number and mark is not None and self.marked(mark)

    def word(self, at):
        """The 64 bits at an address, or none where they can't be read."""
        try:
            return self.kernel.memory.number(at, 0, 64)[0]
        except Broken:
            return None

    def value(self, at, struct, path, usual=None):
        try:
            return self.kernel.field(at, struct, path)[0]
        except (Broken, Refused):
            return usual

    def text(self, at):
        found = b""
        while at is not None and len(found) < 64:
            try:
                byte = self.kernel.memory.number((at + len(found)) % TOP, 0, 8)[0]
            except Broken:
                break
            if byte == 0:
                break
            found += bytes([byte])
        return found

    def laid(self, cache):
        """How the objects of a cache lie, or none where that can't be told."""
        try:
            size, offset = (self.kernel.field(cache, "kmem_cache", name)[0] for name in ("size", "offset"))
        except Broken:
            return None
        return (size, offset, self.value(cache, "kmem_cache", "random"), self.value(cache, "kmem_cache", "red_left_pad", 0)) if offset + 8 <= size else None

    def runs(self, cache, laid):
        """The bytes that a cache keeps at each object: the rule, where they begin, how many, and what they are at a free object and at one in use."""
        there, inuse, flags, made = (self.value(cache, "kmem_cache", name) for name in ("object_size", "inuse", "flags", "ctor"))
        if self.kasan or laid is None or None in (there, inuse, flags, made):
            return []
        size, _, _, pad = laid
        if not 1 <= there <= inuse <= size - pad:
            return []
        zones, poison, by_rcu = (flags & bit != 0 for bit in self.flags)
        runs = []
        if zones:
            runs += [("Z1", -pad, pad, RED), ("Z2", there, inuse - there, RED)]
        elif poison:
            runs += [("Z3", there, inuse - there, PADDING)]
        if poison and not by_rcu and made == 0:
            runs += [("Z4", 0, there - 1, POISON), ("Z4", there - 1, 1, POISON_END)]
        return runs

    def guard(self, base, size, objects, free, runs):
        """Looks at the bytes that are kept at each object."""
        free = set(free)
        for number in range(objects):
            thing = (base + size * number) % TOP
            for rule, start, count, wanted in runs:
                byte = wanted[thing not in free]
                if byte is not None:
                    self.same(rule, thing, thing + start, count, byte)

    def same(self, rule, thing, at, count, byte):
        """Each of these bytes is the same one."""
        memory, end = self.kernel.memory, at + count
        while at < end:
            held, start = memory.places(at % TOP, 0, 8)
            most = min(8 - start // 8, end - at)
            text = held[0][3].to_bytes(8, "little")[start // 8 : start // 8 + most]
            for k, found in enumerate(text):
                if found != byte:
                    raise Spoiled(rule, (at + k) % TOP, byte, held[0], thing)
            at += most

    def judge(self, slab, number, runs, size, offset, key, pad):
        objects, objects_at, objects_places = self.kernel.field(slab, "slab", "objects")
        inuse, inuse_at, inuse_places = self.kernel.field(slab, "slab", "inuse")
        frozen = self.kernel.field(slab, "slab", "frozen")[0]
        if objects == 0 or inuse > objects:
            raise Broken("U3", objects_at, places=objects_places)
        base = (self.bases[1] + 4096 * number + pad) % TOP
        free = free_list(self.kernel, slab, objects, base, size, offset, key)
        if len(free) != objects - inuse:
            raise Broken("U6", inuse_at, objects - inuse, places=inuse_places)
        guarded = runs != [] and not frozen and size * objects <= 1 << 22
        if guarded:
            self.guard(base, size, objects, free, runs)
        return objects, free, frozen, guarded

    def owned(self, cache, at, laid):
        """What a processor has of a cache: the slab that it names, and the objects of its list; or none of either."""
        kernel = self.kernel
        slab, _, led = kernel.field(at, "kmem_cache_cpu", "slab")
        first, _, shown = kernel.field(at, "kmem_cache_cpu", "freelist")
        if slab == 0:
            return None, [], None
        try:
            kernel.check_field(slab, "slab", "slab_cache", cache, "U1")
            number, rest = divmod((slab - self.bases[0]) % TOP, self.page)
            if rest or number >= 1 << 40:
                raise Broken("U4", slab, places=led)
            objects, objects_at, places = kernel.field(slab, "slab", "objects")
            if objects == 0 or kernel.field(slab, "slab", "inuse")[0] > objects:
                raise Broken("U3", objects_at, places=places)
            size, offset, key, pad = laid
            base = (self.bases[1] + 4096 * number + pad) % TOP
            found = list_of(kernel, (first, shown), objects, base, size, offset, key)
            try:
                own = set(free_list(kernel, slab, objects, base, size, offset, key))
            except Broken:
                own = set()
            for one in found:
                if one in own:
                    raise Broken("A", one, places=shown)
            return slab, found, None
        except Broken as broken:
            return slab, [], broken

    def look_at_processors(self, lines):
        seen = collections.Counter()
        numbered = processors(self.kernel)
        if numbered is None:
            return 0
        for node in self.nodes:
            cache = (node - self.kernel.byte("kmem_cache", "list")) % TOP
            name, laid, _ = self.caches.get(cache, (b"", None, []))
            if laid is None:
                continue
            base = self.value(cache, "kmem_cache", "cpu_slab")
            for number, offset in numbered:
                at = None if base is None else (base + offset) % TOP
                if at is None or self.value(at, "kmem_cache_cpu", "slab") is None or self.value(at, "kmem_cache_cpu", "freelist") is None:
                    seen["unread"] += 1
                    continue
                slab, found, broken = self.owned(cache, at, laid)
                seen["slabs"] += slab is not None
                seen["free"] += len(found)
                if broken:
                    seen["broken"] += 1
                    lines.append("processor %d slab %016x cache %016x %s broken %s\n" % (number, slab, cache, (shown(name) or "-"), self.told(broken)))
                    lines += [place_line(place) for place in broken.places]
                elif slab is not None:
                    self.lists.append((at, found, laid[1], (slab - self.bases[0]) % TOP // self.page))
        lines.append("processors %d slabs %d unread %d broken %d free %d\n" % (len(numbered), *(seen[k] for k in ("slabs", "unread", "broken", "free"))))
        return seen["broken"]

    def told(self, broken):
        """A rule that is broken, with its address."""
        if isinstance(broken, Spoiled):
            return "%s at %016x expected %016x object %016x" % (broken.rule, broken.at, broken.expected, broken.object)
        return "%s at %016x" % (broken.rule, broken.at) + ("" if broken.expected is None else " expected %016x" % broken.expected)

    def frame(self, number, seen, lines, slabs):
        """Adds what a page frame is."""
        seen["frames"] += 1
        slab = (self.bases[0] + self.page * number) % TOP
        cache = self.named[number] = self.word(slab + self.kernel.byte("slab", "slab_cache"))
        if self.fenced(slab, number):
            seen["kfence"] += 1
            return
        known = cache in self.caches
        if cache is None or not known and not self.all_caches:
            seen["absent"] += cache is None
            return
        mark = self.value(slab, "page", self.field)
        if mark is None or not self.marked(mark):
            seen["absent"] += mark is None
            seen["unmarked"] += known and mark is not None
            return
        seen["slabs"] += 1
        if not known:
            seen["broken"] += 1
            _, at, places = self.kernel.field(slab, "slab", "slab_cache")
            lines.append("slab %016x cache %016x - broken U1 at %016x\n" % (slab, cache, at))
            lines += [place_line(place) for place in places]
            return
        name, laid, runs = self.caches[cache]
        if laid is None:
            seen["untold"] += 1
            return
        try:
            objects, free, frozen, guarded = self.judge(slab, number, runs, *laid)
            seen.update(objects=objects, free=len(free), frozen=frozen, guarded=guarded)
            slabs.append((number, slab, free, laid, guarded and runs, objects))
        except (Broken, Spoiled) as broken:
            seen["broken"] += 1
            lines.append("slab %016x cache %016x %s broken %s\n" % (slab, cache, (shown(name) or "-"), self.told(broken)))
            lines += [place_line(place) for place in ([broken.place] if isinstance(broken, Spoiled) else broken.places)]

    def kept_of(self, before):
        """What each page frame is, where the ring of all caches alone was changed: those of caches that aren't reached are no slabs."""
        none, known = (collections.Counter(frames=1), [], []), {None, *self.caches}
        return {number: one if before.named[number] in known else none for number, one in before.each.items()}

    def look(self, before=None, changed=None):
        """What kslab prints, its status, and the slabs with their free objects. Where all but one page frame are as they were, or the ring of all caches was changed
        alone, they aren't looked at again."""
        if before is not None and changed is None:
            self.each = told = self.kept_of(before)
            seen = sum((one[0] for one in told.values()), collections.Counter())
        elif before is None:
            self.each = {}
            for number in frames(self.kernel.memory.core):
                self.each[number] = one = collections.Counter(), [], []
                self.frame(number, *one)
            self.all = sum((one[0] for one in self.each.values()), collections.Counter())
            seen, told = self.all, self.each
        else:
            one = collections.Counter(), [], []
            self.frame(changed, *one)
            seen, told = before.all - before.each[changed][0] + one[0], {changed: one}
        lines, slabs = [line for _, found, _ in told.values() for line in found], [slab for *_, found in told.values() for slab in found]
        self.lists = []
        owned = self.look_at_processors(lines)
        if self.ring:
            lines.append("caches broken %s\n" % self.told(self.ring))
            lines += [place_line(place) for place in self.ring.places]
        lines.append("caches %d\nframes %d absent %d unmarked %d kfence %d\n" % (len(self.caches), *(seen[k] for k in ("frames", "absent", "unmarked", "kfence"))))
        lines.append("slabs %d frozen %d untold %d guarded %d broken %d\n" % tuple(seen[k] for k in ("slabs", "frozen", "untold", "guarded", "broken")))
        lines.append("objects %d free %d\n" % (seen["objects"], seen["free"]))
        sound = self.caches and not seen["broken"] and not seen["untold"] and not owned and not self.ring
        return "".join(lines), 0 if sound else 1, slabs


def run(kslab, folder, dump):
    done = subprocess.run([kslab, dump, f"{folder}/btf", f"{folder}/System.map"], capture_output=True)
    return done.returncode, done.stdout.decode(), done.stderr.decode()


def harm(slabs, picked, chance):
    """What is damaged, the virtual address of a word, what it is overwritten with, and the page frame that this changes, or none where it may change more."""
    number, slab, free, (size, offset, _, pad), guarded, objects = picked
    kernel = slabs.kernel
    if chance.randrange(12) == 0:
        node = chance.choice(slabs.nodes)
        at = node + kernel.byte("list_head", chance.choice(("next", "prev")))
        old = kernel.memory.place(at)[3]
        return "ring of caches", at, chance.choice([0, old ^ 1 << chance.randrange(64), chance.choice(slabs.nodes), node, chance.getrandbits(64)]) % TOP, None
    if guarded and chance.randrange(2) == 0:
        rule, start, count, _ = chance.choice([run for run in guarded if run[2]])
        base = (slabs.bases[1] + 4096 * number + pad) % TOP
        thing = chance.choice(free) if rule == "Z4" and free else base + size * chance.randrange(objects)
        byte = (thing + start + chance.choice((0, count - 1, chance.randrange(count)))) % TOP
        old = kernel.memory.place(byte // 8 * 8)[3]
        return rule, byte // 8 * 8, old ^ chance.choice((1 << chance.randrange(8), 1 + chance.randrange(255))) << byte % 8 * 8, number
    if slabs.lists and chance.randrange(3) == 0:
        at, found, offset, number = chance.choice(slabs.lists)
        kind = chance.choice(["processor's slab", "processor's freelist"] + ["processor's pointer"] * bool(found))
        if kind == "processor's pointer":
            at = (chance.choice(found) + offset) // 8 * 8
        else:
            at += kernel.byte("kmem_cache_cpu", kind.split()[1])
        old = kernel.memory.place(at)[3]
        others = found + free + [old ^ 1 << chance.randrange(64), chance.getrandbits(64), 0, old + 8, slab]
        return kind, at, chance.choice(others) % TOP, number
    kinds = ["freelist", "counts", "slab_cache"] + ["pointer"] * 3 * bool(free)
    kind = chance.choice(kinds)
    if kind == "pointer":
        at = (chance.choice(free) + offset) // 8 * 8
    else:
        at = kernel.field(slab, "slab", "inuse" if kind == "counts" else kind)[1] // 8 * 8
    old = kernel.memory.place(at)[3]
    new = chance.choice([old ^ 1 << chance.randrange(64), chance.getrandbits(64), 0, old + 8, old ^ chance.getrandbits(16), int.from_bytes(b"AAAAAAAA", "little")])
    return kind, at, new % TOP, number


def second(data, btf, rows):
    """The second reader of a dump's slabs, by the bytes of three files."""
    core = Core(data)
    info = Info(core)
    memory = Cached(core, info.table, info.levels, info.mask)
    return Slabs(Kernel(memory, Types(btf), symbols(rows), info), vmcoreinfo(core))


def again(slabs, data):
    """The same of the dump as it is now."""
    kernel, core = slabs.kernel, Core(data)
    info = kernel.info
    memory = Cached(core, info.table, info.levels, info.mask)
    return Slabs(Kernel(memory, kernel.types, kernel.rows, info), vmcoreinfo(core))


def compare(kslab, folder, dump, data, count, seed):
    began = time.time()
    kept = second(data, files.read(folder, "btf"), files.read(folder, "System.map"))
    text, status, sound = kept.look()
    print(f"second reader {time.time() - began:.1f} s:", text.replace("\n", " "))
    wrong = int(run(kslab, folder, dump) != (status, text, ""))
    print("the dump as it is:", "differs" if wrong else "same")
    chance, kinds, noticed = random.Random(seed), collections.Counter(), collections.Counter()
    for _ in range(count):
        kind, at, new, number = harm(kept, chance.choice(sound), chance)
        where = kept.kernel.memory.place(at)[2]
        old = data[where : where + 8]
        data[where : where + 8] = new.to_bytes(8, "little")
        data.flush()
        text, status, _ = again(kept, data).look(kept, number)
        told = run(kslab, folder, dump)
        kinds[kind] += 1
        noticed[kind] += status
        if told != (status, text, ""):
            wrong += 1
            print("differs", kind, f"{at:016x} {new:016x}", (status, text), told)
        data[where : where + 8] = old
    print("damages", dict(kinds), "noticed", dict(noticed), "differ", wrong)
    return wrong


def compare_each(kslab, folder, dump, data):
    """Breaks each slab in runs of its own."""
    kept = second(data, files.read(folder, "btf"), files.read(folder, "System.map"))
    text, status, sound = kept.look()
    wrong, place = int(run(kslab, folder, dump) != (status, text, "")), kept.kernel.memory.place
    for field in ("freelist", "inuse"):
        for bit in range(len(sound).bit_length()):
            taken = [one[1] for k, one in enumerate(sound) if k >> bit & 1]
            olds = [(place(kept.kernel.field(slab, "slab", field)[1] // 8 * 8)[2:4]) for slab in taken]
            for where, old in olds:
                data[where : where + 8] = ((old + 1) % TOP).to_bytes(8, "little")
            data.flush()
            text, status, _ = again(kept, data).look()
            told = run(kslab, folder, dump)
            named = {line.split()[1] for line in told[1].splitlines() if line.startswith("slab ")}
            same = told == (status, text, "") and named == {f"{slab:016x}" for slab in taken}
            wrong += not same
            print(f"{field} bit {bit}: {len(taken)} of {len(sound)} slabs broken:", "same" if same else "differs", flush=True)
            for where, old in olds:
                data[where : where + 8] = old.to_bytes(8, "little")
    return wrong


def main(words):
    programs, folder = words[:2]
    each = words[2:] == ["each"]
    count, seed = (0, 0) if each else (int(word) for word in (words[2:] + ["300", "1"][len(words) - 2 :])[:2])
    kslab, folder = files.program(programs, "kslab"), os.path.abspath(folder)
    with tempfile.TemporaryDirectory() as changed:
        dump = f"{changed}/vmcore"
        shutil.copyfile(f"{folder}/vmcore", dump)
        with open(dump, "r+b") as handle, mmap.mmap(handle.fileno(), 0) as data:
            wrong = compare_each(kslab, folder, dump, data) if each else compare(kslab, folder, dump, data, count, seed)
            return 1 if wrong else 0
