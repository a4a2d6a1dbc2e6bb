"""Tries kslab on small made dumps, a case for each rule, each mark of a slab and each thing that a kernel may lack, against the second reader of slabs.py.

After that it asks kwhy for the objects of a slab that a processor owns, against the second reader of objects.py.

usage: slabcases PROGRAMS

Each case says what the program has to tell, by the definition; the second reader's text and status have to be the same. It ends with 1 where one differs.
"""
import os
import struct
import subprocess
import tempfile

import files
from second import madeslabs, slabs
from second.made import DIRECT, IMAGE, VMEMMAP
from second.madeslabs import BITS, BYTES, CACHE, CACHES, CPUS, FRAMES, MADE, MAP, METADATA, NOTE, OBJECTS, OFFSET, POOL, TOP, Slabs, btf
from second.objects import Objects

REFUSED = object()
PLAIN = NOTE.replace(b"NUMBER(PG_slab)=9\n", b"")
PAGE_TYPE = ("page", 64, (("flags", 1, 0), ("compound_head", 1, 64), ("page_type", 2, 384)))
# The word that leads to KFENCE's metadata.
POINTER = 0xB0F0
ZONES, PADDED = 3, 4


def whole(free=(1, 4), cache=ZONES, frame=0x14, frozen=0):
    """A kernel with one slab of a cache."""
    made = Slabs()
    made.guard(frame, cache, free)
    made.slab(frame, cache, free, OBJECTS - len(free), frozen)
    return made


def wrong(number, byte, **words):
    """The same, with a wrong byte, counted from an object's address."""
    made = whole(**words)
    pad = MADE[words.get("cache", ZONES)][5]
    made.memory[0x14000 + pad + BYTES * number + byte] ^= 0x10
    return made


def numbers(cache=ZONES, slab=wrong(0, 250), **fields):
    """The same, where the cache says something else of itself: `flags`, `object_size`, `inuse`, `red_left_pad`, `ctor`."""
    places = {"flags": ("<I", 56), "object_size": ("<I", 60), "inuse": ("<I", 64), "red_left_pad": ("<I", 68), "ctor": ("<Q", 72)}
    made = Slabs()
    made.memory[:] = slab.memory
    for name, value in fields.items():
        form, at = places[name]
        struct.pack_into(form, made.memory, CACHE[cache] + at, value)
    return made


def enumerated(made):
    """The same, with flags by the bits of an enumeration."""
    for cache, (_, _, flags, *_) in zip(CACHE, MADE):
        struct.pack_into("<I", made.memory, cache + 56, sum(BITS[bit] for bit in BITS if flags & bit))
    return made


def with_type(value, made=None, frame=0x14):
    """The same, where the slab's page has a page type in place of a flag."""
    made = made or wrong(0, 250)
    for at in (0x14, frame):
        struct.pack_into("<Q", made.memory, FRAMES + 64 * at, 0)
    struct.pack_into("<I", made.memory, FRAMES + 64 * frame + 48, value)
    return made


def with_page(extra=(), without=()):
    """The types with `page_type`."""
    kept = madeslabs.MORE
    madeslabs.MORE = kept[:-1] + (PAGE_TYPE,)
    try:
        return btf(extra, without)
    finally:
        madeslabs.MORE = kept


def without_struct(name):
    """The types without this struct."""
    kept = madeslabs.MORE
    madeslabs.MORE = tuple(struct for struct in kept if struct[0] != name)
    try:
        return btf()
    finally:
        madeslabs.MORE = kept


def fenced(named=DIRECT + 0x12000, pool=DIRECT + 0x10000, metadata=IMAGE + METADATA, at=METADATA, **words):
    """The same, with KFENCE's pool at an address, a marked page of it, and an object's metadata that name an address."""
    made = whole()
    made.fence(0x10, 0x12, **dict(cache=0, counts=0) | words)
    made.put(METADATA + 24, 0)
    for pa, word in ((POOL, pool), (POINTER, metadata), (at + 24, named)):
        made.put(pa, word)
    return made


def fenced_far(far):
    """The same, where a page so many pages after the pool's first is marked, and the metadata behind a pointer name it."""
    number = 0x10 + far
    made = fenced(DIRECT + 4096 * number, flags=0, metadata=IMAGE + METADATA - 64 * (far // 2 - 1))
    made.far = 4096 * number
    for pa, word in ((0x6000 + 8 * (number >> 15), 0x15003), (0x15000 + 8 * (number >> 6 & 511), 0x16003), (0x16000 + 64 * (number & 63), 1 << 9)):
        made.put(pa, word)
    return made


def ring(at, value):
    """A kernel whose ring of caches has another word."""
    made = whole()
    made.put(at, value)
    return made


def cases():
    """The name of each case, its dump, types and map, and the text that has to be told, or that kslab refuses it."""
    same = dict(types=btf(), rows=MAP, note=NOTE)
    yield "whole", whole(), same, "slabs 1 frozen 0 untold 0 guarded 1 broken 0"
    # each rule, at a free object and at one in use, at the first byte of its run and at the last
    for number, free in ((0, 0), (1, 1), (7, 0), (4, 1)):
        for byte, rule in ((-64, "Z1"), (-1, "Z1"), (250, "Z2"), (255, "Z2"), (0, "Z4"), (248, "Z4"), (249, "Z4")):
            told = f" broken {rule} at " if rule != "Z4" or free else "guarded 1 broken 0"
            yield f"{rule} byte {byte} of object {number}", wrong(number, byte), same, told
        for byte in (251, 255):
            yield f"Z3 byte {byte} of object {number}", wrong(number, byte, cache=PADDED), same, " broken Z3 at "
        yield f"free pointer's word of object {number}", wrong(number, 264), same, "guarded 1 broken 0"
    yield "expected bb", wrong(1, 250), same, "expected 00000000000000bb"
    yield "expected cc", wrong(0, 250), same, "expected 00000000000000cc"
    yield "expected 6b", wrong(4, 248), same, "expected 000000000000006b"
    yield "expected a5", wrong(4, 249), same, "expected 00000000000000a5"
    yield "after the last object", wrong(7, 256), same, "guarded 1 broken 0"
    # an object that is free for the list alone
    made = whole()
    made.guard(0x14, ZONES, (1,))
    yield "free, filled as in use", made, same, " broken Z1 at "
    made = whole(free=(1,))
    made.guard(0x14, ZONES, (1, 4))
    yield "in use, filled as free", made, same, " broken Z1 at "
    yield "a processor's slab", wrong(0, 250, frozen=1), same, "slabs 1 frozen 1 untold 0 guarded 0 broken 0"
    # what a cache says of itself
    for name, fields, told in (
        ("no flag", dict(flags=0), "guarded 0 broken 0"), ("red zones alone", dict(flags=0x400), " broken Z2 at "), ("poison alone", dict(flags=0x800), " broken Z3 at "),
        ("no object", dict(object_size=0), "guarded 0 broken 0"), ("inuse below the object", dict(inuse=249), "guarded 0 broken 0"),
        ("inuse after the next object", dict(inuse=449), "guarded 0 broken 0"), ("inuse up to the next object", dict(inuse=448), " broken Z2 at "),
        ("no byte after the object", dict(inuse=250), "guarded 1 broken 0"),
    ):
        yield name, numbers(**fields), same, told
    for name, fields in (("a constructor", dict(ctor=8)), ("freed by RCU", dict(flags=0x80C00))):
        yield name, numbers(slab=wrong(4, 5), **fields), same, "guarded 1 broken 0"
        yield name + ", red zone", numbers(slab=wrong(4, 250), **fields), same, " broken Z2 at "
    yield "larger than a slab", numbers(slab=numbers(), inuse=256), same, " broken Z2 at "
    # what a kernel lacks
    for member in ("object_size", "inuse", "flags", "ctor"):
        yield "no " + member, wrong(0, 250), same | dict(types=btf(without={("kmem_cache", member)})), "guarded 0 broken 0"
    yield "no red_left_pad", whole(), same | dict(types=btf(without={("kmem_cache", "red_left_pad")})), " broken U5 at "
    yield "KASAN", wrong(0, 250), same | dict(types=btf(((4, "kasan_cache"),))), "guarded 0 broken 0"
    yield "flags by an enumeration", enumerated(wrong(0, 250)), same | dict(types=btf(((6, "_slab_flag_bits"),))), " broken Z2 at "
    yield "flags by constants, an enumeration", wrong(0, 250), same | dict(types=btf(((6, "_slab_flag_bits"),))), "guarded 0 broken 0"
    yield "a struct of that name", wrong(0, 250), same | dict(types=btf(((4, "_slab_flag_bits"),))), " broken Z2 at "
    yield "an enumeration of another name", wrong(0, 250), same | dict(types=btf(((6, "_slab_flag_bit"),))), " broken Z2 at "
    for name in (b"nr_cpu_ids", b"__cpu_possible_mask", b"__per_cpu_offset"):
        rows = b"".join(row + b"\n" for row in MAP.splitlines() if name not in row)
        yield "no " + name.decode(), whole(), same | dict(rows=rows), "caches 5\nframes"
        yield "two of " + name.decode(), whole(), same | dict(rows=MAP + b"ffffffff8000b0f0 D " + name + b"\n"), "caches 5\nframes"
    rows = b"".join(row + b"\n" for row in MAP.splitlines() if b"slab_caches" not in row)
    yield "no slab_caches", whole(), same | dict(rows=rows), REFUSED
    # the mark of a slab
    yield "no mark", whole(), same | dict(note=PLAIN), REFUSED
    yield "another flag", whole(), same | dict(note=PLAIN + b"NUMBER(PG_slab)=8\n"), "unmarked 1 kfence 0\nslabs 0"
    yield "a flag too far", whole(), same | dict(note=PLAIN + b"NUMBER(PG_slab)=64\n"), REFUSED
    yield "a flag below 0", whole(), same | dict(note=PLAIN + b"NUMBER(PG_slab)=-1\n"), REFUSED
    typed = same | dict(types=with_page(), note=PLAIN + b"NUMBER(PAGE_SLAB_MAPCOUNT_VALUE)=-161\n")
    yield "a page type", with_type(0xFFFFFF5F), typed, " broken Z2 at "
    yield "another page type", with_type(0xFFFFFF5E), typed, "unmarked 1 kfence 0\nslabs 0"
    yield "a page type of 6.12", with_type(0xF5000000), typed | dict(note=PLAIN + b"NUMBER(PAGE_SLAB_MAPCOUNT_VALUE)=-184549376\n"), " broken Z2 at "
    yield "a flag first", wrong(0, 250), typed | dict(note=NOTE + b"NUMBER(PAGE_SLAB_MAPCOUNT_VALUE)=-161\n"), " broken Z2 at "
    yield "no page_type", with_type(0xFFFFFF5F), typed | dict(types=btf()), "absent 29 unmarked 0 kfence 0\nslabs 0"
    # the ring of all caches
    nodes = [CACHES] + [cache + 32 for cache in CACHE]
    for k, node in enumerate(nodes):
        for at in (node, node + 8):
            for value in (0, IMAGE + nodes[k], IMAGE + nodes[(k + 3) % 6], 0xDEAD000000000100, 0x1234, IMAGE + 0x7000000):
                yield f"ring of caches {at:x} {value:x}", ring(at, value), same, "caches broken "
    made = ring(nodes[2], 0)
    yield "a break reached from both ends", made, same, "caches 5\nframes"
    made.put(nodes[4] + 8, 0)
    yield "two breaks", made, same, "caches 4\nframes"
    # a slab whose descriptor names no cache of the ring
    for value in (0, 1, IMAGE + CACHE[0] + 64, 0xDEAD000000000100, TOP - 1):
        made = whole()
        made.put(FRAMES + 64 * 0x14 + 8, value)
        yield f"a slab of no cache {value:x}", made, same, f"slab {VMEMMAP + 64 * 0x14:016x} cache {value:016x} - broken U1 at "
        made.put(nodes[2], 0)
        yield f"the same, a broken ring {value:x}", made, same, "slabs 0 frozen 0 untold 0 guarded 0 broken 0"
        made = whole()
        made.put(FRAMES + 64 * 0x14, 0)
        made.put(FRAMES + 64 * 0x14 + 8, value)
        yield f"no slab and no cache {value:x}", made, same, "slabs 0 frozen 0 untold 0 guarded 0 broken 0"
    # pages of KFENCE's pool: never given out, given out, and with words of what they were before; its metadata are an array, or from 6.6 on behind a pointer
    kept = same | dict(rows=MAP.replace(b"8000b900 D", b"8000b0f0 D") + b"ffffffff8000b0e8 d kfence_metadata_init\n")
    none, one = f"slab {VMEMMAP + 64 * 0x12:016x} cache {0:016x} - broken U1 at ", "unmarked 0 kfence 1\nslabs 1 "
    for form, kernel in (("", same), (", a pointer", kept)):
        yield "never given out" + form, fenced(), kernel, one
        for cache in (IMAGE + CACHE[0], IMAGE + CACHE[ZONES], VMEMMAP + 64 * 0x12 + 8):
            yield f"given out {cache:x}{form}", fenced(cache=cache, counts=1 << 16), kernel, one
        yield "words of before" + form, fenced(cache=IMAGE + CACHE[0], counts=3 | 1 << 16, freelist=DIRECT + 0x12010), kernel, one
        yield "a frozen slab of before" + form, fenced(counts=1 << 31 | 8 << 16 | 8, freelist=0x1234), kernel, one
        for named in (DIRECT + 0x12FFF, DIRECT + 0x12010):
            yield f"an object at {named:x}{form}", fenced(named), kernel, one
        for named in (0, 0x12000, DIRECT + 0x11FFF, DIRECT + 0x13000, DIRECT + 0x14000, IMAGE + 0x12000, TOP - 1):
            yield f"metadata that name {named:x}{form}", fenced(named), kernel, none
        for pool in (0, DIRECT + 0x12000, DIRECT + 0x11000, DIRECT + 0x13000, DIRECT + 0xE000, DIRECT + 0x14000, DIRECT + 0x12000 - 4096 * 131072, DIRECT + 0xFFFF):
            yield f"a pool at {pool:x}{form}", fenced(pool=pool), kernel, none
        yield "a pool within a page" + form, fenced(pool=DIRECT + 0x10FFF), kernel, one
        yield "the second object" + form, fenced(pool=DIRECT + 0xE000, at=METADATA + 64), kernel, one
        yield "the third object" + form, fenced(pool=DIRECT + 0xC000, at=METADATA + 128), kernel, one
        yield "the third object's metadata for the second" + form, fenced(pool=DIRECT + 0xE000, at=METADATA + 128), kernel, none
        made = fenced()
        made.put(METADATA + 64 + 24, DIRECT + 0x14000)
        yield "two pages" + form, made, kernel, "unmarked 0 kfence 2\nslabs 0 "
        yield "a page without the mark" + form, fenced(flags=0), kernel, "unmarked 0 kfence 0\nslabs 1 "
        yield "a page without the mark that names a cache" + form, fenced(flags=0, cache=IMAGE + CACHE[0]), kernel, "unmarked 1 kfence 0\nslabs 1 "
        for name in (b"__kfence_pool", b"kfence_metadata"):
            row = next(row for row in kernel["rows"].splitlines() if row.endswith(b" " + name))
            yield f"no {name.decode()}{form}", fenced(), kernel | dict(rows=kernel["rows"].replace(row + b"\n", b"")), none
            yield f"two of {name.decode()}{form}", fenced(), kernel | dict(rows=kernel["rows"] + b"ffffffff8000b0d8 D " + name + b"\n"), none
            yield f"{name.decode()} isn't there{form}", fenced(), kernel | dict(rows=kernel["rows"].replace(row, b"ffffffff87000000" + row[16:])), none
        yield "no metadata in the types" + form, fenced(), kernel | dict(types=without_struct("kfence_metadata")), none
        yield "no address in the metadata" + form, fenced(), kernel | dict(types=btf(without={("kfence_metadata", "addr")})), none
    for metadata in (0, IMAGE + METADATA + 64, IMAGE + METADATA + 8, TOP - 64):
        yield f"a pointer to {metadata:x}", fenced(metadata=metadata), kept, none
    yield "the last object of the greatest pool", fenced_far(131070), kept, one
    yield "the first page after that", fenced_far(131072), kept, f"slab {VMEMMAP + 64 * 0x20010:016x} cache {0:016x} - broken U1 at "
    yield "a page type of 6.12, of the pool", with_type(0xF5000000, fenced(flags=0), 0x12), same | dict(types=with_page(), note=PLAIN + b"NUMBER(PAGE_SLAB_MAPCOUNT_VALUE)=-184549376\n"), "kfence 1\nslabs 0 "
    # slabs of the other rules
    yield "all of them", madeslabs.damaged(), same, "guarded 2 broken 5"


def owned(first=(3, 0), number=0, frozen=1, frame=0xE):
    """A slab that a processor owns, of which the slab's own list has object 1, and the processor's these."""
    made = Slabs()
    made.slab(0xE, 0, (1,), 7, frozen)
    made.processor(number, 0, frame, made.chain(0xE, first))
    return made


def kept_cases():
    """The name of each case, its dump, types and map, and of each object what kwhy has to tell."""
    same, used = dict(types=btf(), rows=MAP), ["used"] * OBJECTS
    first = ["free 2 of 2 processor 0", "free 1 of 1", "used", "free 1 of 2 processor 0", *used[4:]]
    own = ["used", "free 1 of 1", *used[2:]]
    unknown = ["frozen", "free 1 of 1", *["frozen"] * 6]
    yield "a processor's list", owned(), same, first
    yield "that of processor 1", owned(number=1), same, [told.replace("processor 0", "processor 1") for told in first]
    yield "all objects of it", owned((7, 0, 6, 2, 5, 3, 4)), same, [*(f"free {k} of 7 processor 0" if k else "free 1 of 1" for k in (2, 0, 4, 6, 7, 5, 3, 1))]
    # an object's free pointer is one word, so that the slab's own list goes on as the processor's does
    yield "an object of both lists", owned((1, 4)), same, ["used", "free 1 of 2", "used", "used", "free 2 of 2", *used[5:]]
    yield "no list", owned(()), same, own
    yield "a slab that no processor owns", owned(frozen=0), same, own
    yield "another slab of the processor", owned(frame=0xD), same, own
    made = owned(number=1)
    made.processor(0, 0, 0xF, DIRECT + 0xF000 + 1)
    yield "another slab of the first processor", made, same, [told.replace("processor 0", "processor 1") for told in first]
    # a page that the kernel hasn't marked as a slab's
    made = owned()
    made.slab(0xE, 0, (1,), 7, 1, 0)
    yield "no mark", made, same, [None] * OBJECTS
    # what is broken, and what can't be read
    made = owned()
    made.put(CPUS[0], DIRECT + 0xE001)
    yield "a broken list", made, same, [told if told == "free 1 of 1" else f"frozen unknown U5 {DIRECT + 0xE001:016x}" for told in unknown]
    made = owned()
    made.put(0xE000 + OFFSET, made.code(DIRECT + 0xE000 + OFFSET, DIRECT + 0xE000 + 3 * BYTES))
    yield "a list that comes round", made, same, [told if told == "free 1 of 1" else f"frozen unknown A {DIRECT + 0xE000 + 3 * BYTES + OFFSET:016x}" for told in unknown]
    made = owned()
    made.put(CACHE[0], IMAGE + 0x7000000)
    yield "words that aren't there", made, same, [told if told == "free 1 of 1" else f"frozen unknown M4 {IMAGE + 0x7000010:016x}" for told in unknown]
    made = owned()
    made.put(0xB008, 2)
    yield "a processor that there isn't", made, same, own
    made.put(0xB000, 1)
    yield "fewer processors", made, same, own
    # what a kernel lacks
    for name in ("cpu_slab", "slab", "freelist"):
        struct = "kmem_cache" if name == "cpu_slab" else "kmem_cache_cpu"
        yield f"no {name}", owned(), same | dict(types=btf(without={(struct, name)})), unknown
    for name in (b"nr_cpu_ids", b"__cpu_possible_mask", b"__per_cpu_offset"):
        rows = b"".join(row + b"\n" for row in MAP.splitlines() if name not in row)
        yield "no " + name.decode(), owned(), same | dict(rows=rows), unknown
        yield "two of " + name.decode(), owned(), same | dict(rows=MAP + b"ffffffff8000b0f0 D " + name + b"\n"), unknown


def put_files(folder, data):
    """Writes a dump, types and a map."""
    for file, text in data.items():
        with open(os.path.join(folder, file), "wb") as handle:
            handle.write(text)


def try_kept(kwhy, folder):
    """Asks kwhy for each object of the cases above: how many answers there are, and how many differ."""
    count = differ = 0
    for name, made, kernel, told in kept_cases():
        data = {"vmcore": made.core(), "btf": kernel["types"], "System.map": kernel["rows"]}
        put_files(folder, data)
        reader = Objects(*data.values())
        for number, state in enumerate(told):
            at = DIRECT + 0xE000 + BYTES * number
            done = subprocess.run([kwhy, *data, f"{at:x}"], cwd=folder, capture_output=True)
            lines = [line for line in done.stdout.decode().splitlines() if line.startswith("object ")]
            wanted = [] if state is None else [f"object {at:016x} number {number} byte 0 {state}"]
            second = [line for line in reader.lines(at) if line.startswith("object ")]
            count += 1
            if (done.returncode, lines, second) != (0, wanted, wanted):
                differ += 1
                print("differs", name, wanted, lines, second, done.stderr, sep="\n")
    return count, differ


def main(words):
    kslab, differ, count = files.program(words[0], "kslab"), 0, 0
    with tempfile.TemporaryDirectory() as folder:
        for name, made, kernel, told in cases():
            put_files(folder, {"vmcore": made.core(kernel["note"]), "btf": kernel["types"], "System.map": kernel["rows"]})
            status, text, error = slabs.run(kslab, folder, f"{folder}/vmcore")
            count += 1
            if told is REFUSED:
                good, wanted = status == 2 and text == "" and error != "", "a refusal"
            else:
                wanted, answer, _ = slabs.second(made.core(kernel["note"]), kernel["types"], kernel["rows"]).look()
                good = (status, text, error) == (answer, wanted, "") and told in text
            if not good:
                differ += 1
                print("differs", name, repr(told) if told is not REFUSED else "", wanted, (status, text, error), sep="\n")
        objects, others = try_kept(files.program(words[0], "kwhy"), folder)
    print("cases", count, "differ", differ, "objects", objects, "differ", others)
    return 1 if differ + others else 0
