"""Damages the tables of symbols and the log in a copy of a dump, one to three places at a time, and compares what kfiles writes with the second
readers of both, kallsyms and printk: status, standard output and standard error of `map`, `types` and `log`.

    tables PROGRAMS DUMP COUNT [SEED [FIRST]]      COUNT states, each by its own number from FIRST on; the copy lies in the folder for made files

What is damaged: lines of the note, counts, lengths, tokens, offsets, names and letters, the words of the ring of descriptors, its texts, and the
entries of page tables that lead to them. Each state is put back before the next one.
"""
import collections
import contextlib
import mmap
import os
import random
import shutil
import subprocess
import tempfile

import files
from plans import reader
from second import kallsyms, printk
from second.verdict import stopped_text

WISHES = ("map", "types", "log")
MARKS = (b"_stext", b"__start_BTF", b"__stop_BTF", b"__per_cpu_end")
ODD = (0, 1, 2, 3, 7, 8, 127, 128, 255, 0xFFFF, 1 << 31, (1 << 31) - 1, (1 << 32) - 1, 1 << 40, 1 << 62, 1 << 63, (2 << 62) - 1, kallsyms.M64)
SIGNS = b"0123456789abcdef-=(\nx \0g"


class Kept(reader.Memory):
    """A memory whose words are looked up once."""

    def __init__(self, core, info):
        super().__init__(core, info.table, info.levels, info.mask)
        self.kept = {}

    def place(self, va):
        if va not in self.kept:
            self.kept[va] = super().place(va)
        return self.kept[va]


def opened(path):
    """The core file, its notes' numbers, and the text of its note."""
    with open(path, "rb") as file:
        core = reader.Core(mmap.mmap(file.fileno(), 0, access=mmap.ACCESS_READ))
    return core, reader.Info(core), reader.vmcoreinfo(core)


def log_of(path):
    """What `kfiles DUMP log` ends with."""
    try:
        core, info, note = opened(path)
        return 0, b"".join(printk.Log(Kept(core, info), note).lines()), b""
    except reader.Broken as stop:
        return 1, stopped_text(stop).encode(), b""
    except printk.Refused as why:
        return 2, b"", b"refused log %s\n" % str(why).replace(" ", " key ", 1).encode()
    except reader.Refused as why:
        return 2, b"", b"refused %s\n" % str(why).encode()


class Places:
    """What may be damaged in a dump that is in order: by a name, what gives a place of virtual memory and how many bytes there are one."""

    def __init__(self, path):
        self.core, info, note = opened(path)
        self.memory = Kept(self.core, info)
        self.note = self.core.data.find(note), len(note)
        self.lines = [self.core.data.find(word, self.note[0]) for word in (b"SYMBOL(kallsyms_", b"SYMBOL(prb)", b"SYMBOL(_stext)", b"OFFSET(printk", b"OFFSET(prb_")]
        dump = kallsyms.Dump(path)
        self.at = {name: dump.symbol(name) for name in kallsyms.TABLES}
        rows, first, address, _ = kallsyms.symbols(dump)
        self.count, self.types = len(rows), (address(first[b"__start_BTF"]), address(first[b"__stop_BTF"]))
        self.marked = [number for number, row in enumerate(rows) if row[1] in MARKS]
        self.table = 1 + max(dump.number(self.at[b"kallsyms_token_index"] + 2 * number, 2) for number in range(256))
        self.lengths = list(lengths(dump, self.at[b"kallsyms_names"], self.count))
        self.log = printk.Log(self.memory, note)
        prb_at = dump.symbol(b"prb")
        prb = dump.number(prb_at, 8)
        self.ring = [prb_at] + [prb + k for k in (0, 8, 16, 24, 32, 40, 48, 56)]

    def symbol(self, rng):
        return rng.choice(self.marked) if rng.random() < 0.5 else rng.randrange(self.count)

    def of_tables(self, rng):
        at, number = self.at, self.symbol(rng)
        return rng.choice([
            lambda: (at[b"kallsyms_num_syms"], 4),
            lambda: (at[b"kallsyms_relative_base"], 8),
            lambda: (at[b"kallsyms_offsets"] + 4 * number, 4),
            lambda: (at[b"kallsyms_token_index"] + 2 * rng.randrange(256), 2),
            lambda: (at[b"kallsyms_token_table"] + rng.randrange(self.table), rng.choice((1, 1, 8, 600))),
            lambda: (self.lengths[number], rng.choice((1, 1, 2))),
            lambda: (self.lengths[number] + 1, 1),
            lambda: (self.lengths[number] + rng.randrange(1, 9), rng.choice((1, 8))),
            lambda: (rng.randrange(*self.types), 8),
        ])()

    def of_log(self, rng):
        log = self.log
        number = log.tail + rng.randrange(log.ids)
        desc, info = log.descs + number % log.count * log.desc_size, log.infos + number % log.count * log.info_size
        begin = log.read(desc + log.desc["text_block"], 8)
        return rng.choice([
            lambda: (rng.choice(self.ring), rng.choice((1, 4, 8))),
            lambda: (desc, 8),
            lambda: (desc + log.desc["text_block"] + log.desc["begin"], rng.choice((1, 8))),
            lambda: (desc + log.desc["text_block"] + log.desc["next"], rng.choice((1, 8))),
            lambda: (info + log.info["time"], 8),
            lambda: (info + log.info["length"], 2),
            lambda: (log.texts + begin % log.size + rng.choice((0, 0, 8, 9, 15, 40)), rng.choice((1, 8))),
        ])()

    def entry(self, va, rng):
        """The file place of an entry of a page table that leads to an address."""
        table, found = self.memory.table, []
        for level in range(self.memory.levels, 0, -1):
            pa = table + 8 * (va >> 12 + 9 * (level - 1) & 511)
            found.append(self.core.origin(pa))
            word = self.core.word(pa)
            if level == 1 or word >> 7 & 1:
                return rng.choice(found[-2:])
            table = word & 0x000FFFFFFFFFF000


def lengths(dump, at, count):
    """Where the length of each symbol's name stands."""
    text, place = kallsyms.Bytes(dump, at), at
    for _ in range(count):
        yield place
        size, head = text.take(1)[0], 1
        if size >= 128:
            size, head = size - 128 + (text.take(1)[0] << 7), 2
        text.take(size)
        place += head + size


def changed(old, rng):
    """Other bytes in place of some: a word is changed as a number."""
    size, number = len(old), int.from_bytes(old[:8], "little")
    if size > 8:
        return bytes([rng.choice((65, 97, 0, 255))]) * size
    number = rng.choice((number ^ 1 << rng.randrange(8 * size), number + 1, number - 1, number + 8, number - 8, rng.choice(ODD), rng.getrandbits(64)))
    return (number % (1 << 8 * size)).to_bytes(size, "little")


def damage(places, data, rng):
    """A place of the file, and the bytes that come there."""
    kind = rng.randrange(10)
    if kind == 0:
        start, length = places.note
        at = rng.choice(places.lines) + rng.randrange(60) if rng.random() < 0.8 else start + rng.randrange(length)
        return "note", at, bytes([rng.choice(SIGNS)])
    name, (va, size) = ("log", places.of_log(rng)) if kind < 5 else ("tables", places.of_tables(rng))
    if kind in (1, 9):
        at, name, size = places.entry(va, rng), "entry", 8
    else:
        at = places.memory.place(va & ~7)[2] + va % 8
    return name, at, changed(data[at : at + size], rng)


@contextlib.contextmanager
def damaged(places, data, rng):
    """The names of what is damaged, which is put back at the end."""
    damages, kept = [damage(places, data, rng) for _ in range(rng.choice((1, 1, 2, 3)))], {}
    try:
        for _, at, new in damages:
            for k, byte in enumerate(new):
                kept.setdefault(at + k, data[at + k])
                data[at + k] = byte
        yield [f"{name} {at:#x}" for name, at, _ in damages]
    finally:
        for at, byte in kept.items():
            data[at] = byte


def ending(told):
    """In a word or two, how a run ended."""
    status, out, err = told
    if status == 1:
        return out.decode("latin-1").split("\n")[1]
    return " ".join(err.decode("latin-1").split()[1:3]) if status else "read"


def expected(path, kinds, whole):
    """What each wish ends with, where damages of these kinds were done; `whole` is what each ends with in the dump as it is."""
    of_tables = whole[:2] if kinds == {"log"} else kallsyms.answers(path, WISHES[:2])
    return [*of_tables, whole[2] if kinds == {"tables"} else log_of(path)]


def compare(kfiles, path, mine, what, seen):
    """How many runs end otherwise on a damaged dump."""
    bad = 0
    for wish, wanted in zip(WISHES, mine):
        run = subprocess.run([kfiles, path, wish], capture_output=True)
        its = run.returncode, run.stdout, run.stderr
        seen[wish, ending(wanted)] += 1
        if wanted != its:
            bad += 1
            print(*what, wish, wanted[0], its[0], wanted[1][:80], its[1][:80], wanted[2], its[2], flush=True)
    return bad


def main(words):
    kfiles, dump, count = files.program(words[0], "kfiles"), words[1], int(words[2])
    seed, first = words[3] if len(words) > 3 else "1", int(words[4]) if len(words) > 4 else 0
    bad, seen = 0, collections.Counter()
    with tempfile.TemporaryDirectory() as folder:
        path = os.path.join(folder, "core")
        shutil.copyfile(dump, path)
        places = Places(path)
        with open(path, "r+b") as file:
            data = mmap.mmap(file.fileno(), 0)
        whole = expected(path, None, [])
        assert not compare(kfiles, path, whole, ["as it is"], collections.Counter())
        for number in range(first, first + count):
            with damaged(places, data, random.Random(f"{seed}/{number}")) as what:
                kinds = {name.split()[0] for name in what}
                bad += compare(kfiles, path, expected(path, kinds, whole), [number, *what], seen)
    for (wish, end), runs in sorted(seen.items()):
        print(f"{runs:6} {wish} {end}")
    print(count, "damaged states,", bad, "differ")
    return bad != 0
