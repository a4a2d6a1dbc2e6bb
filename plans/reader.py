"""Reads a dump: the core file, its note and page tables, the types, a module's too, and the map. It is written from the guide's rules, plainly and
slowly, and shares no code with kaudit.
"""
import mmap
import pathlib
import re
import struct

TOP = 1 << 64
IMAGE = 0xFFFFFFFF80000000


class Refused(Exception):
    """A file is refused; the words behind `refused`."""


class Broken(Exception):
    """A rule is broken: its name, the address, what was expected, what stopped the reading, and the places."""

    def __init__(self, rule, at, expected=None, stop=None, places=()):
        self.rule, self.at, self.expected, self.stop, self.places = rule, at, expected, stop, list(places)
        self.start = None


# The core file.


def u16(data, at):
    return struct.unpack_from("<H", data, at)[0]


def u32(data, at):
    return struct.unpack_from("<I", data, at)[0]


def u64(data, at):
    return struct.unpack_from("<Q", data, at)[0]


class Core:
    """The segments and the notes of an ELF core file."""

    def __init__(self, data):
        self.data, size = data, len(data)
        if size < 64:
            raise Refused("dump E1")
        tests = [
            ("E2", data[0:4] == b"\x7fELF"),
            ("E3", data[4] == 2 and data[5] == 1 and data[6] == 1),
            ("E4", u16(data, 16) == 4),
            ("E5", u16(data, 18) == 62),
            ("E6", u16(data, 54) == 56),
        ]
        for name, holds in tests:
            if not holds:
                raise Refused("dump " + name)
        count, table = u16(data, 56), u64(data, 32)
        if count == 0xFFFF:
            section = u64(data, 40)
            if section + 64 > size:
                raise Refused("dump E7")
            count = u32(data, section + 44)
        if not 0 < count <= 65536:
            raise Refused("dump E8")
        if table + 56 * count > size:
            raise Refused("dump E7")
        self.loads, self.notes, self.tails, self.zero = [], [], [], False
        for index in range(count):
            at = table + 56 * index
            kind, offset, pa, filesz, memsz = u32(data, at), *(u64(data, at + k) for k in (8, 24, 32, 40))
            if kind not in (1, 4):
                continue
            if offset + filesz > size or kind == 1 and pa + max(filesz, memsz) > TOP:
                raise Refused(f"dump E9 index {index}")
            (self.loads if kind == 1 else self.notes).append((offset, pa, filesz))
            if kind == 1:
                self.tails.append((pa + filesz, pa + memsz))
        if sum(part[2] for part in self.notes) > 16 << 20:
            raise Refused("dump E10")

    def offset(self, pa):
        """The file offset of an aligned word of physical memory."""
        for offset, start, size in self.loads:
            if start <= pa and pa + 8 <= start + size:
                return offset + pa - start
        return None

    def origin(self, pa):
        """Where an aligned word of physical memory comes from: its file offset, or a tail that reads as zero."""
        at = self.offset(pa)
        if at is None and self.zero and any(start <= pa and pa + 8 <= end for start, end in self.tails):
            return "tail"
        return at

    def word(self, pa):
        at = self.origin(pa)
        return 0 if at == "tail" else None if at is None else u64(self.data, at)


def vmcoreinfo(core):
    """The text of the kernel's note."""
    for index, (offset, _, size) in enumerate(core.notes):
        part, at = bytes(core.data[offset : offset + size]), 0
        while size - at >= 12 and part[at : at + 12] != bytes(12):
            namesz, descsz, kind = struct.unpack_from("<III", part, at)
            name = at + 12
            desc = name + (namesz + 3) // 4 * 4
            if name + namesz > size or descsz and desc + descsz > size:
                raise Refused(f"dump V1 index {index} at {at}")
            if part[name : name + namesz] == b"VMCOREINFO\0" and kind == 0:
                return part[desc : desc + descsz].split(b"\0")[0] if descsz else b""
            at = desc + (descsz + 3) // 4 * 4
            if at > size:
                break
    raise Refused("dump V2")


def hex_of(text):
    return int(text, 16) if re.fullmatch(rb"(0x)?[0-9a-fA-F]{1,16}", text) else None


def dec_of(text):
    """A signed decimal of 64 bits, modulo 2^64."""
    if not re.fullmatch(rb"-?[0-9]{1,19}", text):
        return None
    number = int(text)
    return number % TOP if -(1 << 63) <= number < 1 << 63 else None


class Info:
    """What the kernel's note says of paging."""

    def __init__(self, core):
        values = {}
        for line in vmcoreinfo(core).split(b"\n"):
            if b"=" in line:
                key, value = line.split(b"=", 1)
                values.setdefault(key, value)
        if values.get(b"PAGESIZE") is None or dec_of(values[b"PAGESIZE"]) != 4096:
            raise Refused("dump V3")
        base = values.get(b"NUMBER(phys_base)")
        base = None if base is None else dec_of(base)
        if base is None:
            raise Refused("dump V4")
        table = values.get(b"SYMBOL(init_top_pgt)", values.get(b"SYMBOL(swapper_pg_dir)"))
        table = None if table is None else hex_of(table)
        if table is None:
            raise Refused("dump V5")
        five = dec_of(values.get(b"NUMBER(pgtable_l5_enabled)", b"0"))
        if five not in (0, 1):
            raise Refused("dump V6 key NUMBER(pgtable_l5_enabled)")
        self.kaslr = hex_of(values.get(b"KERNELOFFSET", b"0"))
        if self.kaslr is None:
            raise Refused("dump V6 key KERNELOFFSET")
        self.mask = dec_of(values.get(b"NUMBER(sme_mask)", b"0"))
        if self.mask is None or self.mask & ~0x000FFFFFFFFFF000:
            raise Refused("dump V6 key NUMBER(sme_mask)")
        self.table, self.levels = (table - IMAGE + base) % TOP, 5 if five else 4
        if self.table % 4096 or self.table >= 1 << 52:
            raise Refused("dump V7")


# Virtual memory.


class Memory:
    def __init__(self, core, table, levels, mask):
        self.core, self.table, self.levels, self.mask = core, table, levels, mask
        self.pages = {}

    def entry_place(self, pa):
        return ("-", pa, self.core.origin(pa), self.core.word(pa))

    def walk(self, va):
        """The physical address of a virtual one."""
        top = 47 if self.levels == 4 else 56
        if va >> top not in (0, (1 << 64 - top) - 1):
            raise Broken("M2", va)
        table = self.table
        for level in range(self.levels, 0, -1):
            shift = 12 + 9 * (level - 1)
            pa = table + 8 * (va >> shift & 511)
            entry = self.core.word(pa)
            if entry is None:
                raise Broken("M3", va, stop=(level, pa))
            plain = entry & ~self.mask
            if not plain & 1:
                raise Broken("M4", va, stop=(level, pa), places=[self.entry_place(pa)])
            large = level > 1 and plain >> 7 & 1
            low = 29 if level == 3 else 20
            if large and (level >= 4 or plain & (1 << low + 1) - (1 << 13)):
                raise Broken("M5", va, stop=(level, pa), places=[self.entry_place(pa)])
            size = 1 << (shift if large else 12)
            table = plain & 0x000FFFFFFFFFF000 & ~(size - 1)
            if large:
                return table + va % size
        return table + va % 4096

    def place(self, va):
        """The place of the word at an address: the address, its physical address, where it comes from, the word."""
        if va % 8:
            raise Broken("M1", va)
        pa = self.walk(va)
        origin = self.core.origin(pa)
        if origin is None:
            raise Broken("M6", va, stop=(0, pa))
        return (va, pa, origin, self.core.word(pa))

    def places(self, at, bit, width):
        """The one or two words that hold a number."""
        first = at + bit // 8
        low = first - first % 8
        start = (first - low) * 8 + bit % 8
        found = [self.place(low % TOP)]
        if start + width > 64:
            found.append(self.place((low + 8) % TOP))
        return found, start

    def number(self, at, bit, width, signed=False):
        found, start = self.places(at % TOP, bit, width)
        whole = sum(place[3] << 64 * k for k, place in enumerate(found))
        value = whole >> start & (1 << width) - 1
        if signed and value >> width - 1:
            value -= 1 << width
        return value, found


# The types.

MODIFIERS = (8, 9, 10, 11, 18)
KNOWN = {1: 4, 3: 12, 14: 4, 17: 4}
EACH = {4: 12, 5: 12, 6: 8, 13: 8, 15: 12, 19: 12}


class Types:
    slot = "btf"

    def __init__(self, data):
        self.records = [None]
        self.reach = self.check_head(data)
        self.read(data)

    def fault(self, rule, at):
        return Refused(f"{self.slot} {rule} at {at}")

    def read(self, data):
        """The records behind those that are there."""
        at, end = self.types
        first = len(self.records)
        while at < end:
            if at + 12 > end:
                raise self.fault("B7", at)
            name, info, size = struct.unpack_from("<III", data, at)
            kind, vlen = info >> 24 & 31, info & 0xFFFF
            if not 0 < kind <= 19:
                raise self.fault("B6", at)
            extra = KNOWN.get(kind, EACH.get(kind, 0) * vlen if kind in EACH else 0)
            if at + 12 + extra > end:
                raise self.fault("B7", at)
            words = struct.unpack_from(f"<{extra // 4}I", data, at + 12)
            self.records.append((kind, name, info >> 31, size, words, at))
            at += 12 + extra
        for record in self.records[first:]:
            self.check_record(record)
        self.data = data

    def check_head(self, data):
        """Where the two sections lie. How long the strings are."""
        if len(data) < 24:
            raise self.fault("B1", len(data))
        magic, version, _, head, type_off, type_len, str_off, str_len = struct.unpack_from("<HBBIIIII", data, 0)
        if magic != 0xEB9F:
            raise self.fault("B2", 0)
        if version != 1:
            raise self.fault("B3", 2)
        if head < 24 or max(head + type_off + type_len, head + str_off + str_len) > len(data):
            raise self.fault("B4", 4)
        self.text_at = head + str_off
        if not self.is_text(data[self.text_at : self.text_at + str_len]):
            raise self.fault("B5", self.text_at)
        self.types = head + type_off, head + type_off + type_len
        return str_len

    def is_text(self, text):
        return text and not text[0] and not text[-1]

    def check_record(self, record):
        kind, name, _, size, words, at = record
        names, types = [name], []
        if kind in (2, 8, 9, 10, 11, 12, 14, 17, 18):
            types.append(size)
        if kind == 3:
            types += words[:2]
        if kind in (4, 5, 13):
            step = 3 if kind != 13 else 2
            names, types = names + list(words[::step]), types + list(words[1::step])
        if kind == 13:
            types.append(size)
        if kind in (6, 19):
            names += words[:: 2 if kind == 6 else 3]
        if kind == 15:
            types += words[::3]
        if any(n >= self.reach for n in names) or any(t >= len(self.records) for t in types):
            raise self.fault("B8", at)

    def name(self, offset):
        start = self.text_at + offset
        return self.data[start : self.data.index(b"\0", start)]

    def bare(self, number):
        """The type under its modifiers, or None where there are too many."""
        for _ in range(33):
            if number == 0 or self.records[number][0] not in MODIFIERS:
                return number
            number = self.records[number][3]
        return None

    def kind(self, number):
        return 0 if number == 0 else self.records[number][0]

    def length(self, number):
        """How many elements an array has, under modifiers; a plan is refused that needs one where none is."""
        bare = self.bare(number)
        if bare is None or self.kind(bare) != 3:
            raise Refused("plan")
        return self.records[bare][4][2]

    def find(self, name):
        name = name.encode()
        found = []
        for number in range(1, len(self.records)):
            record = self.records[number]
            if name and record[0] in (4, 5, 8) and self.name(record[1]) == name:
                target = self.bare(number)
                if target is not None and self.kind(target) in (4, 5):
                    found.append((record[0] == 8, number))
        return min(found)[1] if found else None

    def size(self, number, depth=32):
        """The bytes of a type, or None."""
        if number == 0:
            return None
        kind, _, _, size, words, _ = self.records[number]
        if kind in (1, 4, 5, 6, 15, 16, 19):
            return size
        if kind == 2:
            return 8
        if depth == 0 or kind not in MODIFIERS + (3,):
            return None
        each = self.size(words[0] if kind == 3 else size, depth - 1)
        total = each if each is None or kind != 3 else words[2] * each
        return None if total is None or total >= 1 << 32 else total

    def members(self, number):
        """The members of a struct or union: name, type, bit, and the width of a bit-field or 0."""
        _, _, flag, _, words, _ = self.records[number]
        for k in range(0, len(words), 3):
            bit, width = (words[k + 2] & 0xFFFFFF, words[k + 2] >> 24) if flag else (words[k + 2], 0)
            yield self.name(words[k]), words[k + 1], bit, width

    def member(self, number, name, depth=0):
        """A member by its name, searched depth first: its type, bit and width."""
        for found, kind, bit, width in self.members(number):
            if found == name:
                return kind, bit, width
            inner = self.bare(kind)
            if not found and inner is not None and self.kind(inner) in (4, 5):
                if depth == 32:
                    raise Refused("plan")
                below = self.member(inner, name, depth + 1)
                if below:
                    return below[0], bit + below[1], below[2]
        return None

    def follow(self, number, path):
        """Where a path leads: the byte offsets of its pointers, and then type, bit and bit-field's width."""
        if len(path) > 256 or path and not re.fullmatch(r"[A-Za-z_]\w*((\.|->)[A-Za-z_]\w*|\[[0-9]{1,10}\])*", path, re.A):
            raise Refused("plan")
        hops, kind, bit, width = [], number, 0, 0
        for step in re.findall(r"^\w+|\.\w+|->\w+|\[\d+\]", path):
            kind = self.bare(kind)
            if step[0] == "[":
                if self.kind(kind) != 3 or int(step[1:-1]) >= self.records[kind][4][2]:
                    raise Refused("plan")
                kind, index = self.records[kind][4][0], int(step[1:-1])
                if self.size(kind) is None:
                    raise Refused("plan")
                bit += 8 * index * self.size(kind)
            else:
                if step[:2] == "->":
                    if self.kind(kind) != 2 or width or bit % 8 or len(hops) == 4:
                        raise Refused("plan")
                    hops.append(bit // 8)
                    kind, bit = self.bare(self.records[kind][3]), 0
                found = self.member(kind, step.lstrip(".->").encode()) if self.kind(kind) in (4, 5) else None
                if found is None:
                    raise Refused("plan")
                kind, bit, width = found[0], bit + found[1], found[2]
            if bit >= 1 << 36:
                raise Refused("plan")
        return hops, kind, bit, width

    def scalar(self, number, path):
        """A number: its hops, its bit, its width and whether it is signed."""
        hops, kind, bit, width = self.follow(number, path)
        kind = self.bare(kind)
        sort, _, flag, size, words, _ = self.records[kind] if kind else (0,) * 6
        if sort == 1:
            signed, own, offset = words[0] >> 24 & 1 == 1, words[0] & 255, words[0] >> 16 & 255
            bit, width = (bit, width) if width else (bit + offset, own)
        elif sort in (2, 6, 19):
            signed, width = sort != 2 and bool(flag), width or (64 if sort == 2 else 8 * size)
        else:
            raise Refused("plan")
        if not 1 <= width <= 64:
            raise Refused("plan")
        return hops, bit, width, signed

    def located(self, number, path):
        """A byte: the hops, the offset in bytes, and the type there."""
        hops, kind, bit, width = self.follow(number, path)
        if bit % 8 or width:
            raise Refused("plan")
        return hops, bit // 8, kind

    def plain(self, number, path, width=None):
        """A number without hops: its bit, width and sign; of a wanted width at its own multiple."""
        hops, bit, found, signed = self.scalar(number, path)
        if hops or width and (found != width or bit % (64 if width == 64 else 8)):
            raise Refused("plan")
        return bit, found, signed


class Joined(Types):
    """The types of a kernel, and behind them those of a module: its numbers and its strings go on from the kernel's."""

    slot = "module"

    def __init__(self, base, data):
        self.base = base
        self.records = list(base.records)
        self.reach = base.reach + self.check_head(data)
        self.read(data)

    def is_text(self, text):
        return not text or not text[-1]

    def name(self, offset):
        return self.base.name(offset) if offset < self.base.reach else super().name(offset - self.base.reach)


def symbols(data):
    """The addresses of each name of a map. A carriage return goes with the newline behind it."""
    rows = {}
    *ended, last = data.split(b"\n")
    lines = [line.removesuffix(b"\r") for line in ended] + ([last] if last else [])
    for number, line in enumerate(lines, 1):
        if not re.fullmatch(rb"[0-9a-f]{16} [A-Za-z?] [\x21-\x7e]+", line):
            raise Refused(f"map S1 line {number}")
        rows.setdefault(line[19:], []).append(int(line[:16], 16))
    return rows


def address(rows, name, kaslr):
    """The run-time address of a symbol, or None."""
    found = {(a + kaslr) % TOP if a >= IMAGE else a for a in rows.get(name.encode(), [])}
    if len(found) > 1:
        raise Refused("plan")
    return found.pop() if found else None


# The kernel.


class Kernel:
    """A dump with its types and symbols."""

    def __init__(self, memory, types, rows, info):
        self.memory, self.types, self.rows, self.info = memory, types, rows, info
        self.kept = {}

    def struct(self, name):
        number = self.types.find(name)
        if number is None:
            raise Refused("plan")
        return number

    def offset(self, struct, path, width=64):
        """The byte of a word or of a small number in a struct."""
        key = struct, path
        if key not in self.kept:
            self.kept[key] = self.types.plain(self.struct(struct), path, width)[0] // 8
        return self.kept[key]

    def field(self, at, struct, path):
        """The value of a field modulo 2^64, its first byte's address and its places."""
        key = struct, path, "field"
        if key not in self.kept:
            self.kept[key] = self.types.plain(self.struct(struct), path)
        bit, width, signed = self.kept[key]
        value, places = self.memory.number(at, bit, width, signed)
        return value % TOP, (at + bit // 8) % TOP, places

    def byte(self, struct, path):
        """The byte of a member."""
        key = struct, path, "byte"
        if key not in self.kept:
            hops, byte, _ = self.types.located(self.struct(struct), path)
            if hops:
                raise Refused("plan")
            self.kept[key] = byte
        return self.kept[key]


def open_kernel(dump, btf, rows):
    """The kernel of three files."""
    with open(dump, "rb") as file:
        core = Core(mmap.mmap(file.fileno(), 0, access=mmap.ACCESS_READ))
    info = Info(core)
    memory = Memory(core, info.table, info.levels, info.mask)
    return Kernel(memory, Types(pathlib.Path(btf).read_bytes()), symbols(pathlib.Path(rows).read_bytes()), info)
