"""Compressed dumps by their format (makedumpfile's diskdump_mod.h and IMPLEMENTATION): a second reader, and damaged containers.

usage: kdump core DUMP > OUT                     writes the plain core file that stands for a dump, or prints its refusal
       kdump damage PROGRAMS COUNT [SEED]        makes COUNT containers, whole and damaged, by seed; compares `kplain core` with this reader

A made container has holes, pages that were left out, and pages that are raw, or packed by zlib at some level and strategy, by LZO, by snappy or by
zstd (where liblzo2, libsnappy and libzstd are installed); its version is 1 to 6, and it is flattened or not. Then nothing, or one thing or more is damaged: a field of a header, a bitmap, a
descriptor, a stream, a record, or the file's end. What is wanted is this reader's answer: the plain core, or the line of the refusal with status 2
and nothing on standard output, or the line of the first page that can't be had with status 3 and a first part of the core.
An incomplete dump, whose header says so or whose last pages are past the file's end, is the core of the pages that are there, with a line of its own.
"""
import bisect
import os
import random
import re
import struct
import subprocess
import sys
import tempfile
import zlib
from collections import Counter

import files
from second import flat, inflate, lzo, snappy, zstd

PAGE = 4096
MOST_RUNS, MOST_BYTES = 1 << 22, 1 << 26
HEADER_VERSION, STATUS, BLOCK_SIZE, SUB_BLOCKS, BITMAP_BLOCKS, FRAMES = 8, 424, 428, 432, 436, 440
KEYS = (b'PAGESIZE', b'SYMBOL(swapper_pg_dir)', b'SYMBOL(init_top_pgt)', b'NUMBER(phys_base)', b'NUMBER(pgtable_l5_enabled)', b'NUMBER(sme_mask)', b'KERNELOFFSET')
# The bits of a page's address.
MASK = (1 << 52) - PAGE
SPLIT, NOTES, ERASED, FRAMES_64 = 4096 + 12, 4096 + 48, 4096 + 64, 4096 + 96
ZLIB_SAYS = {'InputEnds': 'the stream ends too soon', 'Head': 'no zlib stream, or one with a preset dictionary', 'BlockType': 'a block of an unknown type',
             'StoredLength': "a stored block's length isn't the complement of its check", 'TooManyCodes': 'a set of codes has too many of a length',
             'Repeat': "a code length is repeated where it can't be", 'NoCode': 'the bits begin with no code',
             'Distance': 'a distance leads to before the first byte', 'TooManyBytes': 'the stream has too many bytes',
             'TooFewBytes': 'the stream has too few bytes', 'Sum': 'the sum at the end is another'}
DUMP_SAYS = {'K1': 'the file is too short for the headers', 'K2': 'of the older format', 'K3': 'of another version', 'K4': 'blocks of another size',
             'K5': 'one part of a split dump: makedumpfile --reassemble joins the parts', 'K6': 'bitmaps outside the file, or too short', 'K7': 'notes outside the file, or too many',
             'K8': 'too many runs of page frames'}
INCOMPLETE = b'incomplete dump: the pages that it lacks are left out\n'
FLAT_SAYS = {'Header': 'W1: the header of the flattened file', 'Bounds': 'W2: a record with an offset or a size that is out of bounds',
             'PastEnd': 'W3: a record past the end of the file', 'NoEnd': 'W4: no last record', 'TooMany': 'W5: too many records'}


class Refused(Exception):
    """A file's first fault, as the line says it."""


class BadPage(Exception):
    """Why a page can't be had, as the line says it."""


class TooLarge(Exception):
    """A file that this reader doesn't read: it has more page frames, or more bytes that aren't a dump's, than fit here."""


class Sparse:
    """The file that a flattened file means: what its records write, in their order, with zeros where none does."""

    def __init__(self, data):
        self.data, self.records = data, flat.records_of(data)
        self.size = flat.size_of(self.records)
        order = sorted(record for record in self.records if record[1])
        # Where no record is over another, those of a part are found by their order.
        self.begins = [to for to, _, _ in order] if all(one[0] + one[1] <= next[0] for one, next in zip(order, order[1:])) else None
        if self.begins:
            self.records = order

    def __len__(self):
        return self.size

    def near(self, begin, end):
        """The records that may have bytes of a part, in their order."""
        if not self.begins:
            return self.records
        return self.records[max(bisect.bisect_right(self.begins, begin) - 1, 0):bisect.bisect_left(self.begins, end)]

    def __getitem__(self, part):
        begin, end, _ = part.indices(len(self))
        out = bytearray(max(end - begin, 0))
        for to, count, at in self.near(begin, end):
            first, last = max(to, begin), min(to + count, end)
            if first < last:
                out[first - begin:last - begin] = self.data[at + first - to:at + last - to]
        return bytes(out)


def number(data, at, width):
    return int.from_bytes(data[at:at + width], 'little')


def hex_number(text):
    return int(text, 16) if text is not None and re.fullmatch(rb'(0x)?[0-9a-fA-F]{1,16}', text) else None


def decimal(text):
    return int(text) if text is not None and re.fullmatch(rb'-?[0-9]+', text) and abs(int(text)) < 1 << 63 else None


def need(holds, code):
    if not holds:
        raise Refused(f'{code}: {DUMP_SAYS[code]}')


def even(data):
    return data.ljust(-(-len(data) // 4) * 4, b'\0')


def with_erased(notes, text):
    """The notes, and what makedumpfile erased as one more, as its ELF dumps have it (write_elf_eraseinfo)."""
    return even(even(notes) + struct.pack('<III', 10, len(text), 0) + even(b'ERASEINFO\0') + text) if text else notes


class Dump:
    """What a compressed dump holds."""

    def __init__(self, data):
        self.data = data
        need(len(data) >= PAGE + 104, 'K1')
        need(data[:8] == b'KDUMP   ', 'K2')
        version, blocks = number(data, HEADER_VERSION, 4), number(data, BITMAP_BLOCKS, 4)
        need(1 <= version <= 6, 'K3')
        need(number(data, BLOCK_SIZE, 4) == PAGE, 'K4')
        need(version < 2 or number(data, SPLIT, 4) == 0, 'K5')
        frames = number(data, FRAMES_64, 8) if version == 6 else number(data, FRAMES, 4)
        begin, half = PAGE * (1 + number(data, SUB_BLOCKS, 4)), PAGE * (blocks // 2)
        self.table = begin + 2 * half
        need(blocks % 2 == 0 and frames <= 8 * half and self.table <= len(data), 'K6')
        at, size = (number(data, NOTES, 8), number(data, NOTES + 8, 8)) if version >= 4 else (0, 0)
        erased, erased_size = (number(data, ERASED, 8), number(data, ERASED + 8, 8)) if version >= 5 else (0, 0)
        text = bytes(data[erased:erased + erased_size])
        need(at + size <= len(data) and erased + erased_size <= len(data) and max(size, erased_size) <= 16 << 20, 'K7')
        self.notes = with_erased(bytes(data[at:at + size]), text)
        need(len(self.notes) <= 16 << 20, 'K7')
        if half > MOST_BYTES:
            raise TooLarge
        kinds = self.kinds(data[begin:begin + half], data[begin + half:self.table], frames)
        # a run: pages that are in the dump, and after them those that were left out
        self.runs = [(m.start(), m.group().count(b'D'), m.group().count(b'L')) for m in re.finditer(b'D+L*|L+', kinds)]
        need(len(self.runs) <= MOST_RUNS, 'K8')
        count = sum(dumped for _, dumped, _ in self.runs)
        self.whole = not number(data, STATUS, 4) & 8 and (count == 0 or self.there(count - 1))
        if not self.whole:
            self.cut(next((n for n in range(count) if not self.there(n)), count))
        self.pages = [pfn for first, dumped, _ in self.runs for pfn in range(first, first + dumped)]
        self.numbers = {pfn: number for number, pfn in enumerate(self.pages)}

    def there(self, number):
        """Whether a page's descriptor was written and is in the file, and its bytes are."""
        at = self.table + 24 * number
        if at + 24 > len(self.data):
            return False
        offset, size = struct.unpack('<QI', self.data[at:at + 12])
        return offset != 0 and offset + size <= len(self.data)

    def cut(self, count):
        """Leaves out all pages but the first."""
        runs = []
        for first, dumped, left in self.runs:
            runs.append((first, min(count, dumped), left + dumped - min(count, dumped)))
            count -= min(count, dumped)
        self.runs = runs

    @staticmethod
    def kinds(memory, dumped, frames):
        """A letter for each page frame: its page is in the Dump, was Left out, or is no memory."""
        seen, parts = {}, []
        for pair in zip(memory, dumped):
            if pair not in seen:
                m, d = pair
                seen[pair] = ''.join('D' if d >> i & 1 else 'L' if m >> i & 1 else 'H' for i in range(8)).encode()
            parts.append(seen[pair])
        return b''.join(parts)[:frames]

    def page(self, number):
        at, size, flags = struct.unpack('<QII', self.data[self.table + 24 * number:self.table + 24 * number + 16])
        if at + size > len(self.data):
            raise BadPage('D1: its bytes are outside the file')
        if size > PAGE:
            raise BadPage('D2: its bytes are of another number')
        return unpacked(flags, bytes(self.data[at:at + size]))

    def root(self):
        """Virtual and physical address of the top page table's page, and its number, where the notes' lines say it and the page is in the dump."""
        lines = self.notes.split(b'\n')
        values = {key: next((line[len(key) + 1:] for line in lines if line.startswith(key + b'=')), None) for key in KEYS}
        address = hex_number(values[b'SYMBOL(swapper_pg_dir)'])
        top = address if values[b'SYMBOL(init_top_pgt)'] is None else hex_number(values[b'SYMBOL(init_top_pgt)'])
        base, offset = decimal(values[b'NUMBER(phys_base)']), values[b'KERNELOFFSET']
        level, mask = values[b'NUMBER(pgtable_l5_enabled)'], values[b'NUMBER(sme_mask)']
        if decimal(values[b'PAGESIZE']) != PAGE or None in (address, top, base) or offset is not None and hex_number(offset) is None:
            return None
        if level is not None and decimal(level) not in (0, 1) or mask is not None and (decimal(mask) is None or decimal(mask) % (1 << 64) & ~MASK):
            return None
        physical = (top + (1 << 31) + base) % (1 << 64)
        if physical % PAGE or physical >= 1 << 52 or physical // PAGE not in self.numbers:
            return None
        return address, physical, self.numbers[physical // PAGE]

    def head(self):
        """The headers and the notes, up to the first page (gABI)."""
        root = self.root()
        count = 1 + len(self.runs) + (root is not None)
        many = count >= 0xFFFF
        table = 64 + 56 * count
        notes = table + (64 if many else 0)
        start = -(-(notes + len(self.notes)) // PAGE) * PAGE
        head = struct.pack('<16sHHIQQQIHHHHHH', b'\x7fELF\2\1\1' + bytes(9), 4, 62, 1, 0, 64, table if many else 0, 0, 64, 56,
                           0xFFFF if many else count, 64 if many else 0, 1 if many else 0, 0)
        head += struct.pack('<IIQQQQQQ', 4, 0, notes, 0, 0, len(self.notes), len(self.notes), 4)
        at = start
        for first, dumped, left in self.runs:
            head += struct.pack('<IIQQQQQQ', 1, 7, at, (1 << 63) + PAGE * first, PAGE * first, PAGE * dumped, PAGE * (dumped + left), 0)
            at += PAGE * dumped
        if root is not None:
            head += struct.pack('<IIQQQQQQ', 1, 7, start + PAGE * root[2], root[0], root[1], PAGE, PAGE, 0)
        if many:
            head += struct.pack('<IIQQQQIIQQ', 0, 0, 0, 0, 0, 0, 0, count, 0, 0)
        return (head + self.notes).ljust(start, b'\0')


def unpacked(flags, data):
    """A page from its bytes."""
    if flags == 0:
        if len(data) != PAGE:
            raise BadPage('D2: its bytes are of another number')
        return data
    if flags == 1:
        page = inflate.zlib_answer(PAGE, data)
        if page is not None:
            return page
        try:
            return inflate.unzip(PAGE, data)
        except inflate.Fault as fault:
            raise BadPage('D4: no zlib stream of a page: ' + ZLIB_SAYS[str(fault)])
    if flags == 2:
        try:
            return lzo.lzo_of(PAGE, data)
        except lzo.Fault:
            raise BadPage('D5: no LZO stream of a page')
    if flags == 4:
        try:
            return snappy.snappy_of(PAGE, data)
        except snappy.Fault:
            raise BadPage('D6: no snappy stream of a page')
    if flags == 0x20:
        try:
            return zstd.unpack(PAGE, data)
        except zstd.Fault:
            raise BadPage('D7: no zstd stream of a page')
    raise BadPage(f'D3: packed in another way, by flags {flags}')


def parts_of(data, said=None):
    """The plain core file that stands for a file, part by part; a page that can't be had raises its number with its cause. What is said of a dump that
    is read to its end goes to the list `said`."""
    try:
        data = Sparse(data) if data[:16] == flat.SIGNATURE else data
    except flat.Fault as fault:
        raise Refused(FLAT_SAYS[str(fault)])
    if data[:8] not in (b'KDUMP   ', b'DISKDUMP'):
        if len(data) > MOST_BYTES:
            raise TooLarge
        yield bytes(data[:])
        return
    dump = Dump(data)
    yield dump.head()
    for number in range(len(dump.pages)):
        try:
            yield dump.page(number)
        except BadPage as cause:
            raise BadPage(f'{number} {cause}')
    if said is not None and not dump.whole:
        said.append(INCOMPLETE)


def answer(data):
    """What `kplain core` is wanted to say: status, standard output, standard error."""
    out, said = [], []
    try:
        out.extend(parts_of(data, said))
        return 0, b''.join(out), b''.join(said)
    except Refused as cause:
        return 2, b'', f'refused dump {cause}\n'.encode()
    except BadPage as cause:
        return 3, b''.join(out), f'bad page {cause}\n'.encode()


# ---- made containers


def note(rnd, frames):
    """A note whose lines say where the top page table is, or don't."""
    base = rnd.choice([0, 0, 0x1000000, -0x200000])
    table = PAGE * rnd.randrange(frames) + rnd.choice([0, 0, 0, 8])
    lines = [b'OSRELEASE=made', b'PAGESIZE=4096', b'SYMBOL(swapper_pg_dir)=%x' % ((table - base - (1 << 31)) % (1 << 64)), b'NUMBER(phys_base)=%d' % base,
             b'NUMBER(pgtable_l5_enabled)=%d' % rnd.choice([0, 1, 1, 2]), b'KERNELOFFSET=1a000000']
    text = b'\n'.join(line for line in lines if rnd.random() < 0.95) + b'\n'
    return struct.pack('<III', 11, len(text), 0) + b'VMCOREINFO\0\0' + text.ljust(-(-len(text) // 4) * 4, b'\0')


class Packers:
    """The libraries that are installed."""

    def __init__(self):
        self.pack = {1: inflate.stream}
        for flags, make, call in ((2, lzo.Liblzo2, lambda library: lambda rnd, page: library.pack(page, rnd.choice([1, 999]))),
                                  (4, snappy.Libsnappy, lambda library: lambda rnd, page: library.pack(page)),
                                  (0x20, zstd.Library, lambda library: lambda rnd, page: library.pack(page, rnd.randrange(1, 20), rnd.random() < 0.5, rnd.random() < 0.5))):
            try:
                self.pack[flags] = call(make())
            except (OSError, AttributeError):
                pass


def packed_page(rnd, packers):
    """The flags and the bytes of a page."""
    page = inflate.content(rnd, PAGE)
    flags = rnd.choice([0, 1, 1, 2, 4, 0x20])
    if flags not in packers.pack:
        return 0, page
    data = packers.pack[flags](rnd, page)
    return (0, page) if len(data) >= PAGE else (flags, data)


class Made:
    """A container, and where its parts lie."""

    def __init__(self, rnd, packers):
        self.version, self.frames = rnd.choice([1, 2, 3, 4, 5, 6, 6, 6]), rnd.randrange(1, 300)
        kinds, kind = [], 'H'
        while len(kinds) < self.frames:
            kind = rnd.choice('DDLH')
            kinds += kind * rnd.choice([1, 1, 2, 5, 9, 30])
        kinds = kinds[:self.frames]
        if kinds.count('D') > 40:
            kinds = [k if k != 'D' or rnd.random() < 40 / kinds.count('D') else 'L' for k in kinds]
        half = PAGE * rnd.choice([1, 1, 2])
        memory = bits(half, [k in 'DL' for k in kinds])
        dumped = bits(half, [k == 'D' for k in kinds])
        notes, sub = note(rnd, self.frames), rnd.choice([1, 1, 2])
        header = bytearray(PAGE)
        header[:8] = b'KDUMP   '
        struct.pack_into('<I', header, HEADER_VERSION, self.version)
        struct.pack_into('<IIIII', header, STATUS, 1 | (rnd.random() < 0.1) * 8, PAGE, sub, 2 * half // PAGE, self.frames)
        subs = bytearray(PAGE * sub)
        if self.version < 4 or rnd.random() < 0.1:
            # What a writer of an earlier version left in the block is no field.
            struct.pack_into('<I', subs, 12, (self.version < 2) * rnd.getrandbits(4))
            struct.pack_into('<QQ', subs, 32, PAGE + 104, len(notes))
        struct.pack_into('<QQ', subs, 48, PAGE + 104, len(notes))
        struct.pack_into('<Q', subs, 96, self.frames)
        subs[104:104 + len(notes)] = notes
        if rnd.random() < 0.2:
            # What was erased lies anywhere in the file, here at the end of the sub header.
            text = b''.join(b'erase symbol.%d\n' % rnd.getrandbits(9) for _ in range(rnd.randrange(1, 9)))
            struct.pack_into('<QQ', subs, 64, PAGE + len(subs) - len(text), len(text))
            subs[len(subs) - len(text):] = text
        self.bitmaps = PAGE * (1 + sub)
        self.half, self.table, self.count = half, self.bitmaps + 2 * half, kinds.count('D')
        at, table, body, last = self.table + 24 * self.count, b'', b'', None
        self.streams = []
        for _ in range(self.count):
            if last is None or rnd.random() < 0.8:
                flags, data = packed_page(rnd, packers)
                last = struct.pack('<QIIQ', at + len(body), len(data), flags, 0)
                self.streams.append((at + len(body), len(data)))
                body += data
            table += last
        self.data = bytearray(header + subs + memory + dumped + table + body)


def bits(size, flags):
    row = bytearray(size)
    for i, flag in enumerate(flags):
        row[i // 8] |= flag << i % 8
    return row


def flattened(rnd, data):
    """The flattened form: records in any order, some of which write over others."""
    cuts = sorted({0, len(data), *(rnd.randrange(len(data)) for _ in range(rnd.randrange(6)))})
    records = [(a, data[a:b]) for a, b in zip(cuts, cuts[1:])]
    rnd.shuffle(records)
    if rnd.random() < 0.3:
        at = rnd.randrange(len(data))
        records.insert(0, (at, bytes(rnd.randrange(256) for _ in range(min(20, len(data) - at)))))
    out = bytearray(b'makedumpfile\0\0\0\0' + struct.pack('>qq', 1, 1)).ljust(PAGE, b'\0')
    places = []
    for at, some in records:
        places.append(len(out))
        out += struct.pack('>qq', at, len(some)) + some
    places.append(len(out))
    return out + struct.pack('>qq', -1, -1), places


def odd(rnd, width, old):
    top = (1 << 8 * width) - 1
    value = rnd.choice([0, 1, old + 1, old - 1, old * 2, top, top // 2, 1 << rnd.randrange(8 * width), rnd.getrandbits(8 * width)])
    return max(value, 0) & top


def change(rnd, data, at, width):
    old = int.from_bytes(data[at:at + width], 'little')
    data[at:at + width] = odd(rnd, width, old).to_bytes(width, 'little')


def flip(data, place, bit):
    """Changes a bit, unless the file was cut before it."""
    if place < len(data):
        data[place] ^= 1 << bit


FIELDS = [(0, 8), (8, 4), (424, 4), (428, 4), (432, 4), (436, 4), (440, 4), (444, 4), (4096, 8), (4104, 4), (4108, 4), (4128, 8), (4136, 8), (4144, 8), (4152, 8),
          (4160, 8), (4168, 8), (4176, 8), (4184, 8), (4192, 8)]


def damage(rnd, made):
    """Damages one thing, and says what."""
    data, kind = made.data, rnd.choice(['field', 'field', 'bitmap', 'descriptor', 'descriptor', 'stream', 'stream', 'stream', 'end', 'end', 'unwritten', 'signature'])
    if kind == 'field':
        at, width = rnd.choice(FIELDS)
        change(rnd, data, at, width)
        return f'field {at}'
    if kind == 'bitmap':
        number = rnd.randrange(2)
        for _ in range(rnd.randrange(1, 4)):
            pfn = rnd.choice([rnd.randrange(made.frames), rnd.randrange(8 * made.half)])
            flip(data, made.bitmaps + number * made.half + pfn // 8, pfn % 8)
        return f'bitmap {number + 1}'
    if kind == 'descriptor' and made.count:
        at, width = rnd.choice([(0, 8), (8, 4), (12, 4), (16, 8)])
        change(rnd, data, made.table + 24 * rnd.randrange(made.count) + at, width)
        return f'descriptor {at}'
    if kind == 'stream' and made.streams:
        at, size = rnd.choice(made.streams)
        if rnd.random() < 0.3:
            descriptors = [made.table + 24 * i for i in range(made.count)]
            mine = [d for d in descriptors if int.from_bytes(data[d:d + 8], 'little') == at]
            for d in mine:
                data[d + 8:d + 12] = rnd.randrange(size).to_bytes(4, 'little')
            return 'stream cut'
        place = at + rnd.choice([rnd.randrange(size), rnd.randrange(min(size, 20)), max(size - 1 - rnd.randrange(8), 0)])
        flip(data, place, rnd.randrange(8))
        return 'stream changed'
    if kind == 'end':
        del data[rnd.choice([rnd.randrange(len(data)), len(data) - 1, made.table, made.table + 24 * rnd.randrange(made.count + 1), PAGE + 104, PAGE + 103]):]
        return 'end'
    if kind == 'unwritten' and made.count:
        # What a writer without room leaves: descriptors that were never written, from one on.
        first = made.table + 24 * rnd.randrange(made.count)
        data[first:made.table + 24 * made.count] = bytes(made.table + 24 * made.count - first)
        data[STATUS] |= 8
        return 'unwritten'
    if kind == 'signature':
        data[:8] = rnd.choice([b'DISKDUMP', b'KDUMP  \0', b'KDUMP   '])
        return 'signature'
    return 'nothing'


def container(rnd, packers):
    """A file, and what was done to it."""
    made = Made(rnd, packers)
    done = [damage(rnd, made) for _ in range(rnd.choice([0, 1, 1, 1, 1, 2]))]
    data = made.data
    if data and rnd.random() < 0.3:
        data, places = flattened(rnd, data)
        if rnd.random() < 0.4:
            done.append('record')
            at = rnd.choice(places) + rnd.choice([0, 8])
            data[at:at + 8] = odd(rnd, 8, int.from_bytes(data[at:at + 8], 'big')).to_bytes(8, 'big')
        elif rnd.random() < 0.2:
            done.append('flat head')
            at = rnd.choice([0, 15, 16, 23, 24, 31, 40])
            data[at] ^= 1 << rnd.randrange(8)
        elif rnd.random() < 0.2:
            done.append('flat end')
            del data[rnd.randrange(len(data)):]
    return bytes(data), done or ['nothing']


def answered(rnd, packers):
    """A file, what was done to it, and what is wanted of it."""
    while True:
        data, done = container(rnd, packers)
        try:
            return data, done, answer(data)
        except TooLarge:
            pass


def try_damaged(programs, count, seed):
    program, rnd, wrong, ends, kinds = files.program(programs, 'kplain'), random.Random(seed), 0, Counter(), Counter()
    packers = Packers()
    with tempfile.TemporaryDirectory() as folder:
        path = os.path.join(folder, 'dump')
        for number in range(count):
            data, done, wanted = answered(rnd, packers)
            with open(path, 'wb') as file:
                file.write(data)
            run = subprocess.run([program, 'core', path], stdin=subprocess.DEVNULL, capture_output=True)
            told = run.returncode, run.stdout, run.stderr
            ends[wanted[0], ''.join(re.findall(r'[KWD]\d', wanted[2].decode())[:1])] += 1
            kinds.update(done)
            if told != wanted:
                wrong += 1
                print(f'WRONG {number} of seed {seed}, {done}: told {told[0], len(told[1]), told[2]}, wanted {wanted[0], len(wanted[1]), wanted[2]}')
    for (status, said), times in sorted(ends.items()):
        print(f'{times:6} status {status} {said}')
    print(f'damaged: {dict(sorted(kinds.items()))}')
    print(f'{count} containers, {wrong} wrong')
    return wrong != 0


def main(words):
    if words[0] == 'core' and len(words) == 2:
        said = []
        try:
            for part in parts_of(files.opened(words[1]), said):
                sys.stdout.buffer.write(part)
            sys.stdout.buffer.flush()
            sys.stderr.buffer.write(b''.join(said))
        except Refused as cause:
            print(f'refused dump {cause}', file=sys.stderr)
            return 2
        except BadPage as cause:
            print(f'bad page {cause}', file=sys.stderr)
            return 3
        return 0
    if words[0] == 'damage' and len(words) in (3, 4):
        return try_damaged(words[1], int(words[2]), int((words + ['1'])[3]))
    sys.exit(__doc__)
