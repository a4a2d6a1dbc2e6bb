"""Is a second reader of a kernel's own symbol table in its dump, for kfiles: it was written from kernel/kallsyms.c, scripts/kallsyms.c and Intel's
manual, and shares nothing with the program.

    kallsyms DUMP map|types              what kfiles writes, with its status
    kallsyms try PROGRAM [COUNT [SEED]]  COUNT small dumps with made tables, most of them damaged: PROGRAM and this reader have to agree on each
"""
import mmap
import os
import random
import re
import struct
import subprocess
import sys
import tempfile

from plans import reader
from second.verdict import stopped_text

IMAGE, M64 = 0xffffffff80000000, (1 << 64) - 1
# The tables, as the note names them.
TABLES = (b"kallsyms_num_syms", b"kallsyms_relative_base", b"kallsyms_offsets", b"kallsyms_token_index", b"kallsyms_token_table", b"kallsyms_names", b"_stext")
VISIBLE = bytes(range(33, 127))
MOST_SYMBOLS, MOST_TYPES, MOST_TOKEN, MOST_NAME = 1 << 22, 1 << 26, 512, 511


class Refused(Exception):
    """The tables are refused: the words after `refused dump`."""


class Broken(Exception):
    """A word can't be read: what is written of it."""


class Dump:
    """The virtual memory of a dump, and the lines of its note."""

    def __init__(self, path):
        with open(path, "rb") as file:
            self.data = mmap.mmap(file.fileno(), 0, access=mmap.ACCESS_READ)
        core = reader.Core(self.data)
        info = reader.Info(core)
        self.kaslr, self.memory = info.kaslr, reader.Memory(core, info.table, info.levels, info.mask)
        self.keys, self.chunks = {}, {}
        for line in reader.vmcoreinfo(core).split(b"\n"):
            key, sign, value = line.partition(b"=")
            if sign:
                self.keys.setdefault(key, value)

    def chunk(self, va):
        """The bytes from an address to the end of its page, or to the first word that can't be read."""
        word, page = va & ~7 & M64, va | 4095
        if word not in self.chunks:
            try:
                _, pa, at, _ = self.memory.place(word)
            except reader.Broken as stop:
                raise Broken(stopped_text(stop)) from None
            end = page + 1 - word
            for offset, start, size in self.memory.core.loads:
                if start <= pa and pa + 8 <= start + size:
                    end = min(end, (start + size - pa) // 8 * 8)
                    break
            self.chunks[word] = self.data[at : at + end]
        return self.chunks[word][va - word :] if va != word else self.chunks[word]

    def many(self, va, count):
        """So many bytes from an address on."""
        parts, va = [], va & M64
        while count > 0:
            part = self.chunk(va)[:count]
            parts.append(part)
            va, count = va + len(part) & M64, count - len(part)
        return b"".join(parts)

    def number(self, va, count):
        return int.from_bytes(self.many(va, count), "little")

    def symbol(self, name):
        """The address that a line of the note has."""
        at = reader.hex_of(self.keys.get(b"SYMBOL(%s)" % name, b""))
        if at is None:
            raise Refused(f"S4 key SYMBOL({name.decode()})")
        return at


class Bytes:
    """Bytes from an address on, of which no word is read before it is needed."""

    def __init__(self, dump, va):
        self.dump, self.va, self.held, self.at = dump, va & M64, b"", 0

    def take(self, count):
        """The next bytes."""
        while self.at + count > len(self.held):
            self.held, self.at = self.held[self.at :], 0
            part = self.dump.chunk(self.va)
            self.held, self.va = self.held + part, self.va + len(part) & M64
        self.at += count
        return self.held[self.at - count : self.at]


def token(dump, at, number):
    """The token at an address, up to its NUL."""
    text = Bytes(dump, at)
    found = bytearray()
    for _ in range(MOST_TOKEN):
        byte = text.take(1)
        if byte == b"\0":
            return bytes(found)
        found += byte
    raise Refused(f"S6 token {number}")


def check(number, text):
    """Whether the letter and the name of a symbol are ones."""
    if not text:
        raise Refused(f"S7 symbol {number}")
    if not re.match(rb"[A-Za-z?]", text):
        raise Refused(f"S8 symbol {number}")
    if not 2 <= len(text) <= 1 + MOST_NAME or text[1:].translate(None, VISIBLE):
        raise Refused(f"S7 symbol {number}")


def rows_of(dump, places, count, tokens):
    """The letter, the name and the offset of each symbol."""
    names, offsets, rows = Bytes(dump, places[b"kallsyms_names"]), Bytes(dump, places[b"kallsyms_offsets"]), []
    good = re.compile(rb"[A-Za-z?][!-~]{1,511}").fullmatch
    for number in range(count):
        size = names.take(1)[0]
        if size >= 128:
            size += (names.take(1)[0] << 7) - 128
        text = b"".join([tokens[byte] for byte in names.take(size)])
        offset = int.from_bytes(offsets.take(4), "little")
        if not good(text):
            check(number, text)
        rows.append((text[:1], text[1:], offset))
    return rows


def symbols(dump):
    """The rows, the first offset of each name, what gives an offset its address, and whether it does so with signs."""
    places = {name: dump.symbol(name) for name in TABLES}
    count = dump.number(places[b"kallsyms_num_syms"], 4)
    if not 1 <= count <= MOST_SYMBOLS:
        raise Refused(f"S5 count {count}")
    base = dump.number(places[b"kallsyms_relative_base"], 8)
    index, table = places[b"kallsyms_token_index"], places[b"kallsyms_token_table"]
    tokens = [token(dump, table + dump.number(index + 2 * number, 2), number) for number in range(256)]
    rows = rows_of(dump, places, count, tokens)
    first = {}
    for _, name, offset in rows:
        first.setdefault(name, offset)
    signed = lambda offset: offset if offset < 1 << 31 else base - 1 - (offset - (1 << 32)) & M64
    upward = lambda offset: base + offset & M64
    text = first.get(b"_stext")
    fits = [] if text is None else [read for read in (signed, upward) if read(text) == places[b"_stext"]]
    if len(fits) != 1:
        raise Refused("S9")
    return rows, first, fits[0], fits[0] is signed


def types_of(dump, table):
    """The bytes of the types."""
    _, first, address, _ = table
    if b"__start_BTF" not in first or b"__stop_BTF" not in first:
        raise Refused("S10")
    start, stop = address(first[b"__start_BTF"]), address(first[b"__stop_BTF"])
    if not 0 <= stop - start <= MOST_TYPES:
        raise Refused("S11")
    return dump.many(start, stop - start)


def map_of(dump, table):
    """The text of the map."""
    rows, first, address, signed = table
    out, end, kaslr = [], first.get(b"__per_cpu_end", -1) if signed else -1, dump.kaslr
    for letter, name, offset in rows:
        at = address(offset)
        if letter == b"A" and offset <= end and offset < 1 << 31:
            letter = b"D"
        out.append(b"%016x %b %b\n" % (at - kaslr if at >= IMAGE + kaslr else at, letter, name))
    return b"".join(out)


def answers(path, wishes):
    """What kfiles ends with for each wish: status, standard output and standard error."""
    try:
        dump = Dump(path)
        table = symbols(dump)
    except Broken as stop:
        return [(1, str(stop).encode(), b"")] * len(wishes)
    except Refused as why:
        return [(2, b"", b"refused dump %s\n" % str(why).encode())] * len(wishes)
    except reader.Refused as why:
        return [(2, b"", b"refused %s\n" % str(why).encode())] * len(wishes)
    return [made(dump, table, wish) for wish in wishes]


def made(dump, table, wish):
    try:
        return 0, (types_of if wish == "types" else map_of)(dump, table), b""
    except Broken as stop:
        return 1, str(stop).encode(), b""
    except Refused as why:
        return 2, b"", b"refused dump %s\n" % str(why).encode()


def answer(path, wish):
    return answers(path, [wish])[0]


# small dumps: an image of 64 KiB at IMAGE + 16 MiB + KASLR, four or five levels, and a table of some symbols
def make(r):
    kaslr = r.choice([0, 0, 0x200000, 0x1e000000, 0x34400000]); five = r.random() < .4; absolute = r.random() < .6; size = 0x10000
    start = IMAGE + 0x1000000 + kaslr; base = start
    names = [(b'T', b'_stext', base), (b'T', b'_text', base)]
    if absolute: names = [(b'A', b'__per_cpu_start', 0), (b'A', b'here', 0x20), (b'A', b'__per_cpu_end', 0x35000), (b'A', b'beyond', 0x35001)][:r.choice([4, 4, 2, 3])] + names
    for i in range(r.randrange(60)):
        names.append((bytes([r.choice(b'tTdDbBrRA?VW')]), bytes(r.choice(b'abcdefgh_.$0123') for _ in range(r.choice([1, 2, 5, 9, 20, 130, 511 if r.random() < .3 else 40]))), base + r.randrange(size)))
    bs, be = sorted(r.randrange(0x8000, size) for _ in range(2))
    if r.random() < .95: names.append((b'D', b'__start_BTF', base + bs))
    if r.random() < .95: names.append((b'D', b'__stop_BTF', base + be))
    tokens = [bytes([c]) for c in range(256)]; tokens[0] = b'kern'; spare = [c for c in range(256) if not 33 <= c <= 126]
    for c in spare[1:]: tokens[c] = bytes(r.choice(b'abcdefgh_') for _ in range(r.choice([0, 1, 2, 3, 7])))
    table, index = b'', b''
    for t in tokens: index += struct.pack('<H', len(table)); table += t + b'\0'
    enc, offs = b'', b''
    for l, n, a in names:
        t, k, out = l + n, 0, []
        while k < len(t):
            best = t[k]
            if r.random() < .5:
                for c in spare:
                    if tokens[c] and k and t.startswith(tokens[c], k): best = c
            out.append(best); k += len(tokens[best])
        enc += (bytes([len(out)]) if len(out) < 128 else bytes([len(out) & 127 | 128, len(out) >> 7])) + bytes(out)
        offs += struct.pack('<I', (a if a < 1 << 31 else base - 1 - a & 0xffffffff) if absolute else a - base & 0xffffffff)
    mem = bytearray(r.randbytes(size)); at, where = 0x40 + r.randrange(16), {}
    for key, data in (('num_syms', struct.pack('<I', len(names))), ('relative_base', struct.pack('<Q', base)), ('offsets', offs), ('token_index', index), ('token_table', table), ('names', enc)):
        where[key] = (at, len(data)); mem[at:at + len(data)] = data; at += len(data) + r.randrange(12)
    assert at < 0x8000, at
    return dict(kaslr=kaslr, five=five, start=start, mem=mem, where=where, size=size)

def damage(r, g, lines):
    kind = r.randrange(12)
    if kind < 3: return
    if kind == 3: lines.pop(r.randrange(len(lines))) if lines else None; return
    if kind == 4: i = r.randrange(len(lines)); k, v = lines[i].split('='); lines[i] = k + '=' + r.choice(['', 'xyz', '0x', v + 'g', '0' * 17, 'ffff' * 4, '10', '%x' % (IMAGE - 8), '0x' + v]); return
    if kind == 5: g['hole'] = r.randrange(16); return
    if kind == 6: a, n = g['where']['num_syms']; g['mem'][a:a + 4] = struct.pack('<I', r.choice([0, 1, 2, 1 << 22, (1 << 22) + 1, 0xffffffff, 61, 200])); return
    if kind == 7: a, n = g['where']['relative_base']; g['mem'][a:a + 8] = struct.pack('<Q', r.choice([0, M64, g['start'] + 1, g['start'] - 1, 1 << 63])); return
    a, n = g['where'][r.choice(['offsets', 'token_index', 'token_table', 'names', 'names'])]
    for _ in range(r.choice([1, 1, 2, 8])):
        p = a + r.randrange(n)
        if r.random() < .5: g['mem'][p] ^= 1 << r.randrange(8)
        else: k = r.choice([1, 2, 8, 300]); g['mem'][p:p + k] = (bytes([r.choice([0, 255, 128, 65])]) * k)[:max(0, g['size'] - p)]
    assert len(g['mem']) == g['size']

def write(r, path):
    g = make(r); w, start = g['where'], g['start']
    lines = ['SYMBOL(kallsyms_%s)=%x' % (k, start + a) for k, (a, n) in w.items()] + ['SYMBOL(_stext)=%x' % start]
    damage(r, g, lines); put(r, path, g, lines)

def put(r, path, g, lines):
    """Writes a dump that has the memory of g, from its start on, and these lines in its note."""
    start, phys, tables, at = g['start'], 0x100000, {}, [0x200000]
    def table():
        a = at[0]; at[0] += 4096; tables[a] = bytearray(4096); return a
    top = table(); hole = g.get('hole')
    for page in range(g['size'] // 4096):
        va, t = start + 4096 * page, top
        for level in range(5 if g['five'] else 4, 1, -1):
            i = va >> 12 + 9 * (level - 1) & 511; e, = struct.unpack_from('<Q', tables[t], 8 * i)
            if not e: e = table() | 0x63; struct.pack_into('<Q', tables[t], 8 * i, e)
            t = e & ~0xfff
        struct.pack_into('<Q', tables[t], 8 * (va >> 12 & 511), (phys + 4096 * page | 0x63) & ~(page == hole and r.random() < .5))
    r.shuffle(lines)
    note = '\n'.join(['OSRELEASE=made', 'PAGESIZE=4096', 'NUMBER(phys_base)=%d' % 0, 'SYMBOL(init_top_pgt)=%x' % (IMAGE + top),
                      'NUMBER(pgtable_l5_enabled)=%d' % g['five'], 'KERNELOFFSET=%x' % g['kaslr']] + lines).encode() + b'\n'
    desc = struct.pack('<III', 11, len(note), 0) + b'VMCOREINFO\0\0' + note; desc += b'\0' * (-len(desc) % 4)
    pieces = [(phys, bytes(g['mem']))] + sorted((a, bytes(b)) for a, b in tables.items())
    if hole is not None and r.random() < .5: pieces[0:1] = [(phys, pieces[0][1][:4096 * hole]), (phys + 4096 * hole + 4096, pieces[0][1][4096 * hole + 4096:])]
    n = len(pieces) + 1; off = 64 + 56 * n; heads = struct.pack('<IIQQQQQQ', 4, 0, off, 0, 0, len(desc), len(desc), 4); body = desc
    for a, b in pieces: heads += struct.pack('<IIQQQQQQ', 1, 7, off + len(body), 0, a, len(b), len(b), 0); body += b
    head = b'\x7fELF\x02\x01\x01' + b'\0' * 9 + struct.pack('<HHIQQQIHHHHHH', 4, 62, 1, 0, 64, 0, 0, 64, 56, n, 0, 0, 0)
    open(path, 'wb').write(head + heads + body)

def attempt(program, count, seed):
    seen = {}
    with tempfile.TemporaryDirectory() as t:
        for i in range(count):
            r = random.Random('%s/%d' % (seed, i)); path = os.path.join(t, 'd'); write(r, path)
            for what in ('map', 'types'):
                mine = answer(path, what); p = subprocess.run([program, path, what], capture_output=True); its = p.returncode, p.stdout, p.stderr
                key = mine[0], ' '.join((mine[2] or (mine[1] if mine[0] else b'')).decode().split()[1:3 + (mine[0] == 1)]).rstrip('0123456789 '); seen[key] = seen.get(key, 0) + 1
                if mine != its: print('seed %s/%d %s: %r, and the program %r' % (seed, i, what, [x if isinstance(x, int) else x[:200] for x in mine], [x if isinstance(x, int) else x[:200] for x in its])); sys.exit(1)
    print('%d dumps agree' % count); [print('%6d  %s' % (n, k)) for k, n in sorted(seen.items())]

def main(words):
    if words[0] == 'try':
        return attempt(os.path.abspath(words[1]), int(words[2]) if len(words) > 2 else 1000, words[3] if len(words) > 3 else 'a')
    status, out, err = answer(words[0], words[1])
    sys.stdout.buffer.write(out)
    sys.stderr.buffer.write(err)
    return status
