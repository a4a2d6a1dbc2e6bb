"""Makes compressed dumps whose pages a library packed, and tries kplain on them.

usage: kdumpmake make FROM OUT [OPTION..]              packs FROM, which is a core or a compressed dump, into OUT
       kdumpmake pages PROGRAMS FROM [COUNT [SEED]] [OPTION..]     COUNT pages of FROM and COUNT made ones (10,000): `kplain core` gives each page, whole
       kdumpmake damage PROGRAMS FROM [COUNT [SEED]] [OPTION..]    COUNT damaged streams (1,000): `kplain core` says what the library says; counts where not
       kdumpmake forms PROGRAMS FROM [OPTION..]        2,000 pages in each version, incomplete in both ways, and split: `kplain core` says what `kdump core` says

    --codec raw|zlib|lzo|snappy|zstd    how pages are packed (snappy); by Python's zlib, and by liblzo2, libsnappy and libzstd, which have to be installed
    --level N           the level of zlib, LZO (1 or 999) and zstd
    --version V         of the header, 1 to 6 (6)
    --keep N            only the first N pages are in the file: the other descriptors are zeros and the header says so, as makedumpfile leaves them;
    --cut               with it, the file ends after page N, and nothing says so
    --erased TEXT       makedumpfile erased something, as TEXT says, from version 5 on
    --split             the header says that it is one part of a split dump
    --packed            only pages that aren't zeros and that the library makes smaller, to measure it by
"""
import ctypes
import ctypes.util
import os
import random
import re
import struct
import subprocess
import sys
import tempfile
import zlib
from collections import Counter

import files
from second import kdump, lzo, snappy, zstd

PAGE = 4096
FLAGS = {'raw': 0, 'zlib': 1, 'lzo': 2, 'snappy': 4, 'zstd': 0x20}
INCOMPLETE = 8
DEFAULTS = {'codec': 'snappy', 'level': None, 'version': 6, 'keep': None, 'cut': False, 'split': False, 'packed': False, 'erased': ''}


class Zlib:
    def pack(self, page, level):
        return zlib.compress(page, 6 if level is None else level)

    def unpack(self, stream):
        # What follows a whole stream is of no matter to zlib's uncompress.
        stream_of = zlib.decompressobj()
        try:
            page = stream_of.decompress(stream)
        except zlib.error:
            return None
        return page if stream_of.eof else None


class Lzo:
    def __init__(self):
        self.library = lzo.Liblzo2()

    def pack(self, page, level):
        return self.library.pack(page, 1 if level is None else level)

    def unpack(self, stream):
        code, page = self.library.unpack(PAGE, stream)
        return page if code == 0 else None


class Snappy:
    def __init__(self):
        self.library = snappy.Libsnappy()

    def pack(self, page, _):
        return self.library.pack(page)

    def unpack(self, stream):
        return self.library.unpack(PAGE, stream)


class Zstd:
    """ZSTD_compress and ZSTD_decompress of the installed library"""

    def __init__(self):
        self.library = ctypes.CDLL(ctypes.util.find_library('zstd') or 'libzstd.so.1')
        for name in ('ZSTD_compress', 'ZSTD_decompress', 'ZSTD_compressBound'):
            getattr(self.library, name).restype = ctypes.c_size_t

    def pack(self, page, level):
        room = self.library.ZSTD_compressBound(ctypes.c_size_t(len(page)))
        out = ctypes.create_string_buffer(room)
        count = self.library.ZSTD_compress(out, ctypes.c_size_t(room), page, ctypes.c_size_t(len(page)), ctypes.c_int(3 if level is None else level))
        assert not self.library.ZSTD_isError(ctypes.c_size_t(count))
        return out.raw[:count]

    def unpack(self, stream):
        out = ctypes.create_string_buffer(PAGE)
        count = self.library.ZSTD_decompress(out, ctypes.c_size_t(PAGE), bytes(stream), ctypes.c_size_t(len(stream)))
        return None if self.library.ZSTD_isError(ctypes.c_size_t(count)) else out.raw[:count]


class Raw:
    def pack(self, page, _):
        return page

    def unpack(self, stream):
        return bytes(stream) if len(stream) == PAGE else None


CODECS = {'raw': Raw, 'zlib': Zlib, 'lzo': Lzo, 'snappy': Snappy, 'zstd': Zstd}


class Memory:
    """What is packed: a letter for each page frame (its page is in the Dump, was Left out, or is no memory), the pages in order, and the notes."""

    def __init__(self, kinds, page, notes):
        self.kinds, self.page, self.notes, self.count = kinds, page, notes, kinds.count(b'D')


def packed_of(memory, options):
    """Only the pages that aren't zeros and that the library makes smaller."""
    codec = CODECS[options['codec']]()
    kept = [number for number in range(memory.count) if memory.page(number).strip(b'\0') and len(codec.pack(memory.page(number), options['level'])) < PAGE]
    return Memory(b'D' * len(kept), lambda number: memory.page(kept[number]), memory.notes)


def of_core(data):
    """The whole pages of a core (gABI, "Program Header")."""
    table, = struct.unpack_from('<Q', data, 32)
    count, = struct.unpack_from('<H', data, 56)
    places, notes = {}, b''
    for i in range(count):
        kind, _, offset, _, physical, size = struct.unpack_from('<IIQQQQ', data, table + 56 * i)
        if kind == 4:
            notes = bytes(data[offset:offset + size])
        elif kind == 1:
            for at in range(-(-physical // PAGE) * PAGE, (physical + size) // PAGE * PAGE, PAGE):
                places.setdefault(at // PAGE, offset + at - physical)
    order = sorted(places)
    kinds = bytearray(b'H' * (order[-1] + 1))
    for pfn in order:
        kinds[pfn] = ord('D')
    return Memory(bytes(kinds), lambda number: bytes(data[places[order[number]]:places[order[number]] + PAGE]), notes)


def of_dump(data):
    """The pages of a compressed dump, by the second reader."""
    dump = kdump.Dump(data)
    kinds = bytearray()
    for first, dumped, left in dump.runs:
        kinds += b'H' * (first - len(kinds)) + b'D' * dumped + b'L' * left
    return Memory(bytes(kinds), dump.page, dump.notes)


def memory_of(path):
    data = files.opened(path)
    return of_dump(data) if data[:8] == b'KDUMP   ' else of_core(data)


def first_of(memory, count):
    """The page frames up to so many pages."""
    end = -1
    for _ in range(min(count, memory.count)):
        end = memory.kinds.index(b'D', end + 1)
    end += 1
    return Memory(memory.kinds[:end], memory.page, memory.notes)


def blocks(count):
    return -(-count // PAGE)


def headers(memory, options, half):
    """The header and the sub header (makedumpfile, diskdump_mod.h). A field that a version doesn't have is left zero."""
    version, notes = options['version'], memory.notes if options['version'] >= 4 else b''
    sub_blocks = blocks(104 + len(notes))
    status = FLAGS[options['codec']] | (INCOMPLETE if options['keep'] is not None and not options['cut'] else 0)
    header = bytearray(PAGE)
    header[:8] = b'KDUMP   '
    struct.pack_into('<I', header, 8, version)
    struct.pack_into('<IIIII', header, 424, status, PAGE, sub_blocks, 2 * half // PAGE, len(memory.kinds))
    sub = bytearray(PAGE * sub_blocks)
    if version >= 2 and options['split']:
        struct.pack_into('<IQQ', sub, 12, 1, 0, len(memory.kinds) // 2)
    text = memory.notes.find(b'OSRELEASE=')
    if version == 3 and text >= 0:
        sub[104:PAGE] = memory.notes[text:][:PAGE - 104].ljust(PAGE - 104, b'\0')
        struct.pack_into('<QQ', sub, 32, PAGE + 104, min(len(memory.notes) - text, PAGE - 104))
    if version >= 4:
        struct.pack_into('<QQ', sub, 48, PAGE + 104, len(notes))
        sub[104:104 + len(notes)] = notes
    if version >= 5 and options['erased']:
        erased = options['erased'].encode()
        struct.pack_into('<QQ', sub, 64, PAGE + len(sub), len(erased))
        sub += erased
        sub[:] = sub.ljust(-(-len(sub) // PAGE) * PAGE, b'\0')
        struct.pack_into('<I', header, 432, len(sub) // PAGE)
    if version >= 6:
        struct.pack_into('<Q', sub, 96, len(memory.kinds))
    return header + sub


def write(file, memory, options, damaged=None):
    """Writes a compressed dump. Pages of zeros share one stream, as makedumpfile's do; `damaged` changes a stream."""
    codec, half = CODECS[options['codec']](), PAGE * blocks(-(-len(memory.kinds) // 8))
    file.write(headers(memory, options, half))
    for wanted in (b'DL', b'D'):
        file.write(kdump.bits(half, [kind in wanted for kind in memory.kinds]))
    table, at = file.tell(), file.tell() + 24 * memory.count
    descriptors, zero = bytearray(24 * memory.count), None
    keep = memory.count if options['keep'] is None else min(options['keep'], memory.count)
    file.seek(at)
    for number in range(keep):
        page = memory.page(number)
        if zero is not None and not page.strip(b'\0'):
            descriptors[24 * number:24 * number + 24] = zero
            continue
        stream, flags = codec.pack(page, options['level']), FLAGS[options['codec']]
        if len(stream) >= PAGE:
            stream, flags = page, 0
        if damaged:
            stream = damaged(stream)
        file.write(stream)
        descriptors[24 * number:24 * number + 24] = struct.pack('<QIIQ', at, len(stream), flags, 0)
        zero = zero or (bytes(descriptors[24 * number:24 * number + 24]) if not page.strip(b'\0') else None)
        at += len(stream)
    if options['cut']:
        for number in range(keep, memory.count):
            descriptors[24 * number:24 * number + 24] = struct.pack('<QIIQ', at, PAGE, 0, 0)
    file.seek(table)
    file.write(descriptors)


def run_core(program, path):
    return subprocess.run([program, 'core', path], stdin=subprocess.DEVNULL, capture_output=True)


def try_pages(programs, source, count, seed, options):
    """Pages of a dump, and made ones."""
    program, rnd, memory = files.program(programs, 'kplain'), random.Random(seed), memory_of(source)
    pages = [memory.page(number) for number in rnd.sample(range(memory.count), min(count, memory.count))]
    made = [bytes(PAGE), bytes([0x5a]) * PAGE, *(lzo.made_page(rnd) for _ in range(count - 2))]
    wrong = 0
    for name, some in (('of the dump', pages), ('made', made)):
        with tempfile.TemporaryDirectory() as folder:
            path = os.path.join(folder, 'dump')
            with open(path, 'wb') as file:
                write(file, Memory(b'D' * len(some), some.__getitem__, memory.notes), options)
            run = run_core(program, path)
            told = run.stdout[len(run.stdout) - PAGE * len(some):]
            bad = [n for n, page in enumerate(some) if told[PAGE * n:PAGE * n + PAGE] != page]
            wrong += len(bad) + (run.returncode != 0)
            print(f'{len(some)} pages {name} by {options["codec"]}, {os.path.getsize(path)} bytes: status {run.returncode}, {len(bad)} wrong {run.stderr.decode()}', flush=True)
    return wrong != 0


def why_apart(codec, stream, told, wanted):
    """The rule by which a stream is refused that the library takes, where the second reader refuses it by this rule, and reads it as the library does without:
    but for bits that it lacks, which the library takes from what lies before it."""
    reader = {'zstd': zstd, 'lzo': lzo}.get(codec)
    if reader is None or told is not None or wanted is None:
        return None
    fault, _ = reader.answer(PAGE, stream)
    page = reader.as_library(PAGE, stream)
    if fault == 'Ok':
        return None
    if page == wanted:
        return fault
    return f'{fault}, too few bits' if codec == 'zstd' and fault in ('BadLiterals', 'BadSequences') and zstd.LACKING[0] else None


def try_damaged(programs, source, count, seed, options):
    """One page in each dump, whose stream is damaged: what the program says, and what the library says."""
    program, rnd, memory = files.program(programs, 'kplain'), random.Random(seed), memory_of(source)
    codec, seen, whys = CODECS[options['codec']](), Counter(), Counter()
    with tempfile.TemporaryDirectory() as folder:
        path = os.path.join(folder, 'dump')
        for number in range(count):
            page, streams = memory.page(rnd.randrange(memory.count)) if number % 2 else lzo.made_page(rnd), []
            if len(codec.pack(page, options['level'])) >= PAGE:
                continue

            def damage(stream):
                streams.append(lzo.damaged(rnd, stream)[:PAGE])
                return streams[-1]
            with open(path, 'wb') as file:
                write(file, Memory(b'D', lambda _: page, memory.notes), options, damage)
            run, wanted = run_core(program, path), codec.unpack(streams[0])
            wanted = wanted if wanted is not None and len(wanted) == PAGE else None
            told = run.stdout[-PAGE:] if run.returncode == 0 and not run.stderr else None
            said = ''.join(re.findall(r'[KWD]\d', run.stderr.decode())[:1]) or ('page' if told is not None else f'status {run.returncode}')
            seen[said, 'refused' if wanted is None else 'page'] += 1
            if told != wanted:
                why = why_apart(options['codec'], streams[0], told, wanted)
                whys[why or 'NOT NAMED'] += 1
                print(f'APART {number} of seed {seed}: kplain {said}, the library {"refuses" if wanted is None else "unpacks"}, {why or "NOT NAMED"}: {streams[0].hex()[:120]}')
    for (one, other), times in sorted(seen.items()):
        print(f'{times:6} kplain {one:8} library {other}')
    for why, times in sorted(whys.items()):
        print(f'{times:6} apart: {why}')
    print(f'{sum(seen.values())} damaged streams by {options["codec"]}, {sum(whys.values())} apart, {whys["NOT NAMED"]} of them by no rule that the library passes over')
    return whys['NOT NAMED'] != 0


def try_forms(programs, source, options):
    """Versions, incomplete dumps and a part of a split one, beside the second reader."""
    program, memory, wrong = files.program(programs, 'kplain'), first_of(memory_of(source), 2000), 0
    keep = memory.count * 2 // 3
    forms = [{'version': version} for version in range(1, 7)]
    forms += [{'keep': keep}, {'keep': keep, 'cut': True}, {'keep': 0}, {'keep': memory.count}, {'split': True}, {'split': True, 'version': 1}]
    forms += [{'erased': 'erase vmemmap\n' + 'x' * more, 'version': version} for more in range(5) for version in (4, 5, 6)]
    with tempfile.TemporaryDirectory() as folder:
        path = os.path.join(folder, 'dump')
        for form in forms:
            with open(path, 'wb') as file:
                write(file, memory, {**options, **form})
            run, (status, out, err) = run_core(program, path), kdump.answer(files.opened(path))
            same = (run.returncode, run.stdout, run.stderr) == (status, out, err)
            wrong += not same
            print(f'{form}: status {status}, {len(out)} bytes, {err.decode().strip()!r}' + ('' if same else f'; WRONG: {run.returncode} {len(run.stdout)} {run.stderr}'), flush=True)
    return wrong != 0


def options_of(words):
    """The options among the words, which are taken out of them."""
    options = dict(DEFAULTS)
    for name, value in DEFAULTS.items():
        if '--' + name in words:
            at = words.index('--' + name)
            if value is False:
                options[name] = True
                del words[at]
            else:
                options[name] = words[at + 1] if name in ('codec', 'erased') else int(words[at + 1])
                del words[at:at + 2]
    return options


def main(words):
    options = options_of(words)
    if words[0] == 'make' and len(words) == 3:
        memory = packed_of(memory_of(words[1]), options) if options['packed'] else memory_of(words[1])
        with open(words[2], 'wb') as file:
            write(file, memory, options)
        return 0
    if words[0] in ('pages', 'damage') and len(words) in (3, 4, 5):
        call, count = (try_pages, 10000) if words[0] == 'pages' else (try_damaged, 1000)
        return call(words[1], words[2], int(words[3]) if len(words) > 3 else count, int(words[4]) if len(words) > 4 else 1, options)
    if words[0] == 'forms' and len(words) == 3:
        return try_forms(words[1], words[2], options)
    sys.exit(__doc__)
