"""Compares what the programs say of compressed and flattened dumps with what they say of the plain core, and of the dump that was packed.

usage: packed PROGRAMS FOLDER [WORK] [--vmlinux FILE] [--dump FILE]

makedumpfile packs FOLDER/vmcore by zlib, by LZO, not at all, and flattened (`-c`, `-l`, nothing, `-F -c`), each at the levels 0, 1 and 31. The pages that it
didn't pack are packed by snappy and zstd too, by `kdumpmake`, since many a makedumpfile is built without. Of each form:

    core      `kplain core` is the core that `kdump core` makes, and is the same for all forms of a level; each of its pages is the original's page
    plans     for each plan of FOLDER, of its plans and of this repository `kplain check` says of the packed dump what `kaudit check` says of the core,
              byte for byte; and at the levels 0 and 1 what it says of the original but for file offsets (at 31 how many plans differ is counted)
    certify   the certificates of some plans are those of the core, and `recheck` takes them
    kmatch, kwhy, kfiles, kslab     say of the packed dump what they say of the core, byte for byte
    drgn      reads physical and virtual addresses in the core as in the original, where it is installed
    crash     prints the same for the core as for the original, with --vmlinux, where it is installed

--dump compares the same of one packed dump of another kernel, as QEMU's `dump-guest-memory -z` writes it, without an original; FOLDER then has its
btf and System.map. The packed files go to WORK, or else to a temporary folder.
"""
import glob
import hashlib
import mmap
import os
import re
import shutil
import struct
import subprocess
import sys
import tempfile

import files
from second import kdump, kdumpmake

PAGE = 4096
FORMS = {'zlib': ['-c'], 'lzo': ['-l'], 'raw': [], 'flat': ['-F', '-c'], 'snappy': [], 'zstd': []}
LEVELS = (0, 1, 31)
DRGN = """
import sys, drgn
program = drgn.Program()
program.set_core_dump(sys.argv[1])
for word in sys.argv[2:]:
    at, physical = int(word.strip('p'), 16), word.startswith('p')
    try:
        print(word, program.read(at, 64, physical).hex())
    except Exception as fault:
        print(word, type(fault).__name__)
"""
CRASH = 'sys\nps\nbt -a\nkmem -s\nlog\nmod\nquit\n'


def run(*command, text=None):
    done = subprocess.run(command, input=text, stdin=subprocess.DEVNULL if text is None else None, capture_output=True)
    return done.returncode, done.stdout, done.stderr


def segments(data):
    """(physical address, bytes in the file, offset) of each PT_LOAD."""
    table, = struct.unpack_from('<Q', data, 32)
    count, = struct.unpack_from('<H', data, 56)
    if count == 0xFFFF:
        count, = struct.unpack_from('<I', data, struct.unpack_from('<Q', data, 40)[0] + 44)
    rows = [struct.unpack_from('<IIQQQQQQ', data, table + 56 * i) for i in range(count)]
    return [(row[4], row[5], row[2]) for row in rows if row[0] == 1]


def page_places(data):
    """The file offset of each whole page that a core has, by its physical address; the first segment that has it."""
    places = {}
    for physical, size, offset in segments(data):
        for at in range(-(-physical // PAGE) * PAGE, (physical + size) // PAGE * PAGE, PAGE):
            places.setdefault(at, offset + at - physical)
    return places


def without_offsets(text):
    """A report without the third number of each place, which is a file offset."""
    return re.sub(rb'^(place \S+ \S+) \S+', rb'\1 -', text, flags=re.M)


class Compared:
    """Counts what was compared, and prints what differs."""

    def __init__(self):
        self.count = self.wrong = 0

    def same(self, what, told, wanted):
        self.count += 1
        if told != wanted:
            self.wrong += 1
            print('DIFFERS', what, *(str(x)[:300] for x in (told, wanted)), sep='\n   ')
        return told == wanted


class Folder:
    def __init__(self, programs, folder, work, vmlinux):
        self.program = {name: files.program(programs, name) for name in ('kplain', 'kaudit', 'kmatch', 'kwhy', 'kfiles', 'kslab')}
        self.vmcore, self.btf, self.map = (os.path.join(folder, name) for name in files.NAMES)
        self.work, self.vmlinux, self.seen = work, vmlinux, Compared()
        own = glob.glob(os.path.join(folder, '*.toml')) + glob.glob(os.path.join(folder, 'plans', '*.toml'))
        self.plans = sorted(own) + sorted(glob.glob(os.path.join(files.TOP, 'plans', '*.toml')))

    def pack(self, form, level):
        path = os.path.join(self.work, f'{form}{level}')
        command = ['makedumpfile', *FORMS[form], '-d', str(level), self.vmcore]
        if form == 'flat':
            with open(path, 'wb') as file:
                subprocess.run(command, stdout=file, stderr=subprocess.DEVNULL, check=True)
        else:
            subprocess.run([*command, path], capture_output=True, check=True)
        if form in ('snappy', 'zstd'):
            whole = path + '.raw'
            os.rename(path, whole)
            with open(path, 'wb') as file:
                kdumpmake.write(file, kdumpmake.memory_of(whole), {**kdumpmake.DEFAULTS, 'codec': form})
            os.remove(whole)
        return path

    def core_of(self, packed):
        """Writes the core by kplain, compared part by part with the second reader's."""
        path = packed + '.core'
        with open(path, 'wb') as file:
            done = subprocess.run([self.program['kplain'], 'core', packed], stdout=file, stderr=subprocess.PIPE)
        self.seen.same(f'{packed} core', (done.returncode, done.stderr), (0, b''))
        wanted, told = hashlib.sha256(), hashlib.sha256(files.opened(path))
        for part in kdump.parts_of(files.opened(packed)):
            wanted.update(part)
        self.seen.same(f'{packed} core by kdump', told.hexdigest(), wanted.hexdigest())
        return path, told.hexdigest()

    def compare_pages(self, core):
        """Each page of the core with the original's."""
        own, whole, count, wrong = files.opened(core), files.opened(self.vmcore), 0, 0
        places = page_places(whole)
        for at, place in page_places(own).items():
            count += 1
            wrong += at not in places or own[place:place + PAGE] != whole[places[at]:places[at] + PAGE]
        self.seen.same(f'{core} pages', wrong, 0)
        return count

    def reports(self, name, dump):
        """What a program's `check` says of a dump by each plan."""
        return {plan: run(self.program[name], 'check', dump, self.btf, self.map, plan) for plan in self.plans}

    def others(self, dump):
        """What the other programs say of a dump."""
        told = {name: run(self.program[name], dump, self.btf, self.map) for name in ('kmatch', 'kslab')}
        for word in ('map', 'types', 'log'):
            told['kfiles', word] = run(self.program['kfiles'], dump, word)
        for address in self.addresses():
            told['kwhy', address] = run(self.program['kwhy'], dump, self.btf, self.map, address)
        told['kwhy', 'refs'] = run(self.program['kwhy'], dump, self.btf, self.map, 'refs', self.addresses()[-1])
        return told

    def addresses(self):
        """Some addresses: symbols of the map, the direct map, and none."""
        wanted, found = ('init_task', 'slab_caches', 'super_blocks', '_text'), {}
        with open(self.map) as file:
            for line in file:
                at, _, name = line.split()[:3]
                if name in wanted:
                    found[name] = at
        return [found[name] for name in wanted if name in found] + ['ffff888000100000', 'ffff888001000010', '0000000000000010', 'ffffea0000040000']

    def read_by_drgn(self, dump):
        words = [*self.addresses(), 'p1000000', 'p1a00040']
        done = run('/usr/bin/python3', '-c', DRGN, dump, *words)
        return done[0], done[1]

    def read_by_crash(self, dump):
        status, out, _ = run('crash', '-s', self.vmlinux, dump, text=CRASH.encode())
        return status, re.sub(rb'DUMPFILE: .*\n', b'', out)


def compare_reports(folder, what, packed, core, original):
    """Packed and core, byte for byte, and the original but for offsets: how many plans say otherwise of the original."""
    apart = 0
    for plan, told in packed.items():
        name = os.path.basename(plan)
        folder.seen.same(f'{what} check {name}', told, core[plan])
        if original is not None:
            apart += (told[0], without_offsets(told[1]), told[2]) != (original[plan][0], without_offsets(original[plan][1]), original[plan][2])
    return apart


def compare_certificates(folder, what, packed, core):
    for plan in folder.plans[:3]:
        made = run(folder.program['kplain'], 'certify', packed, folder.btf, folder.map, plan)
        folder.seen.same(f'{what} certify {plan}', made, run(folder.program['kaudit'], 'certify', core, folder.btf, folder.map, plan))
        path = os.path.join(folder.work, 'certificate')
        with open(path, 'wb') as file:
            file.write(made[1])
        if made[0] == 0:
            folder.seen.same(f'{what} recheck {plan}', run(folder.program['kplain'], 'recheck', packed, folder.btf, folder.map, plan, path),
                             run(folder.program['kaudit'], 'recheck', core, folder.btf, folder.map, plan, path))


def compare_tools(folder, what, core, level):
    """drgn and crash; what was left out they can't read."""
    if level == 31:
        return
    if os.path.exists('/usr/bin/drgn') or os.path.isdir('/usr/lib/python3/dist-packages/drgn'):
        folder.seen.same(f'{what} drgn', folder.read_by_drgn(core), folder.read_by_drgn(folder.vmcore))
    if folder.vmlinux and shutil.which('crash'):
        folder.seen.same(f'{what} crash', folder.read_by_crash(core), folder.read_by_crash(folder.vmcore))


def compare_level(folder, level, original):
    sums, reports, others = {}, None, None
    for form in FORMS:
        packed, what = folder.pack(form, level), f'{form} {level}'
        core, sums[form] = folder.core_of(packed)
        if reports is None:
            pages = folder.compare_pages(core)
            reports, others = folder.reports('kaudit', core), folder.others(core)
            compare_tools(folder, what, core, level)
        apart = compare_reports(folder, what, folder.reports('kplain', packed), reports, original)
        for name, told in folder.others(packed).items():
            folder.seen.same(f'{what} {name}', told, others[name])
        compare_certificates(folder, what, packed, core)
        if level != 31:
            folder.seen.same(f'{what} and the original', apart, 0)
        print(f'{what}: {os.path.getsize(packed)} bytes, core {os.path.getsize(core)} bytes, {pages} pages, {len(folder.plans)} plans, '
              f'{apart} say otherwise of the original; {folder.seen.count} compared, {folder.seen.wrong} differ', flush=True)
        for path in (packed, core):
            os.remove(path)
    folder.seen.same(f'cores of level {level}', len(set(sums.values())), 1)


def compare_one(folder, packed):
    """One packed dump and its core."""
    link = os.path.join(folder.work, 'packed')
    os.symlink(os.path.abspath(packed), link)
    core, _ = folder.core_of(link)
    compare_reports(folder, packed, folder.reports('kplain', link), folder.reports('kaudit', core), None)
    others = folder.others(core)
    for name, told in folder.others(link).items():
        folder.seen.same(f'{packed} {name}', told, others[name])
    compare_certificates(folder, packed, link, core)
    print(f'{packed}: core {os.path.getsize(core)} bytes; statuses', sorted(told[0] for told in folder.reports('kplain', link).values()))


def main(words):
    options = {}
    for name in ('--vmlinux', '--dump'):
        if name in words:
            at = words.index(name)
            options[name] = words[at + 1]
            del words[at:at + 2]
    if len(words) not in (2, 3):
        sys.exit(__doc__)
    with tempfile.TemporaryDirectory() as work:
        folder = Folder(words[0], words[1], words[2] if len(words) == 3 else work, options.get('--vmlinux'))
        if '--dump' in options:
            compare_one(folder, options['--dump'])
        else:
            original = folder.reports('kaudit', folder.vmcore)
            for level in LEVELS:
                compare_level(folder, level, original)
        print(f'{folder.seen.count} compared, {folder.seen.wrong} differ')
        return folder.seen.wrong != 0
