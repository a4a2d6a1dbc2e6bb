"""Is a second reader of a kernel's modules and their types in its dump, for kfiles: it was written from kernel/module/main.c, kernel/module/procfs.c,
include/linux/module.h, kernel/bpf/btf.c and the kernel's document of BTF, and shares nothing with the program but a reader of the symbol table.

    modules DUMP modules                 what kfiles writes, with its status
    modules DUMP module NAME             the same
    modules try PROGRAM DUMP             PROGRAM and this reader have to agree on the list, on each module's types, and on a name that no module has
    modules made PROGRAM [COUNT [SEED]]  the same of COUNT small dumps with made modules, most of them damaged
"""
import os, random, struct, subprocess, sys, tempfile

from second.kallsyms import IMAGE, M64, Broken, Dump, Refused, put, symbols

SIZES = {1: 4, 3: 12, 14: 4, 17: 4}
EACH = {4: 12, 5: 12, 6: 8, 13: 8, 15: 12, 19: 12}
PEELED = (8, 9, 10, 11, 18)          # typedef, volatile, const, restrict, type tag


class Types:
    """The structs of a section .BTF by their names, and the byte of a member by its path."""
    def __init__(self, data):
        magic, version, _, head, at, length, strings, texts = struct.unpack_from('<HBBIIIII', data, 0)
        if magic != 0xeb9f or version != 1: raise Refused('S12')
        self.data, self.texts, self.rows, p, end = data, head + strings, [None], head + at, head + at + length
        while p < end:
            name, info, size = struct.unpack_from('<III', data, p); kind, count = info >> 24 & 31, info & 0xffff
            self.rows.append((self.text(name), kind, size, p + 12, count, info >> 31)); p += 12 + SIZES.get(kind, 0) + EACH.get(kind, 0) * count
    def text(self, at): return self.data[self.texts + at:self.data.index(b'\0', self.texts + at)].decode()
    def bare(self, number):
        while number and self.rows[number][1] in PEELED: number = self.rows[number][2]
        return number
    def members(self, number):
        _, kind, _, at, count, flag = self.rows[self.bare(number)]
        for i in range(count if kind in (4, 5) else 0):
            name, of, bit = struct.unpack_from('<III', self.data, at + 12 * i); yield self.text(name), of, (bit & 0xffffff if flag else bit) // 8
    def size(self, number):
        number = self.bare(number); _, kind, size, at, _, _ = self.rows[number]
        if kind == 2: return 8
        if kind == 3: of, _, n = struct.unpack_from('<III', self.data, at); return n * self.size(of)
        return size
    def find(self, name): return next((i for i, r in enumerate(self.rows) if r and r[0] == name and r[1] in (4, 5)), None)
    def step(self, number, name):
        for own, of, at in self.members(number):
            if own == name: return of, at
            inner = None if own else self.step(of, name)
            if inner: return inner[0], at + inner[1]
    def byte(self, struct_name, path, key):
        """The byte of a member, and the number of its type."""
        number, at = self.find(struct_name), 0
        for part in path.split('.'):
            name, _, index = part.partition('['); step = number and self.step(number, name)
            if not step: raise Refused('S14 key ' + key)
            number, at = step[0], at + step[1]
            if index:
                of, _, count = struct.unpack_from('<III', self.data, self.rows[self.bare(number)][3])
                if int(index[:-1]) >= count: raise Refused('S14 key ' + key)
                number, at = of, at + int(index[:-1]) * self.size(of)
        return at, number


def nodes(d, head):
    at, found = d.number(head, 8), []
    while at != head:
        if len(found) == 65535: d.number(at, 8); raise Refused('S15')
        found.append(at); at = d.number(at, 8)
    return found


def start(d, symbol):
    _, first, address, _ = symbols(d)
    if b'__start_BTF' not in first or b'__stop_BTF' not in first: raise Refused('S10')
    a, b = address(first[b'__start_BTF']), address(first[b'__stop_BTF'])
    if not 0 <= b - a <= 1 << 26: raise Refused('S11')
    types = d.many(a, b - a)
    if symbol not in first: raise Refused('S13 key ' + symbol.decode())
    return Types(types), address(first[symbol])


def parts(types):
    """The byte of the first part's address, and those of the sizes."""
    try: return types.byte('module', 'core_layout.base', '')[0], [types.byte('module', p + '_layout.size', '')[0] for p in ('core', 'init')]
    except Refused: pass
    base, number = types.byte('module', 'mem[0].base', 'module.mem')[0], types.byte('module', 'mem', 'module.mem')[1]
    count = struct.unpack_from('<III', types.data, types.rows[types.bare(number)][3])[2]
    if not 2 <= count <= 64: raise Refused('S14 key module.mem')
    return base, [types.byte('module', f'mem[{i}].size', 'module.mem')[0] for i in range(count)]


def listed(d):
    types, head = start(d, b'modules')
    link, name = types.byte('module', 'list', 'module.list')[0], types.byte('module', 'name', 'module.name')[0]
    base, sizes = parts(types); out = b''
    for node in nodes(d, head):
        at = node - link & M64; text = d.many(at + name & M64, 56).split(b'\0')[0]
        shown = bytes(c if 33 <= c <= 126 else 63 for c in text) or b'-'
        out += b'%s %d %016x\n' % (shown, sum(d.number(at + p & M64, 4) for p in sizes), d.number(at + base & M64, 8))
    return out


def module(d, wanted):
    types, head = start(d, b'btf_modules')
    byte = lambda s, p: types.byte(s, p, f'{s}.{p}')[0]
    link, owner, name, btf, data, size = (byte('btf_module', 'list'), byte('btf_module', 'module'), byte('module', 'name'), byte('btf_module', 'btf'),
        byte('btf', 'data'), byte('btf', 'data_size'))
    for node in nodes(d, head):
        at = node - link & M64
        if d.many(d.number(at + owner & M64, 8) + name & M64, 56).split(b'\0')[0] == wanted:
            own = d.number(at + btf & M64, 8); begin, count = d.number(own + data & M64, 8), d.number(own + size & M64, 4)
            if count > 1 << 26: raise Refused('S17')
            return d.many(begin, count)
    raise Refused('S16')


def answer(dump, words):
    try: return 0, listed(dump) if words == ['modules'] else module(dump, words[1].encode()), b''
    except Broken as e: return 1, str(e).encode(), b''
    except Refused as e: return 2, b'', b'refused dump %s\n' % str(e).encode()


def compare(program, path, names, seen):
    """How often the two differ on a dump."""
    dump, bad = Dump(path), 0
    for asked in [['modules']] + [['module', name] for name in names + ['none_such', '']]:
        p = subprocess.run([program, path, *asked], capture_output=True); told = (p.returncode, p.stdout, p.stderr); mine = answer(dump, asked)
        line = (mine[2] or (mine[1] if mine[0] else b'')).decode().split('\n')
        key = mine[0], asked[0], line[0].removeprefix('refused dump ') if mine[0] != 1 else line[1]; seen[key] = seen.get(key, 0) + 1
        if told != mine: bad += 1; print(path, asked, [x if isinstance(x, int) else x[:90] for x in mine], told[0], told[1][:90], told[2][:60])
    return bad


# small dumps: an image of 64 KiB, four or five levels, with symbols, types, some modules and the two lists

class Made:
    """The bytes of a section .BTF that is made a type at a time."""
    def __init__(self): self.texts, self.types, self.count = b'\0', b'', 0
    def add(self, name, kind, count, size, rest=b''):
        at = len(self.texts) if name else 0; self.texts += name.encode() + b'\0' if name else b''
        self.types += struct.pack('<III', at, kind << 24 | count, size) + rest; self.count += 1; return self.count
    def struct(self, name, members, size):
        rest = b''
        for own, of, at in members: rest += struct.pack('<III', len(self.texts), of, 8 * at); self.texts += own.encode() + b'\0'
        return self.add(name, 4, len(members), size, rest)
    def bytes(self): return struct.pack('<HBBIIIII', 0xeb9f, 1, 0, 24, 0, len(self.types), len(self.types), len(self.texts)) + self.types + self.texts


def laid(r, fields, lost):
    """The members among FIELDS in a new order with gaps, where each lies, and how many bytes all have. The lost one is left out."""
    members, places, at = [], {}, 8 * r.randrange(4)
    for name, of, size in r.sample(fields, len(fields)):
        places[name] = at
        if name != lost: members.append((name, of, at))
        at += size + 8 * r.randrange(3)
    return members, places, at


def types_made(r, lost):
    b = Made(); byte = b.add('char', 1, 0, 1, struct.pack('<I', 8)); word = b.add('unsigned int', 1, 0, 4, struct.pack('<I', 32)); pointer = b.add('', 2, 0, 0)
    array = lambda of, count: b.add('', 3, 0, 0, struct.pack('<III', of, word, count))
    link = b.struct('list_head', [('next', pointer, 0), ('prev', pointer, 8)], 16); text = array(byte, 56); shape = {}
    members, shape['part'], size = laid(r, [('base', pointer, 8), ('size', word, 8)], None)
    part, old = b.struct('module_layout', members, size), r.random() < .5; count = 2 if old else r.choice([7, 7, 2, 64, 65 if lost == 'mem' else 3])
    fields = [('list', link, 16), ('name', text, 56)] + ([('core_layout', part, size), ('init_layout', part, size)] if old else [('mem', array(part, count), count * size)])
    if lost == 'mem': lost = r.choice(['core_layout', 'init_layout']) if old else 'mem' if count < 65 else None
    members, shape['module'], shape['module_size'] = laid(r, fields, lost[7:] if lost and lost[:7] == 'module.' else lost)
    b.struct('module', members, shape['module_size'])
    members, shape['btf_module'], n = laid(r, [('list', link, 16), ('module', pointer, 8), ('btf', pointer, 8)], lost[11:] if lost and lost[:11] == 'btf_module.' else None)
    b.struct('btf_module', members, n)
    members, shape['btf'], n = laid(r, [('data', pointer, 8), ('data_size', word, 8)], lost[4:] if lost and lost[:4] == 'btf.' else None); b.struct('btf', members, n)
    at = lambda i: shape['module']['mem'] + i * size if not old else shape['module'][('core_layout', 'init_layout')[i]]
    shape['bases'] = at(0) + shape['part']['base']; shape['sizes'] = [at(i) + shape['part']['size'] for i in range(count)]
    return b.bytes(), shape


def symbol_table(mem, at, names, base):
    """Puts a symbol table of NAMES, of single bytes as tokens, into memory, and gives the lines of the note."""
    enc = b''.join(bytes([len(n) + 1]) + b'T' + n for n, _ in names); offsets = b''.join(struct.pack('<I', a - base) for _, a in names)
    tokens = b''.join(bytes([c, 0]) for c in range(256)).replace(b'\0\0', b'?\0', 1); lines = []
    for key, data in (('num_syms', struct.pack('<I', len(names))), ('relative_base', struct.pack('<Q', base)), ('offsets', offsets),
                      ('token_index', struct.pack('<256H', *range(0, 512, 2))), ('token_table', tokens), ('names', enc)):
        mem[at:at + len(data)] = data; lines.append('SYMBOL(kallsyms_%s)=%x' % (key, base + at)); at += len(data) + 3
    assert at < 0x2000, at
    return lines + ['SYMBOL(_stext)=%x' % base]


LOST = ['module.list', 'module.name', 'mem', 'btf_module.list', 'btf_module.module', 'btf_module.btf', 'btf.data', 'btf.data_size']
DAMAGES = ['none'] * 4 + ['lost', 'lost', 'lost', 'symbol', 'rule', 'endless', 'stray', 'word', 'hole', 'size', 'twice']


def write(r, path):
    """Writes a small dump, and gives the names of its modules."""
    base, size = IMAGE + 0x1000000 + r.choice([0, 0x200000, 0x34400000]), 0x10000; mem, damage = bytearray(r.randbytes(size)), r.choice(DAMAGES)
    types, shape = types_made(r, r.choice(LOST) if damage == 'lost' else None); at = [0x2000]
    def room(n): a = at[0]; at[0] += n + 8 * r.randrange(3); assert at[0] <= size; return a
    def store(a, value, n=8): mem[a:a + n] = value.to_bytes(n, 'little')
    if damage == 'rule': types = r.choice([b'\x9e' + types[1:], types[:2] + b'\x02' + types[3:]])
    where = room(len(types)); mem[where:where + len(types)] = types; at[0] += -at[0] % 8
    heads = {b'modules': room(16), b'btf_modules': room(16)}
    names = [(b'_stext', base), (b'__start_BTF', base + where), (b'__stop_BTF', base + where + len(types))] + [(n, base + a) for n, a in heads.items()]
    if damage == 'symbol': names.pop(r.randrange(1, 5))
    links, told = {b'modules': [], b'btf_modules': []}, []
    for i in range(r.choice([0, 1, 2, 3, 8])):
        name = r.choice([b'ext4', b'm%d' % i, b'nf_%d' % i, b'a' * 55, b'b' * 60, b'', b'odd \xc3\xa9\n', b'm']); a = room(shape['module_size'])
        mem[a + shape['module']['name']:a + shape['module']['name'] + 56] = name[:56].ljust(56, b'\0') if r.random() < .7 else (name[:55] + b'\0' + r.randbytes(56))[:56]
        for s in shape['sizes']: store(a + s, r.choice([0, 4096, 16384, 0xffffffff]), 4)
        links[b'modules'].append(a + shape['module']['list'])
        if r.random() < .7:
            n = r.randrange(400); own, pair, data = room(64), room(64), room(n)
            store(pair + shape['btf_module']['module'], base + a); store(pair + shape['btf_module']['btf'], base + own)
            store(own + shape['btf']['data'], base + data); store(own + shape['btf']['data_size'], n if damage != 'size' else (1 << 26) + r.randrange(3), 4)
            links[b'btf_modules'].append(pair + shape['btf_module']['list'])
        if name.isascii() and b'\n' not in name: told.append(name[:56].decode())
    for key, head in heads.items():
        ring = [head] + links[key]
        for a, b in zip(ring, ring[1:] + ring[:1]): store(a, base + b)
        if damage == 'endless' and len(ring) > 1: store(ring[-1], base + r.choice(ring[1:]))
        if damage == 'stray': store(r.choice(ring), r.choice([0, 0xdead000000000100, base + size, base - 8, 1 << 63]))
        if damage == 'twice': store(ring[-1], base + r.choice(ring))
    if damage == 'word':
        for _ in range(3): store(r.randrange(heads[b'modules'], at[0] - 8), r.getrandbits(64))
    hole = r.randrange(2, 16) if damage == 'hole' else None
    put(r, path, dict(kaslr=base - IMAGE - 0x1000000, five=r.random() < .4, start=base, mem=mem, size=size, hole=hole), symbol_table(mem, 0x40, names, base))
    return told


def made(program, count, seed):
    seen, bad = {}, 0
    with tempfile.TemporaryDirectory() as t:
        for i in range(count):
            path = os.path.join(t, 'seed %s number %d' % (seed, i)); bad += compare(program, path, write(random.Random('%s/%d' % (seed, i)), path), seen); os.remove(path)
    print(f'{count} dumps, {bad} differ'); [print('%6d  %s' % (n, ' '.join(map(str, k)))) for k, n in sorted(seen.items())]
    return bad > 0


def main(words):
    program = os.path.abspath(words[1]) if len(words) > 1 else ''
    if words[0] == 'made': return made(program, int(words[2]) if len(words) > 2 else 300, words[3] if len(words) > 3 else 'a')
    if words[0] == 'try':
        seen = {}; names = [line.split()[0].decode() for line in answer(Dump(words[2]), ['modules'])[1].splitlines()]; bad = compare(program, words[2], names, seen)
        print(f'{len(names)} modules, {bad} differ'); return bad > 0
    status, out, err = answer(Dump(words[0]), words[1:]); sys.stdout.buffer.write(out); sys.stderr.buffer.write(err); return status


if __name__ == '__main__': sys.exit(main(sys.argv[1:]))
