"""Prints the kernel's log out of a dump: a second reader, which follows kernel/printk/printk_ringbuffer.h and shares no code with the
program. Whatever it can't read it says in a line, as the program does; where there is no log it ends with 1 and says why.

    printk DUMP              prints the log
    printk DUMP --same FILE  compares it with a file, as `makedumpfile --dump-dmesg DUMP FILE` writes it
"""
import mmap
import pathlib
import sys

from plans import reader

OFFSETS = {
    "desc_ring": "printk_ringbuffer.desc_ring",
    "text_ring": "printk_ringbuffer.text_data_ring",
    "count_bits": "prb_desc_ring.count_bits",
    "descs": "prb_desc_ring.descs",
    "infos": "prb_desc_ring.infos",
    "head_id": "prb_desc_ring.head_id",
    "tail_id": "prb_desc_ring.tail_id",
    "size_bits": "prb_data_ring.size_bits",
    "text_data": "prb_data_ring.data",
    "counter": "atomic_long_t.counter",
}
DESC = {
    "state_var": "prb_desc.state_var",
    "counter": "atomic_long_t.counter",
    "text_block": "prb_desc.text_blk_lpos",
    "begin": "prb_data_blk_lpos.begin",
    "next": "prb_data_blk_lpos.next",
}
INFO = {"time": "printk_info.ts_nsec", "length": "printk_info.text_len"}
ID = 1 << 62
TOP = reader.TOP


class Refused(Exception):
    pass


class Lines:
    """The lines of the note."""

    def __init__(self, note):
        self.values = {}
        for line in note.split(b"\n"):
            if b"=" in line:
                key, value = line.split(b"=", 1)
                self.values.setdefault(key.decode("latin-1"), value)

    def number(self, key, read):
        number = read(self.values[key]) if key in self.values else None
        if number is None or key.startswith("SIZE") and number == 0:
            raise Refused(f"P1 {key}")
        return number

    def offsets(self, names):
        return {name: self.number(f"OFFSET({key})", reader.dec_of) for name, key in names.items()}


class Log:
    def __init__(self, memory, note):
        self.memory, lines = memory, Lines(note)
        prb = lines.number("SYMBOL(prb)", reader.hex_of)
        ring = lines.offsets(OFFSETS)
        self.desc_size = lines.number("SIZE(prb_desc)", reader.dec_of)
        self.desc = lines.offsets(DESC)
        self.info_size = lines.number("SIZE(printk_info)", reader.dec_of)
        self.info = lines.offsets(INFO)
        prb = self.read(prb, 8)
        descs, texts = prb + ring["desc_ring"], prb + ring["text_ring"]
        count_bits = self.read(descs + ring["count_bits"], 4)
        self.descs, self.infos = self.read(descs + ring["descs"], 8), self.read(descs + ring["infos"], 8)
        head = self.read(descs + ring["head_id"] + ring["counter"], 8)
        self.tail = self.read(descs + ring["tail_id"] + ring["counter"], 8)
        size_bits = self.read(texts + ring["size_bits"], 4)
        self.texts = self.read(texts + ring["text_data"], 8)
        if count_bits > 22:
            raise Refused("P2")
        if size_bits > 31:
            raise Refused("P3")
        self.count, self.size = 1 << count_bits, 1 << size_bits
        if head >= ID or self.tail >= ID or (head - self.tail) % ID + 1 > self.count:
            raise Refused("P4")
        self.ids = (head - self.tail) % ID + 1

    def read(self, at, count):
        """A number of so many bytes, at any address."""
        at, number = at % TOP, 0
        for k in range(count):
            byte = (at + k) % TOP
            word = self.memory.place(byte - byte % 8)[3]
            number |= (word >> 8 * (byte % 8) & 255) << 8 * k
        return number

    def bytes(self, at, count):
        return bytes(self.read(at + k, 1) for k in range(count))

    def block(self, begin, next):
        """Where a text block begins in the ring, and how many bytes of text it has room for; None where there is no data."""
        if begin & 1 and next & 1:
            return None
        if begin % 8 or next % 8:
            raise ValueError
        last = (next - 1) % TOP
        turn = last // self.size
        if begin <= last and begin // self.size == turn:
            return begin % self.size, max(last - begin - 7, 0)
        if (begin + self.size) % TOP // self.size == turn:
            return 0, max(last % self.size - 7, 0)
        raise ValueError

    def entry(self, id, room):
        """The lines of an id, and how many bytes of texts are left."""
        index = id % self.count
        unknown = lambda rule, at: (b"record %d unknown %s %016x\n" % (index, rule.encode(), at % TOP), room)
        desc, info = self.descs + index * self.desc_size, self.infos + index * self.info_size
        try:
            state = self.read(desc + self.desc["state_var"] + self.desc["counter"], 8)
            if state % ID != id or state // ID not in (1, 2):
                return b"", room
            begin_at = desc + self.desc["text_block"] + self.desc["begin"]
            begin, next = self.read(begin_at, 8), self.read(desc + self.desc["text_block"] + self.desc["next"], 8)
            try:
                block = self.block(begin, next)
            except ValueError:
                return unknown("P5", begin_at)
            if block is None:
                return b"", room
            at = self.texts + block[0]
            owner, length = self.read(at, 8), self.read(info + self.info["length"], 2)
            time = self.read(info + self.info["time"], 8)
            if owner != id:
                return unknown("P6", at)
            if length > block[1]:
                return unknown("P7", info + self.info["length"])
            if length > room:
                return unknown("P8", info + self.info["length"])
        except reader.Broken as broken:
            return unknown(broken.rule, broken.at)
        try:
            return line(time, self.bytes(at + 8, length)), room - length
        except reader.Broken as broken:
            return unknown(broken.rule, broken.at)[0], room - length

    def lines(self):
        room = self.size
        for k in range(self.ids):
            text, room = self.entry((self.tail + k) % ID, room)
            yield text


def line(time, text):
    """A record, as makedumpfile prints it: it escapes what is not printable, as a signed number."""
    head = b"[%5d.%06d] " % (time // 10**9, time % 10**9 // 1000)
    shown = bytearray(head)
    for byte in text:
        if byte == 10:
            shown += b"\n" + b" " * len(head)
        elif 32 <= byte < 127 or byte in b"\t\v\f\r":
            shown.append(byte)
        else:
            shown += b"\\x%02x" % byte if byte < 128 else b"\\xffffff%02x" % byte
    return bytes(shown) + b"\n"


def read(path):
    with open(path, "rb") as file:
        data = mmap.mmap(file.fileno(), 0, access=mmap.ACCESS_READ)
    core = reader.Core(data)
    info = reader.Info(core)
    return Log(reader.Memory(core, info.table, info.levels, info.mask), reader.vmcoreinfo(core))


def main(words):
    try:
        log = read(words[0])
    except reader.Broken as broken:
        sys.exit(f"broken {broken.rule} {broken.at:016x}")
    except (Refused, reader.Refused) as refused:
        sys.exit(f"refused {refused}")
    text = b"".join(log.lines())
    if words[1:2] == ["--same"]:
        same = text == pathlib.Path(words[2]).read_bytes()
        print(f"{len(text)} bytes, {log.ids} ids:", "the same" if same else "ANOTHER LOG")
        return 0 if same else 1
    sys.stdout.buffer.write(text)
    return 0
