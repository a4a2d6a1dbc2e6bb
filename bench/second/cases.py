"""Compares the wanted texts of cases of kwhy with those of the second readers.

usage: cases FILE ..                       compares, and prints how many agree, and each case that differs
       cases --programs PROGRAMS FILE ..   compares what kwhy prints too
       cases --write FILE ..               prints each file with the second readers' texts in the place of the wanted ones

Of an address and of `refs` the second reader is that of `why`, of a report that of `suspects`.

A file is one of crates/try_programs/data, whose words the head of that program's main.rt tells. Cases that are to be refused, and those whose files
are changed by words that stand for the readers of files alone, are left out. Of a report, `--write` writes the lines too.
"""
import collections
import os
import struct
import tempfile

import files
import timer
from second import made
from second.suspects import Causes
from second.verdict import verdict
from second.why import Sights

PIDS_ROW = b"ffffffff80014000 D my_idr\n"
PIDS_WORDS = (
    (0x14008, made.DIRECT + 0x14102), (0x14100, 0x10000), (0x14110, made.IMAGE + 0x14000), (0x14128, made.DIRECT + 0x14040),
    (0x14048, made.DIRECT + 0xD168), (0x14050, 2), (0xD170, made.DIRECT + 0x14048), (0xD178, made.DIRECT + 0x14040),
)
KINDS = {"int": 1, "ptr": 2, "array": 3, "struct": 4, "union": 5, "enum": 6, "signed_enum": 134, "typedef": 8, "float": 16}
NOT_READ = {"fails", "out_limit", "err_limit", "without", "typefile", "types_size", "types_length", "map_size", "plan_size", "plan_spaces", "cert_size", "cert_end", "grown", "spine", "made"}


def read(*path):
    return files.read(files.CRATES, *path)


def number(text):
    return int(text[2:], 16) if text.startswith("0x") else int(text)


def types_of(lines):
    """The file of types that `type` lines tell."""
    words, names, last = [], b"\0", 0

    def name(text):
        nonlocal names
        found = (b"\0" + names).find(b"\0" + text.encode() + b"\0")
        if found < 0:
            found, names = len(names), names + text.encode() + b"\0"
        return found

    for line in lines:
        label, _, what = line.partition("= ")
        if line.startswith("  "):
            kind, bit, *width = what.split()
            width = number(width[0]) if width else 0
            words[last] = words[last] + 1 | (1 << 31 if width else 0)
            words += [name(label.strip()), number(kind), number(bit) + (width << 24)]
        else:
            kind, *numbers = what.split()
            words.append(name(label.split(" ", 1)[1].rstrip() if " " in label else ""))
            last = len(words)
            words += [KINDS[kind] << 24, *map(number, numbers)]
    head = struct.pack("<HBBIIIII", 0xEB9F, 1, 0, 24, 0, 4 * len(words), 4 * len(words), len(names))
    return head + struct.pack(f"<{len(words)}I", *words) + names


def core_of(note):
    """The made dump with a note's text."""
    core = bytearray(read("kaudit", "data", "z.core"))
    struct.pack_into("<Q", core, 64 + 32, (len(note) + 27) // 4 * 4)
    part = struct.pack("<III", 11, len(note), 0) + b"VMCOREINFO\0\0" + note
    core[0x1000:0x2000] = part + bytes(0x1000 - len(part))
    return core


class Case:
    """The words of a case, its files and what is wanted, by its lines: a name and the rest of each."""

    def __init__(self, text):
        self.lines = [tuple((line.split(" ", 1) + [""])[:2]) for line in text.split("\n") if line]
        names = {name for name, _ in self.lines}
        self.words = " ".join(self.all("words")).split(" ")
        self.read = not names & NOT_READ and "status" not in names and self.words[:3] == ["z.core", "z.btf", "z.map"]
        self.wanted = "".join(line + "\n" for line in self.all("out"))
        self.report = "".join(line + "\n" for line in self.all("cert"))
        if self.read:
            self.make(names)

    def all(self, *names):
        return [rest for name, rest in self.lines if name in names]

    def text(self, *names):
        return "".join(rest + "\n" for rest in self.all(*names)).encode()

    def make(self, names):
        """The files."""
        note = self.text("stated") + (self.text("note") or made.NOTE) + self.text("last").removesuffix(b"\n")
        self.core, self.btf = core_of(note), bytearray(read("kaudit", "data", "z.btf"))
        if "type" in names:
            self.btf = bytearray(types_of(self.all("type")))
        if "pids" in names:
            self.btf = bytearray(made.with_pids(bytes(self.btf)))
        rows = [PIDS_ROW if name == "pids" else rest.encode() + b"\n" for name, rest in self.lines if name in ("pids", "row")]
        self.map = (self.text("map") or read("kaudit", "data", "z.map")) + b"".join(rows)
        self.plan = b"".join(read("try_programs", "data", f"{rest}.toml") if name == "planned" else rest.encode() + b"\n" for name, rest in self.lines if name in ("planned", "plan"))
        for name, rest in self.lines:
            self.change(name, rest)

    def put(self, pa, word):
        if 0x2000 + pa + 8 <= len(self.core):
            struct.pack_into("<Q", self.core, 0x2000 + pa, word)

    def change(self, name, rest):
        at, _, more = rest.partition(" ")
        if name == "put":
            self.put(int(at, 16), int(more, 16))
        elif name == "pids":
            for pa, word in PIDS_WORDS:
                self.put(pa, word)
        elif name == "selves":
            for pa in range(int(at, 16) // 8 * 8, int(more, 16) // 8 * 8, 8):
                self.put(pa, pa + made.DIRECT)
        elif name in ("bytes", "types"):
            data = bytes.fromhex(more)
            (self.core if name == "bytes" else self.btf)[int(at, 16) : int(at, 16) + len(data)] = data
        elif name == "length":
            del self.core[int(at, 16) :]

    def files(self):
        return zip(("z.core", "z.btf", "z.map", "z.plan", "z.cert"), (self.core, self.btf, self.map, self.plan, self.report.encode()))

    def printed(self, kwhy):
        """What the program prints."""
        with tempfile.TemporaryDirectory() as folder:
            for name, data in self.files():
                with open(os.path.join(folder, name), "wb") as file:
                    file.write(data)
            status, out, err, _ = timer.run([kwhy, *self.words], folder)
            return out.decode() if status == 0 else f"status {status}\n{out.decode()}{err.decode()}"

    def answer(self):
        """The second readers' text."""
        if self.words[3] == "z.plan":
            return self.cause()
        sights = Sights(bytes(self.core), bytes(self.btf), self.map)
        if self.words[3] == "refs":
            return sights.refs(int(self.words[4].lower().removeprefix("0x"), 16))
        return sights.text(int(self.words[3].lower().removeprefix("0x"), 16))

    def verdict(self):
        """The report, by the second reader."""
        return verdict(bytes(self.core), bytes(self.btf), self.map, self.plan)

    def cause(self):
        status, out, err = self.verdict()
        return Causes(self.core, bytes(self.btf), self.map, self.plan).text() if out == self.report and status < 2 else f"another report:\n{out}{err}"


def rewritten(text, case):
    """A case with the second readers' lines in the place of its own."""
    kept = [line for line in text.rstrip("\n").split("\n") if not line.startswith(("out ", "cert "))]
    if case.words[3] == "z.plan":
        case.report = case.verdict()[1]
        kept += ["cert " + line for line in case.report.splitlines()]
    return "\n".join(kept + ["out " + line for line in case.answer().splitlines()])


def compared(path, text, case, kwhy):
    """How a case ends."""
    texts = {"wanted": case.wanted, "second reader": case.answer()} | ({"kwhy": case.printed(kwhy)} if kwhy else {})
    if len(set(texts.values())) == 1:
        return "agree"
    print(path, text, *(f"{name}\n{told}" for name, told in texts.items() if told != case.wanted), sep="\n")
    return "differ"


def main(words):
    write = words[0] == "--write"
    kwhy = files.program(words[1], "kwhy") if words[0] == "--programs" else None
    for path in words[2 if kwhy else 1 if write else 0 :]:
        counts, paragraphs = collections.Counter(), []
        for text in open(path).read().split("\n\n"):
            case = None if text.startswith("#") else Case(text)
            if case is None or not case.read:
                counts["left out"] += case is not None
                paragraphs.append(text)
            elif write:
                paragraphs.append(rewritten(text, case))
            else:
                counts[compared(path, text, case, kwhy)] += 1
        print("\n\n".join(paragraphs) if write else " ".join([path, *(f"{name} {count}" for name, count in sorted(counts.items()))]))
