"""Prints the calls of the store that a command is to make, one after another, by the second reader.

usage: order FOLDER word|check|kmatch WORDS..

as `order crates/kaudit/data check z.core z.btf z.map z.toml`, with a module's types or without. A file is opened, its size asked, and its bytes are
read: of the dump the file header, the table of program headers and each note's bytes, of the others all at once. Then, word by word in the order of
the walks, the blocks of 4096 bytes of the dump that have the words, each once while it is kept in one of 64 places; the last ends with the
segments. The page tables are read once for each page.
"""
import os

import files
from plans import reader
from second import verdict

BLOCK, PLACES = 4096, 64


class Noted(reader.Core):
    """A core file that notes the blocks in which its words lie."""

    def __init__(self, data):
        super().__init__(data)
        self.calls, self.kept = [], {}
        self.end = max((offset + size for offset, _, size in self.loads), default=0)

    def offset(self, pa):
        at = super().offset(pa)
        if at is not None:
            first, last = at // BLOCK, (at + 7) // BLOCK
            if first != last:
                self.calls.append(f"read dump {at} 8")
            elif self.kept.get(first % PLACES) != first:
                self.kept[first % PLACES] = first
                self.calls.append(f"read dump {first * BLOCK} {min(BLOCK, self.end - first * BLOCK)}")
        return at


class Kept(reader.Memory):
    """Virtual memory that keeps each page's translation. Commands look at fewer pages than kaudit keeps."""

    def walk(self, va):
        page = va // BLOCK
        if page not in self.pages:
            self.pages[page] = super().walk(va) - va % BLOCK
        return self.pages[page] + va % BLOCK


def whole(slot, name, folder):
    size = os.path.getsize(os.path.join(folder, name))
    return [f"open {slot} {name}", f"size {slot}", f"read {slot} 0 {size}"]


def main(words):
    folder, command, *words = words

    def data(name):
        return files.read(folder, name)

    core = data(words[0])
    told = reader.Core(core)
    count = reader.u16(core, 56)
    calls = [f"open dump {words[0]}", "size dump", "read dump 0 64", f"read dump {reader.u64(core, 32)} {56 * count}"]
    calls += [f"read dump {offset} {size}" for offset, _, size in told.notes]
    noted = Noted(core)
    verdict.Core, verdict.Memory = (lambda bytes_of_core: noted), Kept
    if command == "word":
        verdict.word(core, int(words[1], 16), int(words[2], 16))
    else:
        calls += whole("btf", words[1], folder)
        calls += whole("module", words[4], folder) if len(words) > 4 else []
        calls += whole("map", words[2], folder)
    if command == "check":
        calls += whole("plan", words[3], folder)
        verdict.verdict(core, *map(data, words[1:]))
    for call in calls + noted.calls:
        print("call", call)
