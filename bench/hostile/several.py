"""Damages several words of a dump at once, in nine ways that kernels are known to, and counts what kwhy finds.

usage: several PROGRAMS FOLDER [COUNT [SEED [SHOWN]]]

FOLDER has a dump with its plans (README.md). The words that each audit reads are found by the second reader (some minutes), and kept in files
`.places` beside the plans. Of each way COUNT damages (14, seed 1) are made in a copy of the dump, one at a time and put back; one that `check`
doesn't notice is passed over. Counts by way: `true` one word repairs, and it is an old one, `other` and `fits` another number, `chain` several words
repair together and each is an old one, `mixed` some of them aren't, `none`; how many have each sign of damage; and how many are `named` as what they are:
by the way's own sign, or by what a word that was written over says (zero, text, 6b), with how far that goes. With the numbers that are printed the root that
they stand under has to be clean, by `check`; ends with 1 where it isn't. With SHOWN (a way, one of these words, or `unnamed`) prints each such damage.
"""
import collections
import json
import os
import random
import re
import sys
import tempfile

import files
import timer
from hostile.oldwords import PASSED, Trials, reader_of
from plans.reader import Broken
from second.suspects import Causes

SIGN = re.compile(r"^(twice|deleted|beside|copy of) \w{16}$", re.M)
SIGNS = "twice", "deleted", "beside", "copy of"
KINDS = "true", "other", "fits", "chain", "mixed", "none"
# By what each way is named: its sign, or what its words say.
SIGNED = {"poisons": "deleted", "added": "twice", "moved": "beside", "other": "copy of"}
SAYS = {"zeros": "zero", "page_zeros": "zero", "text": "text", "page_text": "text", "freed": "pattern 6b", "poisons": "unlisted"}
LINE = re.compile(r"^(repair|fits|word) \w{16} \w{16} (\w{16}) (\w{16}) (\w{16})$", re.M)
POISONS = 0xDEAD000000000100, 0xDEAD000000000122
TEXT = b"GET /index.html HTTP/1.1\r\nHost: kernel.example\r\nUser-Agent: x/1\r\n"


def places_of(folder, plan):
    """The file offset and the address of the words that a plan's audits read, by what reads them."""
    causes = Causes(files.opened(folder, "vmcore"), *(files.read(folder, name) for name in files.NAMES[1:]), files.read(files.plan_path(folder, plan)))
    found, place = {}, causes.kernel.memory.place

    def noted(va):
        seen = place(va)
        if seen[2] not in found and seen[2] != "tail":
            found[seen[2]] = va, reader_of(sys._getframe(1))
        return seen

    causes.kernel.memory.place = noted
    for number, table in enumerate(causes.tables):
        if "root" in table:
            causes.judge(number)
    groups = collections.defaultdict(list)
    for offset, (va, name) in sorted(found.items()):
        groups[name].append((offset, va))
    return groups


def all_places(folder):
    """Those of each plan, kept beside it."""
    found, beside = {}, os.path.join(folder, "plans")
    for plan in sorted(os.listdir(beside)):
        if plan.endswith(".toml") and not plan.startswith(PASSED):
            kept = os.path.join(beside, plan[:-5] + ".places")
            if not os.path.exists(kept):
                text = json.dumps(places_of(folder, plan))
                with open(kept, "w") as file:
                    file.write(text)
            with open(kept) as file:
                found[plan] = json.load(file)
    return found


class Ways:
    """The ways of damage: each gives the bytes that are written, by file offset, or nothing where it can't be made here."""

    def __init__(self, folder, places, rng):
        self.rng, self.plans = rng, places
        self.data = files.opened(folder, "vmcore")
        causes = Causes(self.data, *(files.read(folder, name) for name in files.NAMES[1:]), b"version = 1\n" + b'[[audit]]\nname = "t"\nkind = "tasks"\nroot = "init_task"\n')
        self.memory, self.objects = causes.kernel.memory, causes.sights.objects
        self.nodes = {plan: self.rings(groups) for plan, groups in places.items()}

    def word(self, offset):
        return int.from_bytes(self.data[offset : offset + 8], "little")

    def offset(self, va):
        return self.memory.place(va)[2]

    def rings(self, groups):
        """The nodes of rings that a plan reads: the one that `next` leads to leads back."""
        at = {va: offset for some in groups.values() for offset, va in some}
        found = []
        for va, offset in at.items():
            other = at.get(self.word(offset))
            if other is not None and va + 8 in at and self.word(offset) + 8 in at and self.word(at[self.word(offset) + 8]) == va != self.word(offset):
                found.append((offset, va))
        return found

    def any_word(self, plan):
        groups = self.plans[plan]
        return self.rng.choice(groups[self.rng.choice(sorted(groups))])

    def object(self, va):
        """The file offset and the size of the object that has an address."""
        lines = self.objects.lines(va) if self.objects else []
        found = re.search(r"^object (\w{16}) ", "\n".join(lines), re.M)
        size = re.search(r"^cache \w{16} \S+ size (\d+)", "\n".join(lines), re.M)
        return (self.offset(int(found[1], 16)), int(size[1])) if found and size else None

    def zeros(self, plan):
        offset, _ = self.rng.choice(self.nodes[plan])
        return {offset: bytes(16)}

    def poisons(self, plan):
        offset, _ = self.rng.choice(self.nodes[plan])
        return {offset: b"".join(word.to_bytes(8, "little") for word in POISONS)}

    def text(self, plan):
        return {self.any_word(plan)[0]: TEXT[:64]}

    def freed(self, plan):
        found = self.object(self.any_word(plan)[1])
        return {found[0]: b"\x6b" * (found[1] - 1) + b"\xa5"} if found else None

    def moved(self, plan):
        found = self.object(self.any_word(plan)[1])
        return {found[0] + 8: self.data[found[0] : found[0] + found[1] - 8]} if found else None

    def added(self, plan):
        """A node that is listed is added once more, after another one of its ring: earlier, or further on."""
        offset, va = self.rng.choice(self.nodes[plan])
        pointer = self.rng.choice((0, 8))
        before = self.word(offset + pointer)
        try:
            for _ in range(self.rng.randrange(1, 4)):
                before = self.word(self.offset(before) + pointer)
            after = self.word(self.offset(before))
            words = {self.offset(after) + 8: va, offset: after, offset + 8: before, self.offset(before): va}
        except Broken:
            return None
        return {at: word.to_bytes(8, "little") for at, word in words.items()} if va not in (before, after) else None

    def page_text(self, plan):
        return {self.any_word(plan)[0] // 4096 * 4096: (TEXT * 64)[:4096]}

    def page_zeros(self, plan):
        return {self.any_word(plan)[0] // 4096 * 4096: bytes(4096)}

    def other(self, plan):
        """What another object of the same size holds."""
        one, two = self.object(self.any_word(plan)[1]), self.object(self.any_word(plan)[1])
        return {one[0]: self.data[two[0] : two[0] + one[1]]} if one and two and one[0] != two[0] and one[1] == two[1] else None


def is_named(name, text, new):
    """Whether what kwhy prints names a damage by this way: its sign, or what a word says that was written over."""
    if name in SIGNED and re.search(f"^{SIGNED[name]} ", text, re.M):
        return True
    said = re.finditer(rf"^(?:place|slot|repair|fits|word) \S+ \S+ (\w{{16}}) \w{{16}}(?: \w{{16}})?\nsays {SAYS.get(name, '-')}", text, re.M)
    return any(at <= int(found[1], 16) < at + len(part) for found in said for at, part in new.items())


NAMES = "zeros", "poisons", "text", "freed", "moved", "added", "page_text", "page_zeros", "other"


def put(path, parts):
    with open(path, "r+b") as file:
        for offset, data in parts.items():
            file.seek(offset)
            file.write(data)


def tried(trials, plan, new, old):
    """Of a damage that is noticed the rule, what kwhy says of it, whether that holds, the seconds and the text."""
    put(trials.dump, new)
    try:
        status, report, _, _ = trials.checked(plan)
        if status != 1:
            return None
        with open(trials.report, "wb") as file:
            file.write(report)
        status, out, err, seconds = timer.run([trials.kwhy, trials.dump, *trials.beside, files.plan_path(trials.folder, plan), trials.report])
        assert status == 0, (plan, status, err)
        text = out.decode()
        return (re.search(r"^rule (\w+)", text, re.M)[1], *judged(trials, plan, text, old), seconds, text)
    finally:
        put(trials.dump, old)


def is_clean(trials, plan, root):
    """Whether a root of a plan is clean: by the plan, or by its roots one by one."""
    if trials.checked(plan)[0] == 0:
        return True
    each = os.path.join(os.path.dirname(trials.report), "each.toml")
    with open(each, "w") as file:
        file.write(files.read(files.plan_path(trials.folder, plan)).decode().replace("version = 1", "version = 2", 1))
    report = timer.run([trials.kaudit, "check", trials.dump, *trials.beside, each])[1].decode()
    return f"root {root} clean\n" in report


def judged(trials, plan, text, old):
    """What kwhy says, and whether the plan is clean with it. The words are put back by the damage's own bytes."""
    words = [(line[1], *(int(line[k], 16) for k in (2, 3, 4))) for line in LINE.finditer(text)]
    if not words:
        return "none", True
    put(trials.dump, {at: new.to_bytes(8, "little") for _, at, _, new in words})
    holds = is_clean(trials, plan, re.search(r"^root (\S+)", text, re.M)[1])
    before = {at: now.to_bytes(8, "little") for _, at, now, _ in reversed(words)}
    put(trials.dump, before)
    with open(os.path.join(trials.folder, "vmcore"), "rb") as file:
        true = all(file.seek(at) == at and file.read(8) == new.to_bytes(8, "little") for _, at, _, new in words)
    if len(words) > 1:
        return "chain" if true else "mixed", holds
    return "true" if true else "other" if words[0][0] == "repair" else "fits", holds


def main(words):
    programs, folder, *rest = words
    count, seed, shown = int(rest[0]) if rest else 14, int(rest[1]) if rest[1:] else 1, rest[2] if rest[2:] else None
    folder, seen, bad, slowest = os.path.abspath(folder), collections.defaultdict(collections.Counter), 0, 0.0
    rng = random.Random(seed)
    ways = Ways(folder, all_places(folder), rng)
    with tempfile.TemporaryDirectory() as scratch:
        trials = Trials(programs, folder, scratch)
        for name in NAMES:
            for _ in range(40 * count):
                plan = rng.choice(sorted(plan for plan in ways.plans if ways.nodes[plan] or name not in ("zeros", "poisons", "added")))
                new = getattr(ways, name)(plan)
                old = {at: ways.data[at : at + len(part)] for at, part in (new or {}).items()}
                found = tried(trials, plan, new, old) if new != old and new else None
                if not found:
                    continue
                rule, kind, holds, seconds, text = found
                seen[name][kind] += 1
                seen[name].update(set(SIGN.findall(text)))
                named = is_named(name, text, new)
                seen[name]["named"] += named
                bad, slowest = bad + (not holds), max(slowest, seconds)
                if shown in (kind, name, "named" if named else "unnamed") or not holds:
                    print(f"{name} {kind} {plan} {' '.join(f'{at:x}' for at in new)} {seconds:.1f} s\n{text}", flush=True)
                if sum(seen[name][it] for it in KINDS) == count:
                    break
    for name in NAMES:
        print(f"{name:12} " + " ".join(f"{kind} {seen[name][kind]:3}" for kind in ("named", *KINDS, *SIGNS)))
    print(f"bad {bad}, slowest {slowest:.1f} s")
    return bad != 0
