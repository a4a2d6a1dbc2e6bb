"""Damages words that plans reach in a dump, and counts how often kwhy finds the old word.

usage: oldwords PROGRAMS FOLDER [COUNT [SEED [SHOWN]]]

FOLDER has a dump with its plans (README.md). The words that each audit reads are found by the second reader (some minutes), and kept in files
`.words` beside the plans, by what they are: by the lines of that reader that read them. COUNT damages (400, seed 1) are made in a copy of the dump,
one at a time and put back: of a plan at random, of what its words are at random, and of these a word at random, by turns with one bit changed and
with another word. One that `check` doesn't notice is passed over, and another one made. Counts by rule, by plan and in all: `true` the old word is
printed, `other` another number under `repair`, `fits` another one under `fits`, `none`; and by whether kwhy says that it is the only one that repairs
(`stand 1`). With the number that is printed the plan has to be clean, by `check`; ends with 1 where it isn't. With SHOWN (one of these words, or a rule) prints each such damage.
"""
import collections
import json
import os
import random
import re
import shutil
import sys
import tempfile

import files
import timer
from hostile.damage import SPECIAL
from plans.reader import TOP
from second import verdict
from second.suspects import Causes

PASSED = "ext4"  # it wants the types of a module
LINE = re.compile(r"^(repair|fits) \w{16} \w{16} (\w{16}) (\w{16}) (\w{16})$", re.M)
TEXTS = b"eth0: link is up", b"/usr/bin/busybox", b"GET /index.html "


def words_of(folder, plan):
    """The file offsets of the words that a plan's audits read, by what they are: the audit, and the lines of the second reader that read them."""
    dump = files.opened(folder, "vmcore")
    causes = Causes(dump, *(files.read(folder, name) for name in files.NAMES[1:]), files.read(files.plan_path(folder, plan)))
    found, place = {}, causes.kernel.memory.place

    def noted(va):
        seen = place(va)
        if seen[2] not in found:
            found[seen[2]] = reader_of(sys._getframe(1))
        return seen

    causes.kernel.memory.place = noted
    for number, table in enumerate(causes.tables):
        if "root" in table:
            causes.judge(number)
    groups = collections.defaultdict(list)
    for offset, name in found.items():
        if offset != "tail":
            groups[name].append(offset)
    return {name: sorted(offsets) for name, offsets in groups.items()}


def reader_of(frame):
    """The audit whose walk reads a word, and the lines of the walk that do."""
    lines = []
    while "audit" not in frame.f_locals:
        if frame.f_code.co_filename == verdict.__file__ and frame.f_code.co_name != "<lambda>":
            lines.append(f"{frame.f_code.co_name}:{frame.f_lineno}")
        frame = frame.f_back
    return " ".join([frame.f_locals["audit"].name, *reversed(lines)])


def all_words(folder):
    """Those of each plan, kept beside it."""
    found, beside = {}, os.path.join(folder, "plans")
    for plan in sorted(os.listdir(beside)):
        if plan.endswith(".toml") and not plan.startswith(PASSED):
            kept = os.path.join(beside, plan[:-5] + ".words")
            if not os.path.exists(kept):
                text = json.dumps(words_of(folder, plan))
                with open(kept, "w") as file:
                    file.write(text)
            with open(kept) as file:
                found[plan] = json.load(file)
    return found


def word_at(path, offset):
    with open(path, "rb") as file:
        file.seek(offset)
        return int.from_bytes(file.read(8), "little")


def other_word(rng, old, far):
    """What may be written over a word: a number that nothing may be, text, what another word has, or anything."""
    text = int.from_bytes(rng.choice(TEXTS)[rng.choice((0, 8)) :][:8], "little")
    return rng.choice((rng.choice(SPECIAL), text, far, (old + rng.choice((-64, -8, 8, 64))) % TOP, rng.randrange(TOP)))


class Trials:
    def __init__(self, programs, folder, scratch):
        self.kaudit, self.kwhy = (files.program(programs, name) for name in ("kaudit", "kwhy"))
        self.folder, self.dump, self.report = folder, os.path.join(scratch, "vmcore"), os.path.join(scratch, "report")
        shutil.copyfile(os.path.join(folder, "vmcore"), self.dump)
        self.beside = [os.path.join(folder, name) for name in files.NAMES[1:]]

    def checked(self, plan):
        return timer.run([self.kaudit, "check", self.dump, *self.beside, files.plan_path(self.folder, plan)])

    def tried(self, plan, damage):
        """Of a damage that is noticed the rule, what kwhy says of it, and whether that holds."""
        with files.changed(self.dump, damage):
            status, report, _, _ = self.checked(plan)
            if status != 1:
                return None
            with open(self.report, "wb") as file:
                file.write(report)
            words = [self.kwhy, self.dump, *self.beside, files.plan_path(self.folder, plan), self.report]
            status, out, err, seconds = timer.run(words)
            assert status == 0, (plan, damage, status, err)
            text = out.decode()
            kind, holds = self.judged(plan, damage, LINE.search(text))
        return re.search(r"^rule (\w+)", text, re.M)[1], kind, holds, seconds, text

    def judged(self, plan, damage, line):
        if not line:
            return "none", True
        at, before, after = (int(line[k], 16) for k in (2, 3, 4))
        with files.changed(self.dump, damage._replace(offset=at, old=before, new=after)):
            holds = self.checked(plan)[0] == 0
        true = (at, before, after) == (damage.offset, damage.new, damage.old)
        return "true" if true else "other" if line[1] == "repair" else "fits", holds


def made(rng, plans, trials, number):
    """A damage of a word of one of these plans."""
    plan = rng.choice(sorted(plans))
    what = rng.choice(sorted(plans[plan]))
    offsets = plans[plan][what]
    offset = rng.choice(offsets)
    old = word_at(trials.dump, offset)
    new = old ^ 1 << rng.randrange(64) if number % 2 else other_word(rng, old, word_at(trials.dump, rng.choice(offsets)))
    return plan, what, files.Damage("", "", plan, offset, old, new, 1, "")


def main(words):
    programs, folder, *rest = words
    count, seed, shown = int(rest[0]) if rest else 400, int(rest[1]) if rest[1:] else 1, rest[2] if rest[2:] else None
    plans, rng, seen, bad, slowest, number = all_words(folder), random.Random(seed), collections.defaultdict(collections.Counter), 0, 0.0, 0
    with tempfile.TemporaryDirectory() as scratch:
        trials = Trials(programs, os.path.abspath(folder), scratch)
        while number < count:
            plan, what, damage = made(rng, plans, trials, number)
            found = trials.tried(plan, damage) if damage.new != damage.old else None
            if not found:
                continue
            rule, kind, holds, seconds, text = found
            for key in ("all", f"rule {rule}", f"plan {plan[:-5]}", "one word" if number % 2 == 0 else "one bit", *re.findall(r"^stand \d", text, re.M)):
                seen[key][kind] += 1
            number, bad, slowest = number + 1, bad + (not holds), max(slowest, seconds)
            if shown in (kind, rule) or not holds:
                print(f"{kind} {plan} {what} offset {damage.offset:016x} old {damage.old:016x} new {damage.new:016x}\n{text}", flush=True)
    for key, kinds in sorted(seen.items()):
        print(f"{key:24} " + " ".join(f"{kind} {kinds[kind]:3}" for kind in ("true", "other", "fits", "none")))
    print(f"bad {bad}, slowest {slowest:.1f} s")
    return bad != 0
