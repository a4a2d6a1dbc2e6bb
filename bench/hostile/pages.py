"""Damages a dump at random and runs ktriage on it: no traceback, the right status, whole files, and repairs that repair.

usage: pages PROGRAMS FOLDER [COUNT [SEED]]

FOLDER is that of `oldwords`. COUNT damages (200, seed 1) are made in a copy of the dump, one at a time and put back: of a word that a plan reaches, of
any word, or of a byte of the headers and notes, of the kernel's types or of its log. ktriage finds the files by itself, so it has to do with wrong
ones too. Its status has to be 0 to 3; at 0 and 1 there is a page that begins with the verdict, one JSON object of the same status and an HTML page, and
at 2 and 3 one line and nothing else. Of each broken root that has a `repair` or a `fits` the word is written: `kaudit check` of the plan that ktriage
ran has to say then that this root is clean. It prints how often each status came, and of each root's verdict whether a repair is printed.
"""
import collections
import json
import os
import random
import re
import subprocess
import tempfile

import files
from hostile import oldwords
from hostile.damage import SPECIAL

REPAIR = re.compile(r"(repair|fits) \w{16} \w{16} (\w{16}) (\w{16}) (\w{16})$")


def places(folder, rng):
    """File offsets by kind: a function of the kind gives one at random."""
    dump = files.opened(folder, "vmcore")
    plans, size = oldwords.all_words(folder), len(dump)
    reached = [offset for plan in plans.values() for offsets in plan.values() for offset in offsets]
    types = dump.find(files.read(folder, "btf")[:64])
    log = dump.find(b"Linux version ", 1 << 20)
    return {"reached": lambda: rng.choice(reached), "any": lambda: rng.randrange(size // 8) * 8, "notes": lambda: rng.randrange(0x4000) & ~7,
            "types": lambda: types + rng.randrange(1 << 22) & ~7, "log": lambda: log + rng.randrange(1 << 15) & ~7}


def put(path, offset, word):
    with open(path, "r+b") as file:
        file.seek(offset)
        old = file.read(8)
        file.seek(offset)
        file.write(word)
    return old


def run(programs, dump, work):
    words = [os.path.join(files.TOP, "tools", "ktriage"), "--programs", programs, "--json", f"{work}/json", "--html", f"{work}/html", "--keep", f"{work}/kept", dump]
    return subprocess.run(words, stdin=subprocess.DEVNULL, capture_output=True, text=True, errors="replace")


def faults(done, work):
    """What is wrong with the answer itself."""
    made = [name for name in ("json", "html", "kept") if os.path.exists(os.path.join(work, name))]
    if "Traceback" in done.stderr or done.returncode not in (0, 1, 2, 3):
        yield f"status {done.returncode}: {done.stderr[-600:]}"
    elif done.returncode > 1:
        if done.stdout or done.stderr.count("\n") != 1 or made:
            yield f"status {done.returncode} and not one line: {done.stderr[:300]} {made}"
    elif done.stderr or not done.stdout.startswith("verdict ") or len(made) != 3:
        yield f"status {done.returncode}, {made}: {done.stderr[:300]} {done.stdout[:80]}"


def unrepaired(kaudit, dump, work, told, seen):
    """The broken roots whose repair doesn't repair them."""
    for root in told["roots"]:
        line = REPAIR.match(root["repair"] or "")
        seen[root["verdict"] if root["verdict"] != "broken" else line[1] if line else "none"] += 1
        if root["verdict"] != "broken" or not line:
            continue
        offset, old, new = (int(line[number], 16) for number in (2, 3, 4))
        before = put(dump, offset, new.to_bytes(8, "little"))
        files_of = [path if os.path.exists(path) else os.path.join(work, "kept", name) for path, name in
                    ((told["files"]["types"], "btf"), (told["files"]["map"], "System.map"))]
        report = subprocess.run([kaudit, "check", dump, *files_of, os.path.join(work, "kept", root["plan"])], capture_output=True, text=True).stdout
        put(dump, offset, before)
        if before != old.to_bytes(8, "little"):
            yield f"the word at {offset:x} isn't {old:x}"
        if not re.search(rf"^root {re.escape(root['root'])} clean$|^clean$", report, re.M):
            yield f"{root['root']} of {root['plan']} is broken with {line[0]}"


def main(words):
    programs, folder, count = os.path.abspath(words[0]), os.path.abspath(words[1]), int(words[2]) if words[2:] else 200
    rng = random.Random(int(words[3]) if words[3:] else 1)
    kaudit, kinds, seen, wrong = files.program(programs, "kaudit"), places(folder, rng), collections.Counter(), 0
    with tempfile.TemporaryDirectory() as scratch:
        dump = os.path.join(scratch, "vmcore")
        subprocess.run(["cp", "--reflink=auto", "--no-preserve=mode", os.path.join(folder, "vmcore"), dump], check=True)
        for number in range(count):
            kind = rng.choice(("reached", "reached", "reached", *kinds))
            offset = kinds[kind]()
            old = oldwords.word_at(dump, offset)
            new = old ^ 1 << rng.randrange(64) if number % 2 else oldwords.other_word(rng, old, rng.choice(SPECIAL))
            with tempfile.TemporaryDirectory(dir=scratch) as work:
                put(dump, offset, new.to_bytes(8, "little"))
                done = run(programs, dump, work)
                bad = list(faults(done, work))
                if done.returncode < 2 and not bad:
                    with open(os.path.join(work, "json")) as file:
                        bad += unrepaired(kaudit, dump, work, json.load(file), seen)
                put(dump, offset, old.to_bytes(8, "little"))
            seen[f"{kind}, status {done.returncode}"] += 1
            wrong += bool(bad)
            for fault in bad:
                print(f"WRONG {kind} offset {offset:x} old {old:016x} new {new:016x}: {fault}", flush=True)
    for key, times in sorted(seen.items()):
        print(f"{times:7} {key}")
    print(count, "damages,", wrong, "wrong")
    return wrong != 0
