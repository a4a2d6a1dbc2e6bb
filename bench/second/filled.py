"""Compares what kwhy prints of tasks, of slab caches, and of objects that something was written over, with the second reader of `why`.

usage: filled PROGRAMS FOLDER [COUNT]

FOLDER has vmcore, btf and System.map. By a fixed seed it takes COUNT tasks and COUNT slab caches (100 without it), and COUNT objects that have bytes in
the dump. Each of these is written over in a copy of the dump, by zeros, text or one of the kernel's bytes: it alone, 64 bytes from one of its words on,
over one of its ends or both, or its page. Of each it prints how many addresses agree, by the lines that tell how the bytes lie in it.
"""
import collections
import os
import random
import re
import shutil
import tempfile

import files
import timer
from plans.reader import TOP, Broken
from second.inside import PAGE, object_of
from second.why import Sights

FILLS = (bytes(8), b"overrun ", b'a: "1"\r\n', *(bytes([byte]) * 8 for byte in (0x6B, 0x5A, 0xA5, 0xBB, 0xCC, 0xAA)))
FORMS = ("object", "some", "end", "start", "both", "page")


def compare(command, folder, sights, at, seen):
    """Compares the lines of an address, and counts them by their forms."""
    status, out, err, _ = timer.run([*command, f"{at:x}"], folder)
    wanted = sights.text(at)
    assert (status, err) == (0, b"") and out.decode() == wanted, f"{at:x} {status} {err}\n{out.decode()}wanted\n{wanted}"
    told = [line for line in wanted.splitlines() if re.match(r"covers|task |names ", line)]
    forms = [re.sub(r"\d+", "N", line) if line.startswith("covers") else line.split(" ")[0] for line in told]
    seen[" + ".join(forms) or "none"] += 1


def tasks_and_caches(sights, rng, count):
    """Addresses in tasks, and in slab caches."""
    tasks, kernel = sights.areas.tasks()[0], sights.objects.kernel
    caches = [(node - kernel.byte("kmem_cache", "list")) % TOP for node in kernel.ring(sights.objects.caches)]
    for at in (at for some in (tasks, caches) for at in rng.sample(some, min(count, len(some)))):
        one = object_of(sights.objects, sights.objects.lines(at))
        yield at + rng.randrange(one.size if one else PAGE)


def objects_in(sights, rng, count):
    """Objects, each by an address of a byte of it."""
    base, loads, found = sights.objects.keys_base(), sights.why.core.loads, []
    while len(found) < count:
        _, start, size = rng.choice(loads)
        at = (base + start + rng.randrange(max(size, 1))) % TOP
        if object_of(sights.objects, sights.objects.lines(at)):
            found.append(at)
    return found


def part_of(rng, form, at, one):
    """The words of a page that are written over: the address of the first one, and that behind the last."""
    page, first = at - at % PAGE, at - one.byte
    first, end = max(first - first % 8, page), min(first + one.size, page + PAGE) // 8 * 8
    if form == "page":
        return page, page + PAGE
    if form == "some":
        start = first + 8 * rng.randrange(max((end - first) // 8, 1))
        return start, start + 64
    before, after = (8 * rng.randrange(1, 10) if form in kinds else 0 for kinds in (("start", "both"), ("end", "both")))
    return first - before, end + after


def write_over(path, sights, part, fill):
    """Writes over the words of a part of a page, and tells where and what was there."""
    page = part[0] // PAGE * PAGE if part[0] % PAGE else part[0]
    low, high = max(part[0], page), min(part[1], page + PAGE)
    offset = sights.why.core.offset(sights.why.memory.place(low)[1])
    with open(path, "r+b") as file:
        file.seek(offset)
        old = file.read(high - low)
        file.seek(offset)
        file.write(fill * ((high - low) // 8))
    return low, high, offset, old


def put_back(path, offset, old):
    with open(path, "r+b") as file:
        file.seek(offset)
        file.write(old)


def try_filled(command, folder, sights, rng, found):
    """Compares addresses of objects that are written over, in a copy of the dump."""
    seen, path = collections.Counter(), os.path.join(folder, files.NAMES[0])
    for at in found:
        one = object_of(sights.objects, sights.objects.lines(at))
        try:
            low, high, offset, old = write_over(path, sights, part_of(rng, rng.choice(FORMS), at, one), rng.choice(FILLS))
        except (Broken, TypeError):
            continue
        sights.areas.kept.clear()
        for given in {at, low, high - 1, rng.randrange(low, high)}:
            compare(command, folder, sights, given, seen)
        put_back(path, offset, old)
        sights.areas.kept.clear()
    return seen


def main(words):
    programs, folder, count = words[0], words[1], int(words[2]) if len(words) > 2 else 100
    command, rng, seen = [files.program(programs, "kwhy"), *files.NAMES], random.Random(67), collections.Counter()
    with tempfile.TemporaryDirectory() as copy:
        for name in files.NAMES:
            shutil.copy(os.path.join(folder, name), copy)
        sights = Sights(files.opened(copy, files.NAMES[0]), *(files.read(copy, name) for name in files.NAMES[1:]))
        for at in tasks_and_caches(sights, rng, count):
            compare(command, copy, sights, at, seen)
        print(sum(seen.values()), "of tasks and caches", dict(seen.most_common()), flush=True)
        seen = try_filled(command, copy, sights, rng, objects_in(sights, rng, count))
        print(sum(seen.values()), "written over", dict(seen.most_common()))
