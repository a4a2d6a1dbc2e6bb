"""Asks kwhy for the cause of each changed word of a dump, and tries the repairs that it prints.

usage: repairs PROGRAMS FOLDER [NAME ..]

FOLDER has damage.txt with the plans that it names. Each word is changed in a copy of the dump. A repair is the true one where it puts the old value
back; each that is printed is made in the copy, and `check` must find the root audit clean then. Prints of each the line of the repair, the seconds,
and the memory in MiB; ends with 1 where a repair doesn't hold, or a run takes more than a second or 60 MiB.
"""
import os
import re
import shutil
import tempfile

import files
import timer

REPAIR = re.compile(r"^(?:repair|fits) \w{16} \w{16} (\w{16}) (\w{16}) (\w{16})$", re.M)
MOST_SECONDS, MOST_MEMORY = 1.0, 60


def tried(commands, damage, paths):
    """What kwhy says of a changed word, and whether it holds."""
    kaudit, kwhy = commands
    dump, folder, report = paths
    with open(report, "w") as text:
        text.write(damage.report)
    words = [dump, *(os.path.join(folder, name) for name in files.NAMES[1:]), files.plan_path(folder, damage.plan)]
    with files.changed(dump, damage):
        status, out, err, seconds = timer.run([kwhy, *words, report])
        assert status == 0, (damage.name, status, err)
        memory = timer.most_memory([kwhy, *words, report])
        line = next((line for line in out.decode().splitlines() if line.startswith(("repair", "fits"))), "no line")
        found = REPAIR.search(out.decode())
        holds, kind = True, "none"
        if found:
            at, before, after = (int(found[i], 16) for i in (1, 2, 3))
            kind = "true" if (at, before, after) == (damage.offset, damage.new, damage.old) else "other"
            with files.changed(dump, damage._replace(offset=at, old=before, new=after)):
                holds = timer.run([kaudit, "check", *words])[0] == 0
    print(f"{damage.name:14} {kind:5} {seconds:.3f} s {memory:.1f} MiB  {line}")
    return kind, holds and seconds < MOST_SECONDS and memory < MOST_MEMORY


def main(words):
    programs, folder, *names = words
    commands = files.program(programs, "kaudit"), files.program(programs, "kwhy")
    folder = os.path.abspath(folder)
    with tempfile.TemporaryDirectory() as scratch:
        dump = os.path.join(scratch, "vmcore")
        shutil.copyfile(os.path.join(folder, "vmcore"), dump)
        paths = dump, folder, os.path.join(scratch, "report")
        results = [tried(commands, damage, paths) for damage in files.damages(folder) if not names or damage.name in names]
    kinds = [kind for kind, _ in results]
    print(f"{len(results)} changed words: {kinds.count('true')} true repairs, {kinds.count('other')} others, {kinds.count('none')} without one")
    return not all(fine for _, fine in results)
