"""Tries the wrong bodies of planted/, many in one check: each stands in a function of its own.

usage: together CRATE [--only NAMES]     NAMES is a file that has the name of a wrong body on each line

First the crate is checked as it stands, in its own folder, where `rt check` keeps its work. Each round is a check of a copy that begins with that work, so it
costs what the changed functions cost: 4 to 10 s, and 3 to 25 s for each of them, most of it the search for what can't be proved. No function stands in a
round with one that it may call, since a caller isn't tried while a call of it isn't proved.

A wrong body is refused where its own function isn't proved: `goal` where a goal of the function is left over, `proof` where an answer in a proof file no
longer fits, `name` where a proof file only names what the edit took away. It is `proved` where the function is proved with it, and `unread` where the prover
can't read it; what isn't refused is tried once more alone. It prints a line for each, then the counts, and ends with 1 where one isn't refused.
"""
import collections
import os
import re
import shutil
import subprocess
import sys
import tempfile
import time

import planted

MOST = 12
HEAD = re.compile(r"^(\s*)(?:pub(?:\([a-z]+\))? )?(?:const )?(?:unsafe )?fn (\w+)")
VERDICT = re.compile(r"^fn ([^ ]+(?: as [^ ]+)?[^ ]*): (proved|not proved.*|no proof: .*)$", re.M)
LOST = re.compile(r"has no field|is not in scope|has no `|was not admitted")
CHECK = ["rt", "check", "--jobs", "1"]


def last_of(lines, first):
    """The last line of a function, by its first."""
    closes = HEAD.match(lines[first])[1] + "}"
    return next((i for i in range(first, len(lines)) if lines[i] == closes), len(lines))


def home(text, at):
    """The name of the function that has a byte of a file, and its first and last line, if one has it."""
    lines, line = text.split("\n"), text.count("\n", 0, at)
    for first in range(line, -1, -1):
        found = HEAD.match(lines[first])
        if found:
            last = last_of(lines, first)
            return (found[2], first + 1, last + 1) if line <= last else None
    return None


def words_of(text):
    """The words in each function of a file, by its name."""
    lines, found = text.split("\n"), collections.defaultdict(set)
    for first, line in enumerate(lines):
        head = HEAD.match(line)
        if head:
            found[head[2]].update(re.findall(r"\w+", "\n".join(lines[first + 1 : last_of(lines, first)])))
    return found


def reached(words):
    """The functions that each one may call, itself among them, by the words in each."""
    calls = {name: {name, *(it for it in some if it in words)} for name, some in words.items()}
    while True:
        more = {name: set().union(*(calls[it] for it in some)) for name, some in calls.items()}
        if more == calls:
            return calls
        calls = more


def calls_of(crate):
    """The functions that each function of a crate may call, by their names."""
    words = collections.defaultdict(set)
    for at, _, names in os.walk(os.path.join(planted.TOP, "crates", crate, "src")):
        for name in names:
            for function, some in words_of(planted.read(os.path.join(at, name))).items():
                words[function] |= some
    return reached(words)


class Edit:
    """A wrong body, and the function that it stands in: the module's path and the name, or none."""

    def __init__(self, crate, name, text):
        self.name, self.changes, homes = name, list(planted.changes(text)), set()
        for path, old, _ in self.changes:
            whole = planted.read(os.path.join(planted.TOP, "crates", crate, path))
            found = path.startswith("src/") and home(whole, whole.index(old)) if whole.count(old) == 1 else None
            homes.add((path, found[0]) if found else None)
        self.home = homes.pop() if len(homes) == 1 else None

    def path(self, crate):
        """The start of the path of its function, as the prover writes it."""
        parts = self.home[0].removeprefix("src/").removesuffix(".rt").split("/")
        return "::".join([crate, *(parts if parts not in (["lib"], ["main"]) else [])]) + "::"


def link(one, other):
    """Gives a file of kept work another place: what was proved by a link, since a check replaces such a file."""
    return os.link(one, other) if one.endswith(".oantt") else shutil.copy2(one, other)


class Copy:
    """A copy of a crate with the libraries below it, in which edits are tried."""

    def __init__(self, crate, folder):
        self.crate, self.top, self.here, self.there = crate, folder, os.path.join(folder, "crates", crate), os.path.join(planted.TOP, "crates", crate)
        needed = self.needed()
        shutil.copy(os.path.join(planted.TOP, "HANDLES"), folder)
        rows = planted.read(os.path.join(planted.TOP, "crates.txt")).split("\n")
        planted.write(os.path.join(folder, "crates.txt"), "".join(row + "\n" for row in rows if row.partition(":")[0].split(" ")[0] in needed))
        for name in needed:
            there, here = (os.path.join(top, "crates", name) for top in (planted.TOP, folder))
            for part in ("src", "specs", "proofs"):
                if os.path.isdir(os.path.join(there, part)):
                    shutil.copytree(os.path.join(there, part), os.path.join(here, part))
            if name != crate:
                shutil.copytree(os.path.join(there, "out", "rlib"), os.path.join(here, "out", "rlib"), copy_function=os.link)

    def begin(self):
        """Has the next check begin with what was kept of the crate as it stands."""
        kept = os.path.join(self.here, "out", "incremental")
        shutil.rmtree(kept, ignore_errors=True)
        shutil.copytree(os.path.join(self.there, "out", "incremental"), kept, copy_function=link)

    def needed(self):
        """The crate and those below it."""
        below = {}
        for line in planted.read(os.path.join(planted.TOP, "crates.txt")).split("\n"):
            name, _, rest = line.partition("#")[0].partition(":")
            below[name.strip()] = rest.split()
        needed = [self.crate]
        for name in needed:
            needed += [it for it in below[name] if it in below and it not in needed]
        return needed

    def put(self, edits):
        """Applies those edits that can stand together, and returns them, and the files that they changed."""
        files, put = {}, []
        for edit in edits:
            mine = dict(files)
            for path, old, new in edit.changes:
                text = mine.get(path) or planted.read(os.path.join(self.there, path))
                if text.count(old) != 1:
                    break
                mine[path] = text.replace(old, new)
            else:
                files, put = mine, [*put, edit]
        for path, text in files.items():
            planted.write(os.path.join(self.here, path), text)
        return put, files

    def check(self, edits):
        """What the prover says with these edits, and which of them were put in."""
        self.begin()
        put, files = self.put(edits)
        ran = subprocess.run(CHECK, cwd=self.here, capture_output=True, text=True)
        for path in files:
            shutil.copy(os.path.join(self.there, path), os.path.join(self.here, path))
        return put, ran.stdout + ran.stderr


def verdict(crate, edit, said):
    """What the prover's text says of an edit: a word of the head of this file, `blocked` by another function, or None."""
    if edit.home is None:
        hows = [how for _, how in VERDICT.findall(said)]
        return ("goal" if any(how != "proved" for how in hows) else "proved") if hows else None
    start, name = edit.path(crate), edit.home[1]
    mine = [how for path, how in VERDICT.findall(said) if path.lstrip("<").startswith(start) and path.split("::")[-1] == name]
    if any("did not prove" in how for how in mine):
        return "goal"
    folder = re.escape("proofs/" + edit.home[0].removeprefix("src/").removesuffix(".rt") + "/" + name + "/")
    lines = re.findall(rf"^(?:\./)?{folder}\S+ error: .*$", said, re.M)
    if lines and any(how != "proved" for how in mine):
        return "name" if all(LOST.search(line) for line in lines) else "proof"
    if any(how == "not proved" or "expected answers" in how for how in mine):
        return "goal"
    return "blocked" if any(how != "proved" for how in mine) else "proved" if mine else None


def rounds(edits, calls):
    """Lists of edits, each in a function that may call none of the others'."""
    left = [edit for edit in edits if edit.home]
    apart = lambda one, other: one not in calls.get(other, [other]) and other not in calls.get(one, [one])
    while left:
        some = []
        for edit in left:
            if len(some) < MOST and all(apart(edit.home[1], it.home[1]) for it in some):
                some.append(edit)
        left = [edit for edit in left if edit not in some]
        yield some
    yield from ([edit] for edit in edits if not edit.home)


def try_all(copy, edits, tell):
    """Tries edits together, and those that this says nothing of alone."""
    again = []
    for some in rounds(edits, calls_of(copy.crate)):
        put, said = copy.check(some)
        for edit in some:
            how = verdict(copy.crate, edit, said) if edit in put else None
            if how in ("goal", "proof", "name") or len(some) == 1:
                tell(edit, how or "unread")
            else:
                again.append(edit)
    for edit in again:
        put, said = copy.check([edit])
        tell(edit, put and verdict(copy.crate, edit, said) or "unread")


def stands(crate):
    """Has the prover keep its work on the crate as it stands, in the crate's folder, and stops where it isn't proved."""
    ran = subprocess.run(CHECK, cwd=os.path.join(planted.TOP, "crates", crate), capture_output=True, text=True)
    if ran.returncode:
        sys.exit(f"together: {crate} isn't proved as it stands\n{ran.stdout}{ran.stderr}")


def main(words):
    crate, only = words[0], None
    if words[1:2] == ["--only"]:
        only = planted.read(words[2]).split()
    edits = [Edit(crate, name, text) for name, text in planted.kept(crate).items() if only is None or name in only]
    counts, begun = collections.Counter(), time.monotonic()

    def tell(edit, how):
        counts[how] += 1
        print(f"{crate} {edit.name}: {how}", flush=True)

    stands(crate)
    stood = time.monotonic()
    with tempfile.TemporaryDirectory(prefix="together-") as folder:
        try_all(Copy(crate, folder), edits, tell)
    took = f"{stood - begun:.0f} s for the crate as it stands, then {time.monotonic() - stood:.0f} s"
    print(f"{crate}: {sum(counts.values())} wrong bodies: " + ", ".join(f"{how} {number}" for how, number in sorted(counts.items())) + f" ({took})", flush=True)
    return int(bool(counts["proved"] or counts["unread"] or counts["blocked"]))
