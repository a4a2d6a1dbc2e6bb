"""Finds the files that the scripts work on: the programs, a real dump with what lies beside it, and the made dump."""
import collections
import contextlib
import mmap
import os
import re
import sys

TOP = os.path.realpath(os.path.join(os.path.dirname(os.path.abspath(__file__)), ".."))
CRATES = os.path.join(TOP, "crates")
# The made dump: z.core, z.btf, z.map, z.toml.
DATA = os.path.join(CRATES, "kaudit", "data")
# A dump, the bytes of its kernel's section .BTF, and its build's System.map.
NAMES = ("vmcore", "btf", "System.map")

CHANGE = re.compile(r"plan (\S+), file offset (\w+), old (\w+), new (\w+), status (\d)\n")
Damage = collections.namedtuple("Damage", "name title plan offset old new status report")


def program(programs, name):
    """The path of a program: in the folder PROGRAMS, or for `-` where `rt run` left it."""
    path = os.path.join(CRATES, name, "out", name) if programs == "-" else os.path.join(os.path.abspath(programs), name)
    if not os.path.exists(path):
        sys.exit(f"{name} isn't there: {path}")
    return path


def read(*path):
    with open(os.path.join(*path), "rb") as file:
        return file.read()


def opened(*path):
    """A file's bytes, which aren't all read."""
    with open(os.path.join(*path), "rb") as file:
        return mmap.mmap(file.fileno(), 0, access=mmap.ACCESS_READ)


def plan_path(folder, plan):
    """A plan of a folder, or of its folder plans."""
    path = os.path.abspath(os.path.join(folder, plan))
    return path if os.path.exists(path) else os.path.abspath(os.path.join(folder, "plans", plan))


def damages(folder):
    """The changed words of the folder's damage.txt, none where it isn't there."""
    path = os.path.join(folder, "damage.txt")
    text = read(path).decode("ascii") if os.path.exists(path) else ""
    for part in text.split("\n## ")[1:]:
        title, _, rest = part.partition("\n")
        head = CHANGE.match(rest)
        report = "".join(line + "\n" for line in rest[head.end() :].split("\n") if line)
        yield Damage(title.split(":")[0], title, head[1], *(int(head[k], 16) for k in (2, 3, 4)), int(head[5]), report)


def put_word(path, offset, old, new):
    """Changes a little-endian word of a file from one value to another."""
    with open(path, "r+b") as file:
        file.seek(offset)
        assert file.read(8) == old.to_bytes(8, "little"), hex(offset)
        file.seek(offset)
        file.write(new.to_bytes(8, "little"))


@contextlib.contextmanager
def changed(path, damage):
    """A file with a changed word, which is put back."""
    put_word(path, damage.offset, damage.old, damage.new)
    try:
        yield
    finally:
        put_word(path, damage.offset, damage.new, damage.old)
