"""Measures `check` against plain loops in C over the same dump, in one run.

usage: floor PROGRAMS FOLDER PLAN..

A PLAN is plans/inodes.toml as `inodes`, the same with only the page caches as `pages`, or any other. Two floors are printed:

- for each plan, the time that the program's own reads of the dump take alone: their places are told by strace, and a C program
  seeks and reads each;
- for `inodes` and `pages`, the time of the walk alone, which is the whole less that of the same plan without what it names in
  `each`, and beside it that of `floor.c`, which makes the same walk over the mapped dump: without the test that no word is taken
  twice, and with it; then both by instructions of the user's side, as callgrind counts them.

It wants strace, valgrind and a C compiler. The programs run by turns; each time is the least in seconds.
"""
import os
import re
import struct
import subprocess
import tempfile

import files
import timer

RUNS = 9
LOOP = r"""
#include <fcntl.h>
#include <stdint.h>
#include <stdio.h>
#include <stdlib.h>
#include <unistd.h>
int main(int n, char **words) {
    int dump = open(words[1], O_RDONLY);
    FILE *list = fopen(words[2], "rb");
    uint64_t place[2], sum = 0;
    static unsigned char bytes[1 << 24];
    if (n != 3 || dump < 0 || !list) return 1;
    while (fread(place, sizeof place, 1, list) == 1) {
        if (lseek(dump, place[0], SEEK_SET) < 0 || read(dump, bytes, place[1]) != (ssize_t)place[1]) return 2;
        sum += bytes[0];
    }
    printf("%llu\n", (unsigned long long)sum);
    return 0;
}
"""
CALL = re.compile(r"(openat|lseek|read|pread64)\((.*)\)\s+= (\d+)")
WALKED = ("inodes", "pages")
# The members whose offsets `floor.c` takes, in its order: a type and a path of members.
OFFSETS = """list_head next
list_head prev
hlist_node next
hlist_node pprev
super_block s_list
super_block s_inodes
inode i_sb_list
inode i_dentry
dentry d_u.d_alias
inode i_data.i_pages
xarray xa_head
xa_node shift
xa_node offset
xa_node count
xa_node nr_values
xa_node parent
xa_node array
xa_node slots"""
# What a member of such a path is, where it isn't the last one; the members of `d_u` have no type with a name, and begin at byte 0.
INNER = {"i_data": "address_space"}


def places(command, folder, log):
    """The file offset and the length of each read of the dump."""
    subprocess.run(["strace", "-s", "0", "-e", "trace=openat,lseek,read,pread64", "-o", log] + command, cwd=folder, capture_output=True)
    dump, at = None, 0
    for line in open(log):
        call = CALL.match(line)
        if not call:
            continue
        name, words, answer = call.group(1), call.group(2).split(", "), int(call.group(3))
        if name == "openat" and words[1].strip('"') == "vmcore":
            dump = call.group(3)
        elif words[0] == dump and name == "lseek":
            at = answer
        elif words[0] == dump and answer > 0:
            yield (int(words[-1]) if name == "pread64" else at), answer


def offset(kaudit, folder, kind, path):
    """The byte of a member, by `layout`."""
    told = subprocess.run([kaudit, "layout", "btf", kind], cwd=folder, capture_output=True, text=True, check=True).stdout
    name, _, rest = path.partition(".")
    byte = next(int(row.split()[1]) // 8 for row in told.splitlines() if row.split()[-1] == name)
    return byte + offset(kaudit, folder, INNER[name], rest) if name in INNER else byte


def told(notes, key):
    """A value of the dump's note, as it is written."""
    return re.search(rb"\n" + re.escape(key.encode()) + rb"=(-?[0-9a-f]+)", notes).group(1).decode()


def where(folder):
    """The address of the ring of super blocks, and the physical top table, in hex digits."""
    with open(os.path.join(folder, "vmcore"), "rb") as file:
        notes = file.read(1 << 20)
    for row in open(os.path.join(folder, "System.map")):
        if row.split()[2] == "super_blocks":
            start = int(row.split()[0], 16) + int(told(notes, "KERNELOFFSET"), 16)
    table = int(told(notes, "SYMBOL(swapper_pg_dir)"), 16) - 0xFFFFFFFF80000000 + int(told(notes, "NUMBER(phys_base)"))
    return [f"{start:x}", f"{table:x}"]


def compiled(work, name, source):
    """A program in C."""
    program = os.path.join(work, name)
    subprocess.run(["cc", "-O2", "-o", program, source], check=True)
    return program


def reads_alone(kaudit, folder, plan, work, loop):
    """The whole time, its memory, and that of the reads alone."""
    command, listed = [kaudit, "check", *files.NAMES, files.plan_path(folder, plan + ".toml")], os.path.join(work, "places")
    reads = list(places(command, folder, os.path.join(work, "log")))
    with open(listed, "wb") as file:
        for place in reads:
            file.write(struct.pack("<QQ", *place))
    ours, floor = timer.least([command, [loop, "vmcore", listed]], folder, RUNS)
    memory = timer.most_memory(command, folder)
    print(f"{plan}: {ours:.3f} s {memory:.1f} MiB; {len(reads)} reads alone {floor:.3f} s; ratio {ours / floor:.1f}")


def instructions(command, folder, runs=1):
    """How many instructions of its own a command takes, by callgrind; one in C makes as many walks as `runs` says."""
    words = ["valgrind", "--tool=callgrind", "--callgrind-out-file=/dev/null", *command]
    run = subprocess.run(words, cwd=folder, capture_output=True, text=True, env=dict(os.environ, RUNS=str(runs)))
    return int(re.search(r"Collected *: *(\d+)", run.stderr).group(1))


def walk_alone(kaudit, folder, plan, work, walker):
    """The walk beside the same one in C."""
    path = files.plan_path(folder, plan + ".toml")
    text = files.read(path).decode()
    start = os.path.join(work, "start.toml")
    open(start, "w").write(text[: text.index("each =")])
    begin = [kaudit, "check", *files.NAMES]
    where_to = where(folder) + [plan]
    offsets = [str(offset(kaudit, folder, *row.split())) for row in OFFSETS.splitlines()]
    walks = [[walker, "vmcore", *where_to, way, *offsets] for way in ("plain", "taken")]
    whole, before, *floors = timer.measured([[*begin, path], [*begin, start], *walks], folder, RUNS)
    elements = [row.split()[-1] for row in whole[0][1].decode().splitlines()[1:]]
    counted = floors[0][0][1].decode().split()[:3]
    assert elements == counted, (elements, counted)
    all_of_it, start_of_it = map(timer.seconds_of, (whole, before))
    plain, taken = (min(float(run[1].split()[-1]) for run in runs) for runs in floors)
    alone = all_of_it - start_of_it
    print(
        f"{plan}: whole {all_of_it * 1e3:.1f} ms, start {start_of_it * 1e3:.1f} ms, walk {alone * 1e3:.1f} ms; "
        f"in C {plain * 1e3:.1f} ms, and {taken * 1e3:.1f} ms with words taken once; ratios {alone / plain:.1f} and {alone / taken:.1f}"
    )
    whole, before = (instructions(command, folder) for command in ([*begin, path], [*begin, start]))
    plain, taken = ((instructions(walk, folder, 3) - instructions(walk, folder, 1)) / 2e6 for walk in walks)
    alone = (whole - before) / 1e6
    print(
        f"{plan}: million instructions: whole {whole / 1e6:.0f}, start {before / 1e6:.0f}, walk {alone:.0f}; "
        f"in C {plain:.1f}, and {taken:.1f} with words taken once; ratios {alone / plain:.1f} and {alone / taken:.1f}"
    )


def main(words):
    programs, folder, *plans = words
    kaudit = files.program(programs, "kaudit")
    with tempfile.TemporaryDirectory() as work:
        source = os.path.join(work, "loop.c")
        open(source, "w").write(LOOP)
        loop = compiled(work, "loop", source)
        walker = compiled(work, "walker", os.path.join(os.path.dirname(os.path.abspath(__file__)), "floor.c"))
        for plan in plans:
            reads_alone(kaudit, folder, plan, work, loop)
            if plan in WALKED:
                walk_alone(kaudit, folder, plan, work, walker)
