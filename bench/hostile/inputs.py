"""Tries ktriage on bad inputs over the real programs: files that are missing, cut, foreign or closed, full devices, wrong words.

usage: inputs PROGRAMS FOLDER

Each row of inputs.txt has the status that ktriage has to end with, what the one line on its standard error has, and its words. Standard output has to
be empty, and no file may be new or changed. A file that this machine can't make (without root, makedumpfile or a full file system) is passed over.
FOLDER has vmcore, btf and System.map. Where root runs it, ktriage runs as another user, who has to be able to read PROGRAMS, FOLDER and this repository.
"""
import gzip
import lzma
import os
import shutil
import struct
import subprocess
import tempfile

import files

NOBODY = 65534


def changed(data, *changes):
    """Bytes, some of them put in at a place."""
    data = bytearray(data)
    for place, new in changes:
        data[place:place + len(new)] = new
    return bytes(data)


def headers(core):
    """The first bytes of a core, up to its first segment of memory: headers and notes."""
    table, count = struct.unpack_from("<Q", core, 32)[0], struct.unpack_from("<H", core, 56)[0]
    rows = [struct.unpack_from("<IIQQQQQQ", core, table + 56 * number) for number in range(count)]
    return core[:min(row[2] for row in rows if row[0] == 1)]


def made(folder):
    """The files of one state or another, by name, made of the first bytes of a sound dump and its files."""
    core, types, symbols = files.opened(folder, "vmcore"), files.read(folder, "btf"), files.read(folder, "System.map")
    head = headers(core)
    release = head.index(b"OSRELEASE=") + 10
    yield from {"empty": b"", "text": b"hello, world\n" * 9, "packed.gz": gzip.compress(head), "packed.xz": lzma.compress(head), "short": head[:60],
                "arm": changed(head, (18, b"\xb7")), "program": changed(head, (16, b"\x03")), "cut": core[:len(head) + 4096],
                "nonote": core[:].replace(b"VMCOREINFO", b"VMCOREINFX"), "cut.types": types[:len(types) // 2],
                "old": changed(core, (release, b"5.10.0\n")), "stub": b"ffffffffffffffff B The real System.map is in another package\n",
                "other.map": symbols.replace(b" D init_uts_ns\n", b" D init_uts_nt\n").replace(b"0 D ", b"8 D "), "diskdump": b"DISKDUMP" + bytes(8192),
                "dumplike": b"KDUMP   " + bytes(2000)}.items()


def compressed(work, dump):
    """The files made of a compressed dump, where makedumpfile is here."""
    if not shutil.which("makedumpfile"):
        return
    whole = os.path.join(work, "whole")
    subprocess.run(["makedumpfile", "-c", "-d", "31", dump, whole], check=True, capture_output=True)
    data = files.read(whole)
    blocks = struct.unpack_from("<I", data, 428)[0]
    descriptors = 4096 * (1 + struct.unpack_from("<I", data, 432)[0] + struct.unpack_from("<I", data, 436)[0])
    first = struct.unpack_from("<Q", data, descriptors)[0]
    yield "bitmaps", data[:4096 * 2]
    yield "badpage", changed(data, *((struct.unpack_from("<Q", data, descriptors + 24 * page)[0], b"\xff" * 8) for page in range(2000) if first and blocks))
    yield "split", changed(data, (4096 + 12, struct.pack("<I", 1)))
    yield "flatcut", b"makedumpfile\0\0\0\0" + struct.pack(">QQ", 1, 1) + bytes(4096 - 32) + struct.pack(">QQ", 0, 64) + bytes(20)


def prepare(work, folder):
    """Makes the files. Says which rows can't be tried: the names that aren't there."""
    root = os.getuid() == 0
    for name, data in [*made(folder), *compressed(work, os.path.join(folder, "vmcore"))]:
        with open(os.path.join(work, name), "wb") as file:
            file.write(data)
    for name in ("folder", "plans", "behind", "closed", "full"):
        os.mkdir(os.path.join(work, name))
    for name, text in (("kernels.txt", "all.toml 6.0 - -\n"), ("all.toml", "version = \n[[audit]]\nname = \"x\"\n")):
        with open(os.path.join(work, "plans", name), "w") as file:
            file.write(text)
    os.mkfifo(os.path.join(work, "pipe"))
    os.symlink("nowhere", os.path.join(work, "loose"))
    for name in ("secret", "behind/vmcore"):
        shutil.copy(os.path.join(work, "text"), os.path.join(work, name))
    subprocess.run(["chmod", "-R", "a+rwX", work], check=True)
    for name, mode in (("secret", 0), ("behind", 0o700 if root else 0), ("closed", 0o555)):
        os.chmod(os.path.join(work, name), mode)
    full = root and subprocess.run(["mount", "-t", "tmpfs", "-o", "size=16k,mode=777", "none", os.path.join(work, "full")], capture_output=True).returncode == 0
    missing = set() if full else {"full/one.html", "full/kept"}
    return missing | {name for name in ("bitmaps", "badpage", "split", "flatcut") if not os.path.exists(os.path.join(work, name))}


def rows():
    with open(os.path.join(os.path.dirname(os.path.abspath(__file__)), "inputs.txt")) as file:
        for line in file:
            if line.strip() and line[0] != "#":
                status, told, words = (part.strip() for part in line.split(" | "))
                yield int(status), told, words.split()


def listed(work):
    """Every file below a folder, with its size and the time of its last change."""
    state = {os.path.join(folder, name): os.lstat(os.path.join(folder, name)) for folder, _, names in os.walk(work) for name in names}
    return {path: (file.st_size, file.st_mtime_ns) for path, file in state.items()}


def run(work, words):
    """How ktriage ends."""
    out = subprocess.PIPE
    if ">" in words:
        words, to = words[:words.index(">")], words[-1]
        reader, writer = os.pipe()
        os.close(reader)
        out = writer if to == "closed" else open(to, "wb")
    user = {"user": NOBODY, "group": NOBODY, "extra_groups": []} if os.getuid() == 0 else {}
    done = subprocess.run([os.path.join(files.TOP, "tools", "ktriage"), *words], cwd=work, stdin=subprocess.DEVNULL, stdout=out, stderr=subprocess.PIPE,
                          text=True, env={**os.environ, "TMPDIR": os.path.join(work, "tmp")}, **user)
    return done.returncode, done.stdout or "", done.stderr


def main(words):
    programs, folder = words[0], os.path.realpath(words[1])
    work, wrong, passed = tempfile.mkdtemp(), 0, 0
    os.chmod(work, 0o755)
    place = {f"${name}": os.path.join(folder, file) for name, file in (("types", "btf"), ("map", "System.map"), ("dump", "vmcore"))}
    missing = prepare(work, folder)
    os.mkdir(os.path.join(work, "tmp"), 0o777)
    os.chmod(os.path.join(work, "tmp"), 0o777)
    where = [] if programs == "-" else ["--programs", os.path.abspath(programs)]
    try:
        for status, told, row in rows():
            if missing & set(row):
                passed += 1
                continue
            before, row = listed(work), [place.get(word, word.replace("%", "\n")) for word in row]
            for name, path in place.items():
                told = told.replace(name, path)
            got = run(work, where + row if "--programs" not in row else row)
            good = got[:2] == (status, "") and got[2].count("\n") == 1 and got[2].startswith("ktriage: ") and told in got[2] and listed(work) == before
            wrong += not good
            print("ok   " if good else "WRONG", status, told, "" if good else f": {str(got)[:400]} new {sorted(set(listed(work)) - set(before))}")
    finally:
        subprocess.run(["umount", os.path.join(work, "full")], capture_output=True)
        shutil.rmtree(work)
    print(wrong, "wrong,", passed, "passed over")
    return wrong != 0
