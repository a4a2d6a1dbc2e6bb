"""Tries what files and streams of the system can be, and looks at how kaudit ends.

usage: edge PROGRAMS

These are a sparse file of 5 GiB, links, empty files, other than regular files, a full device and a broken pipe.
"""
import os
import shutil
import struct
import subprocess
import tempfile

import files

WORD = b"ffffffff8000b120 000000000000b120 000000000000d120 ffff888000011000\n"
FAILED = (3, b"", b"store failed\n")
FAR = 5 << 30


def main(words):
    kaudit, wrong = files.program(words[0], "kaudit"), 0
    work = tempfile.mkdtemp()
    for name in ("z.core", "z.btf", "z.map", "z.toml"):
        shutil.copy(os.path.join(files.DATA, name), work)

    def run(words, **streams):
        done = subprocess.run([kaudit] + words, cwd=work, stdin=subprocess.DEVNULL, **({"capture_output": True} | streams))
        return done.returncode, done.stdout, done.stderr

    def judge(what, told, wanted):
        nonlocal wrong
        wrong += told != wanted
        print("ok   " if told == wanted else f"WRONG {told} wanted {wanted}", what)

    # The last page of the made dump's memory lies at the end of a file of 5 GiB, in a segment of its own before the others.
    core = bytearray(open(os.path.join(work, "z.core"), "rb").read())
    struct.pack_into("<H", core, 56, 4)
    row = struct.pack("<IIQQQQQQ", 1, 0, FAR, 0, 0xB000, 4096, 4096, 0)
    core[120 + 56 : 120 + 3 * 56] = core[120 : 120 + 2 * 56]
    core[120 : 120 + 56] = row
    with open(os.path.join(work, "far.core"), "wb") as file:
        file.write(core)
        file.seek(FAR)
        file.write(core[0xD000:0xE000])
    far = b"ffffffff8000b120 000000000000b120 %016x ffff888000011000\n" % (FAR + 0x120)
    judge("a word behind 5 GiB", run(["word", "far.core", "1000", "ffffffff8000b120"]), (0, far, b""))

    os.symlink("z.core", os.path.join(work, "link"))
    os.symlink("nowhere", os.path.join(work, "loose"))
    judge("a symbolic link", run(["word", "link", "1000", "ffffffff8000b120"]), (0, WORD, b""))
    judge("a link that leads nowhere", run(["word", "loose", "1000", "ffffffff8000b120"]), FAILED)
    open(os.path.join(work, "empty"), "w").close()
    judge("an empty dump", run(["word", "empty", "1000", "0"]), (2, b"", b"refused dump E1\n"))
    judge("empty types", run(["layout", "empty", "slab"]), (2, b"", b"refused btf B1 at 0\n"))
    judge("an empty plan", run(["check", "z.core", "z.btf", "z.map", "empty"]), (2, b"", b"refused plan P3 key version\n"))
    for name in (".", "/dev/null"):
        judge(f"no regular file: {name}", run(["word", name, "1000", "0"]), FAILED)
    with open("/dev/full", "wb") as full:
        told = run(["word", "z.core", "1000", "ffffffff8000b120"], capture_output=False, stdout=full, stderr=subprocess.PIPE)
        judge("a full device", (told[0], told[2]), (4, b"sink failed\n"))
    reader, writer = os.pipe()
    os.close(reader)
    told = run(["word", "z.core", "1000", "ffffffff8000b120"], capture_output=False, stdout=writer, stderr=subprocess.PIPE)
    judge("a broken pipe", (told[0], told[2]), (4, b"sink failed\n"))
    shutil.rmtree(work)
    print(wrong, "wrong")
    return wrong != 0
