"""Checks plans on filtered copies of a dump, with the tail of a segment absent and with it zero.

usage: filtered PROGRAMS FOLDER PLAN..

A filtered dump leaves pages out: a segment's memory goes on after its bytes in the file (`p_memsz` above `p_filesz`). Where makedumpfile is
installed it writes the copies, by `-E -d 1` (pages of zeros) and `-E -d 31`; a third copy, which needs no program, leaves out the pages of zeros as
the first one does, at file offsets that are no multiple of 8. For each copy and plan the report with `tail = "absent"` and the one with `tail =
"zero"` are compared with that of the whole dump. What differs is printed; a structure with a page of zeros stands on the whole dump and, with the
tail absent, not on a copy without that page, so the zero tail's report must be the whole dump's.
"""
import os
import shutil
import struct
import subprocess
import tempfile

import files
import timer

PAGE = 4096
LOAD = 1
HEADER = struct.Struct("<16sHHIQQQIHHHHHH")
PROGRAM = struct.Struct("<IIQQQQQQ")


def headers(file):
    """The file's header and its program headers."""
    header = HEADER.unpack(file.read(HEADER.size))
    file.seek(header[5])
    return header, [PROGRAM.unpack(file.read(PROGRAM.size)) for _ in range(header[10])]


def pieces(file, program):
    """A segment's pieces: for each, its first byte, how many bytes are kept, and how many pages of zeros come after."""
    kind, flags, offset, virtual, physical, size, memory, align = program
    file.seek(offset)
    done = 0
    first, kept, zeros = 0, 0, 0
    while done < size:
        page = file.read(min(PAGE, size - done))
        whole = len(page) == PAGE and not any(page)
        if not whole and zeros:
            yield first, kept, zeros
            first, kept, zeros = done, 0, 0
        if whole:
            zeros += PAGE
        else:
            kept += len(page)
        done += len(page)
    yield first, kept, zeros


def without_zeros(path, out):
    """Writes a copy without the pages of zeros, each run of which is the tail of the segment before it."""
    with open(path, "rb") as file:
        header, programs = headers(file)
        notes = [p for p in programs if p[0] != LOAD]
        parts = [(p, piece) for p in programs if p[0] == LOAD for piece in pieces(file, p)]
        count = len(notes) + len(parts)
        assert count < 0xFFFF, count
        place = HEADER.size + count * PROGRAM.size
        table, copies = [], []
        for note in notes:
            table.append(note[:2] + (place,) + note[3:])
            copies.append((note[2], note[5]))
            place += note[5]
        place += 0x534 - place % 8
        for (kind, flags, offset, virtual, physical, size, memory, align), (first, kept, zeros) in parts:
            table.append((kind, flags, place, virtual + first, physical + first, kept, kept + zeros, align))
            copies.append((offset + first, kept))
            place += kept
        with open(out, "wb") as copy:
            copy.write(HEADER.pack(*header[:5], HEADER.size, 0, *header[7:10], count, *header[11:]))
            copy.write(b"".join(PROGRAM.pack(*row) for row in table))
            for (offset, size), row in zip(copies, table):
                file.seek(offset)
                copy.seek(row[2])
                while size:
                    some = file.read(min(size, 1 << 20))
                    copy.write(some)
                    size -= len(some)
    return count


def report(kaudit, folder, dump, plan, tail):
    """What `check` answers, with this tail in the plan."""
    text = files.read(files.plan_path(folder, plan + ".toml")).decode()
    with tempfile.NamedTemporaryFile("w", suffix=".toml", encoding="utf-8") as file:
        file.write(f'tail = "{tail}"\n{text}')
        file.flush()
        words = [kaudit, "check", dump, os.path.join(folder, "btf"), os.path.join(folder, "System.map"), file.name]
        status, out, err, _ = timer.run(words)
    return status, out.decode(), err.decode()


def copies(dump, place):
    """The filtered copies, each with what it is called."""
    if shutil.which("makedumpfile"):
        for level in ("1", "31"):
            out = os.path.join(place, f"d{level}")
            subprocess.run(["makedumpfile", "-E", "-d", level, dump, out], check=True, capture_output=True)
            yield f"makedumpfile -E -d {level}", out
            os.unlink(out)
    else:
        print("no makedumpfile here")
    out = os.path.join(place, "zeros")
    count = without_zeros(dump, out)
    yield f"without pages of zeros ({count} program headers, {os.path.getsize(out) >> 20} MiB)", out


def main(words):
    programs, folder, *plans = words
    kaudit = files.program(programs, "kaudit")
    dump = os.path.join(folder, "vmcore")
    whole = {plan: report(kaudit, folder, dump, plan, "absent") for plan in plans}
    wrong = 0
    with tempfile.TemporaryDirectory() as place:
        for name, copy in copies(dump, place):
            same = {"absent": 0, "zero": 0}
            for plan in plans:
                for tail in same:
                    got = report(kaudit, folder, copy, plan, tail)
                    same[tail] += got == whole[plan]
                    if got != whole[plan]:
                        wrong += tail == "zero"
                        print(f"{name}, {plan}, tail {tail}: {got} and not {whole[plan]}")
            print(f"{name}: {len(plans)} plans, as on the whole dump with the tail absent {same['absent']}, zero {same['zero']}")
    return bool(wrong)
