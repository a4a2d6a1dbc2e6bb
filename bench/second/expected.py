"""Compares what the programs print of a real dump with what is wanted, and measures them.

usage: expected words PROGRAMS FOLDER WORDS [TABLE]     `word` at the addresses of WORDS
       expected answers PROGRAMS FOLDER ANSWERS         the commands of ANSWERS
       expected reports PROGRAMS FOLDER PLAN..          `check` with each PLAN.toml, whose report is PLAN.expected, and of each changed word of damage.txt
       expected ready PROGRAMS FOLDER                   `check` with each plan of plans/, whose report is in plans/reports/

What is wanted comes from other readers of the same dump, never from the program. Each command runs five times; the time is the least of them.

WORDS lists addresses in hex as `## ADDRESS`, each followed by the wanted answer: a line `status N`, or N alone, and the printed text. Where a line
`-- from then on: status 0` stands in it, what comes after that counts. What stands before the first address, and lines that begin with one `#`, are
passed over. Words that are found are compared with the raw bytes of the dump too, by `od`. TABLE is `-`, the table that the dump's note names,
unless it is given.

ANSWERS lists the words of commands as `## WORDS`, as `## layout btf list_head`, each followed by the wanted text, of a refusal the line on standard
error, and a line `status N`, which may be left out where N is 0.

damage.txt has some lines of its own, which begin with no `## `, and then entries with an empty line between two: a line `## NAME: WHAT`, a line
`plan P.toml, file offset O, old W, new W, status N`, with numbers in hex and the value of a little-endian word of eight bytes at byte O of vmcore,
before and after, and the wanted report:

    ## super-prev: prev of the fifth super block names the second
    plan inodes.toml, file offset 000000000e782008, old ffff88800485c000, new ffff88800485a800, status 1
    broken
    audit supers
    ..

For `ready` the dump is the one of Linux 6.1.192 from which the guide's examples come. A plan of a later kernel has no report and is left out.
"""
import glob
import os
import re
import sys

import files
import timer


class Judge:
    """How many answers aren't the wanted ones."""

    def __init__(self):
        self.wrong = 0

    def judge(self, what, done, wanted):
        """A status and two texts, against the wanted ones."""
        fine = done[:3] == wanted
        self.wrong += not fine
        print("ok   " if fine else "WRONG", what, flush=True)
        if not fine:
            print(done[0], done[1].decode(), done[2].decode(), "wanted", wanted[0], wanted[1].decode(), wanted[2].decode())

    def measured(self, what, command, folder, wanted):
        """The same of a command, which runs five times."""
        runs = timer.measured([command], folder)[0]
        odd = next((done for done in runs if done[:3] != wanted), runs[0])
        self.judge(f"{what} {timer.seconds_of(runs):.3f} s {timer.most_memory(command, folder):.1f} MiB", odd, wanted)


def texts(path):
    """The words of each entry of a list, and its lines."""
    words, lines = None, []
    for line in open(path, encoding="ascii"):
        if line.startswith("## "):
            if words is not None:
                yield words, lines
            words, lines = line[3:].split(), []
        elif words is not None:
            lines.append(line)
    if words is not None:
        yield words, lines


def of_word(lines):
    """The status and the text that are wanted of an address."""
    text = "".join(line for line in lines if not line.startswith("#")).strip("\n")
    if "-- from then on: status 0" in text:
        text = "status 0\n" + text.split("-- from then on: status 0\n", 1)[1]
    status, _, rest = text.partition("\n")
    number = re.fullmatch(r"(?:status )?(\d+)", status)
    assert number, text
    return int(number[1]), rest.strip("\n").encode() + b"\n"


def raw_word(dump, offset):
    """The eight bytes at a file offset, read little-endian."""
    return timer.run(["od", "-An", "-tx8", "-N8", f"-j{offset}", dump])[1].strip()


def words(judge, kaudit, folder, listed, table="-"):
    dump = os.path.join(folder, "vmcore")
    for (address,), lines in texts(listed):
        status, text = of_word(lines)
        done = timer.run([kaudit, "word", dump, table, address])
        judge.judge(address, done, (status, text, b""))
        if status == 0 and raw_word(dump, int(text.split()[2], 16)) != text.split()[3]:
            judge.judge(f"{address} in the file", done, (0, b"another word\n", b""))


def answers(judge, kaudit, folder, listed):
    for command, lines in texts(listed):
        status = [line for line in lines if line.startswith("status ")]
        number = int(status[0].split()[1]) if status else 0
        text = "".join(lines[: lines.index(status[0])] if status else lines).encode()
        wanted = (number, text, b"") if number in (0, 1) else (number, b"", text)
        judge.measured(" ".join(command), [kaudit, *command], folder, wanted)


def reports(judge, kaudit, folder, *plans):
    folder, dump = os.path.abspath(folder), os.path.join(folder, "vmcore")

    def command(plan):
        return [kaudit, "check", *files.NAMES, files.plan_path(folder, plan)]

    for plan in plans:
        report = files.read(files.plan_path(folder, plan + ".expected"))
        judge.measured(plan, command(plan + ".toml"), folder, (0 if report.startswith(b"clean") else 1, report, b""))
    for damage in files.damages(folder):
        if damage.plan.removesuffix(".toml") in plans:
            with files.changed(dump, damage):
                judge.judge(damage.title, timer.run(command(damage.plan), folder), (damage.status, damage.report.encode(), b""))


def ready(judge, kaudit, folder):
    plans = os.path.join(files.TOP, "plans")
    for plan in sorted(glob.glob(os.path.join(plans, "*.toml"))):
        name = os.path.basename(plan).removesuffix(".toml")
        report = os.path.join(plans, "reports", name + ".txt")
        if os.path.exists(report):
            judge.measured(name, [kaudit, "check", *files.NAMES, plan], folder, (0, files.read(report), b""))
        else:
            print("none ", f"{name} is of another kernel")


def main(asked):
    how, programs, folder, *rest = asked
    if how not in ("words", "answers", "reports", "ready"):
        sys.exit(__doc__)
    judge = Judge()
    globals()[how](judge, files.program(programs, "kaudit"), folder, *rest)
    print(judge.wrong, "wrong")
    return judge.wrong != 0
