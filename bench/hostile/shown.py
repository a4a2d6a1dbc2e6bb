"""Makes the damages of shown.txt in a copy of a dump, and says of which kwhy says what it has to.

usage: shown PROGRAMS FOLDER [NAME..]

FOLDER has the dump of Linux 6.1.192 with its plans (README.md); a plan that isn't there is one of the repository's. Of each damage, or of those named, the word
is written into a copy of the dump, `check` writes the report of the plan, and kwhy explains it; the word is put back. The lines that are wanted follow from the
word that stood there before and from the second reader, never from the program. Ends with 1 where a damage isn't told as it has to be.

shown.txt has some lines of its own, and then entries as damage.txt has them (`expected --help`), each with marks in place of a report:

    + LINE         the line stands in the text
    ? PATTERN      a line matches it whole
    - PATTERN      no line matches it whole, but those of `+`
    @ ADDRESS      what comes after this is about what kwhy says of an address

Patterns are regular expressions, in which ` OLD ` and ` NEW ` stand for the two words.
"""
import collections
import os
import re
import sys
import tempfile

import files
import timer
from hostile.oldwords import Trials

HERE = os.path.dirname(os.path.abspath(__file__))
Case = collections.namedtuple("Case", "damage parts")
Part = collections.namedtuple("Part", "address wanted one_of none_of")


def pattern(text, damage):
    """A regular expression with the two words of a damage in it."""
    return re.sub(r"\b(OLD|NEW)\b", lambda found: f"{damage.old if found[0] == 'OLD' else damage.new:016x}", text)


def parts_of(lines, damage):
    """What marks want: of the explained report, and of each address."""
    parts = [Part(None, [], [], [])]
    for line in lines:
        mark, _, text = line.partition(" ")
        if mark == "@":
            parts.append(Part(text, [], [], []))
        elif mark in ("+", "?", "-"):
            parts[-1]["+?-".index(mark) + 1].append(pattern(text, damage))
        else:
            sys.exit(f"shown: a line without a mark: {line}")
    return parts


def cases_of(text):
    """The damages of a text, with what is wanted of each."""
    for entry in text.split("\n## ")[1:]:
        title, head, *lines = entry.rstrip("\n").split("\n")
        found = files.CHANGE.match(head + "\n")
        if found is None:
            sys.exit(f"shown: no damage: {head}")
        damage = files.Damage(title.split(":")[0], title, found[1], *(int(found[k], 16) for k in (2, 3, 4)), int(found[5]), "")
        yield Case(damage, parts_of(lines, damage))


def faults(part, text):
    """What a text lacks that is wanted, and what it has that mustn't be there."""
    lines = text.splitlines()
    for line in part.wanted:
        if line not in lines:
            yield f"lacks: {line}"
    for wanted in part.one_of:
        if not any(re.fullmatch(wanted, line) for line in lines):
            yield f"none is: {wanted}"
    for banned in part.none_of:
        yield from (f"has: {line}" for line in lines if re.fullmatch(banned, line) and line not in part.wanted)


def plan_of(folder, plan):
    """The plan of the folder, or else of the repository."""
    path = files.plan_path(folder, plan)
    return path if os.path.exists(path) else os.path.join(files.TOP, "plans", plan)


def told(trials, case):
    """Under the damage what is wrong with each text."""
    plan, damage = plan_of(trials.folder, case.damage.plan), case.damage
    with files.changed(trials.dump, damage):
        status, report, err, _ = timer.run([trials.kaudit, "check", trials.dump, *trials.beside, plan])
        if status != damage.status:
            return [f"check ends with {status}: {err.decode().strip()}"], ""
        with open(trials.report, "wb") as file:
            file.write(report)
        found, texts = [], []
        for part in case.parts:
            words = [plan, trials.report] if part.address is None else [part.address]
            texts.append(timer.run([trials.kwhy, trials.dump, *trials.beside, *words])[1].decode())
            found += faults(part, texts[-1])
        return found, "".join(texts)


def main(words):
    programs, folder, *names = words
    bad = 0
    with tempfile.TemporaryDirectory() as scratch:
        trials = Trials(programs, os.path.abspath(folder), scratch)
        for case in cases_of(files.read(HERE, "shown.txt").decode("ascii")):
            if names and case.damage.name not in names:
                continue
            found, text = told(trials, case)
            print(f"{case.damage.name:20} {'differs' if found else 'as wanted'}" + "".join(f"\n    {line}" for line in found), flush=True)
            if names:
                print(text, end="")
            bad += bool(found)
    return bad != 0
