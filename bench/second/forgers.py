"""Forges certificates of a dump, and looks whether `recheck` names the step that was forged.

usage: forgers PROGRAMS FOLDER RUNS PLAN..

The dump has to be clean of each PLAN.toml. The certificate of each plan is written by the second reader (`certificates.py`), compared with what
`certify` prints, and rechecked. Then it is forged RUNS times in ways that are drawn at random: a number left out, doubled, changed by a bit,
exchanged with another, put in place of another, nulled, or at 2^64 - 1; a list's tail dropped, a list emptied, one more, one less, or that of
another step; a step left out, doubled, or exchanged with the next; another audit or another start. A structure has one shape, so the first step
that was changed is the one that doesn't fit. Texts are also cut, and changed at a byte; what they are refused with is said by a reader of its own.
The random numbers are the same in each run. Where FOLDER has `damage.txt`, the certificate of the whole dump is rechecked against each changed one
of these plans, and has to be `no step`.
"""
import os
import random
import shutil
import tempfile
import time

import files
import timer
from plans.reader import TOP
from second import certificates


def parsed(text):
    """The steps of a certificate that is in order."""
    lines, at = text.split("\n"), 1
    steps = []
    for _ in range(int(lines[0].split()[1])):
        _, audit, _, start, _, count = lines[at].split()
        at, lists = at + 1, []
        for _ in range(int(count)):
            size = int(lines[at].split()[1])
            lists.append([int(n, 16) for n in lines[at + 1:at + 1 + size]])
            at += 1 + size
        steps.append((int(audit), int(start, 16), lists))
    return steps


def spelled(steps):
    lines = [f"certificate {len(steps)}"]
    for audit, start, lists in steps:
        lines.append(f"step {audit} start {start:016x} lists {len(lists)}")
        for each in lists:
            lines += [f"list {len(each)}"] + [f"{n:016x}" for n in each]
    return "\n".join(lines) + "\n"


class Stop(Exception):
    """The bytes stop beginning a certificate."""


class Front:
    """How far a text begins some certificate's."""

    def __init__(self, text):
        self.text, self.at = text, 0

    def take(self, wanted):
        for byte in wanted:
            if self.at == len(self.text) or self.text[self.at] != byte:
                raise Stop
            self.at += 1

    def hex16(self):
        for _ in range(16):
            if self.at == len(self.text) or self.text[self.at] not in b"0123456789abcdef":
                raise Stop
            self.at += 1

    def decimal(self, below, end):
        """A decimal number without leading zeros and the byte after it."""
        value, digits = 0, 0
        while self.at < len(self.text):
            byte = self.text[self.at]
            if byte == end and digits:
                self.at += 1
                return value
            if byte not in b"0123456789" or (digits and value == 0) or value * 10 + byte - 48 >= below:
                raise Stop
            value, digits = value * 10 + byte - 48, digits + 1
            self.at += 1
        raise Stop

    def whole(self):
        """The text is a certificate's; `at` is where it stops else."""
        self.take(b"certificate ")
        for _ in range(self.decimal(TOP, 10)):
            self.take(b"step ")
            self.decimal(1 << 32, 32)
            self.take(b"start ")
            self.hex16()
            self.take(b" lists ")
            for _ in range(self.decimal(TOP, 10)):
                self.take(b"list ")
                for _ in range(self.decimal(TOP, 10)):
                    self.hex16()
                    self.take(b"\n")
        if self.at != len(self.text):
            raise Stop


def refusal(text):
    front = Front(text)
    try:
        front.whole()
    except Stop:
        return f"refused cert Z1 at {front.at}\n"
    return None


def forge_numbers(rng, numbers):
    """Another list, or None where this way gives none."""
    way, k, other = rng.randrange(8), rng.randrange(len(numbers)), rng.randrange(len(numbers))
    forged = list(numbers)
    if way == 0:
        del forged[k]
    elif way == 1:
        forged.insert(k, forged[k])
    elif way == 2:
        forged[k] ^= 1 << rng.randrange(64)
    elif way == 3:
        forged[k], forged[other] = forged[other], forged[k]
    elif way == 4:
        forged[k] = forged[other]
    elif way == 5:
        forged[k] = rng.choice((0, TOP - 1))
    elif way == 6:
        del forged[k:]
    else:
        forged = []
    return forged


def forge_lists(rng, steps, k):
    lists = [list(each) for each in steps[k][2]]
    full = [j for j, each in enumerate(lists) if each]
    way = rng.randrange(10)
    if way < 7 and full:
        j = rng.choice(full)
        lists[j] = forge_numbers(rng, lists[j])
    elif way == 7 and lists:
        del lists[rng.randrange(len(lists))]
    elif way == 8:
        lists.append(rng.choice(rng.choice(steps)[2] or [[]]))
    else:
        lists = [list(each) for each in rng.choice(steps)[2]]
    return lists


def forge(rng, steps):
    """Forged steps; None where nothing changed."""
    k, way = rng.randrange(len(steps)), rng.randrange(12)
    forged = list(steps)
    audit, start, _ = steps[k]
    if way < 7:
        forged[k] = audit, start, forge_lists(rng, steps, k)
    elif way == 7:
        forged[k] = rng.choice((audit + 1, rng.randrange(1 << 32))), start, steps[k][2]
    elif way == 8:
        forged[k] = audit, rng.choice((start + 8, start ^ 1 << rng.randrange(64), 0)) % TOP, steps[k][2]
    elif way == 9:
        del forged[k]
    elif way == 10:
        forged.insert(k, forged[k])
    elif k + 1 < len(steps):
        forged[k], forged[k + 1] = forged[k + 1], forged[k]
    return forged


def first_changed(steps, forged):
    """The number of the first step that isn't the one that is asked for, or None."""
    for k, step in enumerate(forged):
        if k == len(steps) or step != steps[k]:
            return k + 1
    return len(forged) + 1 if len(forged) < len(steps) else None


def run(command):
    return timer.run(command)[:3]


def recheck_changed(kaudit, folder, plan, cert, place):
    """How many certificates of the whole dump are taken for a changed one's, and how many changed ones there are."""
    wrong, here = 0, [it for it in files.damages(folder) if it.plan == f"{plan}.toml" and it.status == 1]
    if not here:
        return 0, 0
    copy = os.path.join(place, "vmcore")
    shutil.copy(os.path.join(folder, "vmcore"), copy)
    for damage in here:
        with files.changed(copy, damage):
            status, text, _ = run([kaudit, "recheck", copy, *(os.path.join(folder, it) for it in files.NAMES[1:]), files.plan_path(folder, f"{plan}.toml"), cert])
        print(f"  {damage.title}: {text.decode().strip()}")
        wrong += status != 1 or not text.startswith(b"no step ")
    return wrong, len(here)


def main(words):
    programs, folder, runs, *plans = words
    kaudit = files.program(programs, "kaudit")
    rng, wrong, tried = random.Random(7), 0, 0
    with tempfile.TemporaryDirectory() as place:
        name = os.path.join(place, "cert")
        for plan in plans:
            given = [*(os.path.join(folder, name) for name in files.NAMES), files.plan_path(folder, f"{plan}.toml")]
            begun = time.monotonic()
            status, text, _ = run([kaudit, "certify", *given])
            made = time.monotonic() - begun
            wanted = certificates.certificate(*map(files.read, given))
            steps = parsed(wanted)

            def recheck(text):
                with open(name, "wb") as file:
                    file.write(text)
                return run([kaudit, "recheck", *given, name])

            begun = time.monotonic()
            answer = recheck(wanted.encode())
            print(f"{plan}: {len(steps)} steps, {len(wanted)} bytes, certified in {made:.2f} s, rechecked in {time.monotonic() - begun:.2f} s", flush=True)
            if (status, text) != (0, wanted.encode()) or answer != (0, b"yes\n", b""):
                wrong += 1
                print(f"  differs: certify {status}, recheck {answer}")
            taken, changed = recheck_changed(kaudit, folder, plan, name, place)
            wrong, tried = wrong + taken, tried + changed
            for _ in range(int(runs)):
                if rng.randrange(8):
                    forged = forge(rng, steps)
                    number = first_changed(steps, forged)
                    body = spelled(forged).encode()
                    right = (0, b"yes\n", b"") if number is None else (1, f"no step {number}\n".encode(), b"")
                else:
                    body = bytearray(wanted.encode())
                    at = rng.randrange(len(body))
                    if rng.randrange(2):
                        del body[at:]
                    else:
                        body[at] = rng.choice(b"0123456789abcdef \nsx\0")
                    refused = refusal(bytes(body))
                    if refused is None:
                        number = first_changed(steps, parsed(body.decode()))
                        right = (0, b"yes\n", b"") if number is None else (1, f"no step {number}\n".encode(), b"")
                    else:
                        right = (2, b"", refused.encode())
                found, tried = recheck(bytes(body)), tried + 1
                if found != right:
                    wrong += 1
                    with open(f"forged-{wrong}.cert", "wb") as file:
                        file.write(body)
                    print(f"  {plan}: {found}, wanted {right}, kept as forged-{wrong}.cert")
    print(f"{tried} forged or changed, {wrong} wrong")
    return bool(wrong)
