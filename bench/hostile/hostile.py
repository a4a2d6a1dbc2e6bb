"""Tries kaudit, kmatch and kwhy on random and on damaged files, for as long as one likes, and looks at how each run ends.

usage: hostile PROGRAMS [--runs N] [--jobs N] [--seed N] [--why SHARE] [--seconds N] [--keep FOLDER]

as `hostile - --runs 200000 --jobs 4 --keep found`. Each run is a small kernel made at random (`made.py`), of which words, bits, headers, page
tables, types, rows or the plan are changed, or files of bytes that follow no grammar. kwhy has SHARE of the runs, else 0.3; with 0 it is left out.
It is asked for an address, `refs`, or the report that kaudit prints of the same files, whole or damaged. A run is under a limit of 512 MiB and of
ten seconds on the clock, or --seconds where the machine has other work, and has to end

- with a status from 0 to 6, never by a signal, and never with 4 or 5, nor 3 but for a name that no file has;
- with one line or usage on standard error and nothing on standard output, or the other way round;
- with a report in its one spelling, each of whose places stands in the dump: its word at its file offset, the offset that of its
  physical address, and the address led there by the page tables, each read by plans/reader.py, which shares no code with kaudit;
- where the second reader (`verdict.py`) reads the files too, with the same status and the same texts.

Of kwhy the places are those of the lines `place`, `slot`, `by`, `entry`, `alias`, `near`, `repair`, `fits`, `word` and `then`: each stands in the dump as it is printed,
but for NEW, which is another number, and with which, of a chain with all, the second reader finds the root audit clean, with as many elements. Of an
address and of `refs` the text is that of `why`, where it can read the files. A report that `check` refuses to print is refused by the same line, and one that it printed isn't, but where it was
damaged since.

A run that ends otherwise is printed, and its files are kept in FOLDER. It prints how many runs ended how, also where it is stopped by Ctrl-C or
SIGTERM before all are done. With TMPDIR in memory (/dev/shm) it is three times as fast as on a disk.
"""
import argparse
import collections
import multiprocessing
import os
import random
import re
import resource
import signal
import subprocess
import sys
import tempfile

import files
from hostile.damage import BTF, NAMES, PATHS, PIDS, STRUCTS, WHOLE, damage_bytes, damage_head, damage_rows, damage_tables, damage_words, shuffled, some_plan
from plans import reader
from plans.reader import TOP
from second import made, suspects, verdict, why

LINE = re.compile(r"refused [a-z]+( .*)?\n|store failed\n|sink failed\n|memory refused\n|(usage: .*\n)+")
WHOLE_TEXT = r"clean\n(audit [\w-]{1,64} walks (0|[1-9]\d*) elements (0|[1-9]\d*)\n)*"
WORDS = r"(place (-|[0-9a-f]{16}) [0-9a-f]{16} ([0-9a-f]{16}|tail) [0-9a-f]{16}\n)*"
RULE = r"rule ([A-Z][1-9]?)\nat [0-9a-f]{16}\n"
STOP = r"(stop [0-5] [0-9a-f]{16}\n)?"
BROKEN_TEXT = r"broken\naudit [\w-]{1,64}\nstart [0-9a-f]{16}\n" + RULE + r"expected (none|[0-9a-f]{16})\n" + STOP + WORDS
ROOTS = r"roots (0|[1-9]\d{0,2})\n"
CLEAN = re.compile(f"{WHOLE_TEXT}|{ROOTS}(root [\\w-]{{1,64}} {WHOLE_TEXT})*", re.A)
BROKEN = re.compile(f"{BROKEN_TEXT}|{ROOTS}(root [\\w-]{{1,64}} ({WHOLE_TEXT}|{BROKEN_TEXT}))*", re.A)
STOPPED = re.compile(r"broken\n" + RULE + STOP + WORDS)
FOUND = re.compile(r"[0-9a-f]{16} [0-9a-f]{16} [0-9a-f]{16} [0-9a-f]{16}\n")
SHOWN = re.compile(r"value -?(0|[1-9]\d*)\n(place [0-9a-f]{16} [0-9a-f]{16} [0-9a-f]{16} [0-9a-f]{16}\n){1,2}")
LAYOUT = re.compile(r"(struct|union) \S* size (0|[1-9]\d*)\n(member \d+ (\d+|-) \S+\n)*")
MATCHED = re.compile(r"(?s).*types (same|unknown|differ at (0|[1-9]\d*))\nsame (0|[1-9]\d*) differ (0|[1-9]\d*) unknown (0|[1-9]\d*)\n")
HEX = "[0-9a-f]{16}"
CHANGED = f"{HEX} {HEX} {HEX} {HEX} {HEX}"
# What a line of kwhy may be, by its first word.
WHY = {
    "address": HEX, "entry": f"[1-5] {HEX} {HEX} {HEX}", "page": "4096|2097152|1073741824", "place": f"(-|{HEX}) {HEX} ({HEX}|tail) {HEX}",
    "stopped": f"M[1-6] [0-5] {HEX}", "alias": HEX, "near": f"{HEX} ({HEX} .+|stopped M[1-6] [0-5] {HEX})", "span": f"{HEX} {HEX}",
    "words": r"0|[1-9]\d*", "repair": rf"{CHANGED}|none of (the first 4096|\d+) tried", "then": f"{CHANGED} [A-Z][1-9]? {HEX}", "clean": "",
    "rule": "[A-Z][1-9]? .+", "expected": rf"{HEX} found {HEX} bits \d+", "fits": CHANGED, "chain": "[2-8]", "word": CHANGED, "says": ".+", "slabs": ".+",
    "by": rf"{HEX} {HEX} ({HEX}|tail) {HEX} \S+", "slot": rf"{HEX} {HEX} ({HEX}|tail) {HEX}", "twice": HEX, "deleted": HEX, "beside": HEX, "copy": f"of {HEX}", "stand": r"[12] of [1-9]\d* tried", "elements": r"0|[1-9]\d*", "leads": ".+",
    "flags": rf"{HEX} count -?\d+( mapcount \d+)?", "mapping": rf"{HEX} index \d+", "anonymous": rf"{HEX} index \d+", "movable": HEX, "ksm": HEX,
    "free": r"order \d+ page \d+( zone .*)?", "covers": r"page|(\d+ before and )?(object|byte \d+ to \d+ of \d+)( and \d+ after)?", "task": r"\d+ .*", "names": ".*",
}
NAMED = ("symbol", "module", "percpu", "stack", "descriptor", "cache", "held", "slab", "object", "pad", "past", "before", "encoded", "unread", "root", "audit", "list", "element")
FORMS = {"check": (CLEAN, BROKEN), "word": (FOUND, STOPPED), "show": (SHOWN, STOPPED), "layout": (LAYOUT, None), "kmatch": (MATCHED, MATCHED), "kwhy": (None, None), "selftest": (CLEAN, BROKEN)}


# One run.


class Case:
    """The files and the words of one run, by its number."""

    def __init__(self, seed, btf, why=0):
        rng = self.rng = random.Random(seed)
        kernel = made.Made(rng)
        has_pids = rng.random() < 0.7
        self.types = made.with_pids(btf) if has_pids else btf
        self.files = {"z.core": bytearray(kernel.core()), "z.btf": bytearray(self.types), "z.map": bytearray(made.MAP),
                      "z.toml": bytearray(shuffled(rng, WHOLE + PIDS if has_pids else WHOLE))}
        self.plan_kept = True
        how = rng.random()
        if how < 0.45:
            damage_words(rng, self.files["z.core"])
        elif how < 0.55:
            damage_tables(rng, self.files["z.core"])
        elif how < 0.62:
            damage_head(rng, self.files["z.core"])
        elif how < 0.66:
            damage_bytes(rng, self.files["z.core"])
        elif how < 0.74:
            damage_bytes(rng, self.files["z.btf"])
        elif how < 0.79:
            damage_rows(rng, self.files["z.map"])
        elif how < 0.90:
            self.files["z.toml"] = bytearray(some_plan(rng))
        elif how < 0.95:
            self.files["z.toml"] = bytearray(some_plan(rng))
            damage_bytes(rng, self.files["z.toml"])
            self.plan_kept = False
        elif how < 0.97:
            name = rng.choice(list(self.files))
            self.files[name] = bytearray(rng.randbytes(rng.randrange(3000)))
            self.plan_kept = name != "z.toml"
        if rng.random() < 0.1:
            damage_tables(rng, self.files["z.core"]) if len(self.files["z.core"]) > 0x10000 else None
        self.plain = True  # the words are a command, and name the files that are there
        self.words = self.why_words() if why and rng.random() < why else self.some_words()

    def some_words(self):
        rng, how = self.rng, self.rng.random()
        if how < 0.70:
            return ["check", *self.files]
        if how < 0.80:
            return ["word", "z.core", rng.choice(("1000", "1000", "-", "2000", "0", "ffffffffff000", "zz")), self.some_address()]
        if how < 0.90:
            return ["show", "z.core", "z.btf", "z.map", rng.choice(NAMES), rng.choice(STRUCTS), rng.choice(PATHS)]
        if how < 0.94:
            return ["layout", "z.btf", rng.choice(STRUCTS)]
        if how < 0.98:
            return ["kmatch", "z.core", "z.btf", "z.map"]
        return [rng.choice(("check", "word", "", "help", "layout", "selftest", "--")), *[rng.choice(("z.core", "z.btf", "", "x" * 300))] * rng.randrange(7)]

    def why_words(self):
        """A command of kwhy."""
        rng, how, files = self.rng, self.rng.random(), ["z.core", "z.btf", "z.map"]
        if how < 0.35:
            return ["kwhy", *files, rng.choice((self.some_address(), self.some_value()))]
        if how < 0.55:
            return ["kwhy", *files, "refs", rng.choice((self.some_address(), self.some_value(), self.some_value()))]
        if how < 0.97:
            return ["kwhy", *self.files, "z.report"]
        self.plain = False
        return ["kwhy", *(rng.choice((*self.files, "refs", "zz", "", "0", "x" * 300)) for _ in range(rng.randrange(8)))]

    def some_value(self):
        """A word that the dump holds, mostly, or its number's neighbour."""
        words = memoryview(bytes(self.files["z.core"][0x2000:])[: max(len(self.files["z.core"]) - 0x2000, 0) // 8 * 8]).cast("Q")
        word = self.rng.choice([word for word in words if word] or [0])
        return f"{(word + self.rng.choice((0, 0, 0, 8, -8, 1))) % TOP:x}"

    def add_report(self, out):
        """The report that `check` printed, mostly whole."""
        report, how = bytearray(out), self.rng.random()
        if how < 0.15:
            damage_bytes(self.rng, report)
        elif how < 0.18:
            report = bytearray(self.rng.randbytes(self.rng.randrange(2000)))
        self.report_kept = report == out
        self.files["z.report"] = report

    def some_address(self):
        rng = self.rng
        base = rng.choice((made.IMAGE, made.DIRECT, made.VMEMMAP, 0, TOP - 4096, 1 << 47, rng.randrange(TOP)))
        return f"{(base + rng.choice((0xB120, rng.randrange(0x90000), 8 * rng.randrange(0x12000)))) % TOP:x}"


def spoken(case, status, out, err):
    """What is wrong with how a run ended, by its texts alone."""
    name = case.words[0]
    named = case.plain and name == "kwhy" or set(case.words[1:]) <= set(case.files)
    missing = status == 3 and not named and err == "store failed\n" and not out
    if not 0 <= status <= 6 or status in (3, 4, 5) and not missing:
        return f"status {status}"
    if name == "kwhy" and status == 0:
        return None if not err and is_why(out) else "texts of an answer"
    if status in (0, 1):
        form = FORMS[name][status]
        if err or form is None or not form.fullmatch(out):
            return "texts of an answer"
        return None
    if out or not LINE.fullmatch(err) or err.startswith("usage") != (status == 6):
        return "texts of a refusal"
    return None


def is_why(out):
    """Whether a text is made of lines that kwhy may print."""
    if not out.endswith("\n") or not re.fullmatch(r"[\n -~]*", out):
        return False
    for line in out[:-1].split("\n"):
        name, _, rest = line.partition(" ")
        if not (name in NAMED and rest or name in WHY and re.fullmatch(WHY[name], rest, re.A)):
            return False
    return True


def seen(memory, va):
    """What kwhy prints of a word that is there, or of what stops its reading."""
    try:
        return "%016x" % memory.place(va)[3]
    except reader.Broken as found:
        return "stopped %s %x %016x" % (found.rule, *(found.stop or (0, 0)))


def placed_why(case, out):
    """What is wrong with the words that kwhy prints."""
    core = reader.Core(bytes(case.files["z.core"]))
    core.zero = is_zero(case)
    info = reader.Info(core)
    memory, pa, refs = reader.Memory(core, info.table, info.levels, info.mask), None, "refs" in case.words
    for line in out.splitlines():
        name, *words = line.split()
        if name == "near" and not " ".join(words[1:]).startswith(seen(memory, int(words[0], 16))):
            return "a word beside the address isn't in the dump"
        if name == "alias" and memory.place(int(words[0], 16))[1] != pa:
            return "an alias leads elsewhere"
        if name == "entry":
            words = ["-", *words[1:]]
        if name not in ("place", "slot", "by", "entry", "repair", "fits", "word", "then") or words[0] == "none":
            continue
        va, (pa, word), origin = words[0], (int(words[k], 16) for k in (1, 3)), "tail" if words[2] == "tail" else int(words[2], 16)
        if refs:
            inside = any(start <= pa and pa + 8 <= start + size and offset + pa - start == origin for offset, start, size in core.loads)
            if pa % 8 or not inside or reader.u64(core.data, origin) != word:
                return "a word of refs isn't in the dump"
        elif core.origin(pa) != origin or core.word(pa) != word:
            return "a place isn't in the dump"
        if va != "-" and name != "word" and memory.place(int(va, 16)) != (int(va, 16), pa, origin, word):
            return "an address doesn't lead to its place"
        if name in ("repair", "fits", "word", "then") and int(words[4], 16) == word:
            return "a repair changes nothing"
    return repaired(case, out)


def repaired(case, out):
    """Whether each root audit stands with the words that are said to repair it."""
    for part in re.split(r"^(?=root )", out, flags=re.M):
        words = re.findall(rf"^(?:repair|fits|word) {HEX} {HEX} ({HEX}) {HEX} ({HEX})$", part, re.M)
        if not words:
            continue
        f = {name: bytes(data) for name, data in case.files.items()}
        causes = suspects.Causes(case.files["z.core"][:], f["z.btf"], f["z.map"], f["z.toml"])
        for offset, new in words:
            causes.put(int(offset, 16), int(new, 16))
        root, audit = (causes.numbers[re.search(rf"^{name} (\S+)$", part, re.M)[1]] for name in ("root", "audit"))
        if causes.judge(root) is not None:
            return "a repair leaves the audit broken"
        if causes.elements(root, causes.audits[audit], []) not in part:
            return "another number of elements"
    return None


def why_compared(case, status, out, err, check):
    """What the second readers tell otherwise of kwhy's answer; and whether they were asked."""
    f, words = {name: bytes(data) for name, data in case.files.items()}, case.words
    if not case.plain:
        return None, False
    if "z.report" in words:
        if check[0] == 2:
            return (None if (status, err) == (2, check[2]) else f"report: check has {check}"), True
        if case.report_kept:
            return (None if status == 0 and (out == "clean\n") == (check[0] == 0) else "report: an answer is due"), True
        return (None if status == 2 and err.startswith("refused report ") else "report: a refusal is due"), True
    try:
        core = reader.Core(f["z.core"])
        reader.Info(core), reader.Types(f["z.btf"]), reader.symbols(f["z.map"])
    except reader.Refused as fault:
        return (None if (status, err) == (2, f"refused {fault}\n") else f"kwhy: the second reader refuses {fault}"), True
    if not re.fullmatch("(0x)?[0-9a-fA-F]{1,16}", words[-1]):
        return (None if status == 6 else "kwhy: usage is due"), True
    if status != 0:
        return "kwhy: the second reader refuses nothing", True
    try:
        sights, at = why.Sights(f["z.core"], f["z.btf"], f["z.map"]), int(words[-1], 16)
        told = sights.refs(at) if "refs" in words else sights.text(at)
    except Exception:  # it reads kernels that are whole
        return None, False
    return (None if told == out else f"kwhy: the second reader has {told!r}"), True


def placed(case, out):
    """What is wrong with the places that are printed."""
    core = reader.Core(bytes(case.files["z.core"]))
    core.zero = is_zero(case)
    if case.words[0] == "word" and case.words[2] != "-":
        memory = reader.Memory(core, int(case.words[2], 16), 4, 0)
    else:
        info = reader.Info(core)
        memory = reader.Memory(core, info.table, info.levels, info.mask)
    for line in out.splitlines():
        if line.startswith("place "):
            va, pa, offset, word = line.split()[1:]
            pa, word, origin = int(pa, 16), int(word, 16), "tail" if offset == "tail" else int(offset, 16)
            if core.origin(pa) != origin or core.word(pa) != word:
                return "a place isn't in the dump"
            if va != "-" and memory.place(int(va, 16)) != (int(va, 16), pa, origin, word):
                return "an address doesn't lead to its place"
    return None


def is_zero(case):
    """Whether the plan says that tails read as zero."""
    return (case.words[0] == "check" or "z.report" in case.words) and b'tail = "zero"' in bytes(case.files["z.toml"])


def compared(case, status, out, err):
    """What the second reader tells otherwise; and whether it was asked."""
    f, words = {name: bytes(data) for name, data in case.files.items()}, case.words
    if words[0] == "word" and len(words) == 4 and re.fullmatch("[0-9a-f]+", words[2]):
        if int(words[2], 16) % 4096 or int(words[2], 16) >= 1 << 52:
            return None, False
        return (None if verdict.word(f["z.core"], int(words[2], 16), int(words[3], 16)) == (status, out, err) else "word"), True
    if words != ["check", *case.files]:
        return None, False
    told = verdict.verdict(f["z.core"], f["z.btf"], f["z.map"], f["z.toml"])
    if err.startswith("refused plan") and (told[0] == 2 and told[2] == "refused plan\n" or not case.plan_kept or f["z.btf"] != case.types):
        return None, False
    if err.startswith("refused plan") and case.files["z.map"] != made.MAP:
        return None, False
    return (None if told == (status, out, err) else f"check: the second reader has {told}"), True


def write(folder, files):
    for name, data in files.items():
        with open(os.path.join(folder, name), "wb") as file:
            file.write(data)


def ran(command, folder, seconds):
    done = subprocess.run(command, cwd=folder, stdin=subprocess.DEVNULL, capture_output=True, timeout=seconds, close_fds=False)
    return done.returncode, done.stdout.decode(), done.stderr.decode()


def one(seed, programs, folder, why, seconds):
    """Runs one case. What is wrong with it, how it ended, and whether the second reader was asked."""
    case, check = Case(seed, BTF, why), None
    write(folder, case.files)
    program, words = (programs[case.words[0]], case.words[1:]) if case.words[0] in ("kmatch", "kwhy") else (programs["kaudit"], case.words)
    try:
        if "z.report" in words:
            check = ran([programs["kaudit"], "check", *case.files], folder, seconds)
            case.add_report(check[1].encode())
            write(folder, case.files)
        status, out, err = ran([program] + words, folder, seconds)
    except subprocess.TimeoutExpired:
        return case, f"no end within {seconds} seconds\n  words {case.words}", None, False
    wrong, asked = spoken(case, status, out, err), False
    try:
        if not wrong and status in (0, 1) and case.words[0] in ("check", "word", "show"):
            wrong = placed(case, out)
        if not wrong and status == 0 and case.words[0] == "kwhy":
            wrong = placed_why(case, out)
        if not wrong:
            wrong, asked = why_compared(case, status, out, err, check) if case.words[0] == "kwhy" else compared(case, status, out, err)
    except Exception as fault:  # the second reader must read what kaudit reads
        wrong = f"the second reader fails: {fault!r}"
    if wrong:
        wrong += f"\n  words {case.words}\n  status {status}\n  out {out!r}\n  err {err!r}"
    return case, wrong, (form_of(case), status, rule_of(status, out, err)), asked


def form_of(case):
    """The command of a run, of kwhy with its form."""
    if case.words[0] != "kwhy":
        return case.words[0] if case.words[0] in FORMS else "other words"
    return "kwhy " + ("other words" if not case.plain else "report" if "z.report" in case.words else "refs" if "refs" in case.words else "address")


def rule_of(status, out, err):
    found = re.search(r"^rule (\S+)", out, re.M)
    return found[1] if found else " ".join(err.split()[1:3]) if status == 2 else ""


def work(task):
    first, count, programs, keep, why, seconds = task
    resource.setrlimit(resource.RLIMIT_AS, (512 << 20, 512 << 20))
    ends, faults, asked = collections.Counter(), 0, 0
    with tempfile.TemporaryDirectory() as folder:
        for seed in range(first, first + count):
            case, wrong, end, compared_too = one(seed, programs, folder, why, seconds)
            ends[end] += 1
            asked += compared_too
            if wrong:
                faults += 1
                print(f"WRONG run {seed}: {wrong}", flush=True)
                if keep:
                    os.makedirs(os.path.join(keep, str(seed)), exist_ok=True)
                    write(os.path.join(keep, str(seed)), case.files)
    return ends, faults, asked


def leave_signals():
    """Ctrl-C is the parent's to answer, which ends its children by SIGTERM."""
    signal.signal(signal.SIGINT, signal.SIG_IGN)
    signal.signal(signal.SIGTERM, signal.SIG_DFL)


def asked_for(words):
    """The options."""
    found, words = words, argparse.ArgumentParser(prog="hostile")
    words.add_argument("programs")
    words.add_argument("--runs", type=int, default=20000)
    words.add_argument("--jobs", type=int, default=2)
    words.add_argument("--seed", type=int, default=1)
    words.add_argument("--why", type=float, default=0.3)
    words.add_argument("--seconds", type=int, default=10)
    words.add_argument("--keep")
    return words.parse_args(found)


def main(words):
    asks = asked_for(words)
    programs = {name: files.program(asks.programs, name) for name in ("kaudit", "kmatch", *(["kwhy"] if asks.why else []))}
    step = 50
    tasks = [(asks.seed + k, min(step, asks.runs - k), programs, asks.keep, asks.why, asks.seconds) for k in range(0, asks.runs, step)]
    ends, faults, asked = collections.Counter(), 0, 0
    signal.signal(signal.SIGTERM, signal.default_int_handler)
    try:
        with multiprocessing.Pool(asks.jobs, initializer=leave_signals) as pool:
            for told in pool.imap_unordered(work, tasks):
                ends, faults, asked = ends + told[0], faults + told[1], asked + told[2]
                print(f"{ends.total()} runs, {faults} wrong", end="\r", file=sys.stderr)
    except KeyboardInterrupt:
        print("stopped before the end", file=sys.stderr)
    for (name, status, rule), count in sorted(ends.items()):
        print(f"{count:8} {name} status {status} {rule}")
    print(f"{ends.total()} runs, {asked} of them answered by the second reader too, {faults} wrong")
    return faults != 0
