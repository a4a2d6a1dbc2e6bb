"""Runs the commands that the documents print, and compares what they print with what the documents say.

usage: commands PROGRAMS FOLDER [--slow] [DOCUMENT..]

Without a DOCUMENT these are README.md, docs/guide.md, docs/reference.md and the man pages of docs/. FOLDER has vmcore, btf, System.map and
ext4.btf, of the dump from which the examples come.

Each document has a folder of its own: `vmcore` by a link, copies of the other files of FOLDER; `plans`, a copy of plans/; `data`, a copy of the made
dump; and `bad`, a copy of vmcore in which the word at byte 0xe782008 is ffff88800485a800. All its blocks run in one bash, in their order. The word
behind a fence says what a block is:

    console     a session: after `$ ` a command, after `> ` its next lines, and then what it prints, exactly; a line `..` stands for any lines
    sh          a script, which has to end with status 0
    toml NAME   the lines of a file
    sh slow     a script that runs only with --slow, at the top of a clean clone: it takes minutes to hours
    text        isn't run

A man page has sessions between .EX and .EE, and `man --warnings` has to be silent about it. A command in running text isn't read.
"""
import glob
import os
import re
import shutil
import subprocess
import sys
import tempfile

import files

DOCUMENTS = ("README.md", "docs/guide.md", "docs/reference.md")
FENCE = re.compile(r"^( *)```(.*)$")
CHANGED = 0xE782008, 0xFFFF88800485A800
GIVEN = (*files.NAMES, "ext4.btf")
ESCAPES = (("\\-", "-"), ("\\(aq", "'"), ("\\(dq", '"'), ("\\e", "\\"), ("\\\\", "\\"), ("\\&", ""))
# Of one document on a busy machine, in seconds.
MOST = 1200


class Block:
    """A block of a document: where it begins, what it is, and its lines."""

    def __init__(self, line, word, lines):
        self.line, self.word, self.lines = line, word, lines

    def steps(self):
        """What is to be done: a line's number, a command or None, and what it has to print, or None."""
        if self.word != "console":
            yield self.line, "\n".join(self.lines), None
            return
        at = 0
        while at < len(self.lines):
            first, command = at, self.lines[at].removeprefix("$ ")
            assert self.lines[at].startswith("$ "), f"line {self.line + at + 1}: a session begins with `$ `"
            at += 1
            while at < len(self.lines) and self.lines[at].startswith("> "):
                command, at = command + "\n" + self.lines[at][2:], at + 1
            begin = at
            while at < len(self.lines) and not self.lines[at].startswith("$ "):
                at += 1
            yield self.line + first + 1, command, self.lines[begin:at]


def fenced(text):
    """The blocks of a document in Markdown."""
    block, indent = None, ""
    for number, line in enumerate(text.split("\n"), 1):
        fence = FENCE.match(line)
        if fence and block is None:
            indent, block = fence[1], Block(number, fence[2].strip(), [])
        elif fence:
            yield block
            block = None
        elif block is not None:
            block.lines.append(line.removeprefix(indent))


def examples(text):
    """The blocks of a man page."""
    block = None
    for number, line in enumerate(text.split("\n"), 1):
        if line.startswith(".EX"):
            block = Block(number, "console", [])
        elif line.startswith(".EE"):
            yield block
            block = None
        elif block is not None:
            for written, meant in ESCAPES:
                line = line.replace(written, meant)
            block.lines.append(line)


def matches(wanted, told):
    """Whether lines are as wanted, where a line `..` stands for any lines."""
    if not wanted:
        return not told
    if wanted[0] == "..":
        return any(matches(wanted[1:], told[k:]) for k in range(len(told) + 1))
    return bool(told) and wanted[0] == told[0] and matches(wanted[1:], told[1:])


def make_folder(folder, given):
    """The files that a document's commands find."""
    for name in GIVEN:
        if os.path.exists(os.path.join(given, name)):
            # (a session may write to what it calls btf, and not to what was given)
            (os.symlink if name == "vmcore" else shutil.copy)(os.path.abspath(os.path.join(given, name)), os.path.join(folder, name))
    shutil.copytree(os.path.join(files.TOP, "plans"), os.path.join(folder, "plans"), ignore=shutil.ignore_patterns("__pycache__"))
    shutil.copytree(files.DATA, os.path.join(folder, "data"))
    bad = os.path.join(folder, "bad")
    subprocess.run(["cp", "--reflink=auto", os.path.join(os.path.abspath(given), "vmcore"), bad], check=True)
    with open(bad, "r+b") as file:
        file.seek(CHANGED[0])
        file.write(CHANGED[1].to_bytes(8, "little"))


def environment(programs, work):
    """The variables of a session: PATH begins with a folder that has the programs."""
    tools = os.path.join(work, "tools")
    os.makedirs(tools)
    for name in ("kaudit", "kmatch", "kwhy", "kfiles", "kplain", "kslab"):
        os.symlink(files.program(programs, name), os.path.join(tools, name))
    kept = {name: value for name, value in os.environ.items() if not name.startswith("LC_")}
    return kept | {"PATH": f"{tools}:{os.path.join(files.TOP, 'tools')}:{os.environ['PATH']}", "LC_ALL": "C", "COLUMNS": "80", "PYTHONDONTWRITEBYTECODE": "1"}


def session(steps, folder, work, variables):
    """Runs commands in one bash. The status and the lines of each, or None where the session was over before."""
    script = os.path.join(work, "script")
    with open(script, "w") as file:
        for number, command in enumerate(steps):
            with open(os.path.join(work, f"{number}.sh"), "w") as one:
                one.write(command)
            path = os.path.join(work, str(number))
            file.write(f"eval \"$(cat '{path}.sh')\" >'{path}.out' 2>&1 </dev/null\necho $? >'{path}.status'\n")
    try:
        subprocess.run(["bash", "--norc", "--noprofile", script], cwd=folder, env=variables, stdin=subprocess.DEVNULL, capture_output=True, timeout=MOST)
    except subprocess.TimeoutExpired:
        print(f"no end within {MOST} seconds")
    for number in range(len(steps)):
        path = os.path.join(work, f"{number}.status")
        if not os.path.exists(path):
            yield None
            continue
        text = files.read(work, f"{number}.out").decode(errors="replace")
        yield int(open(path).read()), text.split("\n")[:-1] if text.endswith("\n") else text.split("\n") if text else []


def judged(step, done):
    """What is wrong with a step."""
    _, command, wanted = step
    if done is None:
        return "wasn't reached, or didn't end"
    status, told = done
    if wanted is None:
        return None if status == 0 else f"status {status}\n" + "\n".join(told[-20:])
    return None if matches(wanted, told) else "prints\n" + "\n".join(told) + "\nand not\n" + "\n".join(wanted)


def blocks_of(path):
    text = files.read(path).decode()
    return list(examples(text) if re.search(r"\.\d$", path) else fenced(text))


def in_clone(block):
    """A script that takes long, at the top of a clean clone."""
    with tempfile.TemporaryDirectory() as clone:
        subprocess.run(["git", "clone", "-q", files.TOP, clone], check=True)
        done = subprocess.run(["bash", "-c", "\n".join(block.lines)], cwd=clone, stdin=subprocess.DEVNULL)
    return [] if done.returncode == 0 else [(block.line, f"status {done.returncode}")]


def warned(path):
    """What man warns of."""
    if not re.search(r"\.\d$", path) or not shutil.which("man"):
        return []
    told = subprocess.run(["man", "--warnings", "-l", path], stdin=subprocess.DEVNULL, stdout=subprocess.DEVNULL, stderr=subprocess.PIPE, env=os.environ | {"MANWIDTH": "80"})
    return [(0, f"man warns\n{told.stderr.decode()}")] if told.stderr else []


def try_document(path, programs, given, slow):
    """How many steps a document has, and the faults: a line, and what is wrong there."""
    faults, steps = warned(path), []
    for block in blocks_of(path):
        kind, _, name = block.word.partition(" ")
        if block.word == "sh slow":
            faults += in_clone(block) if slow else []
        elif kind == "toml" and name:
            steps.append((block.line, f"cat >{name} <<'THE-END-OF-IT'\n" + "\n".join(block.lines) + "\nTHE-END-OF-IT", None))
        elif block.word in ("console", "sh"):
            steps += block.steps()
        elif block.word != "text":
            faults.append((block.line, f"a fence with {block.word!r}"))
    with tempfile.TemporaryDirectory() as work:
        folder = os.path.join(work, "folder")
        os.makedirs(folder)
        make_folder(folder, given)
        before = os.stat(os.path.join(given, "vmcore")).st_mtime_ns
        ends = list(session([command for _, command, _ in steps], folder, work, environment(programs, work)))
        if os.stat(os.path.join(given, "vmcore")).st_mtime_ns != before:
            faults.append((0, "vmcore was written to"))
    for step, done in zip(steps, ends):
        wrong = judged(step, done)
        faults += [(step[0], f"{step[1]}\n{wrong}")] if wrong else []
    return len(steps), faults


def main(words):
    slow = "--slow" in words
    programs, given, *documents = [word for word in words if word != "--slow"]
    if not documents:
        documents = [os.path.join(files.TOP, name) for name in DOCUMENTS] + sorted(glob.glob(os.path.join(files.TOP, "docs", "*.1")))
    wrong = 0
    for path in documents:
        if not os.path.exists(path):
            print(f"{path} isn't there")
            wrong += 1
            continue
        count, faults = try_document(path, programs, given, slow)
        for line, fault in sorted(faults):
            print(f"WRONG {path}:{line}: {fault}\n")
        print(f"{path}: {count} commands, {len(faults)} wrong", flush=True)
        wrong += len(faults)
    return wrong != 0
