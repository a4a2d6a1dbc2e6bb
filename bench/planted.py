"""Takes the wrong bodies of planted/ apart, puts further ones in, and counts them.

usage: planted cut CRATE FOLDER     writes each wrong body of the crate into FOLDER, as NAME.edit
       planted add CRATE FOLDER     puts each NAME.edit of FOLDER into planted/CRATE.edits
       planted count                prints how many each crate has in must-fail/ and in planted/, and the sums
       planted sort                 puts the wrong bodies of each file of planted/ into the order of their names
       planted check                prints those of both that can't be applied to the code as it stands, or make the same as another; then it ends with 1

planted/CRATE.edits has the crate's wrong bodies in the order of their names. Each begins with a line `edit: NAME`, after which come the lines of
NAME.edit as must-fail/ would have them; an empty line stands between two. `add` puts all in or, where one is refused, none. It refuses a name that
is there, and an edit that can't be applied: its `file:` has to be there, and each `old:` once in it, after the pairs before it.
"""
import os
import sys

TOP = os.path.join(os.path.dirname(os.path.abspath(__file__)), "..")
MARK = "edit: "


class BadEdit(Exception):
    """What is wrong with a file of edits, or with an edit."""


def apart(text):
    """The edits of a file: the text of each, by its name."""
    edits, lines = {}, None
    for line in text.split("\n"):
        if line.startswith(MARK):
            name, lines = line[len(MARK) :], []
            if name in edits or not name or "/" in name:
                raise BadEdit(f"the name {name!r} stands twice, or is none")
            edits[name] = lines
        elif line and lines is None:
            raise BadEdit("the first line isn't the name of an edit")
        elif line:
            lines.append(line + "\n")
    return {name: "".join(lines) for name, lines in edits.items()}


def together(edits):
    """The file of some edits."""
    return "\n".join(f"{MARK}{name}\n{edits[name]}" for name in sorted(edits))


def place(crate):
    return os.path.join(TOP, "planted", crate + ".edits")


def read(path):
    with open(path, encoding="utf-8", newline="") as file:
        return file.read()


def write(path, text):
    with open(path, "w", encoding="utf-8", newline="") as file:
        file.write(text)


def kept(crate):
    """The edits that planted/ has of a crate."""
    return apart(read(place(crate))) if os.path.exists(place(crate)) else {}


def gated(crate):
    """The edits that must-fail/ has of a crate."""
    folder = os.path.join(TOP, "crates", crate, "must-fail")
    names = sorted(os.listdir(folder)) if os.path.isdir(folder) else []
    return {name.removesuffix(".edit"): read(os.path.join(folder, name)) for name in names if name.endswith(".edit")}


def changes(text):
    """The changes of an edit: a file, an old and a new text."""
    path, old = None, None
    for line in text.split("\n"):
        label, _, rest = line.partition(": ")
        if label == "file":
            path = rest
        elif label == "old":
            old = rest
        elif label == "new" or line == "new:":
            if path is None or old is None:
                raise BadEdit("a line `new:` has no `file:` or no `old:` before it")
            yield path, old, rest
            old = None


def check(crate, name, text):
    """The files that an edit makes. Refuses one that can't be applied."""
    files = {}
    for path, old, new in changes(text):
        whole = os.path.join(TOP, "crates", crate, path)
        if not os.path.exists(whole):
            raise BadEdit(f"{name}: {crate} has no {path}")
        now = files.get(path) or read(whole)
        if now.count(old) != 1:
            raise BadEdit(f"{name}: {path} has this {now.count(old)} times: {old}")
        files[path] = now.replace(old, new)
    if not files:
        raise BadEdit(f"{name}: no lines `file:`, `old:` and `new:`")
    return files


def given(crate, folder, name, edits):
    """The text of an edit of a folder, if it can be put to those that are there."""
    lines = [line.rstrip("\r") for line in read(os.path.join(folder, name + ".edit")).split("\n")]
    text = "".join(line + "\n" for line in lines if line)
    if name in edits or os.path.exists(os.path.join(TOP, "crates", crate, "must-fail", name + ".edit")):
        raise BadEdit(f"{name}: {crate} has one of this name")
    if any(line.startswith(MARK) for line in lines):
        raise BadEdit(f"{name}: a line begins with {MARK!r}")
    check(crate, name, text)
    return text


def add(crate, folder):
    """How many edits of a folder were put in: all, or none where one of them is refused."""
    edits, more, faults = kept(crate), {}, []
    for name in sorted(name.removesuffix(".edit") for name in os.listdir(folder) if name.endswith(".edit")):
        try:
            more[name] = given(crate, folder, name, edits)
        except BadEdit as bad:
            faults.append(str(bad))
    if faults:
        raise BadEdit("nothing is put in\n" + "\n".join(faults))
    if more:
        write(place(crate), together(edits | more))
    return len(more)


def cut(crate, folder):
    """How many edits of a crate were written."""
    edits = kept(crate)
    if not edits:
        raise BadEdit(f"planted/ has none of {crate}")
    os.makedirs(folder, exist_ok=True)
    for name, text in edits.items():
        write(os.path.join(folder, name + ".edit"), text)
    return len(edits)


def counts():
    """The numbers of wrong bodies of each crate that has one: in must-fail/, in planted/."""
    for crate in sorted(os.listdir(os.path.join(TOP, "crates"))):
        gate, planted = gated(crate), kept(crate)
        if gate or planted:
            yield crate, len(gate), len(planted)


def faults():
    """What is wrong with the edits of planted/ and of all crates' must-fail/: those that can't be applied, or make the same, and names that stand in both."""
    for name in sorted(os.listdir(os.path.join(TOP, "planted"))):
        if not os.path.isdir(os.path.join(TOP, "crates", name.removesuffix(".edits"))):
            yield f"planted/{name}: there is no such crate"
    for crate, _, _ in counts():
        gate, planted = gated(crate), kept(crate)
        yield from (f"{crate}/{name}: must-fail/ has one of this name" for name in planted if name in gate)
        made = {}
        for name, text in [*gate.items(), *planted.items()]:
            try:
                files = check(crate, name, text)
            except BadEdit as bad:
                yield f"{crate}/{bad}"
            else:
                first = made.setdefault(repr([(path, files[path].split()) for path in sorted(files)]), name)
                if first != name:
                    yield f"{crate}/{name}: makes what {first} makes"


def check_all():
    """Whether an edit can't be applied."""
    wrong = list(faults())
    for row in wrong:
        print(row)
    print(f"{sum(gate + planted for _, gate, planted in counts())} wrong bodies; {len(wrong)} can't be applied, or make what another makes")
    return bool(wrong)


def main(words):
    try:
        if words == ["count"]:
            rows = list(counts())
            for crate, gate, planted in [*rows, ("all", sum(row[1] for row in rows), sum(row[2] for row in rows))]:
                print(f"{crate:16} must-fail {gate:2} planted {planted:4}")
        elif words == ["check"]:
            return check_all()
        elif words == ["sort"]:
            for name in sorted(os.listdir(os.path.join(TOP, "planted"))):
                write(place(name.removesuffix(".edits")), together(kept(name.removesuffix(".edits"))))
        elif len(words) == 3 and words[0] in ("cut", "add"):
            print(f"{words[1]}: {(cut if words[0] == 'cut' else add)(*words[1:])} wrong bodies")
        else:
            sys.exit(__doc__)
    except BadEdit as bad:
        sys.exit(f"planted: {bad}")
