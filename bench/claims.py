"""Prints the definitions that one has to believe: the files that the programs' contracts cite, with their lines.

usage: claims

It follows the names of definitions from the contracts of the programs, item by item, and counts the lines of each without blank lines, comments and
imports: all of kaudit's, those on which the clause stands that `check` is clean exactly where every structure stands, all of kmatch's and all of
kwhy's. Behind the numbers of a file stands what its head says. Then it prints, and ends with 1 for it, where a blank for a counter of steps is made
outside the crates that may make one: everywhere else the bound on steps would bind a counter that nobody looks at; and which crates import
another's lemmas, where a public law should stand, and how many such imports there are.
"""
import glob
import os
import re

import files

WORDLESS = True
COLUMNS = ("kaudit", "clean", "kmatch", "kwhy")

# The contracts of each program: a file, and a function of it.
PROGRAMS = {
    "kaudit": [("crates/kc_app/src/top.rt", "kaudit"), ("crates/kc_app/src/laws.rt", "know_shown")],
    "kmatch": [("crates/kc_match/src/top.rt", "kmatch")],
    "kwhy": [("crates/kc_why/src/top.rt", "kwhy"), ("crates/kc_why/src/laws.rt", "know_why")],
}

# What laws say of a definition, so that nobody has to read it: the law's words are counted in its place.
PINNED = {("kc_expr/specs/Machine.antt", "parsed"): ("kc_expr/specs/Spelling.antt", ["ChecksAreSpelled", "FaultsAreLongest"])}

# What the clause on `clean` doesn't stand on: the first violation and its text (the law `checked` says when there is none),
# the lines of refusals, and the other commands.
NOT_CLEAN = {"audited_shown", "refusal_line", "ShownStand", "word_form", "layout_form", "show_form", "selftest_form"}
NOT_CLEAN |= {"certify_form", "recheck_form", "CertifyEnds", "RecheckEnds", "Proves", "cert_text", "TextsTold", "AnswersAreRight", "StepsAreWalks",
              "CertificatesAreOne"}

# The crates that make counters of steps: that of questions, kwhy's for the entries on the way to an address, and those of tests.
MAKE_BLANKS = {"kc_question", "kc_why", "kc_tests", "try_walks", "try_files"}

# The crate whose purpose is to state the laws of others: it alone should cite another's lemmas.
STATE_LAWS = {"kc_laws"}

# Another crate's lemmas, imported in definitions and proofs, or named in the code by `using`.
BORROWED = re.compile(r"\b(kc_\w+)(?:\.|::)proofs(?:\.|::)")

USE = re.compile(r"^\s*(?:ghost |pub |unfoldable )*use Rattle\.(kc_\w+)\.specs\.([\w.]+?)(?:\.\{([^}]*)\}| as (\w+))?;?\s*$", re.M)
BEGINS = re.compile(r"^(?:(?:pub|abbrev|unfoldable|opaque|data|record) )+([^\s(:{]+)")
WORD = re.compile(r"[^\s(){},;\[\]]+")


def read(path):
    with open(path, encoding="utf-8") as file:
        return file.read()


def given_on():
    """Of each crate the files of lower crates that it gives on as its own, by their last name."""
    for path in glob.glob("crates/*/specs/Lib.antt"):
        crate = path.split("/")[1]
        for low, name in re.findall(r"^pub use Rattle\.(kc_\w+)\.specs\.([\w.]+)$", read(path), re.M):
            yield (crate, name.split(".")[-1]), (low, name)


GIVEN = {}


def home(crate, path):
    """The file of definitions behind an import, or None where that is a type of the code."""
    while (crate, path) in GIVEN and GIVEN[crate, path] != (crate, path):
        crate, path = GIVEN[crate, path]
    parts = path.split(".")
    for count in range(len(parts), 0, -1):
        name = f"{crate}/specs/{'/'.join(parts[:count])}.antt"
        if os.path.exists(f"crates/{name}"):
            return name
    return None


def imports(text):
    """The definitions that a text imports, by the names it gives them, and the files that it imports under a name."""
    names, files = {}, {}
    text = re.sub(r"\{([^}]*)\}", lambda it: "{" + it[1].replace("\n", " ") + "}", text)
    for crate, path, inner, alias in USE.findall(text):
        if alias:
            files[alias] = home(crate, path)
            continue
        file, _, last = (path, "", "") if inner else path.rpartition(".")
        for one in inner.split(",") if inner else [last]:
            name, _, other = one.strip().partition(" as ")
            if name and file and home(crate, file):
                names[other or name] = home(crate, file), name
    return names, {alias: file for alias, file in files.items() if file}


class Definitions:
    """The items of a file: the rows of each, and the item to which a constructor's or an item's name belongs."""

    def __init__(self, name):
        text = read(f"crates/{name}")
        self.names, self.files = imports(text)
        self.rows, self.item = {}, {}
        text = re.sub(r"^(?:pub |unfoldable )*use [^\n{]*(?:\{[^}]*\})?[^\n]*$", "", text, flags=re.M)
        ahead, last = [], None
        for row in text.split("\n"):
            if not row.strip() or row.strip().startswith("--"):
                continue
            begins = BEGINS.match(row)
            constructor = re.match(r"  (\S+) : ", row)
            if row.startswith("infix"):
                ahead.append(row)
            elif begins:
                last = begins[1]
                self.rows[last], self.item[last], ahead = [*ahead, row], last, []
            else:
                self.rows[last].append(row)
                if constructor and "data" in self.rows[last][0].split():
                    self.item[constructor[1]] = last


FILES = {}


def definitions(name):
    if name not in FILES:
        FILES[name] = Definitions(name)
    return FILES[name]


def cited(rows, names, files, own):
    """The definitions that some rows name, each by its file and its name; "" is the rows' own file."""
    operators = {name.replace("◌", ""): name for name in [*names, *own] if "◌" in name}
    words = set(WORD.findall("\n".join(re.sub("--.*", "", row) for row in rows)))
    words |= {">>="} & operators.keys() if "do" in words else set()
    for word in words:
        first, _, rest = word.partition(".")
        name = operators.get(word, word if word in names or word in own else first)
        if name in own:
            yield "", own[name]
        elif name in names:
            yield names[name]
        elif first in files and rest:
            yield files[first], rest.split(".")[0]


def contract(path, function):
    """The definitions that a function's contract names."""
    text = read(path)
    names, files = imports(text)
    at = text.index(f"pub fn {function}")
    rows = [re.sub("//.*", "", row) for row in text[at:text.index("\n{", at)].split("\n")]
    return set(cited(rows, names, files, {}))


def reached(roots, without):
    """The items that can be reached from some, by file and name."""
    found, waiting = set(), [*roots]
    while waiting:
        file, name = waiting.pop()
        here = definitions(file)
        name = here.item.get(name, name)
        if (file, name) in PINNED:
            law, names = PINNED[file, name]
            waiting += [(law, one) for one in names if (law, one) not in found]
        elif name in here.rows and name not in without and (file, name) not in found:
            found.add((file, name))
            waiting += [(other or file, one) for other, one in cited(here.rows[name], here.names, here.files, here.item)]
    return found


def counts(items):
    by_file = {}
    for file, name in items:
        by_file[file] = by_file.get(file, 0) + len(definitions(file).rows[name])
    return by_file


def head_of(name):
    """What the file's first lines of comment say, in one."""
    lines = []
    for row in read(f"crates/{name}").split("\n"):
        if not row.startswith("--"):
            break
        lines.append(row.removeprefix("--").strip())
    return " ".join(lines)


def layers():
    """The layers of crates.txt, each with its crates in their order."""
    title = "the words"
    for part in read("crates.txt").split("\n\n"):
        rows = part.strip().split("\n")
        if rows[0].startswith("#") and not rows[0].startswith("# Bottom up"):
            title = rows[0].removeprefix("#").strip()
        yield title, [row.split(":")[0].split(" ")[0] for row in rows if not row.startswith("#")]


def table(wanted):
    """The rows of each file, by layer, and the sums."""
    listed, last = set(), None
    for layer, crates in layers():
        some = sorted((file for file in wanted if file.split("/")[0] in crates), key=lambda it: (crates.index(it.split("/")[0]), it))
        listed |= set(some)
        if some and layer != last:
            yield f"\n# {layer}\n"
            last = layer
        for file in some:
            yield f"{file:44} " + " ".join(f"{count:6}" for count in wanted[file]) + f"  {head_of(file)}"
    assert listed == set(wanted), set(wanted) - listed
    sums = [sum(column) for column in zip(*wanted.values())]
    yield f"\n{len(wanted)} files: " + " ".join(f"{name} {count}" for name, count in zip(COLUMNS, sums))


def blanks():
    """The files outside tests that make a blank, of crates that may not."""
    for path in sorted(glob.glob("crates/*/src/**/*.rt", recursive=True)):
        crate, inner = path.split("/")[1], path.split("/src/")[1]
        if "Blank::new" in read(path) and not inner.startswith("tests") and crate not in MAKE_BLANKS:
            yield f"{path}: a blank is made"


def borrowed():
    """How often a crate imports another's lemmas, of crates that may not."""
    found = {}
    for path in sorted(glob.glob("crates/*/**/*", recursive=True)):
        crate = path.split("/")[1]
        if path.endswith((".rt", ".antt")) and "/out/" not in path and crate not in STATE_LAWS:
            for other in BORROWED.findall(read(path)):
                if other != crate:
                    found[crate, other] = found.get((crate, other), 0) + 1
    for (crate, other), count in sorted(found.items(), key=lambda it: -it[1]):
        yield f"{crate} imports lemmas of {other}: {count}"


def main(words):
    os.chdir(files.TOP)
    GIVEN.update(given_on())
    roots = {program: set().union(*(contract(*it) for it in where)) for program, where in PROGRAMS.items()}
    columns = [counts(reached(roots["kaudit"], set())), counts(reached(roots["kaudit"], NOT_CLEAN))]
    columns += [counts(reached(roots[program], set())) for program in ("kmatch", "kwhy")]
    wrong = [*blanks(), *borrowed()]
    for row in wrong:
        print(row)
    print(f"{'file':44} " + " ".join(f"{name:>6}" for name in COLUMNS))
    for row in table({file: [it.get(file, 0) for it in columns] for file in set().union(*columns)}):
        print(row)
    return bool(wrong)
