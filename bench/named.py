"""Checks that what the documents name exists.

usage: named [FOLDER]

FOLDER is the top of a repository, else of this one. Of README.md and docs/*.md: each relative link leads to a file and its heading; each `bench
NAME` and each path of bench/, crates/, plans/ and planted/ is there. Of docs/PROVED.md: each `kc_x/y.rt` is a file of crates/kc_x/src, and the
names after it are clauses, ghost members or functions there; each `kc_x/specs/Y.antt` is a file. Of the check lists of docs/CONTRIBUTING.md: each
file is one of the crate that is named before it. Of the documents about the code (not guide.md and reference.md, which name what kernels have): each
word between backquotes stands somewhere in the sources, and each word kc_.. is a crate. Each crate of crates.txt is named in README.md,
docs/ARCHITECTURE.md or docs/PROVED.md.
"""
import glob
import os
import re

import files

WORDLESS = True
USERS = {"docs/guide.md", "docs/reference.md"}
# Words that stand for any: a crate, a file, a law.
ANY = {"kc_x", "know_x"}
LINK = re.compile(r"\[[^\]]*\]\(([^)\s]+)\)")
CLAUSES = re.compile(r"`(kc_\w+)/([\w/]+\.rt)`((?:: |, )(?:(?:one clause[^;|`]*|`\w+`)(?:, |; (?=`\w+`)| and (?=`))?)+)?")
LISTED = re.compile(r"\b(kc_\w+|try_\w+)\b|`((?:\w+/)*\w+\.(?:rt|antt))`")
SPEC = re.compile(r"`(kc_\w+)/(specs/[\w/]+\.antt)`")
PATH = re.compile(r"`((?:bench|crates|plans|planted)/[\w./-]*[\w/])`")
SCRIPT = re.compile(r"(?:`(?:python3 )?bench |^ +python3 bench )([a-z_]+)", re.M)
WORD = re.compile(r"`([A-Za-z_]\w*(?:::\w+)*)(?:\(\))?`")


def read(path):
    with open(path, encoding="utf-8", errors="replace") as file:
        return file.read()


def unfenced(text):
    """A text without what stands between fences."""
    return re.sub(r"^ *```.*?^ *```[^\n]*$", "", text, flags=re.M | re.S)


def headings(text):
    """The names of a document's headings, as links spell them."""
    for row in re.findall(r"^#+ (.*)$", unfenced(text), re.M):
        yield re.sub(r"[^\w\- ]", "", row.lower()).replace(" ", "-")


def links(path, text):
    for target in LINK.findall(unfenced(text)):
        if re.match(r"[a-z]+:", target):
            continue
        name, _, heading = target.partition("#")
        file = os.path.normpath(os.path.join(os.path.dirname(path), name)) if name else path
        if not os.path.exists(file):
            yield f"{path}: no file {target}"
        elif heading and heading not in headings(read(file)):
            yield f"{path}: no heading {target}"


def paths(path, text):
    for name in PATH.findall(text):
        if not glob.glob(name) and not re.search(r"[A-Z]{3,}|kc_x|/out/", name):
            yield f"{path}: no {name}"
    for name in SCRIPT.findall(text):
        if not glob.glob(f"bench/{name}.py") and not glob.glob(f"bench/*/{name}.py"):
            yield f"{path}: no script {name}"


def clauses(path, text):
    for crate, file, names in CLAUSES.findall(text):
        source = f"crates/{crate}/src/{file}"
        if crate in ANY:
            continue
        if not os.path.exists(source):
            yield f"{path}: no file {source}"
            continue
        code = read(source)
        for name in re.findall(r"`(\w+)`", names):
            if not re.search(rf"\b(?:ensures|ghost|fn) {name}\b", code):
                yield f"{path}: no {name} in {source}"
        if "one clause" in names and not re.search(r"ensures \{", code):
            yield f"{path}: no clause without a name in {source}"
    for crate, file in SPEC.findall(text):
        if not os.path.exists(f"crates/{crate}/{file}"):
            yield f"{path}: no file crates/{crate}/{file}"


def listed(path, text):
    """The files of check lists, each by the crate that is named before it. NAME stands for any."""
    crate = ""
    for name, file in LISTED.findall(text.partition("## How to add")[2].partition("\n## ")[0]):
        crate = name or crate
        if file and not re.search(r"NAME|Name", file) and not glob.glob(f"crates/{crate}/{'' if '/' in file else '**/'}{file}", recursive=True):
            yield f"{path}: {crate} has no {file}"


def crates(path, text):
    for name in re.findall(r"\bkc_\w+", text):
        if name not in ANY and not os.path.isdir(f"crates/{name}"):
            yield f"{path}: no crate {name}"


def words_of_sources():
    found = set()
    for path in glob.glob("**/*", recursive=True):
        if "/out/" not in path and re.search(r"\.(rt|antt|toml|py|sh|c|cases|txt|edits?)$|(^|/)(crates\.txt|HANDLES|stdout|args)$", path):
            found |= set(re.findall(r"\w+", read(path))) | {os.path.basename(path).split(".")[0]}
    return found | set(os.listdir("crates"))


def named(path, text, known):
    for word in WORD.findall(unfenced(text)):
        for part in word.split("::"):
            if part not in known | ANY:
                yield f"{path}: `{word}` stands in no source"


def unnamed():
    rows = re.findall(r"^(\w+):", read("crates.txt"), re.M)
    told = "".join(read(it) for it in ["README.md", "docs/ARCHITECTURE.md", "docs/PROVED.md"])
    for crate in rows:
        if not re.search(rf"\b{crate}\b", told):
            yield f"crates.txt: {crate} is named in no document"


def main(words):
    os.chdir(words[0] if words else files.TOP)
    known, wrong, documents = words_of_sources(), [], ["README.md", *sorted(glob.glob("docs/*.md"))]
    for path in documents:
        text = read(path)
        wrong += [*links(path, text), *paths(path, text), *clauses(path, text)]
        if path.startswith("docs/") and path not in USERS:
            wrong += [*named(path, text, known), *crates(path, text)]
        if path == "docs/CONTRIBUTING.md":
            wrong += listed(path, text)
    wrong += unnamed()
    print("\n".join(dict.fromkeys(wrong)) or f"{len(documents)} documents name what is there")
    return bool(wrong)
