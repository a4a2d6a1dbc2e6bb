"""Says which clauses of public functions are gone, new or changed between two states of the repository.

usage: clauses BEFORE AFTER [RENAMES]
       clauses --definitions BEFORE AFTER [RENAMES]

BEFORE and AFTER are folders of a repository each; RENAMES is a table of what has another name in AFTER, bench/renames.txt if none is given, whose
head has its form. Of each `pub fn`, each method of a public trait, each method of an implementation that has clauses of its own, and the ghost
members of these and of types, it compares `requires`, `ensures` and `ghost` by name and text. In a text each word stands for the definition or the
type that its file imports by it, under the new name: a definition that moved is the same one, and another one under an old word isn't. It prints
what is gone, new or changed (of functions that no other crate sees only how much), then the renames that it used. It ends with 1 where a clause is
gone or changed, or a function that was there requires more, and no rename explains it. With --definitions it compares the texts of the definitions
in specs/ in the same way, which a clause's text only names.
"""
import glob
import itertools
import os
import re
import sys
from collections import Counter

SECTIONS = ("crates", "definitions", "types", "functions", "words")
TABLE = os.path.join(os.path.dirname(os.path.abspath(__file__)), "renames.txt")

COMMENT = re.compile(r"""("(?:\\.|[^"\\])*"|b?'(?:\\.|[^'\\])')|//[^\n]*""")
GHOST_USE = re.compile(r"^\s*ghost use Rattle\.(\w+)\.(\w+)\.([\w.+]+?)(?:\.\{([^}]*)\}| as (\w+))?;", re.M)
SPEC_USE = re.compile(r"^(?:pub |unfoldable )*use Rattle\.(\w+)\.(\w+)\.([\w.+]+?)(?:\.\{([^}]*)\}| as (\w+))?$", re.M)
RUST_USE = re.compile(r"^(?:pub )?use (kc_\w+)::(?:\{([^}]*)\}|(\w+)(?: as (\w+))?);", re.M)
GIVEN_ON = re.compile(r"^pub use Rattle\.(kc_\w+)\.specs\.([\w.]+)$", re.M)
BLOCK = re.compile(r"^(pub(?:\([^)]*\))? )?(trait|impl|struct|enum)\b([^{};]*)\{", re.M)
FUNCTION = re.compile(r"^( *)(pub(?:\([^)]*\))? )?(?:const )?fn (\w+)", re.M)
MEMBER = re.compile(r"^    (?:pub )?ghost (?!use\b)(\w+)\s*[:=]\s*(?=\{)", re.M)
CLAUSE = re.compile(r"\s*(requires|ensures)\s*(\w*)\s*(?=\{)")
BRACKET = re.compile(r"[(){}\[\]]")
TOKEN = re.compile(r"[^\s(){},;\[\]]+|[(){},;\[\]]")
BEGINS = re.compile(r"^(?:(?:pub|abbrev|unfoldable|opaque|data|record) )+([^\s(:{]+)")


def read(path):
    with open(path, encoding="utf-8") as file:
        return file.read()


def parts(inner):
    """The items of an import's braces: each with the name that the file gives it."""
    for one in inner.split(","):
        name, _, other = one.strip().partition(" as ")
        if name:
            yield name, other or name


def closing(text, at):
    """The place after the bracket that closes the one at a place."""
    depth = 0
    for found in BRACKET.finditer(text, at):
        depth += 1 if found[0] in "({[" else -1
        if depth == 0:
            return found.end()
    return len(text)


class Renames:
    """What has another name, and how often each row of the table was used. Without a path nothing has."""

    def __init__(self, path=None):
        self.rows, section, self.used = {name: {} for name in SECTIONS}, None, Counter()
        for line in read(path).split("\n") if path else []:
            line = line.partition("#")[0].strip()
            if line.startswith("["):
                section = line.strip("[]")
            elif line:
                old, _, new = line.partition(" = ")
                self.rows[section][old.strip()] = new.split()

    def without(self, tree, standing):
        """Drops the rows of what a state has under its old name: `standing` are its functions and definitions."""
        there = {path.split("/")[-3] for path in tree.files("src/*.rt")} | {f"{crate}::{name}" for crate, name in tree.declared()}
        for one in standing:
            texts = [text for clause in one.clauses.values() for text, _ in clause]
            there |= {one.was, *(f"{one.was} {word}" for text in texts for word in TOKEN.findall(text))}
        for section, rows in self.rows.items():
            self.rows[section] = {old: new for old, new in rows.items() if old not in there}

    def row(self, section, old):
        """What stands for a name, or nothing."""
        new = self.rows[section].get(old, [])
        self.used[section, old] += bool(new)
        return new

    def crate(self, name):
        return (self.row("crates", name) or [name])[0]

    def module(self, crate, module):
        """The place of a file of code in its new crate."""
        new = self.rows["crates"].get(crate, [])
        if len(new) < 2:
            return module
        return new[1] if module == "lib" else f"{new[1]}/{module}"

    def definition(self, path):
        """The new path of a definition: by the longest row that it begins with, else by its crate's."""
        words = path.split(".")
        for count in range(len(words), 1, -1):
            new = self.row("definitions", ".".join(words[:count]))
            if new:
                return ".".join([new[0], *words[count:]])
        new = self.row("crates", words[0]) or words[:1]
        return ".".join([new[0], words[1], *new[2:], *words[2:]])

    def reworded(self, function, text):
        """A clause of a function, with the words that the table has for this one."""
        for row in [row for row in self.rows["words"] if row.startswith(f"{function} ")]:
            text, count = re.subn(rf"(?<![\w.]){re.escape(row.split(' ')[1])}(?![\w.])", self.rows["words"][row][0], text)
            self.used["words", row] += count
        return text

    def type_of(self, crate, name):
        """The new crate and the new name of a type of the code."""
        new = self.row("types", f"{crate}::{name}")
        return tuple(new[0].split("::")) if new else (self.crate(crate), name)


class Tree:
    """A state of the repository, and what the words of its files stand for, under the new names."""

    def __init__(self, top, renames):
        self.top, self.renames, self.given, self.given_out = top, renames, {}, {}
        for path in self.files("specs/Lib.antt"):
            for low, name in GIVEN_ON.findall(read(path)):
                self.given[path.split("/")[-3], name.split(".")[-1]] = low, name

    def declared(self):
        """The public types of the code, and the crate of each."""
        for path in self.files("src/**/*.rt"):
            for name in re.findall(r"^pub (?:struct|enum|trait|type) (\w+)", read(path), re.M):
                yield re.search(r"crates/(\w+)/src/", path)[1], name

    def exports(self, crate):
        """The names of the code that a crate gives to others."""
        if crate not in self.given_out:
            path = os.path.join(self.top, "crates", crate, "src", "lib.rt")
            text = COMMENT.sub("", read(path)) if os.path.exists(path) else ""
            self.given_out[crate] = set(re.findall(r"^pub (?:fn|struct|enum|trait|const) (\w+)", text, re.M))
            for inner in re.findall(r"^pub use ([^;]*);", text, re.M):
                self.given_out[crate] |= set(re.findall(r"\w+(?=[\s,}]*(?:,|\}|$))", inner))
        return self.given_out[crate]

    def files(self, pattern):
        return sorted(glob.glob(os.path.join(self.top, "crates/*", pattern), recursive=True))

    def home(self, crate, path):
        """A definition's own crate and path, where a crate gives on one of a lower crate."""
        first, dot, rest = path.partition(".")
        while (crate, first) in self.given:
            crate, name = self.given[crate, first]
            first, dot, rest = f"{name}{dot}{rest}".partition(".")
        return crate, f"{first}{dot}{rest}"

    def meant(self, crate, folder, path):
        """What an import's path stands for: a name of the library, a type of the code with its variant, or a definition's path."""
        words = path.split(".")
        if folder == "specs" and words[0] == "declared":
            at = next((i for i, word in enumerate(words) if word[0].isupper()), len(words) - 1)
            rest = [word for word in words[at + 1 :] if word not in ("TheVariants", words[at])]
            return ".".join([self.renames.type_of(crate, words[at])[1], *rest])
        if crate.startswith("kc_"):
            crate, path = self.home(crate, path)
            return self.renames.definition(f"{crate}.{folder}.{path}")
        return words[-1]

    def imports(self, text, pattern):
        """The words that a text imports, and what each stands for."""
        words = {}
        for crate, folder, path, inner, alias in pattern.findall(text):
            last = path.split(".")[-1]
            for name, other in parts(inner) if inner else [(None, alias or last)]:
                words[other] = self.meant(crate, folder, f"{path}.{name}" if name else path)
        return words

    def types(self, text):
        """The types of other crates that a file of code imports, and what each stands for."""
        for crate, inner, one, alias in RUST_USE.findall(text):
            for name, other in parts(inner) if inner else [(one, alias or one)]:
                if name[0].isupper():
                    yield other, self.renames.type_of(crate, name)[1]


def bound(tokens):
    """The names that a text binds by λ."""
    for i, token in enumerate(tokens):
        while token == "λ" and i + 1 < len(tokens) and tokens[i] != ".":
            i += 1
            if re.fullmatch(r"\w+\.?", tokens[i]) and tokens[i - 1] != ":":
                yield tokens[i].rstrip(".")
            if tokens[i].endswith("."):
                break


def canon(text, words, own, parameters=()):
    """The words of a text, each as what it stands for: parameters and names that it binds as numbers. `own` has the new names of the crate's types."""
    found, tokens = [], TOKEN.findall(text)
    numbers = {name: f"#{number}" for number, name in enumerate(dict.fromkeys([*parameters, *bound(tokens)]))}
    for token in tokens:
        first, dot, rest = token.partition(".")
        if first in numbers:
            found.append(f"{numbers[first]}{dot}{rest}")
        elif token in words:
            found.append(words[token])
        elif first in words:
            found.append(f"{words[first]}{dot}{rest}")
        else:
            found.append(f"{own(first)}{dot}{rest}" if first[:1].isupper() else token)
    return tuple(found)


class Function:
    """A public function with its clauses, or a block with its ghost members: each clause as it is written, and as its words stand for."""

    def __init__(self, was, key, module="", shown=True):
        self.was, self.key, self.module, self.shown, self.clauses = was, key, module, shown, {}

    def add(self, clause, text, meant):
        self.clauses.setdefault(clause, []).append((" ".join(text.split()), meant))


def named(key):
    return "::".join(filter(None, key))


def key_of(name):
    crate, *owner, last = name.split("::")
    return crate, "::".join(owner), last


class Source:
    """A file of code."""

    def __init__(self, tree, path):
        self.crate, module = re.search(r"crates/(\w+)/src/(.*)\.rt$", path).groups()
        self.tree, self.module = tree, tree.renames.module(self.crate, module)
        self.text = COMMENT.sub(lambda it: re.sub(r"[{}()\[\];]", " ", it[1]) if it[1] else "", read(path))
        self.types = dict(tree.types(self.text))
        self.words = self.types | tree.imports(self.text, GHOST_USE)

    def own(self, name):
        return self.tree.renames.type_of(self.crate, name)[1]

    def owner(self, kind, head):
        """A block's name as it is and under the new names, and the crate of its type: parameters are left out, but for those of a trait."""
        head = re.sub(r"^<(?:[^<>]|<[^<>]*>)*>", "", head.strip())
        trait, _, target = re.split(r"\bwhere\b", head)[0].rpartition(" for ")
        target = re.match(r"[\w:]*", target.strip())[0].split("::")[-1]
        was = (re.sub(r"\s+|'\w+,?", "", trait) + " for " if kind == "impl" and trait else "") + target
        now = re.sub(r"[A-Z]\w*", lambda it: self.types.get(it[0]) or self.own(it[0]), was)
        return was, now, self.tree.renames.type_of(self.crate, target)[0]

    def shown(self, *names):
        """Whether the crate gives one of these names to others."""
        return bool(self.tree.exports(self.crate) & {re.sub(r"\W.*", "", name) for name in names})

    def function(self, found, text, words, owner):
        """A function with the clauses between its name and its body."""
        was, now, crate = owner
        shown = self.shown(*was.split(" for ")) if was else self.shown(found[3])
        made = Function(named((self.crate, was, found[3])), (crate, now, found[3]), self.module, shown)
        at, depth = found.end(), 0
        while text[at] != "(" or depth:
            depth += (text[at] == "<") - (text[at] == ">" and text[at - 1] != "-")
            at += 1
        parameters = re.findall(r"\b(\w+)\s*:(?!:)", text[at : closing(text, at)])
        while at < len(text):
            clause = CLAUSE.match(text, at)
            if clause:
                at = closing(text, clause.end())
                given = text[clause.end() : at]
                made.add(clause.groups(), given, canon(self.tree.renames.reworded(made.was, given), words, self.own, parameters))
            elif text[at] in "{;":
                break
            else:
                at = closing(text, at) if text[at] in "([" else at + 1
        return made

    def block(self, kind, head, body):
        """What is public in a trait, an implementation or a type."""
        owner = self.owner(kind, head)
        words = self.words | self.tree.imports(body, GHOST_USE)
        here = Function(named((self.crate, owner[0])), (owner[2], owner[1], ""), self.module, self.shown(*owner[0].split(" for ")))
        for member in MEMBER.finditer(body):
            given = body[member.end() : closing(body, member.end())]
            here.add(("ghost", member[1]), given, canon(given, words, self.own))
        if here.clauses:
            yield here
        of_trait = kind == "trait" or " for " in owner[0]
        for found in FUNCTION.finditer(body):
            if len(found[1]) == 4 and (of_trait or found[2] == "pub "):
                made = self.function(found, body, words, owner)
                if made.clauses or kind == "trait" or not of_trait:
                    yield made

    def functions(self):
        """The public functions of the file, and its blocks that have ghost members."""
        inside = []
        for found in BLOCK.finditer(self.text):
            end = closing(self.text, found.end() - 1)
            inside.append((found.start(), end))
            if found[2] != "trait" or found[1] == "pub ":
                yield from self.block(found[2], found[3], self.text[found.end() : end])
        for found in FUNCTION.finditer(self.text):
            if not found[1] and found[2] == "pub " and not any(start < found.start() < end for start, end in inside):
                yield self.function(found, self.text, self.words, ("", "", self.tree.renames.crate(self.crate)))


def functions(tree):
    return [function for path in tree.files("src/**/*.rt") for function in Source(tree, path).functions()]


def defined(tree, path):
    """The definitions of a file of specs/: the path of each, its text, and what the words of that stand for."""
    crate, name = re.search(r"crates/(\w+)/specs/(.*)\.antt$", path).groups()
    text = read(path)
    words, items, last = tree.imports(text, SPEC_USE), {}, None
    text = re.sub(r"^(?:pub |unfoldable )*(?:use|mod) [^\n{]*(?:\{[^}]*\})?[^\n]*$", "", re.sub(r"--[^\n]*", "", text), flags=re.M)
    for row in text.split("\n"):
        begins = BEGINS.match(row) or re.match(r"(\S+)(?= : )", row)
        last = begins[1] if begins else last
        if row.strip() and not row.startswith("infix"):
            items.setdefault(last, []).append(row)
    here = f"{crate}.specs.{name.replace('/', '.')}"
    words |= {item: tree.renames.definition(f"{here}.{item}") for item in items}
    for item, rows in items.items():
        made = Function(f"{here}.{item}", (words[item], "", ""))
        made.add(("definition", ""), "\n".join(rows), canon("\n".join(rows), words, lambda it: tree.renames.type_of(crate, it)[1]))
        yield made


def definitions(tree):
    return [one for path in tree.files("specs/**/*.antt") if not path.endswith("/Lib.antt") for one in defined(tree, path)]


def left_of(texts, others):
    """The texts that don't stand among others."""
    known = Counter(meant for _, meant in others)
    for text, meant in texts:
        known[meant] -= 1
        if known[meant] < 0:
            yield text, meant


def differences(before, after):
    """How the clauses of two functions differ: a word, the clause, and what it was and is, each as it is written and as its words stand for."""
    for clause in dict.fromkeys([*before, *after]):
        old, new = before.get(clause, []), after.get(clause, [])
        for was, now in itertools.zip_longest(left_of(old, new), left_of(new, old)):
            yield "changed" if was and now else "gone" if was else "new", clause, was, now


def clauses_of(found):
    """The clauses of some functions together."""
    clauses = {}
    for function in found:
        for clause, texts in function.clauses.items():
            clauses.setdefault(clause, []).extend(texts)
    return clauses


def counterpart(function, index):
    """What stands under a function's new name: of several the one in the same file, else the one with the fewest differences."""
    found = index.get(function.key, [])
    if len(found) > 1:
        found = [one for one in found if one.module == function.module] or found
        found = sorted(found, key=lambda one: len(list(differences(function.clauses, one.clauses))))[:1]
    return found


def compared(before, after, renames):
    """For each function of one state those that stand for it in another, and how the clauses differ."""
    index = {}
    for function in after:
        index.setdefault(function.key, []).append(function)
    for function in before:
        targets = renames.row("functions", function.was)
        found = [one for target in targets for one in index.get(key_of(target), [])] if targets else counterpart(function, index)
        yield function, found, list(differences(function.clauses, clauses_of(found)))


def printed(function, found, rows):
    """What is printed of a function that differs: of one that no other crate sees the numbers only."""
    now = " ".join(named(one.key) for one in found) or "nothing"
    head = function.was if now == function.was else f"{function.was}, now {now}"
    if not function.shown:
        yield f"{head}, inside its crate: " + ", ".join(f"{count} {word}" for word, count in Counter(row[0] for row in rows).items())
        return
    yield head
    for word, (kind, name), was, now in rows:
        yield f"  {word}: {kind} {name}".rstrip()
        if was:
            yield f"    before: {was[0]}"
        if now:
            yield f"    after:  {now[0]}"
        if was and now and len(was[1]) == len(now[1]):
            pairs = dict.fromkeys(zip(was[1], now[1]))
            yield from (f"    {old} is now {new}" for old, new in pairs if old != new and ".specs." in old + new)


def is_wrong(function, found, word, kind):
    """Whether a difference makes less of what is promised to others."""
    return function.shown and (word != "new" or kind == "requires" and bool(found))


def main(words):
    collect, words = (definitions, words[1:]) if words[:1] == ["--definitions"] else (functions, words)
    if len(words) not in (2, 3):
        sys.exit(__doc__)
    renames, later = Renames(words[2] if len(words) == 3 else TABLE), Tree(words[1], Renames())
    renames.without(later, [*functions(later), *definitions(later)])
    before, after = collect(Tree(words[0], renames)), collect(later)
    counts, seen, wrong = Counter(), set(), 0
    for function, found, rows in compared(before, after, renames):
        seen |= {id(one) for one in found}
        counts += Counter(word for word, *_ in rows)
        wrong += sum(is_wrong(function, found, word, kind) for word, (kind, _), *_ in rows)
        for line in printed(function, found, rows) if rows else []:
            print(line)
    for (section, old), count in sorted(renames.used.items()):
        if count:
            print(f"{section}: {old} -> {' '.join(renames.rows[section][old])}, {count} times")
    more = [function for function in after if id(function) not in seen]
    print(f"{len(before)} compared, in {sum(len(it) for one in before for it in one.clauses.values())} texts: {counts['gone']} gone, "
          f"{counts['changed']} changed, {counts['new']} new; {len(more)} that weren't there; {wrong} that no rename explains")
    return wrong != 0
