"""Counts what the shape of the house is judged by, as a table.

house [REPOSITORY]      the folder with crates/ and crates.txt; without it this one

Lines, functions and parameters are counted by their text and not by a parser: a count is right to a few in a hundred, and the
same text gives the same count.
"""
import collections
import os
import re
import subprocess
import tempfile

STAYS = "stays cause reads named later files quiet may opened others_opened others_sizes".split()


class House:
    def __init__(self, top):
        self.top = top
        self.deps = {}
        with open(os.path.join(top, "crates.txt")) as file:
            for line in file:
                line = line.split("#")[0]
                if ":" in line:
                    name, below = line.split(":", 1)
                    self.deps[name.strip()] = below.split()
        self.files = {}
        listed = subprocess.run(["git", "ls-files"], cwd=top, capture_output=True, text=True, check=True).stdout.split("\n")
        self.tracked = [path for path in listed if path]
        for path in self.tracked:
            if re.match(r"crates/\w+/(src|specs|proofs)/.*\.(rt|antt)$", path):
                with open(os.path.join(top, path)) as file:
                    self.files[path] = file.read()

    def texts(self, *folders):
        return {path: text for path, text in self.files.items() if path.split("/")[2] in folders}

    def product(self):
        """The crates of the product: not those that try it."""
        return [name for name in self.deps if not name.startswith("try_") and name not in ("kc_tests", "kc_cases", "kc_fixture")]


def chain(house):
    """The longest row of crates that stand on one another."""
    depth = {}

    def of(name):
        if name not in depth:
            depth[name] = 1 + max([of(below) for below in house.deps[name] if below in house.deps], default=0)
        return depth[name]
    return max(of(name) for name in house.deps)


def lines_of(text):
    return sum(1 for line in text.split("\n") if line.strip() and not line.strip().startswith(("//", "--", "use ", "ghost use ", "pub use ", "mod ", "pub mod ")))


def small(house):
    """Crates of the product below 150 lines of src, but the mains and kc_laws."""
    sizes = collections.Counter()
    for path, text in house.texts("src").items():
        sizes[path.split("/")[1]] += text.count("\n")
    return sorted(name for name in house.product() if sizes[name] < 150 and name.startswith("kc_") and name != "kc_laws")


def functions(house):
    """Each function of src: its crate's file and how many parameters it has."""
    found = []
    for path, text in house.texts("src").items():
        for match in re.finditer(r"\bfn (\w+)\s*(?:<[^(]*?>)?\(([^)]*)\)", text):
            words = re.sub(r"<[^<>]*>", "", re.sub(r"<[^<>]*>", "", match.group(2)))
            found.append((path, match.group(1), len([word for word in words.split(",") if word.strip()])))
    return found


def head_to_body(house):
    """Lines of contracts to lines of bodies, over src."""
    heads = bodies = 0
    for text in house.texts("src").values():
        for match in re.finditer(r"^( *)(?:pub(?:\([a-z]+\))? )?(?:const )?fn .*?^\1\{$(.*?)^\1\}$", text, re.S | re.M):
            whole, body = match.group(0).count("\n"), match.group(2).count("\n")
            heads += whole - body
            bodies += body
    return heads, bodies


def rules(house):
    """Files that name each of the rules of `Rule`."""
    text = house.files.get("crates/kc_memory/src/rule.rt", "")
    names = set(re.findall(r"^    ([A-Z]\d*),", text, re.M))
    return sorted(path for path, text in house.files.items() if names and names <= set(re.findall(r"\b[A-Z]\d*\b", text)) and "/src/rule.rt" not in path), len(names)


def kinds(house):
    """Files of src that match on a kind."""
    return [path for path, text in house.texts("src").items() if len(set(re.findall(r"\bKind::(\w+)[^\n]*=>", text))) >= 5]


def clauses(house):
    count = collections.Counter()
    for text in house.texts("src").values():
        count.update(re.findall(r"^ *(?:ensures|requires) (\w+) \{", text, re.M))
    return count


def calls(house, word, *but):
    """Files of the product's src that have a call, outside comments and some crates."""
    return sorted({path for path, text in house.texts("src").items()
                   if re.search(word, re.sub(r"//[^\n]*", "", text)) and path.split("/")[1] not in but and path.split("/")[1] in house.product()})


def counted(paths):
    """How many files, and which where they are few."""
    return f"{len(paths)}" + (f": {' '.join(path.removeprefix('crates/') for path in paths)}" if 0 < len(paths) < 4 else "")


def two_faults(house):
    return [f"{path.split('/')[1]}::{name}" for path, text in house.texts("src").items()
            for name, body in re.findall(r"pub enum (\w+) \{([^}]*)\}", text)
            if {word for word in re.findall(r"^\s*(\w+)[,(]?", re.sub(r"//[^\n]*|#\[[^\n]*", "", body), re.M)} in ({"Fault", "NoMemory"}, {"ReadFault", "NoMemory"})]


def double_names(house):
    where = collections.defaultdict(set)
    for path, text in house.texts("src").items():
        for name in re.findall(r"^pub (?:struct|enum) (\w+)", text, re.M):
            where[name].add(path.split("/")[1])
    return sorted(name for name, crates in where.items() if len(crates) > 1)


def pairs(house, folders):
    """Alike places, by the command duplicates on copies that it takes for Rust."""
    with tempfile.TemporaryDirectory() as folder:
        for path, text in house.texts(*folders).items():
            copy = os.path.join(folder, path + ".rs")
            os.makedirs(os.path.dirname(copy), exist_ok=True)
            with open(copy, "w") as file:
                file.write(text)
        try:
            run = subprocess.run(["duplicates", "--repo", folder, "--most", "1", "--seconds", "300"], capture_output=True, text=True)
        except OSError:
            return "not counted"
        found = re.search(r"(\d+) pairs?", run.stdout)
        return found[1] if found else "0"


WORDLESS = True


def main(words):
    house = House(words[0] if words else os.path.dirname(os.path.dirname(os.path.dirname(os.path.realpath(__file__)))))
    taken = functions(house)
    heads, bodies = head_to_body(house)
    listing, number = rules(house)
    count = clauses(house)
    documents = [path for path in house.tracked if re.match(r"README\.md$|docs/", path)]
    table = [
        ("crates; longest chain", f"{len(house.deps)}; {chain(house)}"),
        ("product crates below 150 lines of src", f"{len(small(house))}: {' '.join(small(house))}"),
        ("files that open a dump", counted(calls(house, r"\bread_dump\("))),
        ("files that build a memory", counted(calls(house, r"\bMemory::(?:over|new)\(", "kc_mem"))),
        ("constants KEPT; definitions image_of", f"{sum(len(re.findall(r'const KEPT', text)) for text in house.texts('src').values())}; "
                                                 f"{sum(len(re.findall(r'^(?:abbrev |unfoldable )?pub image_of :', text, re.M)) for text in house.texts('specs').values())}"),
        ("enums of a fault and want of memory alone", f"{len(two_faults(house))}: {' '.join(two_faults(house))}"),
        ("public types with one name in several crates", f"{len(double_names(house))}: {' '.join(double_names(house))}"),
        (f"files that list all {number} rules; files of src that match on a kind", f"{len(listing)}; {len(kinds(house))}"),
        ("functions; of six and more parameters; of eight and more", f"{len(taken)}; {sum(n >= 6 for _, _, n in taken)}; {sum(n >= 8 for _, _, n in taken)}"),
        ("clauses; of these of what stays", f"{sum(count.values())}; {sum(count[name] for name in STAYS)}"),
        ("lines of heads to lines of bodies", f"{heads} / {bodies} = {heads / max(bodies, 1):.2f}"),
        ("alike pairs: src; all", f"{pairs(house, ('src',))}; {pairs(house, ('src', 'specs', 'proofs'))}"),
        ("lines of src; specs; proofs", "; ".join(str(sum(map(lines_of, house.texts(folder).values()))) for folder in ("src", "specs", "proofs"))),
        ("tracked files; documents", f"{len(house.tracked)}; {sum(os.path.getsize(os.path.join(house.top, path)) for path in documents) / 1000:.0f} KB"),
    ]
    for name, value in table:
        print(f"{name}: {value}")
    return 0
