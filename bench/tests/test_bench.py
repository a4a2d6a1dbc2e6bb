"""Tests of the scripts that the repository leans on: planted/ taken apart, clauses compared, heads.py, and how commands are read out of documents."""
import collections
import contextlib
import io
import os
import random
import shutil
import sys
import tempfile
import unittest

TOP = os.path.join(os.path.dirname(os.path.abspath(__file__)), "..", "..")
sys.dont_write_bytecode = True
sys.path[:0] = [os.path.join(TOP, "bench"), os.path.join(TOP, "plans"), TOP]

import clauses
import commands
import files
import heads
import planted
import reader
import together
from hostile import several, shown, tables
from second import kallsyms

MADE = [os.path.join(files.DATA, name) for name in ("z.core", "z.btf", "z.map")]


class Shown(unittest.TestCase):
    """Damages with what kwhy has to say of them."""

    TEXT = ("About them.\n\n## one: a word\nplan a.toml, file offset 10, old 1, new 2f, status 1\n+ root a\n? (repair|fits) NEW OLD\n- repair .*\n@ 40\n+ stack 3 sh+0\n"
            "\n## two: another\nplan b.toml, file offset 18, old 0, new 1, status 1\n- stack unknown\n")

    def test_reading(self):
        one, two = shown.cases_of(self.TEXT)
        self.assertEqual((one.damage.name, one.damage.plan, one.damage.offset, one.damage.old, one.damage.new), ("one", "a.toml", 16, 1, 47))
        self.assertEqual([part.address for part in one.parts], [None, "40"])
        self.assertEqual(one.parts[0].one_of, ["(repair|fits) 000000000000002f 0000000000000001"])
        self.assertEqual((two.damage.name, two.parts), ("two", [shown.Part(None, [], [], ["stack unknown"])]))

    def test_faults(self):
        part = next(shown.cases_of(self.TEXT)).parts[0]
        good = "root a\nfits 000000000000002f 0000000000000001\n"
        self.assertEqual(list(shown.faults(part, good)), [])
        self.assertEqual(list(shown.faults(part, "root b\nrepair x\n")),
                         ["lacks: root a", "none is: (repair|fits) 000000000000002f 0000000000000001", "has: repair x"])

    def test_lines_are_whole(self):
        part = shown.Part(None, ["root a"], [], ["a.c"])
        self.assertEqual(list(shown.faults(part, "root ab\nxabc\n")), ["lacks: root a"])

    def test_the_file(self):
        cases = list(shown.cases_of(files.read(shown.HERE, "shown.txt").decode("ascii")))
        self.assertEqual(len({case.damage.name for case in cases}), len(cases))
        self.assertTrue(all(case.damage.old != case.damage.new and any(part.wanted or part.one_of for part in case.parts) for case in cases))

    def test_named(self):
        """By a way's sign, or by a word that was written over."""
        place = "place 0000000000000040 0000000000000040 0000000000000048 0000000000000000\nsays zero\nspan 0000000000000040 0000000000000047\n"
        self.assertTrue(several.is_named("zeros", place, {0x40: bytes(16)}))
        self.assertFalse(several.is_named("zeros", place, {0x50: bytes(16)}))
        self.assertFalse(several.is_named("text", place, {0x40: bytes(16)}))
        self.assertTrue(several.is_named("other", "x\ncopy of 0000000000000040\n", {}))


class Together(unittest.TestCase):
    """Wrong bodies that are tried in one check."""

    CODE = "const A: u8 = 1;\n\npub fn one(a: u8)\n    -> u8\n{\n    a\n}\n\nimpl B {\n    pub(crate) fn two(&self) {\n        c\n    }\n\n    const D: u8 = 2;\n}\n"
    SAID = ("./proofs/b/two/Answers.antt:3:5: error: `returns`: no\nfn kc_a::b::one: no proof: it calls `kc_a::b::B::two`, which is not proved\n"
            "fn kc_a::b::B::two: not proved\nfn kc_a::c::two: proved\nfn <kc_a::b::B as T>::three: no proof: `search` did not prove `returns`\n"
            "fn kc_a::b::four: not proved; it calls `kc_a::b::B::two`, which is not proved\n")

    def edit(self, path, name):
        edit = together.Edit.__new__(together.Edit)
        edit.name, edit.changes, edit.home = "an edit", [], (path, name)
        return edit

    def test_the_function_of_a_byte(self):
        for text, wanted in (("a\n}", "one"), ("-> u8", "one"), ("c\n", "two"), ("A: u8", None), ("D: u8", None)):
            found = together.home(self.CODE, self.CODE.index(text))
            self.assertEqual(found and found[0], wanted, text)

    def test_what_is_said_of_a_function(self):
        for path, name, wanted in (("src/b.rt", "one", "blocked"), ("src/b.rt", "two", "proof"), ("src/c.rt", "two", "proved"), ("src/b.rt", "three", "goal"), ("src/b.rt", "four", "blocked"), ("src/d.rt", "two", None)):
            self.assertEqual(together.verdict("kc_a", self.edit(path, name), self.SAID), wanted, (path, name))
        nowhere = self.edit("", "")
        nowhere.home = None
        for said, wanted in ((self.SAID, "goal"), ("fn kc_a::c::two: proved\n", "proved"), ("error\n", None)):
            self.assertEqual(together.verdict("kc_a", nowhere, said), wanted, said)

    def test_what_a_function_may_call(self):
        self.assertEqual(together.words_of(self.CODE), {"one": {"u8", "a"}, "two": {"c"}})
        self.assertEqual(together.reached({"a": {"b", "x"}, "b": {"c"}, "c": set(), "d": {"d"}}), {"a": {"a", "b", "c"}, "b": {"b", "c"}, "c": {"c"}, "d": {"d"}})

    def test_no_round_has_a_function_twice_or_with_one_that_it_calls(self):
        edits = [self.edit("src/b.rt", name) for name in "aabcad"]
        calls = {name: {name} for name in "abcd"} | {"d": {"d", "b"}}
        self.assertEqual([[edit.home[1] for edit in some] for some in together.rounds(edits, calls)], [["a", "b", "c"], ["a", "d"], ["a"]])


class Planted(unittest.TestCase):
    """planted/ taken apart and put together."""

    def test_each_file_is_its_edits(self):
        for name in os.listdir(os.path.join(TOP, "planted")):
            text = planted.read(os.path.join(TOP, "planted", name))
            edits = planted.apart(text)
            self.assertEqual(planted.together(edits), text, f"{name}: `python3 bench planted sort` puts it in order")
            for edit in edits:
                self.assertTrue(list(planted.changes(edits[edit])), f"{name}: {edit}")

    def test_each_edit_fits_the_code(self):
        self.assertEqual(list(planted.faults()), [])

    def test_cut_edits_are_as_they_were(self):
        edits = {"a": "file: x\nold: one\nnew: two\n", "b": "Some words.\nfile: x\nold:  p: q\nnew: \nfile: y\nold: r\nnew: s\n"}
        self.assertEqual(planted.apart(planted.together(edits)), edits)
        self.assertEqual(list(planted.changes(edits["b"])), [("x", " p: q", ""), ("y", "r", "s")])

    def test_a_name_twice_is_refused(self):
        with self.assertRaises(planted.BadEdit):
            planted.apart("edit: a\nfile: x\n\nedit: a\nfile: x\n")

    def test_edits_of_a_folder_are_put_in_and_cut_apart_again(self):
        top, planted.TOP = planted.TOP, tempfile.mkdtemp()
        self.addCleanup(setattr, planted, "TOP", top)
        self.addCleanup(shutil.rmtree, planted.TOP)
        source, given, cut = (os.path.join(planted.TOP, name) for name in ("crates/x/src", "given", "cut"))
        for folder in (source, given, os.path.join(planted.TOP, "planted")):
            os.makedirs(folder)
        planted.write(os.path.join(source, "a.rt"), "one\ntwo\ntwo\n")
        planted.write(os.path.join(given, "b.edit"), "file: src/a.rt\nold: one\nnew: three\n")
        self.assertEqual(planted.add("x", given), 1)
        self.assertEqual(planted.cut("x", cut), 1)
        self.assertEqual(planted.read(os.path.join(cut, "b.edit")), planted.read(os.path.join(given, "b.edit")))
        self.assertEqual(list(planted.counts()), [("x", 0, 1)])
        with self.assertRaises(planted.BadEdit):
            planted.add("x", given)
        self.assertEqual(list(planted.faults()), [])
        planted.write(planted.place("x"), planted.together({name: planted.kept("x")["b"] for name in "bc"}))
        self.assertEqual(list(planted.faults()), ["x/c: makes what b makes"])
        planted.write(planted.place("x"), planted.together({"b": planted.kept("x")["b"]}))
        os.makedirs(os.path.join(planted.TOP, "crates", "x", "must-fail"))
        planted.write(os.path.join(planted.TOP, "crates", "x", "must-fail", "b.edit"), "file: src/a.rt\nold: four\nnew: x\n")
        planted.write(os.path.join(planted.TOP, "planted", "y.edits"), "")
        wrong = ["planted/y.edits: there is no such crate", "x/b: must-fail/ has one of this name", "x/b: src/a.rt has this 0 times: four"]
        self.assertEqual(list(planted.faults()), wrong)
        for odd in ("file: src/a.rt\nold: two\nnew: x\n", "file: src/a.rt\nold: four\nnew: x\n", "file: src/b.rt\nold: one\nnew: x\n", "words\n"):
            with self.assertRaises(planted.BadEdit, msg=odd):
                planted.check("x", "odd", odd)


BEFORE = {
    "kc_a/src/lib.rt": "mod f;\npub use f::{T, f};\n",
    "kc_a/src/f.rt": """ghost use Rattle.kc_a.specs.Words.{Good};

pub struct T;

// A brace { in a comment.
pub fn f<R: Fn(u64) -> u64>(x: u64) -> Result<u64, T>
    requires small { x < 5 }
    ensures good { IfOk result (λ y. Good x y) }
    ensures { result ≡ Ok 1 }
{
    Ok(1)
}

fn inner(x: u64) -> u64
    ensures { result ≡ x }
{
    x
}
""",
    "kc_a/specs/Lib.antt": "pub mod Words\n",
    "kc_a/specs/Words.antt": "-- Words.\nabbrev pub Good : ℕ → ℕ → Type 0\nGood x y = x ≡ y\n",
}
AFTER = {
    "kc_b/src/lib.rt": "mod a;\npub use a::{U, f};\n",
    "kc_b/src/a/f.rt": BEFORE["kc_a/src/f.rt"].replace("kc_a.specs", "kc_b.specs.A").replace("T", "U").replace("λ y. Good x y", "λ z. Good x z"),
    "kc_b/specs/Lib.antt": "pub mod A\n",
    "kc_b/specs/A/Words.antt": BEFORE["kc_a/specs/Words.antt"],
    "kc_b/specs/A/Others.antt": BEFORE["kc_a/specs/Words.antt"],
}


class Clauses(unittest.TestCase):
    """Clauses of two states, of which the later one has the crate of the earlier one in another."""

    def compare(self, old="", new="", words=()):
        """The status and the text for the later state, in whose code one text stands for another."""
        with tempfile.TemporaryDirectory() as top:
            code = {"kc_b/src/a/f.rt": AFTER["kc_b/src/a/f.rt"].replace(old, new)}
            for state, made in (("before", BEFORE), ("after", AFTER | code)):
                for name, text in made.items():
                    os.makedirs(os.path.dirname(os.path.join(top, state, "crates", name)), exist_ok=True)
                    planted.write(os.path.join(top, state, "crates", name), text)
            planted.write(os.path.join(top, "renames"), "[crates]\nkc_a = kc_b a A # merged\n[types]\nkc_a::T = kc_b::U\n")
            with contextlib.redirect_stdout(io.StringIO()) as said:
                status = clauses.main([*words, *(os.path.join(top, name) for name in ("before", "after", "renames"))])
            return status, said.getvalue()

    def test_what_moved_is_the_same(self):
        status, said = self.compare()
        self.assertEqual(status, 0, said)
        self.assertIn("crates: kc_a -> kc_b a A", said)
        self.assertIn("1 compared, in 3 texts: 0 gone, 0 changed, 0 new", said)
        self.assertEqual(self.compare(words=["--definitions"])[0], 0)

    def test_what_is_less_is_told(self):
        for old, new, word in [
            ("x < 5", "x < 6", "changed: requires small"),
            ("Good x z", "Good z x", "changed: ensures good"),
            ("specs.A.Words", "specs.A.Others", "kc_b.specs.A.Words.Good is now kc_b.specs.A.Others.Good"),
            ("    ensures { result ≡ Ok 1 }\n", "", "gone: ensures"),
            ("    requires", "    requires more { x ≡ 0 }\n    requires", "new: requires more"),
            ("pub fn f", "pub fn g", "kc_a::f, now nothing"),
        ]:
            status, said = self.compare(old, new)
            self.assertEqual(status, 1, word)
            self.assertIn(word, said)

    def test_what_is_more_is_told_and_no_fault(self):
        status, said = self.compare("    ensures {", "    ensures more { 1 ≡ 1 }\n    ensures {")
        self.assertEqual(status, 0, said)
        self.assertIn("new: ensures more", said)


class Heads(unittest.TestCase):
    """WHERE, STEP and COUNT of heads.py on the made dump."""

    @classmethod
    def setUpClass(cls):
        cls.kernel = reader.open_kernel(*MADE)

    def first(self, where):
        return heads.first_heads(self.kernel, where, 1)

    def word(self, at):
        return self.kernel.memory.place(at)[3]

    def test_first_heads(self):
        ring = heads.address(self.kernel, "my_ring")
        after = self.word(ring)
        self.assertEqual(self.first("my_ring"), [ring])
        self.assertEqual(self.first(f"0x{ring:x}+8"), [ring + 8])
        self.assertEqual(self.first("*my_ring+16"), [after + 16])
        self.assertEqual(self.first("*my_ring+item.key"), [after + 32])
        self.assertEqual(self.first("**my_ring+list_head.prev+16"), [self.word(after + 8) + 16])

    def test_a_pointer_inside_a_struct_is_followed(self):
        ring = heads.address(self.kernel, "my_ring")
        last = self.word(ring + 8)
        self.assertEqual(self.first("*(my_ring+list_head.prev)"), [last])
        self.assertEqual(self.first("*(my_ring+list_head.prev)+item.rb"), [last + 40])
        self.assertEqual(self.first("*(*(my_ring+8)+8)"), [self.word(last + 8)])
        self.assertEqual(self.first("my_ring+list_head.prev->prev"), [last + 8])

    def test_a_count_is_a_number_a_symbol_or_a_member(self):
        item = heads.address(self.kernel, "an_item")
        key = self.kernel.field(item, "item", "key")[0]
        self.assertEqual(heads.count_of(self.kernel, "0x20"), 32)
        self.assertEqual(heads.count_of(self.kernel, "my_ring"), self.word(heads.address(self.kernel, "my_ring")) & 0xFFFFFFFF)
        self.assertEqual(heads.count_of(self.kernel, "an_item+item.key"), key)
        self.assertEqual(heads.count_of(self.kernel, "an_item+item.key+1"), key + 1)
        small = self.kernel.field(item, "item", "small")[0]
        self.assertEqual(heads.count_of(self.kernel, "an_item+item.small") % reader.TOP, small)

    def test_what_is_wrong_ends_it(self):
        for where in ("nobody", "*(my_ring", "*(my_ring)x", "my_ring+nothing.here", "*0x1"):
            with self.assertRaises(SystemExit, msg=where):
                self.first(where)
        with self.assertRaises(SystemExit):
            heads.step_of(self.kernel, "list_head.next->prev")

    def test_a_plan_is_written(self):
        with tempfile.TemporaryDirectory() as folder:
            out, plain = os.path.join(folder, "r"), sys.stdout
            with open(os.devnull, "w") as sys.stdout:
                heads.main([*MADE, out, "my_ring", "list_head", "1", "ring", "item", "link", "key >= {0}"])
            sys.stdout = plain
            with open(out + ".map") as rows, open(out + "-1.toml") as plan:
                self.assertEqual(rows.read(), "ffffffff8000b120 D r0\n")
                audit = '[[audit]]\nname = "r0"\nkind = "ring"\nroot = "r0"\nelement = "item"\nlink = "link"\ncheck = ["key >= 0"]\n'
                self.assertEqual(plan.read(), "version = 2\n\n" + audit)


class Files(unittest.TestCase):
    """What lies beside a dump."""

    def test_a_carriage_return_goes_with_its_newline(self):
        row = b"ffffffff8000b000 D init_task\r"
        self.assertEqual(reader.symbols(row + b"\n"), {b"init_task": [0xFFFFFFFF8000B000]})
        with self.assertRaises(reader.Refused):
            reader.symbols(row)

    def test_changed_words_are_read(self):
        with tempfile.TemporaryDirectory() as folder:
            self.assertEqual(list(files.damages(folder)), [])
            with open(os.path.join(folder, "damage.txt"), "w") as file:
                file.write("Some words.\n\n## a-b: what\nplan p.toml, file offset 10, old 1, new ff, status 1\nbroken\nrule A\n\n## c: d\n")
                file.write("plan q.toml, file offset 8, old 2, new 3, status 0\nclean\n")
            first, second = files.damages(folder)
            self.assertEqual(first, ("a-b", "a-b: what", "p.toml", 16, 1, 255, 1, "broken\nrule A\n"))
            self.assertEqual(second.report, "clean\n")
            with open(os.path.join(folder, "vmcore"), "wb") as file:
                file.write(bytes(16) + b"\x01" + bytes(7))
            with files.changed(os.path.join(folder, "vmcore"), first):
                self.assertEqual(files.read(folder, "vmcore")[16:18], b"\xff\0")
            self.assertEqual(files.read(folder, "vmcore")[16:18], b"\x01\0")


class Held:
    """Virtual memory that is a string from address 0 on, in chunks of 16 bytes; the words from `end` on can't be read."""

    def __init__(self, data, end):
        self.data, self.end, self.asked = data, end, []

    def chunk(self, va):
        self.asked.append(va)
        if va >= self.end:
            raise kallsyms.Broken(str(va))
        return self.data[va : min(va // 16 * 16 + 16, self.end)]


class Damaged:
    """What tables.py damages, of a file of 4096 bytes: addresses are places of the file."""

    note, lines = (0, 100), [10, 20]

    def __init__(self):
        self.memory = self
        self.of_log = lambda rng: (rng.randrange(1000, 1100), rng.choice((1, 8)))
        self.of_tables = lambda rng: (rng.randrange(2000, 2100), rng.choice((2, 4, 600)))
        self.entry = lambda va, rng: 3000

    def place(self, va):
        assert va % 8 == 0
        return va, va, va, 0


class Tables(unittest.TestCase):
    """Tables of symbols, as they are read and damaged."""

    def test_bytes_are_read_when_they_are_needed(self):
        held = Held(bytes(range(64)), 40)
        text = kallsyms.Bytes(held, 13)
        self.assertEqual((text.take(2), held.asked), (b"\x0d\x0e", [13]))
        self.assertEqual((text.take(3), held.asked), (b"\x0f\x10\x11", [13, 16]))
        self.assertEqual(text.take(22), bytes(range(18, 40)))
        with self.assertRaises(kallsyms.Broken):
            text.take(1)

    def test_names(self):
        for name in (b"Tx", b"?x", b"T" + b"x" * 511):
            kallsyms.check(1, name)
        for name, code in ((b"", "S7"), (b"T", "S7"), (b"T" + b"x" * 512, "S7"), (b"Ta b", "S7"), (b"1x", "S8"), (b"1", "S8"), (b"\xe4x", "S8")):
            with self.assertRaises(kallsyms.Refused) as why:
                kallsyms.check(1, name)
            self.assertEqual(str(why.exception), code + " symbol 1")

    def test_the_map_of_the_small_dump(self):
        small = os.path.join(files.CRATES, "kfiles")
        self.assertEqual(kallsyms.answer(os.path.join(small, "data", "z.core"), "map"), (0, files.read(small, "stdout"), b""))

    def test_what_is_damaged_is_put_back(self):
        whole, kinds = bytes(k * k % 251 for k in range(4096)), collections.Counter()
        for seed in range(300):
            data = bytearray(whole)
            with tables.damaged(Damaged(), data, random.Random(seed)) as names:
                kinds.update(name.split()[0] for name in names)
                self.assertEqual(len(data), 4096)
                changed = {k // 1000 for k in range(4096) if data[k] != whole[k]}
                self.assertLessEqual(changed, {{"note": 0, "log": 1, "tables": 2, "entry": 3}[name.split()[0]] for name in names})
            self.assertEqual(data, whole)
        self.assertEqual(set(kinds), {"note", "log", "tables", "entry"})


class Commands(unittest.TestCase):
    """Commands read out of documents."""

    def test_blocks(self):
        text = "words\n```console\n$ a\n> b\none\n$ c\n```\n- point\n  ```toml x.toml\n  k = 1\n  ```\n"
        blocks = list(commands.fenced(text))
        self.assertEqual([(b.line, b.word, b.lines) for b in blocks], [(2, "console", ["$ a", "> b", "one", "$ c"]), (9, "toml x.toml", ["k = 1"])])
        self.assertEqual(list(blocks[0].steps()), [(3, "a\nb", ["one"]), (6, "c", [])])

    def test_man_pages(self):
        (block,) = commands.examples(".EX\n$ kaudit \\-x \\(aqy\\(aq\nout\n.EE\n")
        self.assertEqual(list(block.steps()), [(2, "kaudit -x 'y'", ["out"])])

    def test_lines_that_stand_for_any(self):
        self.assertTrue(commands.matches(["..", "b", ".."], ["a", "b"]))
        self.assertTrue(commands.matches(["a", "..", "c"], ["a", "c", "b", "c"]))
        self.assertFalse(commands.matches(["..", "b"], ["b", "a"]))
        self.assertFalse(commands.matches(["a"], ["a", "b"]))
        self.assertFalse(commands.matches([], ["a"]))


if __name__ == "__main__":
    unittest.main()
