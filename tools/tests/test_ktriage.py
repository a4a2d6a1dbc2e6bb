"""ktriage over programs that print what is written here, and over files that no kernel made."""
import contextlib
import importlib.machinery
import importlib.util
import io
import json
import os
import re
import signal
import struct
import subprocess
import sys
import tempfile
import time
import unittest
import unittest.mock

TOP = os.path.dirname(os.path.dirname(os.path.dirname(os.path.realpath(__file__))))


def load(name, path):
    loader = importlib.machinery.SourceFileLoader(name, path)
    module = importlib.util.module_from_spec(importlib.util.spec_from_loader(name, loader))
    loader.exec_module(module)
    return module


ktriage = load("ktriage", os.path.join(TOP, "tools", "ktriage"))

KMATCH = """OSRELEASE 6.1.0-test
BUILD-ID 00112233445566778899aabbccddeeff00112233
KERNELOFFSET 0
types same
same 79 differ 0 unknown 3"""
CLEAN = "roots 2\nroot tasks clean\naudit tasks walks 1 elements 227\nroot keys clean\naudit keys walks 1 elements 0"
VIOLATION = """audit tasks
start ffffffff82a10000
rule L1
at ffff888000001008
expected ffff888000002000
place ffff888000001008 0000000000001008 0000000000002008 ffff888000003000"""
BAD = "roots 2\nroot tasks broken\n" + VIOLATION + "\nroot keys clean\naudit keys walks 1 elements 388"
CAUSE = """root tasks
audit tasks
rule L1 prev isn't the node before
element task_struct ffff888000001000 tasks.prev
place ffff888000001008 0000000000001008 0000000000002008 ffff888000003000
expected ffff888000002000 found ffff888000003000 bits 1
repair ffff888000001008 0000000000001008 0000000000002008 ffff888000003000 ffff888000002000"""
LOG = """[    1.000000] Linux version 6.1.0-test
[    1.500000] WARNING: CPU: 0 PID: 1 at fs/inode.c:1
[    1.500001] RDX: ffff888000009000
[    2.000000] BUG: unable to handle page fault for address: ff11000000001122
[    2.000001][    T1] RIP: 0010:kmem_cache_alloc+0x60/0x2b0
[    2.000002] Modules linked in: ext4
[    2.000003] RAX: ffff888000001000 RBX: 0000000000000001 RCX: fffffffffffffff2
[    2.000004] RSP: 0018:ff11000000002000 R08: 00007ffc00001000
[    2.000005] Comm: \x1b[31mred
[    2.000005]  ? doubted+0x1/0x2
[    2.000006] ---[ end trace 0000000000000000 ]---
[    2.000007] after it"""
SLABS = """slab ffffea0000151880 cache ffff888000101000 dentry broken U5 at 6f6c6c6568206f6c
place ffff888000002040 0000000000002040 0000000000003040 6f6c6c6568206f6c
processor 1 slab ffffea0000151900 cache ffff888000101000 a name broken A at ffff888000004000 expected 0000000000000000
place ffff888000005000 0000000000005000 0000000000006000 ffff888000004000
slab ffffea0000151980 cache ffff888000101000 dentry broken M6 at ffff888000007000
stop 0 0000000000007000
processors 2 slabs 170 unread 0 broken 1 free 5578
caches 157
frames 49013 absent 0 unmarked 0 kfence 0
slabs 3946 frozen 262 untold 0 broken 2
objects 104397 free 2762"""


def core_with_note(text):
    """An ELF core that has a VMCOREINFO note and nothing else."""
    note = struct.pack("<III", 11, len(text), 0) + b"VMCOREINFO\0\0" + text + b"\0" * (-len(text) % 4)
    head = b"\x7fELF\x02\x01\x01" + b"\0" * 9 + struct.pack("<HHIQQQIHHHHHH", 4, 62, 1, 0, 64, 0, 0, 64, 56, 1, 64, 0, 0)
    return head + struct.pack("<IIQQQQQQ", 4, 0, 120, 0, 0, len(note), len(note), 4) + note


class Folder(unittest.TestCase):
    """A folder with programs, plans, a dump and its files."""

    def setUp(self):
        self.kept = tempfile.TemporaryDirectory()
        self.addCleanup(self.kept.cleanup)
        self.top = self.kept.name
        for name in ("programs", "plans"):
            os.mkdir(self.path(name))
        self.write("vmcore", core_with_note(b"OSRELEASE=6.1.0-test\nBUILD-ID=0011\n"))
        self.write("btf", b"types")
        self.write("System.map", b"map")
        self.write("plans/kernels.txt", b"all.toml 6.1 6.9 -\nlater.toml 6.9 - -\n")
        self.write("plans/all.toml", b'version = 2\n\n[[audit]]\nname = "tasks"\neach = ["threads"]\n\n[[audit]]\nname = "threads"\nfrom = ""\n\n[[audit]]\nname = "keys"\n')
        self.program("kmatch", KMATCH)
        self.program("kaudit", CLEAN)
        self.program("kwhy", CAUSE)

    def path(self, name):
        return os.path.join(self.top, name)

    def write(self, name, data):
        with open(self.path(name), "wb") as file:
            file.write(data)

    def program(self, name, out, status=0, error=""):
        self.script(name, f"cat <<'T'\n{out}\nT\n" + (f"echo '{error}' >&2\n" if error else "") + f"exit {status}\n")

    def script(self, name, text):
        path = self.path("programs/" + name)
        with open(path, "w") as file:
            file.write("#!/bin/sh\n" + text)
        os.chmod(path, 0o755)

    def run_it(self, *words):
        out, err = io.StringIO(), io.StringIO()
        with contextlib.redirect_stdout(out), contextlib.redirect_stderr(err):
            try:
                status = ktriage.main(["--programs", self.path("programs"), "--plans", self.path("plans"), *words])
            except SystemExit as end:
                status = end.code
        return status, out.getvalue(), err.getvalue()

    def triage(self, *words):
        return self.run_it("--types", self.path("btf"), "--map", self.path("System.map"), *words, self.path("vmcore"))


class Pages(Folder):
    def test_sound(self):
        status, out, err = self.triage()
        self.assertEqual((status, err), (0, ""))
        self.assertTrue(out.startswith("verdict   nothing broken was found: 2 of 2 roots are sound\n"), out)
        self.assertIn("  tasks 227\n", out)
        self.assertIn("  keys 0\n", out)
        self.assertIn("kslab isn't installed", out)

    def test_broken(self):
        self.program("kaudit", BAD, 1)
        status, out, _ = self.triage()
        self.assertEqual(status, 1)
        self.assertIn("BROKEN  tasks (plan all.toml)", out)
        self.assertIn("  " + CAUSE.split("\n")[-1], out)

    def test_what_the_broken_word_looks_like(self):
        self.program("kaudit", BAD, 1)
        near = 'near ffff888000001008 6c6c6f2068656c6c text "lleh oll"\nspan ffff888000001008 ffff88800000101f'
        self.script("kwhy", f"[ $# = 5 ] || {{ cat <<'T'\nnear ffff888000001000 0000000000000000 zero\n{near}\nT\nexit; }}\ncat <<'T'\n{CAUSE}\nT\n")
        _, out, _ = self.triage()
        self.assertIn("  " + near.replace("\n", "\n  ") + "\n\nNOT LOOKED AT", out)

    def test_one_verdict(self):
        self.program("kaudit", "broken\n" + VIOLATION, 1)
        self.program("kwhy", CAUSE)
        status, out, _ = self.triage()
        self.assertEqual(status, 1)
        self.assertIn("BROKEN  all (plan all.toml)", out)
        self.assertIn("repair ffff888000001008", out)

    def test_the_same_word_stands_once(self):
        self.program("kaudit", "roots 2\nroot tasks broken\n" + VIOLATION + "\nroot keys broken\n" + VIOLATION, 1)
        self.program("kwhy", "root tasks\nrepair none of 1 tried\n" + CAUSE.replace("root tasks", "root keys"))
        _, out, _ = self.triage()
        self.assertIn("verdict   broken: tasks, keys; 0 of 2 roots are sound", out)
        self.assertIn("BROKEN  keys (plan all.toml), tasks (plan all.toml)\n  audit tasks\n", out)
        self.assertEqual(out.count("BROKEN"), 1)
        self.assertNotIn("none of 1", out)

    def test_absent_memory_is_no_damage(self):
        self.program("kaudit", BAD.replace("rule L1", "rule M6"), 1)
        self.program("kwhy", "root tasks\nrepair none of 65 tried")
        status, out, _ = self.triage()
        self.assertEqual(status, 0)
        self.assertIn("verdict   nothing broken was found: 1 of 2 roots are sound, 1 aren't in the dump\n", out)
        self.assertIn("  tasks (plan all.toml): rule M6 at ffff888000001008", out)

    def test_a_wrong_pointer_to_absent_memory_is_damage(self):
        self.program("kaudit", BAD.replace("rule L1", "rule M6"), 1)
        status, out, _ = self.triage()
        self.assertEqual(status, 1)
        self.assertIn("verdict   broken: tasks; 1 of 2 roots are sound", out)
        self.assertIn("repair ffff888000001008", out)
        self.assertNotIn("NOT IN THE DUMP", out)

    def test_a_word_that_only_fits_is_no_damage(self):
        self.program("kaudit", BAD.replace("rule L1", "rule M6"), 1)
        self.program("kwhy", CAUSE.replace("repair ", "fits "))
        self.assertEqual(self.triage()[0], 0)

    def test_an_audit_that_the_map_lacks_is_left_out(self):
        self.script("kaudit", f'if grep -q threads "$5"; then echo "refused plan P9 audit 0 key root" >&2; exit 2; fi\ncat <<T\n{CLEAN}\nT\n')
        status, out, _ = self.triage()
        self.assertEqual(status, 0)
        self.assertIn("all.toml, audit tasks: the map has no such symbol", out)
        self.assertIn("all.toml, audit threads: it lies below tasks", out)

    def test_checks_that_the_types_lack_are_left_out(self):
        self.write("plans/all.toml", b'version = 2\n\n[[audit]]\nname = "tasks"\ncheck = ["a[1] != 0", "b"]\n\n[[audit]]\nname = "keys"\n')
        self.script("kaudit", f'if grep -q check "$5"; then echo "refused plan P12 audit 0 key check" >&2; exit 2; fi\ncat <<T\n{CLEAN}\nT\n')
        status, out, err = self.triage()
        self.assertEqual((status, err), (0, ""))
        self.assertIn("all.toml, audit tasks: without its checks: they name what these types don't have", out)
        self.script("kaudit", 'echo "refused plan P12 audit 0 key check" >&2; exit 2\n')
        self.is_refused_here("nothing was looked at: all.toml: no audit is left")

    def is_refused_here(self, told):
        status, out, err = self.triage()
        self.assertEqual((status, out, told in err), (2, "", True), err)

    def test_log_and_registers(self):
        self.program("kfiles", LOG)
        self.program("kwhy", "address ffff888000001000\ncache ffff888004841c00 kmalloc-2k size 2048\nnear x")
        status, out, _ = self.triage()
        self.assertEqual(status, 0)
        self.assertIn("  RIP: 0010:kmem_cache_alloc+0x60/0x2b0", out)
        self.assertIn("  RAX ffff888000001000  cache ffff888004841c00 kmalloc-2k size 2048", out)
        for told in ("  RSP ff11000000002000  cache", "  text ff11000000001122  cache", "  Comm: \\x1b[31mred\n", "end trace"):
            self.assertIn(told, out)
        for gone in ("Linux version", "WARNING", "RDX", "RCX fff", "R08 0", "Modules linked", "after it", "doubted", "\x1b"):
            self.assertNotIn(gone, out)

    def test_what_the_log_says_of_a_crash(self):
        log = ["check: Scanning 1 areas for low memory corruption", "Command line: panic=30", "general protection fault: 0000 [#1] PREEMPT SMP",
               "RAX: ffff888000001000", " <TASK>", "RIP: 0033:0x47fbe9", "Code: 08 89", "RSP: 002b:00007ffc", "R13: 0000", " </TASK>", "here",
               "---[ end trace 0 ]---", "eth0: up", "Kernel panic - not syncing: Fatal exception"]
        heads = ("BUG kmalloc-96 (Not tainted): Poison overwritten", "kernel BUG at lib/list_debug.c:51!", "list_del corruption. next->prev should be 1",
                 "BUG: TASK stack guard page was hit at 1", "traps: PANIC: double fault", "divide error: 0000 [#2] SMP", "sysrq: Trigger a crash")
        for lines, wanted in ((log[:2], []), (log, [*log[2:4], *log[10:12], log[13]]), *(([head, "x"], [head, "x"]) for head in heads)):
            with self.subTest(wanted[:1]):
                self.assertEqual(ktriage.crash_lines("".join(f"[    1.000000] {line}\n" for line in lines)), wanted)

    def test_the_answer_comes_first(self):
        self.program("kaudit", BAD, 1)
        self.program("kfiles", LOG)
        self.script("kwhy", f"[ $# = 5 ] || {{ echo 'cache ffff888004841c00 kmalloc-2k size 2048'; exit; }}\ncat <<'T'\n{CAUSE}\nT\n")
        _, out, _ = self.triage()
        self.assertIn("\n  at ffff888000002000: cache ffff888004841c00 kmalloc-2k size 2048\n", out)
        heads = [line.split("  ")[0] for line in out.split("\n") if line[:1].isalpha()]
        self.assertEqual(heads, ["verdict", "dump", "kernel", "BROKEN", "PANIC", "ADDRESSES IN IT", "NOT LOOKED AT", "FILES", "GO ON", "SOUND"])

    def test_whose_stack_is_broken(self):
        end = "ffffc90000010000"
        task = "broken\naudit leaders\nstart ffffffff82a10000\nrule C\nat ffff888000001000\nexpected none\nplace ffff888000001020 - - " + end
        words = {"8a8": "0000000700000007", "9e8": "6168006d78746d69"}
        self.script("kaudit", f'case $1 in layout) echo "struct task_struct size 9000"; echo "member 17760 32 pid"; echo "member 17792 32 tgid"; echo "member 20288 128 comm";;'
                              f' word) case $4 in *8a8) echo "- - - {words["8a8"]}";; *9e8) echo "- - - {words["9e8"]}";; *) echo "- - - 0000000000000000";; esac;;'
                              f' *) if grep -q "stack != 0x{end}" "$5"; then cat <<T\n{task}\nT\nelse cat <<T\n{BAD.replace("L1", "T6").replace("ffff888000001008", end)}\nT\nfi;; esac\nexit 1\n')
        self.program("kwhy", f"root tasks\nrule T6 the magic number at the end of the stack is gone\nstack unknown T6 {end}")
        _, out, _ = self.triage()
        self.assertIn("stack is gone\n  stack 7 imtxm+0\n  task ffff888000001000\n", out)

    def test_a_guard_page(self):
        self.program("kfiles", "[    1.0] BUG: x\n[    1.0] RSP: 0018:ffffc90000007e38\n")
        self.script("kwhy", 'case $4 in ffffc90000007e38) echo "stopped M4 1 0000000000001000";; ffffc90000008000) echo "stack 7 a task+0";; esac\n')
        _, out, _ = self.triage()
        self.assertIn("  RSP ffffc90000007e38  stopped M4 1 0000000000001000; the page after it: stack 7 a task+0\n", out)

    def test_broken_slabs(self):
        self.program("kslab", SLABS, 1)
        self.program("kwhy", "near ffff888000002040 6f6c6c6568206f6c text \"lo hello\"\nspan ffff888000002040 ffff888000002047\npage 4096")
        status, out, _ = self.triage()
        self.assertEqual(status, 1)
        for told in ("verdict   broken: slab of dentry, processor 1 slab of a name; 2 of 2 roots are sound, 2 slabs are broken\n", "\n  slabs: processors 2 slabs 170", "BROKEN  slab of dentry\n", "BROKEN  processor 1 slab of a name\n",
                     "\n  span ffff888000002040 ffff888000002047\n", "  1 slabs with words that the dump doesn't hold"):
            self.assertIn(told, out)
        self.assertNotIn("page 4096", out)
        _, out, _ = self.triage("--json", "-")
        broken = json.loads(out)["slabs"]["broken"]
        self.assertEqual([(slab["cache"], slab["owner"], slab["rule"]) for slab in broken], [("dentry", "slab", "U5"), ("a name", "processor 1 slab", "A")])
        self.assertEqual(broken[0]["near"], [["ffff888000002040", "6f6c6c6568206f6c", 'text "lo hello"']])
        _, out, _ = self.triage("--html", "-")
        self.assertIn("Processor 1 slab ffffea0000151900 of a name is broken: rule A a word is met twice in one walk", out)

    def test_a_slab_that_a_root_shows_stands_once(self):
        self.program("kaudit", BAD.replace("ffff888000001008 0", "ffff888000002040 0"), 1)
        self.program("kwhy", CAUSE.replace("place ffff888000001008", "place ffff888000002040"))
        self.program("kslab", SLABS, 1)
        _, out, _ = self.triage()
        self.assertEqual((out.count("BROKEN  slab of dentry"), out.count("BROKEN  processor 1 slab of a name"), "2 slabs are broken" in out), (0, 1, True))

    def test_the_rules_of_slabs_are_said_as_kwhy_says_them(self):
        with open(os.path.join(TOP, "crates", "kc_rules", "src", "table.rt")) as file:
            said = dict(re.findall(r'Rule::(\w+) => row\(\s*b"\w+",\s*b"([^"]*)"', file.read()))
        rules = {rule: text for rule, text in ktriage.SLAB_RULES.items() if rule[0] != "Z"}
        self.assertEqual({rule: said[rule] for rule in rules}, rules)

    def test_bytes_of_slub_debug_and_the_ring_of_caches(self):
        place = "\nplace ffff888000002040 0000000000002040 0000000000003040 bbbbbbbb00bbbbbb"
        for line, told in (("slab ffffea0000151880 cache ffff888000101000 dentry broken Z1 at ffff888000002043 expected 00000000000000bb object ffff888000002048",
                            "BROKEN  slab of dentry\n  rule Z1 a byte of the red zone before"),
                           ("caches broken L1 at ffff888000002040 expected ffff888000003000", "BROKEN  ring of slab caches\n  caches broken L1 "),
                           ("slab ffffea0000151880 cache ffff888000101000 dentry broken M4 at ffff888000002043", "BROKEN  slab of dentry\n  slab ffffea")):
            with self.subTest(line):
                self.program("kslab", line + place + "\ncaches 157\nslabs 10 frozen 0 untold 0 guarded 10 broken 1", 1)
                status, out, _ = self.triage("--html", self.path("page.html"))
                self.assertEqual((status, told in out, ("no" if line.startswith("caches") else "1") + " slab is broken" in out), (1, True, True), out)
        self.program("kslab", "another line\nslabs 10 frozen 0 untold 0 broken 1", 1)
        self.assertEqual(self.triage()[0], 3)

    def test_slabs_that_are_sound_or_unknown(self):
        for out, status, told in (("caches 157\nslabs 10 frozen 0 untold 0 broken 0", 0, "are sound, no slab is broken\n"),
                                  ("caches unknown L1 at ffff888000001000\nplace ffff888000001000 - - 0", 1, "slabs: caches unknown L1 at ffff888000001000"),
                                  ("caches 157\nslabs 10 frozen 0 untold 3 broken 0", 1, "  3 slabs whose objects can't be laid out"),
                                  ("", 5, "  slabs: kslab ended with 5")):
            with self.subTest(told):
                self.program("kslab", out, status)
                status, page, err = self.triage()
                self.assertEqual((status, err, told in page), (0, "", True), page)

    def test_a_terminal_shows_the_work(self):
        ours, theirs = os.openpty()
        words = ["--programs", self.path("programs"), "--plans", self.path("plans"), "--types", self.path("btf"), "--map", self.path("System.map")]
        done = subprocess.run([sys.executable, ktriage.__file__, *words, self.path("vmcore")], stdin=subprocess.DEVNULL, stdout=subprocess.PIPE, stderr=theirs)
        os.close(theirs)
        shown = os.read(ours, 65536).decode()
        os.close(ours)
        self.assertEqual((done.returncode, shown.endswith("\r\x1b[K"), "\n" in shown), (0, True, False))
        self.assertIn("plan 1 of 1: all.toml", shown)

    def test_json(self):
        self.program("kaudit", BAD, 1)
        status, out, _ = self.triage("--json", "-")
        told = json.loads(out)
        self.assertEqual((status, told["status"], told["match"]["same"]), (1, 1, 79))
        self.assertEqual([root["verdict"] for root in told["roots"]], ["broken", "sound"])
        self.assertTrue(told["roots"][0]["repair"].endswith("ffff888000002000"))

    def test_words_that_repair_together(self):
        self.program("kaudit", BAD, 1)
        columns = CAUSE.split("repair ")[1]
        self.program("kwhy", CAUSE.split("repair ")[0] + f"repair none of 65 tried\nchain 2\nword {columns}\nword {columns}\ntwice ffff888000003000\n")
        _, out, _ = self.triage()
        self.assertIn("  two links lead to the node at ffff888000003000, as where it was added to its list a second time\n", out)
        root = json.loads(self.triage("--json", "-")[1])["roots"][0]
        self.assertEqual(root["chain"], [columns.split()] * 2)
        self.assertEqual(root["signs"], ["two links lead to the node at ffff888000003000, as where it was added to its list a second time"])
        self.triage("--html", self.path("page.html"))
        with open(self.path("page.html")) as file:
            self.assertIn("these 2 do together", file.read())

    def test_what_a_repair_is_worth(self):
        self.program("kaudit", BAD, 1)
        self.program("kwhy", CAUSE + "\nleads object task_struct+8\nstand 1 of 65 tried\nelements 800\n")
        said = ["ffff888000002000 at ffff888000001008 leads to object task_struct+8", "no other of 65 words tried does as well", "with it the audit meets 800 elements"]
        self.assertIn("".join(f"  {line}\n" for line in said), self.triage()[1])
        self.assertEqual(json.loads(self.triage("--json", "-")[1])["roots"][0]["worth"], said)
        self.triage("--html", self.path("page.html"))
        with open(self.path("page.html")) as file:
            self.assertIn("No other of 65 words tried does as well.", file.read())

    def test_that_a_repair_may_be_worth_little(self):
        self.program("kaudit", BAD, 1)
        self.program("kwhy", CAUSE + "\nleads zero\nstand 2 of 2 tried\nelements 1\n")
        said = ["ffff888000002000 at ffff888000001008 says zero", "another word does as well, of 2 tried", "with it the audit meets 1 element"]
        self.assertEqual(json.loads(self.triage("--json", "-")[1])["roots"][0]["worth"], said)

    def test_what_words_are_worth_together(self):
        self.program("kaudit", BAD, 1)
        columns = CAUSE.split("repair ")[1]
        self.program("kwhy", CAUSE.split("repair ")[0] + f"repair none of 65 tried\nchain 2\nword {columns}\nleads image a+0\nword {columns}\nelements 3\n")
        said = ["ffff888000002000 at ffff888000001008 leads to image a+0", "with them the audit meets 3 elements"]
        self.assertEqual(json.loads(self.triage("--json", "-")[1])["roots"][0]["worth"], said)

    def test_html_needs_no_network(self):
        self.program("kaudit", BAD.replace("tasks", "<b>&tasks"), 1)
        status, _, _ = self.triage("--html", self.path("page.html"))
        with open(self.path("page.html")) as file:
            text = file.read()
        self.assertEqual(status, 1)
        for word in ("http:", "https:", " src=", "@import", "<b>&tasks", "<script"):
            self.assertNotIn(word, text)

    def test_keep(self):
        self.triage("--keep", self.path("kept"))
        self.assertEqual(sorted(os.listdir(self.path("kept"))), ["all.report", "all.toml"])

    def test_files_out_of_the_dump(self):
        self.script("kfiles", '[ "$2" = log ] && exit 6; echo "$2"')
        dump, kept = self.path("vmcore"), self.path("kept")
        _, out, _ = self.run_it("--map", self.path("System.map"), dump)
        self.assertIn(f"GO ON\n  kfiles {dump} types > btf\n  kwhy {dump} btf {self.path('System.map')} ADDRESS ", out)
        _, out, _ = self.run_it("--keep", kept, dump)
        self.assertIn(f"GO ON\n  kwhy {dump} {kept}/btf {kept}/System.map ADDRESS ", out)
        self.assertEqual(sorted(os.listdir(kept)), ["System.map", "all.report", "all.toml", "btf"])

    def test_types_of_the_build_that_the_dump_holds_otherwise(self):
        self.script("kfiles", '[ "$2" = log ] && exit 6; echo "$2"')
        self.program("kmatch", KMATCH.replace("types same", "types differ at 16"), 1)
        with unittest.mock.patch.object(ktriage, "installed_types", lambda *words: (self.path("btf"), "vmlinux")):
            status, out, err = self.run_it("--map", self.path("System.map"), self.path("vmcore"))
        self.assertEqual((status, err, "unknown; THE DUMP'S OWN TYPES WERE WRITTEN TO: they differ at 16\n" in out), (0, "", True))
        status, _, err = self.triage()
        self.assertEqual((status, err.endswith(": types differ at 16\n")), (2, True))
        self.program("kmatch", KMATCH)
        self.assertIn("3 unknown; the types are those that the dump holds\n", self.triage()[1])

    def test_a_map_of_the_release_that_is_of_another_build(self):
        self.script("kfiles", '[ "$2" = log ] && exit 6; echo "$2"')
        self.script("kmatch", f'[ "$3" = {self.path("System.map")} ] && {{ echo "SYMBOL(x)=1 differs 2"; exit 1; }}\ncat <<T\n{KMATCH}\nT\n')
        with unittest.mock.patch.object(ktriage, "installed_map", lambda release: self.path("System.map")):
            status, out, err = self.run_it("--types", self.path("btf"), self.path("vmcore"))
        self.assertEqual((status, err, "  map       from the dump\n" in out), (0, "", True))

    def test_the_picture(self):
        self.program("kaudit", BAD, 1)
        _, out, _ = self.triage("--html", "-")
        for told in ("task_struct ffff888000001000", ">holds<", ">should hold<", ">next<", ">ffff888000003000<", ">ffff888000002000<"):
            self.assertIn(told, out)

    def test_compressed_goes_through_kplain(self):
        self.write("core", core_with_note(b"OSRELEASE=6.1.0-test\n") + bytes(1 << 23))
        self.script("kplain", f'[ "$2" = {self.path("vmcore")} ] || exit 6\n[ "$1" = core ] && exec cat {self.path("core")}\n'
                              f'[ "$1" = check ] || exit 6\ncat <<T\n{CLEAN}\nT\n')
        self.program("kaudit", "", 2, "refused dump E2")
        for kind, head in (("compressed kdump", b"KDUMP   "), ("flattened", b"makedumpfile")):
            with self.subTest(kind):
                self.write("vmcore", head + bytes(5000))
                status, out, _ = self.triage("--keep", self.path("kept"))
                self.assertEqual((status, f"({kind})" in out, "6.1.0-test" in out), (0, True, True))
                self.assertIn(f"  kwhy {self.path('vmcore')} ", out)
                self.assertNotIn("core", os.listdir(self.path("kept")))

    def test_a_page_that_cannot_be_had(self):
        self.write("vmcore", b"KDUMP   " + bytes(5000))
        self.write("core", core_with_note(b"OSRELEASE=6.1.0-test\n"))
        self.script("kplain", f'[ "$1" = core ] && exec cat {self.path("core")}\necho "store failed" >&2\necho "bad page 5 D1" >&2\nexit 3\n')
        status, out, err = self.triage()
        self.assertEqual((status, out, err.count("\n")), (3, "", 1))
        self.assertIn("bad page 5 D1", err)


class BadInput(Folder):
    """One line on standard error that names the file, the right status, and nothing on standard output."""

    def is_refused(self, status, name, *words):
        got, out, err = self.run_it(*words)
        self.assertEqual((got, out), (status, ""), err)
        self.assertEqual(err.count("\n"), 1, err)
        self.assertTrue(err.startswith("ktriage: "), err)
        self.assertIn(name, err)

    def test_no_dump(self):
        self.is_refused(2, "no dump", *[])

    def test_unknown_option(self):
        self.is_refused(2, "--what", "--what", self.path("vmcore"))

    def test_files_that_are_no_dump(self):
        os.mkdir(self.path("folder"))
        for name, data in (("none", None), ("folder", None), ("empty", b""), ("text", b"hello, world, hello"), ("gz", b"\x1f\x8b\x08" + bytes(20)),
                           ("xz", b"\xfd7zXZ\0" + bytes(20)), ("zst", b"\x28\xb5\x2f\xfd" + bytes(20)), ("old", b"DISKDUMP" + bytes(20)), ("cut", b"\x7fEL")):
            if data is not None:
                self.write(name, data)
            with self.subTest(name):
                self.is_refused(2, self.path(name), "--types", self.path("btf"), "--map", self.path("System.map"), self.path(name))

    def test_named_files_that_are_none(self):
        for option in ("--types", "--map"):
            for name in ("none", "plans"):
                with self.subTest(option + name):
                    self.is_refused(2, self.path(name), option, self.path(name), self.path("vmcore"))

    def test_a_pipe(self):
        os.mkfifo(self.path("pipe"))
        self.is_refused(2, self.path("pipe"), self.path("pipe"))

    def test_no_types_and_no_way_to_them(self):
        self.is_refused(2, "give them by --types", self.path("vmcore"))

    def test_files_of_another_kernel(self):
        facts = "OSRELEASE 6.1.0-test\nBUILD-ID 00\nKERNELOFFSET 0\n"
        for text, told in [
            (f"differ SIZE(page)=64 btf 56\n{facts}types same\nsame 78 differ 1 unknown 3", "differ SIZE(page)=64 btf 56"),
            (f"{facts}types differ at 1024\nsame 79 differ 0 unknown 3", "types differ at 1024"),
            (f"{facts}types unknown\nsame 0 differ 0 unknown 3", "not of the kernel"),
        ]:
            self.program("kmatch", text, 1)
            self.is_refused(2, told, "--types", self.path("btf"), "--map", self.path("System.map"), self.path("vmcore"))

    def test_a_dump_that_kmatch_refuses(self):
        self.program("kmatch", "", 2, "refused dump E9 index 3")
        self.is_refused(2, "refused dump E9", "--types", self.path("btf"), "--map", self.path("System.map"), self.path("vmcore"))

    def test_a_failed_read(self):
        self.program("kaudit", "", 3, "store failed")
        self.is_refused(3, "store failed", "--types", self.path("btf"), "--map", self.path("System.map"), self.path("vmcore"))

    def test_compressed_and_refused(self):
        self.write("vmcore", b"KDUMP   " + bytes(5000))
        self.program("kplain", "", 2, "refused dump K6")
        self.is_refused(2, "refused dump K6", self.path("vmcore"))

    def test_compressed_without_kplain(self):
        self.write("vmcore", b"KDUMP   " + bytes(5000))
        self.is_refused(2, "kplain", self.path("vmcore"))

    def test_programs_that_are_missing(self):
        os.remove(self.path("programs/kwhy"))
        self.is_refused(3, "kwhy", self.path("vmcore"))

    def test_a_program_that_is_killed(self):
        self.script("kmatch", "kill -9 $$\n")
        self.is_refused(3, "signal 9", "--types", self.path("btf"), "--map", self.path("System.map"), self.path("vmcore"))

    def test_no_plans(self):
        os.remove(self.path("plans/kernels.txt"))
        self.is_refused(3, "kernels.txt", "--types", self.path("btf"), "--map", self.path("System.map"), self.path("vmcore"))

    def test_output_that_cannot_be_written(self):
        for option in ("--json", "--html"):
            with self.subTest(option):
                status, _, err = self.triage(option, self.path("none/page"))
                self.assertEqual((status, err.count("\n"), self.path("none/page") in err), (3, 1, True))

    def test_no_space_left(self):
        if os.path.exists("/dev/full"):
            for words in (("--keep", "/dev/full"), ("--json", "/dev/full"), ("--html", "/dev/full")):
                with self.subTest(words[0]):
                    status, out, err = self.triage(*words)
                    self.assertEqual((status, out, err.count("\n"), "/dev/full" in err), (3, "", 1, True))

    def test_no_space_for_what_is_taken_out(self):
        self.program("kfiles", "", 4, "sink failed")
        self.is_refused(3, "/btf: kfiles couldn't write it", self.path("vmcore"))

    def test_files_that_are_refused_are_named(self):
        for line, name in (("refused btf B2 at 0", "btf"), ("refused map S1 line 1", "System.map"), ("refused dump V2", "vmcore")):
            with self.subTest(line):
                self.program("kmatch", "", 2, line)
                self.is_refused(2, f"{self.path(name)}: {line}", "--types", self.path("btf"), "--map", self.path("System.map"), self.path("vmcore"))

    def test_a_plan_that_is_refused(self):
        self.program("kaudit", "", 2, "refused plan P1")
        self.is_refused(2, self.path("plans/all.toml") + ": refused plan P1", "--types", self.path("btf"), "--map", self.path("System.map"), self.path("vmcore"))

    def test_nothing_to_look_at(self):
        files = ["--types", self.path("btf"), "--map", self.path("System.map"), self.path("vmcore")]
        self.program("kaudit", "", 2, "refused plan P9 audit 0 key root")
        self.is_refused(2, "nothing was looked at", *files)
        self.write("plans/kernels.txt", b"all.toml 6.9 - -\n")
        self.is_refused(2, "no plan", *files)

    def test_a_name_of_two_lines(self):
        self.is_refused(2, "two\\x0alines", self.path("two\nlines"))

    def test_what_fails_leaves_nothing(self):
        self.script("kfiles", '[ "$2" = log ] && exit 6; echo "$2"')
        self.program("kaudit", "", 3, "store failed")
        self.write("old.json", b"old")
        status, _, _ = self.run_it("--keep", self.path("kept"), "--json", self.path("old.json"), self.path("vmcore"))
        with open(self.path("old.json")) as file:
            self.assertEqual((status, os.path.exists(self.path("kept")), file.read()), (3, False, "old"))

    def test_stopped(self):
        self.script("kfiles", '[ "$2" = log ] && exit 6; echo "$2"')
        words = ["--programs", self.path("programs"), "--plans", self.path("plans"), "--keep", self.path("kept"), "--json", self.path("one.json")]
        for number in (signal.SIGINT, signal.SIGTERM, signal.SIGHUP):
            with self.subTest(number):
                began = self.path(f"began-{number}")
                self.script("kaudit", f"echo $$ > {began}\nexec sleep 600\n")
                # (who runs this in the background may have it pass the signal over)
                run = subprocess.Popen([sys.executable, ktriage.__file__, *words, self.path("vmcore")], stdin=subprocess.DEVNULL, stdout=subprocess.PIPE,
                                       stderr=subprocess.PIPE, text=True, preexec_fn=lambda: signal.signal(number, signal.SIG_DFL))
                while run.poll() is None and not (os.path.exists(began) and os.path.getsize(began)):
                    time.sleep(0.01)
                run.send_signal(number)
                out, err = run.communicate(timeout=60)
                self.assertEqual((run.returncode, out, err), (3, "", "ktriage: stopped\n"))
                with open(began) as file:
                    self.assertFalse(os.path.exists(f"/proc/{file.read().strip()}"))
                self.assertEqual([name for name in ("kept", "one.json") if os.path.exists(self.path(name))], [])


class Plans(unittest.TestCase):
    """The ready plans, cut apart and adapted."""

    def read(self, name):
        with open(os.path.join(TOP, "plans", name)) as file:
            return file.read()

    def names(self):
        return [name for name in os.listdir(os.path.join(TOP, "plans")) if name.endswith(".toml")]

    def test_cut_apart_and_joined(self):
        for name in self.names():
            text = self.read(name)
            plan = ktriage.Plan(name, text)
            self.assertEqual(plan.text(), text)
            self.assertEqual(len(plan.audits), text.count("\nname = ") + text.count("{ name = "), name)
            self.assertTrue(all(plan.names()), name)

    def test_plans_without_checks(self):
        import tomllib
        for name in self.names():
            plan, whole = ktriage.Plan(name, self.read(name)), tomllib.loads(self.read(name))
            for audit in plan.names():
                plan.leave_out_checks(audit)
            for audit in whole["audit"]:
                audit.pop("check", None)
            self.assertEqual(tomllib.loads(plan.text()), whole)

    def test_changes_of_the_table(self):
        import tomllib
        for version in ((6, 1), (6, 6), (6, 9), (6, 12), (6, 18)):
            for name, change in ktriage.read_kernels(os.path.join(TOP, "plans"), version):
                plan, whole = ktriage.Plan(name, self.read(name)), tomllib.loads(self.read(name))
                plan.change(change)
                made = tomllib.loads(plan.text())
                if change[0] == "without":
                    gone = change[1].split(",")
                    whole["audit"] = [audit for audit in whole["audit"] if audit["name"] not in gone]
                    self.assertEqual(made, whole)
                elif change[0] == "with":
                    checks = [check for audit in made["audit"] for check in audit.get("check", [])]
                    old = [check for audit in whole["audit"] for check in audit.get("check", [])]
                    self.assertEqual(checks, ["__parent != 0" if check == "parent != 0" else check for check in old])
                    self.assertIn("__parent != 0", checks)
                else:
                    self.assertEqual(made, whole)

    def test_kernels_without_a_plan(self):
        for version in (None, (5, 10)):
            self.assertEqual(ktriage.read_kernels(os.path.join(TOP, "plans"), version), [])


if __name__ == "__main__":
    unittest.main()
