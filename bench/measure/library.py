"""Measures libraries by small programs that are proved and built over them, on a copy of the crates.

usage: library plans BTF MAP PLAN..
       library symbols MAP
       library report
       library ring

`plans`: the reading of plans over a real kernel's types and symbols: for each plan, and for three of 256 audits that it makes, what the plan is,
the time and the most memory.
`symbols`: how long a System.map takes to be read, against `syms.c`, once the checks and once with a hash table too, and a map that has each row
fifteen times, under names that differ by an ending: the processor's time of a row, the least of seven runs by turns, and the ratios.
`report`: how long reports of many places take to be read and written again, the least of three runs. The time grows with the places: it is that of
the reading, the writing and the comparing of some 78 bytes each.
`ring`: the walk of long rings in a made memory, whose words are computed from their addresses: the time and the most memory. The words that a walk
takes stand in an ordered set, so the time of a node grows with the logarithm of the nodes; the memory grows with the nodes.
"""
import os
import shutil
import subprocess
import sys
import tempfile

import files
import timer

PLANS = """//! Says how many audits a plan has.
#![tactic(auto)]

use kc_btf::Btf;
use kc_notes::Info;
use kc_plan::read_plan;
use kc_syms::Symbols;
use std::fs;
use std::process::ExitCode;
use std::rt::Files;

const INFO: Info = Info {
    table: 0,
    five: false,
    sme: 0,
    kaslr: 0,
    phys_base: 0,
};

fn audits(rt: &(impl Files + AllocGlobal)) -> Option<u32> {
    let btf = Btf::read(rt.alloc(), fs::read(rt, "btf").ok()?).ok()?;
    let map = fs::read(rt, "map").ok()?;
    let symbols = Symbols::read(rt.alloc(), &map).ok()?;
    let bytes = fs::read(rt, "plan.toml").ok()?;
    let plan = read_plan(rt.alloc(), &bytes, &btf, &symbols, &INFO).ok()?;
    Some(plan.count())
}

fn main(rt: HostRuntime) -> ExitCode {
    let count = audits(&rt).unwrap_or(0);
    match println!(rt; "{count} audits") {
        Ok(()) => ExitCode::SUCCESS,
        Err(_) => ExitCode::FAILURE,
    }
}
"""

RING = """kind = "ring"
root = "init_task"
root_type = "task_struct"
root_path = "tasks"
element = "task_struct"
link = "tasks"
"""

CHECK = "pid + tgid + prio + flags + jobctl + ptrace + on_cpu + policy"

SLUB = """kind = "slub"
root = "slab_caches"
"""

MADE = {
    "256 rings": RING,
    "256 rings, each with 32 checks of 8 paths": RING + f"check = {[CHECK] * 32}\n",
    "256 slab caches": SLUB,
}

SYMBOLS = """//! Reads a System.map over and over.
#![tactic(auto)]

use kc_syms::Symbols;
use std::env;
use std::fs;
use std::process::ExitCode;

fn times_of(word: Option<String>) -> u32 {
    match word {
        Some(word) => word.as_str().parse::<u32>().unwrap_or(0),
        None => 0,
    }
}

fn main(rt: HostRuntime) -> ExitCode {
    let Ok(mut words) = env::args(&rt) else {
        return ExitCode::from(1);
    };
    let Some(name) = words.nth(1) else {
        return ExitCode::from(1);
    };
    let times = times_of(words.next());
    let Ok(map) = fs::read(&rt, name.as_str()) else {
        return ExitCode::from(1);
    };
    for _ in 0..times {
        if Symbols::read(rt.alloc(), map.as_slice()).is_err() {
            return ExitCode::from(2);
        }
    }
    ExitCode::from(0)
}
"""

REPORT = """// A report of many places.
use crate::{{read_report, text}};
use std::test::Fail;

const HEAD: &[u8] = b"broken\\naudit r\\nstart ffffffff8000b120\\nrule A\\nat ffff888000011000\\nexpected none\\n";
const LINE: &[u8] = b"place ffff888000011000 0000000000011000 0000000000013000 ffff888000011040\\n";

#[test]
fn many_places(rt: HostRuntime) -> Result<(), Fail> {{
    let mut bytes = HEAD.to_vec(rt.alloc())?;
    for _ in 0..{places} {{
        bytes.extend_from_slice(LINE)?;
    }}
    let report = read_report(rt.alloc(), bytes.as_slice())?;
    let again = text(rt.alloc(), &report)?;
    assert!(rt; again.as_slice() == bytes.as_slice());
    Ok(())
}}
"""

WALK = """// A long ring.
ghost use Rattle.std.specs.Prelude.{{◌≡◌, ◌<◌, None, []}};
ghost use Rattle.std.proofs.Common.{{lit≤}};

use crate::ring;
use kc_found::{{ListShape, Space, Stop, VWord}};
use kc_word::Steps;
use std::alloc::Global;
use std::marker::Brand;
use std::sync::ledger::{{Blank, Ledger}};

const NODES: u64 = {nodes};

// Nodes of 16 bytes, the first one of which is the head.
#[derive(Drop)]
struct Round;

impl Space for Round {{
    ghost image = {{ λ s. None }};

    ghost files = {{ λ s. None }};

    ghost faults = {{ λ s. 0 }};

    ghost through = {{ λ s. [] }};

    ghost most = {{ λ s. 1 }};

    ghost most_some = {{ λ s. lit≤ tt }};

    ghost most_small = {{ λ s. lit≤ tt }};

    fn word<L: Ledger>(&mut self, va: u64, _: &mut Steps<L>) -> Result<VWord, Stop> {{
        let node = va / 16;
        let other = if va % 16 == 0 {{ (node + 1) % (NODES + 1) }} else {{ (node + NODES) % (NODES + 1) }};
        Ok(VWord {{ va, pa: va, off: va, value: 16 * other }})
    }}
}}

fn nodes<L: Ledger>(alloc: Global, blank: Blank) -> usize
    requires name {{ blank.name ≡ L.name }}
    requires parts {{ blank.parts ≡ L.parts }}
    requires some {{ 0 < L.parts }}
{{
    let mut steps = Steps::<L>::new(blank);
    let shape = ListShape {{ next: 0, prev: 8 }};
    match ring(alloc, &mut Round, &shape, 0, 0, &mut steps) {{
        Ok(walked) => walked.len(),
        Err(_) => 0,
    }}
}}

#[test]
fn long_ring(rt: HostRuntime) {{
    assert_eq!(rt; nodes::<Brand>(rt.alloc(), Blank::new(1)) as u64, NODES);
}}
"""

LEDGER = """use Rattle.kc_list.proofs.tests.long_ring.Given as goal

abbrev pub ghosts-nodes : goal.ghosts-nodes
ghosts-nodes g a = record { name = a.blank.name; parts = a.blank.parts }
"""


def copied(copy):
    """The crates as git knows them."""
    listed = subprocess.run(["git", "ls-files", "crates", "crates.txt", "HANDLES"], cwd=files.TOP, capture_output=True, check=True, text=True)
    for name in listed.stdout.split():
        os.makedirs(os.path.dirname(os.path.join(copy, name)) or copy, exist_ok=True)
        shutil.copy(os.path.join(files.TOP, name), os.path.join(copy, name))
    subprocess.run(["git", "init", "-q"], cwd=copy, check=True)


def put(text, *path):
    os.makedirs(os.path.dirname(os.path.join(*path)), exist_ok=True)
    with open(os.path.join(*path), "w") as file:
        file.write(text)


def program(copy, name, needs, source):
    """A program over the crates."""
    copied(copy)
    with open(os.path.join(copy, "crates.txt"), "a") as file:
        file.write(f"{name}: {needs}\n")
    crate = os.path.join(copy, "crates", name)
    put(source, crate, "src", "main.rt")
    # It may end with another status, since it is given no file.
    made = subprocess.run(["rt", "run"], cwd=crate, capture_output=True, text=True)
    built = os.path.join(crate, "out", name)
    assert os.path.exists(built), made.stdout + made.stderr
    return built


def with_tests(copy, name):
    """A crate that may have tests."""
    copied(copy)
    crate = os.path.join(copy, "crates", name)
    with open(os.path.join(crate, "src", "lib.rt"), "a") as file:
        file.write("\n#[cfg(test)]\nmod tests;\n")
    return crate


def test(crate, source, name):
    """The command that runs a test of the crate."""
    put(source, crate, "src", "tests.rt")
    made = subprocess.run(["rt", "test"], cwd=crate, capture_output=True, text=True)
    assert made.returncode == 0, made.stdout + made.stderr
    return [os.path.join(crate, "out", os.path.basename(crate) + "_tests"), f"tests::{name}"]


def made_plan(audit):
    """A plan of 256 such audits, whose types, paths and checks are all looked up."""
    audits = (f'[[audit]]\nname = "a{number}"\n{audit}' for number in range(256))
    return "version = 1\n" + "".join(audits)


def plans(types, symbols, *given):
    with tempfile.TemporaryDirectory() as copy, tempfile.TemporaryDirectory() as folder:
        shutil.copy(types, os.path.join(folder, "btf"))
        shutil.copy(symbols, os.path.join(folder, "map"))
        command = [program(copy, "plans", "kc_btf kc_notes kc_plan kc_syms", PLANS)]
        texts = [(os.path.basename(name), files.read(name).decode()) for name in given]
        for name, text in texts + [(name, made_plan(audit)) for name, audit in MADE.items()]:
            put(text, folder, "plan.toml")
            runs = timer.measured([command], folder)[0]
            said = runs[0][1].decode().strip() or runs[0][2].decode().strip()
            print(f"{name}: {said}, {timer.seconds_of(runs):.3f} s, {timer.most_memory(command, folder):.1f} MiB", flush=True)


def times_of(commands):
    """For each command the least time of one reading, by turns."""
    least = [float("inf")] * len(commands)
    for _ in range(7):
        for i, (command, path, times, *words) in enumerate(commands):
            whole = timer.processor([command, path, str(times), *words]) - timer.processor([command, path, "0", *words])
            least[i] = min(least[i], whole / times)
    return least


def larger(path, copy):
    """A map of fifteen times as many rows."""
    rows = files.read(path).split(b"\n")[:-1]
    made = os.path.join(copy, "larger.map")
    with open(made, "wb") as file:
        for ending in range(15):
            file.writelines(row + b".%x\n" % ending for row in rows)
    return made, len(rows)


def symbols(path):
    path = os.path.abspath(path)
    with tempfile.TemporaryDirectory() as copy:
        loop = os.path.join(copy, "syms")
        source = os.path.join(os.path.dirname(os.path.abspath(__file__)), "syms.c")
        subprocess.run(["cc", "-O2", "-o", loop, source], check=True)
        reads = program(copy, "many_reads", "kc_word kc_syms", SYMBOLS)
        large, rows = larger(path, copy)
        maps = ("the map", path, rows, 40), ("fifteen times", large, 15 * rows, 3)
        least = times_of([command for _, at, _, times in maps for command in ((reads, at, times), (loop, at, times), (loop, at, times, "table"))])
    for i, (name, _, count, _) in enumerate(maps):
        read, checks, table = least[3 * i : 3 * i + 3]
        print(f"{name}, {count} rows: {read / count * 1e9:.0f} ns a row, {read / checks:.2f} of the checks in C, {read / table:.2f} of the checks and a table in C")
    more = [least[i + 3] / 15 / least[i] for i in range(3)]
    print(f"a row takes {more[0]:.2f} times as long there, in the checks in C {more[1]:.2f} times, and with a table {more[2]:.2f} times")


def report():
    with tempfile.TemporaryDirectory() as copy:
        crate = with_tests(copy, "kc_report")
        for places in (1, 65_536, 262_144):
            command = test(crate, REPORT.format(places=places), "many_places")
            print(f"{places} places: {timer.least([command], runs=3)[0]:.3f} s", flush=True)


def ring():
    with tempfile.TemporaryDirectory() as copy:
        crate = with_tests(copy, "kc_list")
        put(LEDGER, crate, "proofs", "tests", "long_ring", "Invariants.antt")
        for nodes in (1000, 50000, 100000):
            command = test(crate, WALK.format(nodes=nodes), "long_ring")
            status, out, err, seconds = timer.run(command)
            assert status == 0, out + err
            print(f"{nodes:6} nodes: {seconds:.1f} s, {timer.most_memory(command):.1f} MiB", flush=True)


WAYS = {"plans": plans, "symbols": symbols, "report": report, "ring": ring}


def main(words):
    if words[0] not in WAYS:
        sys.exit(__doc__)
    WAYS[words[0]](*words[1:])
