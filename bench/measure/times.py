"""Measures commands on a real dump: the verdicts of plans, and `show` against drgn, in one run.

usage: times plans PROGRAMS FOLDER PLAN..
       times show PROGRAMS FOLDER SYMBOL TYPE PATH [VMLINUX]

`plans`: for each PLAN.toml, of which the dump has to be clean, the size of its certificate, and the least time of seven runs of `check`, `certify`
and `recheck`, by turns, and the most memory of each.
`show`: each program runs five times, by turns. drgn reads the same number by VMLINUX, the kernel with its debugging symbols; where drgn or that
file isn't there, it is left out.
"""
import os
import shutil
import sys
import tempfile

import files
import timer


def plans(programs, folder, *given):
    kaudit = files.program(programs, "kaudit")
    with tempfile.TemporaryDirectory() as scratch:
        cert = os.path.join(scratch, "cert")
        for plan in given:
            words = [*files.NAMES, files.plan_path(folder, plan + ".toml")]
            status, text, err, _ = timer.run([kaudit, "certify", *words], folder)
            assert status == 0, (plan, status, err)
            with open(cert, "wb") as file:
                file.write(text)
            commands = [[kaudit, "check", *words], [kaudit, "certify", *words], [kaudit, "recheck", *words, cert]]
            seconds = timer.least(commands, folder, 7)
            told = (f"{command[1]} {least:.3f} s {timer.most_memory(command, folder):.1f} MiB" for command, least in zip(commands, seconds))
            print(f"{plan}: {text.count(10)} lines, {len(text)} bytes; " + ", ".join(told), flush=True)


def show(programs, folder, symbol, name, path, vmlinux=None):
    commands = {"kaudit": [files.program(programs, "kaudit"), "show", *files.NAMES, symbol, name, path]}
    if shutil.which("drgn") is None:
        print("drgn isn't installed: left out")
    elif vmlinux is None:
        print("drgn needs a vmlinux with debugging symbols: left out")
    else:
        reads = f"print('value', int(prog['{symbol}'].{path.replace('->', '.')}))"
        commands["drgn"] = ["drgn", "-q", "-c", "vmcore", "-s", os.path.abspath(vmlinux), "-e", reads]
    runs = dict(zip(commands, timer.measured(list(commands.values()), folder)))
    values = {program: [line for line in some[0][1].decode().splitlines() if line.startswith("value")] for program, some in runs.items()}
    for program, some in runs.items():
        assert some[0][0] == 0, some[0]
        print(f"{program} {timer.seconds_of(some):.3f} s {timer.most_memory(commands[program], folder):.1f} MiB", *values[program])
    if "drgn" in runs:
        assert values["drgn"] == values["kaudit"]
        print(f"ratio of the times {timer.seconds_of(runs['drgn']) / timer.seconds_of(runs['kaudit']):.1f}")


def main(words):
    if words[0] not in ("plans", "show"):
        sys.exit(__doc__)
    return {"plans": plans, "show": show}[words[0]](*words[1:])
