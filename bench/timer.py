"""Runs commands, and measures each alone: the one timer of these scripts.

The memory that the system counts for a child begins with that of the process that it was forked from, which is Python's some 14 MiB. So memory is
measured by /usr/bin/time, a small process, in a run of its own; where that isn't there, it is 0.
"""
import os
import resource
import subprocess
import tempfile
import time

TIME = "/usr/bin/time"


def run(command, folder="."):
    """How a command ended, its two texts, and its seconds."""
    began = time.perf_counter()
    done = subprocess.run(command, cwd=folder, stdin=subprocess.DEVNULL, capture_output=True)
    return done.returncode, done.stdout, done.stderr, time.perf_counter() - began


def measured(commands, folder=".", runs=5):
    """All runs of each command. They run by turns, so that a busy machine is as busy for each."""
    found = [[] for _ in commands]
    for _ in range(runs):
        for command, some in zip(commands, found):
            some.append(run(command, folder))
    return found


def seconds_of(runs):
    """The least seconds of some runs."""
    return min(done[3] for done in runs)


def least(commands, folder=".", runs=5):
    """The least seconds of each command, by turns."""
    return [seconds_of(some) for some in measured(commands, folder, runs)]


def processor(command, status=0):
    """The seconds that the processors gave a command, which has to end with a status."""
    before = resource.getrusage(resource.RUSAGE_CHILDREN)
    done = subprocess.run(command, stdin=subprocess.DEVNULL, stdout=subprocess.DEVNULL, stderr=subprocess.DEVNULL)
    assert done.returncode == status, done
    after = resource.getrusage(resource.RUSAGE_CHILDREN)
    return after.ru_utime + after.ru_stime - before.ru_utime - before.ru_stime


def most_memory(command, folder="."):
    """The most memory that a command takes, in MiB."""
    if not os.path.exists(TIME):
        return 0
    with tempfile.NamedTemporaryFile("r") as told:
        subprocess.run([TIME, "-f", "%M", "-o", told.name] + command, cwd=folder, capture_output=True)
        return int(told.read().split()[-1]) / 1024
