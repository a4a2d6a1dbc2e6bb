"""Has each system call and each request for memory of a command fail in turn, and looks at how it ends.

usage: failing PROGRAMS NAME FOLDER WORDS..

as `failing - kaudit crates/kaudit/data check z.core z.btf z.map z.toml`. With strace every call on a file of FOLDER, every write and every call
after it fails, one at a time, by EIO and by EINTR. A failed call on a file has to end with status 3, `store failed` and nothing on standard output (but
`kplain core` and `kwhy .. refs` may have put a first part of their text);
a failed write to standard output with status 4 and `sink failed`; calls whose failure changes nothing may end as ever. Then a library cuts each
read and each write to 1, 7 and 100 bytes: nothing may change. Then the address space is narrowed step by step: status 5 and `memory refused`, or as
ever, until the program itself can't be loaded. At last the Nth request for memory of the whole process is refused, for each N in turn until none
is: status 5, standard output empty (but for such a first part) and `memory refused` on standard error (or nothing, where the words themselves found
no memory), and the last ones as without a refusal. It wants strace and a C compiler.
"""
import collections
import os
import re
import resource
import subprocess
import tempfile

import files

REFUSING = r"""
#define _GNU_SOURCE
#include <dlfcn.h>
#include <stdlib.h>
#include <stddef.h>
extern void *__libc_malloc(size_t);
extern void *__libc_calloc(size_t, size_t);
extern void *__libc_realloc(void *, size_t);
extern void *__libc_memalign(size_t, size_t);
static long left = -1;
__attribute__((constructor)) static void begin(void) {
    const char *word = getenv("REFUSED");
    left = word ? atol(word) : -1;
}
static int refused(void) { return left > 0 && --left == 0; }
void *malloc(size_t n) { return refused() ? NULL : __libc_malloc(n); }
void *calloc(size_t n, size_t m) { return refused() ? NULL : __libc_calloc(n, m); }
void *realloc(void *p, size_t n) { return refused() ? NULL : __libc_realloc(p, n); }
void *aligned_alloc(size_t a, size_t n) { return refused() ? NULL : __libc_memalign(a, n); }
int posix_memalign(void **p, size_t a, size_t n) {
    if (refused()) return 12;
    *p = __libc_memalign(a, n);
    return *p ? 0 : 12;
}
"""
SHORT = r"""
#define _GNU_SOURCE
#include <dlfcn.h>
#include <stdlib.h>
#include <unistd.h>
static size_t most(size_t n) {
    const char *word = getenv("MOST");
    size_t m = word ? (size_t)atol(word) : n;
    return n < m ? n : m;
}
ssize_t read(int fd, void *p, size_t n) {
    static ssize_t (*next)(int, void *, size_t);
    if (!next) next = dlsym(RTLD_NEXT, "read");
    return next(fd, p, most(n));
}
ssize_t pread(int fd, void *p, size_t n, off_t at) {
    static ssize_t (*next)(int, void *, size_t, off_t);
    if (!next) next = dlsym(RTLD_NEXT, "pread");
    return next(fd, p, most(n), at);
}
ssize_t pread64(int fd, void *p, size_t n, off_t at) {
    static ssize_t (*next)(int, void *, size_t, off_t);
    if (!next) next = dlsym(RTLD_NEXT, "pread64");
    return next(fd, p, most(n), at);
}
ssize_t write(int fd, const void *p, size_t n) {
    static ssize_t (*next)(int, const void *, size_t);
    if (!next) next = dlsym(RTLD_NEXT, "write");
    return next(fd, p, most(n));
}
"""
CALL = re.compile(r"^(?:\d+ +)?(\w+)\((.*)$")
STORE = (3, "", "store failed\n")
MEMORY = (5, "", "memory refused\n")


def run(command, folder, env=None, limit=None):
    def narrow():
        resource.setrlimit(resource.RLIMIT_AS, (limit, limit))

    done = subprocess.run(command, cwd=folder, stdin=subprocess.DEVNULL, capture_output=True, env={**os.environ, **(env or {})},
                          preexec_fn=narrow if limit else None)
    return done.returncode, done.stdout.decode("latin-1"), done.stderr.decode("latin-1")


def is_part(command, told, whole, end):
    """Whether a command that writes while it reads ended so after a first part of its text, which its contract allows."""
    writes = "core" in command and end is STORE or "refs" in command
    return writes and told[::2] == end[::2] and whole[1].startswith(told[1])


def own_calls(command, folder, log):
    """The calls of a command on files of the folder and on its streams: name, how many of that name came before, and what it is on."""
    subprocess.run(["strace", "-y", "-o", log] + command, cwd=folder, capture_output=True, stdin=subprocess.DEVNULL)
    counts, found, begun = collections.Counter(), [], False
    for line in open(log, errors="replace"):
        call = CALL.match(line)
        if not call:
            continue
        name, rest = call.groups()
        counts[name] += 1
        named = [w for w in command if name != "execve" and os.path.isfile(os.path.join(folder, w)) and (f'"{w}"' in rest or f"/{w}>" in rest)]
        begun = begun or bool(named)
        stream = re.match(r"([12])<", rest) if name in ("write", "writev") else None
        if named or stream:
            found.append((name, counts[name], named[-1] if named else "standard " + ("output", "error")[int(stream[1]) - 1]))
    return found


def fail_each(command, folder, whole, log):
    """Each call fails in turn."""
    wrong, ends = 0, collections.Counter()
    for name, number, on in own_calls(command, folder, log):
        for error in ("EIO", "EINTR"):
            told = run(["strace", "-qq", "-e", f"trace={name}", "-e", f"inject={name}:error={error}:when={number}", "-o", os.devnull] + command, folder)
            if on == "standard output":
                fine = told[0] == 4 and whole[1].startswith(told[1]) and told[2] == "sink failed\n" or error == "EINTR" and told == whole
            elif on == "standard error":
                fine = told[0] == 4 and not told[1] or error == "EINTR" and told == whole
            else:
                fine = told == STORE or is_part(command, told, whole, STORE) or name == "close" and told == whole or error == "EINTR" and told == whole
            ends[name, error, told[0]] += 1
            if not fine:
                wrong += 1
                print("WRONG", name, number, on, error, told)
    for (name, error, status), count in sorted(ends.items()):
        print(f"{count:6} {name} {error}: status {status}")
    return wrong


def library(work, name, text):
    """A library in C that stands before the system's calls."""
    source, shim = os.path.join(work, name + ".c"), os.path.join(work, name + ".so")
    open(source, "w").write(text)
    subprocess.run(["cc", "-O2", "-shared", "-fPIC", "-o", shim, source, "-ldl"], check=True)
    return shim


def cut_short(command, folder, whole, work):
    """Reads and writes of a few bytes at a time."""
    shim, wrong = library(work, "short", SHORT), 0
    for most in (1, 7, 100):
        told = run(command, folder, {"LD_PRELOAD": shim, "MOST": str(most)})
        print(f"{'as ever' if told == whole else 'WRONG'}: reads and writes of at most {most} bytes")
        wrong += told != whole
        if told != whole:
            print(told)
    return wrong


def narrow(command, folder, whole):
    """A smaller and smaller address space."""
    wrong, ends, kib = 0, collections.Counter(), 24 << 10
    while kib > 1024:
        told = run(command, folder, limit=kib << 10)
        wanted = not told[1] and told[2] in ("memory refused\n", "") or is_part(command, told, whole, MEMORY)
        if told[0] in (0, 1, 2, 6) and told != whole or told[0] == 5 and not wanted or told[0] in (3, 4):
            wrong += 1
            print("WRONG", kib, "KiB", told)
        ends["as ever" if told == whole else told[0] if told[0] == 5 else "not loaded"] += 1
        kib -= 64
    print("address space from 24 MiB down, in steps of 64 KiB:", dict(ends))
    return wrong


def refuse_each(command, folder, whole, work):
    """Each request for memory is refused in turn."""
    shim, wrong, ends, number, same = library(work, "refusing", REFUSING), 0, collections.Counter(), 0, 0
    while same < 3:
        number += 1
        told = run(command, folder, {"LD_PRELOAD": shim, "REFUSED": str(number)})
        same = same + 1 if told == whole else 0
        fine = told == whole or told[:2] == (5, "") and told[2] in ("memory refused\n", "") or is_part(command, told, whole, MEMORY)
        ends[told[0], told[2]] += 1
        if not fine:
            wrong += 1
            print("WRONG", number, told)
    for (status, said), count in sorted(ends.items()):
        print(f"{count:6} times status {status}, standard error {said!r}")
    print(f"{number - 3} requests refused in turn")
    return wrong


def main(words):
    programs, name, folder, *words = words
    command = [files.program(programs, name), *words]
    whole = run(command, folder)
    with tempfile.TemporaryDirectory() as work:
        wrong = fail_each(command, folder, whole, os.path.join(work, "log"))
        wrong += cut_short(command, folder, whole, work)
        wrong += narrow(command, folder, whole)
        wrong += refuse_each(command, folder, whole, work)
    print(f"without a failure status {whole[0]}; {wrong} wrong")
    return wrong != 0
