#!/usr/bin/env python3
"""Writes plans for a table of heads, and the rows that a copy of the map needs for them: one audit for each head that isn't empty.

usage: heads.py DUMP BTF MAP OUT WHERE STEP COUNT KIND ELEMENT LINK [CHECK..]

WHERE is the first head: an address in hex as 0x.., or a SYMBOL at which the table lies; with +BYTES, once or several times, where the head isn't
the first. Each * before it follows a pointer: the first * the one that lies there, the next * the one that lies the first BYTES after where that
leads, and so on. So *SYMBOL+16 is the head 16 bytes after where the pointer at SYMBOL leads, and **SYMBOL+8+16 follows one more, 8 bytes after that.
A pointer inside a struct is followed by brackets: *(SYMBOL+BYTES) is where the pointer leads that lies BYTES after SYMBOL, as
*(init_net+net.dev_name_head). percpu:SYMBOL, also percpu:0x.., is the copy that each processor has of it.
The heads are STEP bytes apart and COUNT in number. Of a table of tables both are lists with commas, the outer table's first: 1536,88,16 and
3,11,5 are heads 16 bytes apart, 5 in number, in each of 11 tables that are 88 bytes apart, and these in each of 3. Of percpu: the outermost are the
processors, whatever their STEP is.
BYTES and STEP may be TYPE.PATH, the byte at which that begins in its type, or TYPE, its size; a PATH of BYTES may follow pointers by ->. A COUNT may
be a SYMBOL that is a 32-bit number, or the number of a member, as WHERE names it: SYMBOL+TYPE.PATH, as udp_table+udp_table.mask. Either has +1 after it
where that is a mask. With a COUNT that is too large, memory after the table is taken for heads, and reported as damage.
KIND is ring, hlist, rbtree, cached (a tree with a struct rb_root_cached) or xarray; rbtree:KEY and cached:KEY have the KEY that the tree is sorted
by, and rbtree:KEY! a unique one. Of an xarray LINK is -. In a CHECK {0} stands for the number, from 0, that the head has in the outermost table,
{1} for that in the next.

OUT.map gets the rows, and OUT-1.toml, OUT-2.toml and so on the plans, of version 2 with up to 256 roots each, none where all heads
are empty. A root's name is OUT's with these numbers. Then:

    cat System.map OUT.map > OUT.full
    kaudit check DUMP BTF OUT.full OUT-1.toml

It reads the dump by reader.py, which lies beside it, and only to find the heads and to leave out empty ones.
"""
import itertools
import pathlib
import sys

import reader

MOST = 256


def word(kernel, va):
    try:
        return kernel.memory.place(va % reader.TOP)[3]
    except reader.Broken as found:
        sys.exit(f"no word can be read at {va % reader.TOP:x}: {found.rule}")


def address(kernel, symbol):
    """Where a symbol lies at run time: of a row below the image, as up to 6.14 those of each processor are, what the map has."""
    if symbol.startswith("0x"):
        return int(symbol, 16)
    try:
        found = reader.address(kernel.rows, symbol, kernel.info.kaslr)
    except reader.Refused:
        sys.exit(f"the map has {symbol} at several addresses")
    if found is None:
        sys.exit(f"no row of the map has {symbol}")
    return found


def located(kernel, text):
    """A number of bytes, that of TYPE.PATH, or the size of TYPE: the bytes of the pointers that PATH follows, and those after the last."""
    if text[:1].isdigit():
        return [], int(text, 0)
    name, _, path = text.partition(".")
    try:
        struct = kernel.struct(name)
        return kernel.types.located(struct, path)[:2] if path else ([], kernel.types.size(struct))
    except reader.Refused:
        sys.exit(f"the types have no {text}")


def step_of(kernel, text):
    """A number of bytes that no pointer leads to."""
    hops, step = located(kernel, text)
    if hops:
        sys.exit(f"a STEP follows no pointer: {text}")
    return step


def moved(kernel, begin, text):
    """The address BYTES after another."""
    hops, step = located(kernel, text)
    for hop in hops:
        begin = word(kernel, begin + hop)
    return begin + step


def taken_apart(where):
    """How many pointers are followed, what the first one lies at, and the BYTES after it."""
    rest = where.lstrip("*")
    stars, end = len(where) - len(rest), 0
    if rest.startswith("("):
        depths = itertools.accumulate((c == "(") - (c == ")") for c in rest)
        end = next((at + 1 for at, depth in enumerate(depths) if depth == 0), None)
        if end is None or rest[end : end + 1] not in ("", "+"):
            sys.exit(f"the brackets aren't right: {where}")
    more = rest[end:].split("+")
    return stars, rest[:end] or more[0], more[1:]


def first_heads(kernel, where, cpus):
    """The first head: one, or one for each processor."""
    stars, base, more = taken_apart(where)
    if base.startswith("("):
        begins = first_heads(kernel, base[1:-1], cpus)
    elif base.startswith("percpu:"):
        symbol, offsets = address(kernel, base[len("percpu:") :]), address(kernel, "__per_cpu_offset")
        begins = [symbol + word(kernel, offsets + 8 * cpu) for cpu in range(cpus)]
    else:
        begins = [address(kernel, base)]
    for place in range(max(stars, len(more))):
        if place < stars:
            begins = [word(kernel, begin) for begin in begins]
        if place < len(more):
            begins = [moved(kernel, begin, more[place]) for begin in begins]
    return begins


def member(kernel, at, text):
    """The number of TYPE.PATH, of a struct that lies at an address."""
    name, _, path = text.partition(".")
    try:
        hops, bit, width, signed = kernel.types.scalar(kernel.struct(name), path)
        for hop in hops:
            at = word(kernel, at + hop)
        return kernel.memory.number(at, bit, width, signed)[0]
    except reader.Refused:
        sys.exit(f"the types have no number {text}")
    except reader.Broken as found:
        sys.exit(f"no word can be read at {found.at:x}: {found.rule}")


def count_of(kernel, text):
    """A number, or the one that stands at SYMBOL or in a member, or so many more than that."""
    if text[:1].isdigit():
        return int(text, 0)
    stars, base, parts = taken_apart(text)
    more = int(parts.pop(), 0) if parts and parts[-1][:1].isdigit() else 0
    where = "+".join(["*" * stars + base, *parts[:-1]])
    at = first_heads(kernel, where, 1)[0]
    if parts:
        return member(kernel, at, parts[-1]) + more
    return (word(kernel, at & -8) >> 8 * (at & 7) & 0xFFFFFFFF) + more


def heads(kernel, where, steps, counts):
    """The addresses of the heads at run time, each after its numbers in the tables."""
    begins = first_heads(kernel, where, counts[0])
    if "percpu:" not in where:
        begins = [begins[0] + steps[0] * number for number in range(counts[0])]
    for numbers in itertools.product(*map(range, counts)):
        inner = sum(step * number for step, number in zip(steps[1:], numbers[1:]))
        yield numbers, (begins[numbers[0]] + inner) % reader.TOP


def audit(name, kind, element, link, checks):
    kind, _, key = kind.partition(":")
    lines = ["", "[[audit]]", f'name = "{name}"', f'kind = "{"rbtree" if kind == "cached" else kind}"', f'root = "{name}"', f'element = "{element}"']
    if link != "-":
        lines.append(f'link = "{link}"')
    if kind == "cached":
        lines.append("cached = true")
    if key:
        lines.append(f'key = "{key.rstrip("!")}"' + ("\nunique = true" if key.endswith("!") else ""))
    if checks:
        lines.append("check = [" + ", ".join(f'"{check}"' for check in checks) + "]")
    return "\n".join(lines) + "\n"


def found_heads(kernel, name, where, steps, counts, kind, checks):
    """How many heads there are, and of each that isn't empty its name, its address and its checks."""
    found, seen = [], 0
    first = kernel.offset("xarray", "xa_head") if kind == "xarray" else 0
    for numbers, head in heads(kernel, where, steps, counts):
        seen += 1
        if word(kernel, head + first) not in (0, head):
            found.append((name + "-".join(map(str, numbers)), head, [check.format(*numbers) for check in checks]))
    return seen, found


def main(words):
    if len(words) < 10:
        sys.exit(__doc__)
    dump, btf, rows, out, where, steps, counts, kind, element, link, *checks = words
    kernel = reader.open_kernel(dump, btf, rows)
    steps = [step_of(kernel, text) for text in steps.split(",")]
    counts = [count_of(kernel, text) for text in counts.split(",")]
    if len(steps) != len(counts):
        sys.exit("STEP and COUNT are lists of one length")
    seen, found = found_heads(kernel, pathlib.Path(out).name, where, steps, counts, kind, checks)
    with open(f"{out}.map", "w") as file:
        for label, head, _ in found:
            file.write(f"{(head - (kernel.info.kaslr if head >= reader.IMAGE else 0)) % reader.TOP:016x} D {label}\n")
    for number in range(0, len(found), MOST):
        plan = "version = 2\n" + "".join(audit(label, kind, element, link, filled) for label, _, filled in found[number : number + MOST])
        pathlib.Path(f"{out}-{number // MOST + 1}.toml").write_text(plan)
    print(f"{len(found)} of {seen} heads aren't empty")


if __name__ == "__main__":
    main(sys.argv[1:])
