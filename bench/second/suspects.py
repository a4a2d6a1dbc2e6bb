"""Is a second reader of what explains a report, and compares kwhy with it.

It finds the words that a violation makes suspect, in their order, and the first of them with which the walk that finds it stands, and the root audit
that found it. It is written from the guide and from the definitions of kc_repair, kc_element and kc_cause, over `verdict.py`, and shares no code with kwhy.

usage: suspects PROGRAMS FOLDER [NAME ..]
       suspects PROGRAMS --made COUNT [SEED]

Of each changed word that FOLDER's damage.txt lists, kwhy has to print the second reader's text; prints whether the repair is the old value, the
second reader's seconds, and its text. With `--made` the dumps are COUNT small kernels (`made.py`) with some words changed at random; prints how
many runs came to each rule and how. With `none` for PROGRAMS nothing is run. Trials walk in Python, so a plan of many elements takes a while. `cases` compares such texts with those of cases.
"""
import collections
import itertools
import mmap
import os
import random
import re
import shutil
import tempfile
import time

import files
import timer
from hostile import damage as damages
from plans.reader import TOP, Broken, Core, Info, Memory, Refused, Types, address, symbols
from second import made
from second.areas import shown as visible
from second.verdict import Kernel, Run, place_line, plan_of, started, told, verdict
from second.why import Sights, meaning

MOST = 4096
MOST_WORDS = 8
MORE = 64  # how many others are tried after the first that repairs
LINKS, TREE_LINKS, NEAR = 65536, 8192, 64
NODE = 69  # the words of an xarray's node up to its last slot
POISONS = 0xDEAD000000000100, 0xDEAD000000000122
BESIDE = "L1", "H1", "R1", "X3", "X4", "T1", "T3", "U1", "G1", "G2"
BITS = {"R1": ~3, "G1": 2**32 - 1}  # those that have the number

# How each rule is suspected.
WAYS = {
    "led": "M1 M2 M3 M4 M5 M6 N K", "met": "A", "before": "L1", "pointed": "H1", "parent": "R1", "top": "R2", "colour": "R3", "balance": "R5", "word": "R6 X3 X4 T6",
    "bytes": "X1", "byte": "X2 X6", "count": "X5", "entry": "X7 X8 X9", "member": "U2 U7 T1 T3 T4 T5 G2", "named": "U1", "own": "T2", "free": "U5", "listed": "U6", "laid": "U4", "check": "C", "process": "G1",
    "shown": "R4 U3 T7",
}
WAY_OF = {rule: way for way, rules in WAYS.items() for rule in rules.split()}

# The field that a rule is about, by its struct and its path.
FIELDS = {
    "U1": ("slab", "slab_cache"), "U2": ("slab", "frozen"), "U6": ("slab", "inuse"), "U7": ("kmem_cache_node", "nr_partial"),
    "T1": ("task_struct", "group_leader"), "T2": ("task_struct", "pid"), "T3": ("task_struct", "signal"), "T4": ("task_struct", "tgid"),
    "T5": ("task_struct", "real_parent"), "G2": ("task_struct", "thread_pid"),
}
BASES = (("page_offset_base", 0xFFFF888000000000, 0xFF11000000000000), ("vmemmap_base", 0xFFFFEA0000000000, 0xFFD4000000000000))
OF_KIND = {"slub": "U1 U2 U6 U7", "tasks": "T1 T2 T3 T4 T5", "pids": "G1 G2"}

SENTENCES = {
    "M1": "the address of a word isn't a multiple of 8", "M2": "the address of a word isn't canonical", "M3": "an entry of the page tables isn't in the dump",
    "M4": "an entry of the page tables isn't present", "M5": "an entry of the page tables has a reserved bit set", "M6": "the word at the address isn't in the dump",
    "N": "a pointer is null where one must lead on", "K": "a list's pointer is the value of a node that was taken out", "A": "a word is met twice in one walk",
    "L1": "prev isn't the node before", "H1": "pprev isn't the address of the pointer that leads here", "R1": "the parent isn't the node above",
    "R2": "the node at the top is red", "R3": "a red node is below a red one", "R4": "the key is out of order against a node above",
    "R5": "a way down passes another number of black nodes than the first", "R6": "rb_leftmost isn't the first node", "X1": "shift isn't that of the node's level",
    "X2": "offset isn't the number of the node's slot", "X3": "parent isn't the node above", "X4": "array isn't the xarray",
    "X5": "count isn't the number of slots in use", "X6": "nr_values isn't the number of slots with values", "X7": "an entry can't stand in its slot",
    "X8": "a sibling entry names no entry that has siblings", "X9": "a node hangs below the lowest level", "U1": "the slab names another cache",
    "U2": "the slab belongs to a processor", "U3": "a size or a number of objects can't be", "U4": "the slab isn't a page's descriptor",
    "U5": "a free pointer leads to no object of the slab", "U6": "the free list isn't as long as objects less inuse",
    "U7": "the list of partial slabs isn't as long as nr_partial", "T1": "group_leader isn't the leader of the thread", "T2": "the leader's pid isn't its tgid",
    "T3": "signal isn't the leader's", "T4": "tgid isn't the leader's", "T5": "real_parent isn't the task that lists the child",
    "T6": "the magic number at the end of the stack is gone", "T7": "the leader isn't among its threads",
    "G1": "the number of the process id isn't its index in the table", "G2": "thread_pid isn't the process id whose chain the task is on", "C": "a check of the plan isn't met",
}


# A change is an address and what may have stood there, by the word that stands there.


def to(at, number):
    return at % TOP, lambda word: [number]


def each(at):
    return at % TOP, lambda word: [word ^ 1 << bit for bit in range(64)]


def each_pointer(at):
    """Any bit, the two lowest at last, where the number is then no value of an xarray."""
    return at % TOP, lambda word: [number for number in (word ^ 1 << bit for bit in (*range(2, 64), 0, 1)) if number % 2 == 0]


def each_count(at):
    """Any bit, where the lower half isn't zero then."""
    return at % TOP, lambda word: [number for number in (word ^ 1 << bit for bit in range(64)) if number % 2**32]


def recoloured(at):
    return at % TOP, lambda word: [word ^ 1]


def shown(broken):
    return [each(place[0]) for place in broken.places if place[0] != "-"]


def chain_sign(words):
    """What two words that repair together show: a node that was added twice, or one that was taken out."""
    if len(words) != 2:
        return ""
    (one, new), (other, newer) = words
    if one[3] == other[3] and (new + 8) % TOP == other[0] and newer == one[0]:
        return f"twice {one[3]:016x}\n"
    for first, second in ((one, other), (other, one)):
        if (first[3], second[3]) == POISONS and (first[0] + 8) % TOP == second[0]:
            return f"deleted {first[0]:016x}\n"
    return ""


def only_fits(broken, place, number):
    """Whether others may stand as well as this number: by the rule; of a node's counts where they are changed, or a value is emptied; of a link that is 0."""
    if broken.rule == "X5":
        return place[0] == broken.at - broken.at % 8 or place[3] % 2 == 1
    return broken.rule in ("C", "U3", "U6", "T2", "X6") or number == 0 and WAY_OF[broken.rule] in ("led", "met", "entry")


def is_written(va, value):
    """Whether a word is text, or one byte that the kernel fills memory with."""
    return meaning(va, value) in ("text", "pattern")


class Suspects:
    """What is suspected of a violation that an audit found."""

    def __init__(self, kernel, audit, broken):
        found = Elements(kernel, audit, broken).in_list()
        self.kernel, self.audit, self.broken, self.kind = kernel, audit, broken, audit.kind if found is None else "ring"
        self.at, self.start, self.expected = broken.at, broken.start if found is None else found[1] % TOP, broken.expected

    def read(self, at):
        """The place of a word, if it can be read."""
        try:
            return self.kernel.memory.place(at)
        except Broken:
            return None

    def offset(self, name):
        """The offset of a pointer of a ring or of a hash chain."""
        struct = "list_head" if self.kind == "ring" else "hlist_head" if name == "first" else "hlist_node"
        return self.kernel.offset(struct, name)

    def all(self):
        """The suspects in their order: each a place in the file, and the number that its word may have held."""
        for at, how in getattr(self, "by_" + WAY_OF[self.broken.rule])():
            place = self.read(at)
            if place and place[2] != "tail":
                yield from ((place, number) for number in how(place[3]) if number != place[3])

    # The ways.

    def by_led(self):
        return self.led(next((place[0] for place in self.broken.places if place[0] != "-"), None))

    def by_met(self):
        """First the second link to a ring's node leads to the one after it, by `prev`."""
        link = self.second_link()
        behind = self.node_behind((self.at - self.offset("next")) % TOP) if self.kind == "ring" and link is not None else None
        return ([] if behind is None else [to(link, behind)]) + list(self.led(link))

    def by_word(self):
        return self.word() + self.head_backs()

    def word(self):
        return [] if self.expected is None else [to(self.at, self.expected)]

    def by_byte(self):
        return self.filled(self.at, 0, 8, self.expected)

    def by_bytes(self):
        return self.by_byte() + self.first_words() + self.head_backs()

    def by_count(self):
        """First each slot that leads nowhere is null, and then the number of slots in use is what is expected."""
        return self.emptied() + self.by_byte()

    def by_member(self):
        if self.broken.rule == "G1" and self.kind == "pids":
            bit, width, _ = self.audit.shape["nr"]
        elif self.broken.rule in OF_KIND.get(self.kind, "").split():
            bit, width, _ = self.field(*FIELDS[self.broken.rule])
        else:
            return []
        return self.filled(self.at, bit % 8, width, self.expected)

    def by_own(self):
        """First `tgid` becomes the `pid` that stands there, and then `pid` what is expected of it."""
        if self.kind != "tasks":
            return []
        pid, tgid = (self.field("task_struct", name) for name in ("pid", "tgid"))
        task = (self.at - pid[0] // 8) % TOP
        found = self.filled(task + tgid[0] // 8, tgid[0] % 8, tgid[1], self.number("task_struct", "pid", task))
        return found + self.filled(self.at, pid[0] % 8, pid[1], self.expected)

    def by_before(self):
        behind = self.node_behind(self.expected) if self.kind == "ring" and self.expected is not None else None
        return ([] if behind is None else [to(self.expected + self.offset("next"), behind)]) + self.word()

    def by_pointed(self):
        """First the link as one to a node near that points back."""
        return ([] if self.expected is None else self.hash_backs(self.expected)) + self.word()

    def by_named(self):
        """The cache that a slab names, and the cache's pointer to its first memory node."""
        return self.by_member() + ([self.node_pointer()] if self.kind == "slub" else [])

    def node_pointer(self):
        return each((self.start + self.kernel.types.located(self.kernel.struct("kmem_cache"), "node")[1]) % TOP)

    def by_listed(self):
        """The numbers of objects, and then where the free list of the slab begins."""
        if self.kind != "slub":
            return shown(self.broken)
        slab = self.at - self.field("slab", "inuse")[0] // 8
        return shown(self.broken) + self.heads_in((slab + self.field("slab", "freelist")[0] // 8) % TOP)

    def by_parent(self):
        if self.kind != "rbtree" or self.expected is None:
            return []
        shape, parent = self.audit.shape, self.expected
        found, backs = [], self.child_backs(parent) if parent else []
        node = (self.at - shape["parent"]) % TOP
        links = [parent + shape[side] for side in ("left", "right")] if parent else [self.start + shape["root"]]
        for link in links:
            place = self.read(link % TOP)
            found += [each(link)] if place and place[3] == node else []
        words, own = [to(self.at, parent), to(self.at, parent + 1)], self.read(self.at)
        above = [self.read(((own[3] & ~3) + shape[side]) % TOP) for side in ("left", "right")] if own else []
        return backs + (found + words if any(place and place[3] == node for place in above) else words + found)

    def by_colour(self):
        return itertools.chain(self.word(), self.by_balance())

    def by_top(self):
        head = (self.start + self.audit.shape["root"]) % TOP
        place = self.read(head) if self.kind == "rbtree" else None
        leads = place and place[3] == (self.at - self.audit.shape["parent"]) % TOP
        return itertools.chain([each(head)] if leads else [], self.by_colour())

    def by_balance(self):
        if self.kind == "rbtree":
            for place in self.tree_links():
                if place[3]:
                    yield recoloured(place[3] + self.audit.shape["parent"])

    def by_entry(self):
        return self.entry(self.at)

    def entry(self, at):
        return self.entry_backs(at) + [each_pointer(at), to(at, 0)]

    def by_free(self):
        return self.free() + self.by_laid()

    def by_laid(self):
        found = shown(self.broken)
        if self.kind != "slub":
            return found
        for name, *numbers in [*reversed(BASES), ("nr_node_ids",)]:
            symbol = address(self.kernel.rows, name, self.kernel.info.kaslr)
            found += [] if symbol is None else [(each if numbers else each_count)(symbol)] + [to(symbol, number) for number in numbers]
        return found + [self.node_pointer()]

    def by_check(self):
        return shown(self.broken) + [to(place[0], 0) for place in self.broken.places if place[0] != "-"]

    def by_process(self):
        """The number of a process id, first with nothing beside it in its word."""
        found = []
        if self.kind == "pids" and self.expected is not None:
            bit, width, _ = self.audit.shape["nr"]
            start = self.at % 8 * 8 + bit % 8
            found = [to(self.at - self.at % 8, self.expected % (1 << width) << start)] if start + width <= 64 else []
        return found + self.by_member()

    def by_shown(self):
        return shown(self.broken)

    # What they are made of.

    def field(self, struct, path):
        """The bit, the width and the sign of a field."""
        return self.kernel.types.plain(self.kernel.struct(struct), path)

    def number(self, struct, path, at):
        """A field's number modulo 2^64, if it can be read."""
        try:
            return self.kernel.field(at, struct, path)[0]
        except Broken:
            return None

    def filled(self, at, bit, width, number):
        """The word that has some bits, with those of a number in their place, if one word has them all."""
        low = at - at % 8
        start = 8 * (at - low) + bit
        place = self.read(low) if number is not None and start + width <= 64 else None
        if not place:
            return []
        mask = (1 << width) - 1 << start
        return [to(low, place[3] & ~mask | number << start & mask)]

    def chain(self, at, offset):
        """The links of a chain from an address on."""
        for _ in range(LINKS):
            place = self.read(at % TOP)
            if not place:
                return
            yield place
            at = place[3] + offset

    def link_to(self, node, others, links):
        """The address of a link that leads to a node, after so many others that do."""
        return next(itertools.islice((place[0] for place in links if place[3] == node), others, None), None)

    def node_behind(self, node):
        """The node of a ring whose `prev` leads to a node, the first backwards from the head."""
        prev = self.offset("prev")
        at = self.link_to(node, 0, self.chain(self.start + prev, prev))
        return None if at is None else (at - prev) % TOP

    def tree_links(self):
        """A tree's links in preorder."""
        shape = self.audit.shape
        ahead = [(self.start + shape["root"]) % TOP]
        for _ in range(TREE_LINKS):
            if not ahead:
                return
            place = self.read(ahead.pop())
            if place:
                yield place
                ahead += [(place[3] + shape[side]) % TOP for side in ("right", "left")] if place[3] else []

    def second_link(self):
        """The second link that leads to the node with the word that is met twice."""
        if self.kind in ("ring", "hlist"):
            following = self.offset("next")
            first = self.start + (following if self.kind == "ring" else self.offset("first"))
            link = self.link_to((self.at - following) % TOP, 1, self.chain(first, following))
            if link is None and self.kind == "ring":
                link = self.link_to((self.at - self.offset("prev")) % TOP, 0, self.chain(first, following))
            return link
        if self.kind == "rbtree":
            return self.link_to((self.at - self.audit.shape["parent"]) % TOP, 1, self.tree_links())
        return None

    def led(self, link):
        """What a link that can't be right may have been."""
        if link is None or self.kind in ("slub", "tasks"):
            return self.by_laid()
        if self.kind in ("xarray", "pids"):
            return (self.hash_backs(link) if self.kind == "pids" else []) + self.entry(link)
        if self.kind == "hlist":
            return self.hash_backs(link) + [to(link, 0)]
        if self.kind == "rbtree":
            return self.tree_backs(link) + [each(link), to(link, 0)]
        behind = self.node_behind((link - self.offset("next")) % TOP)
        return ([] if behind is None else [to(link, behind)]) + [each(link)]

    def backs(self, link, byte, wanted, coloured=False, tag=0):
        """A link as one to each node near where it leads that points back to what is wanted, by the word with a byte of the node."""
        place, found = self.read(link % TOP), []
        if place:
            value = (place[3] - tag) % TOP
            for node in [value ^ 1 << bit for bit in range(64)] + [value - value % 4096 + 8 * k for k in range(512)]:
                back = self.read((node + byte) % TOP)
                if back and (back[3] & ~3 if coloured else back[3]) == wanted % TOP:
                    found.append(to(place[0], (node + tag) % TOP))
        return found

    def hash_backs(self, link):
        """Of a link of a hash chain, by `pprev`."""
        if self.kind not in ("hlist", "pids"):
            return []
        return self.backs(link, self.kernel.offset("hlist_node", "pprev"), link)

    def tree_backs(self, link):
        """Of a tree's link, which is the left one or the right one of its node, by the parent."""
        shape = self.audit.shape
        return [change for side in ("left", "right") for change in self.backs(link, shape["parent"], link - shape[side], True)]

    def child_backs(self, parent):
        """Of both links of a tree's node."""
        shape = self.audit.shape
        return [change for side in ("left", "right") for change in self.backs(parent + shape[side], shape["parent"], parent, True)]

    def array(self):
        """The address of the xarray."""
        return (self.start + (self.audit.shape["idr_rt"] if self.kind == "pids" else 0)) % TOP

    def entry_backs(self, entry):
        """Of an entry of an xarray, by its node's `array`."""
        return self.backs(entry, self.audit.shape["array"], self.array(), tag=2) if self.kind in ("xarray", "pids") else []

    def head_backs(self):
        return self.entry_backs(self.array() + self.audit.shape["head"]) if self.kind in ("xarray", "pids") else []

    def emptied(self):
        """The slots of a node that lead nowhere, each as null."""
        shape, found = self.audit.shape, []
        if self.kind not in ("xarray", "pids"):
            return found
        for k in range(shape["chunk"]):
            place = self.read((self.at - shape["count"] + shape["slots"] + 8 * k) % TOP)
            if place and not self.read(place[3] - place[3] % 8):
                found.append(to(place[0], 0))
        return found

    def slots(self, node):
        """The words in a node's slots that can be read."""
        shape = self.audit.shape
        places = [self.read((node + shape["slots"] + 8 * k) % TOP) for k in range(shape["chunk"])]
        return [place[3] for place in places if place]

    def first_words(self):
        """The first word of the node that has a wrong shift, from its slots and its parent's: one for each shift that it may have."""
        shape = self.audit.shape
        if self.kind not in ("xarray", "pids"):
            return []
        node = (self.at - shape["shift"]) % TOP
        parent, slots = self.read((node + shape["parent"]) % TOP), self.slots(node)
        above = self.slots(parent[3]) if parent and parent[3] else []
        entry = (node + 2) % TOP
        numbers = {"offset": above.index(entry) if entry in above else 0, "count": sum(slot != 0 for slot in slots), "nr_values": sum(slot & 1 for slot in slots)}
        bits = 6 if shape["chunk"] == 64 else 4
        shifts = range(0, 61, bits) if self.expected is None else [self.expected]
        return [to(self.at - self.at % 8, self.word_of(node, {**numbers, "shift": shift})) for shift in shifts]

    def word_of(self, node, numbers):
        """The word that has these bytes of a node, and no others."""
        word = bytearray(8)
        for name in ("nr_values", "count", "offset", "shift"):
            word[(node + self.audit.shape[name]) % 8] = numbers[name] % 256
        return int.from_bytes(word, "little")

    def is_head(self, at):
        """Whether a slab of this cache has its `freelist` at an address."""
        return self.number("slab", "slab_cache", (at - self.field("slab", "freelist")[0] // 8) % TOP) == self.start

    def heads_in(self, at):
        """Where the free list of the slab may begin that has its `freelist` at an address: nowhere, or at each of its objects."""
        slab = (at - self.field("slab", "freelist")[0] // 8) % TOP
        size, pad, objects = self.number("kmem_cache", "size", self.start), self.number_or_none("red_left_pad"), self.number("slab", "objects", slab)
        direct, vmemmap = (self.base(name, *numbers) for name, *numbers in BASES)
        if None in (size, objects, direct, vmemmap):
            return []
        page = self.kernel.types.size(self.kernel.struct("page"))
        first = direct + 4096 * ((slab - vmemmap) % TOP // page) + (pad or 0)
        return [to(at, 0)] + [to(at, (first + k * size) % TOP) for k in range(min(objects, MOST))]

    def number_or_none(self, path):
        """A number of the cache that a kernel may not have."""
        try:
            return self.number("kmem_cache", path, self.start)
        except Refused:
            return None

    def base(self, name, four, five):
        """The word at a symbol, or what it is without one."""
        symbol = address(self.kernel.rows, name, self.kernel.info.kaslr)
        if symbol is None:
            return five if self.kernel.info.levels == 5 else four
        place = self.read(symbol)
        return place and place[3]

    def free(self):
        """What a free pointer may have been: the end of its list, or an object near."""
        at = next((place[0] for place in self.broken.places if place[0] != "-"), None)
        if self.kind != "slub" or at is None:
            return []
        if self.is_head(at):
            return self.heads_in(at)
        size, offset, random = *(self.number("kmem_cache", name, self.start) for name in ("size", "offset")), self.number_or_none("random")
        if size is None or offset is None:
            return []
        coded = 0 if random is None else random ^ int.from_bytes(at.to_bytes(8, "little"), "big")
        near = [(at - offset + k * size) % TOP for k in range(-NEAR, NEAR + 1)]
        return self.heads_before(at) + [to(at, pointer ^ coded) for pointer in [0] + near]

    def heads_before(self, at):
        """Where the free list of an object's slab may begin that begins with it now: the slab is of one page, two, four or eight, the first that fits."""
        direct, vmemmap = (self.base(name, *numbers) for name, *numbers in BASES)
        if direct is None or vmemmap is None:
            return []
        page, byte = self.kernel.types.size(self.kernel.struct("page")), self.field("slab", "freelist")[0] // 8
        for pages in (1, 2, 4, 8):
            slab = (vmemmap + page * ((at - direct) % TOP // 4096 // pages * pages)) % TOP
            if self.is_head((slab + byte) % TOP):
                offset = self.number("kmem_cache", "offset", self.start)
                begins = offset is not None and self.number("slab", "freelist", slab) == (at - offset) % TOP
                return self.heads_in((slab + byte) % TOP) if begins else []
        return []


class Elements:
    """The element that a violation is about, and the number that stands where its rule expects another."""

    def __init__(self, kernel, audit, broken):
        self.kernel, self.audit, self.broken, self.types = kernel, audit, broken, kernel.types

    def before(self, offset):
        return (self.broken.at - offset) % TOP

    def found(self):
        """The element's type and its address, if it is told."""
        rule, kind = self.broken.rule, self.audit.kind
        if rule == "C":
            return self.audit.element, self.broken.at
        if kind == "slub" and rule == "U4":
            return self.kernel.struct("slab"), self.broken.at
        if rule in FIELDS and rule in OF_KIND.get(kind, "").split():
            struct, path = FIELDS[rule]
            return self.kernel.struct(struct), self.before(self.types.plain(self.kernel.struct(struct), path)[0] // 8)
        if kind == "pids" and rule == "G1":
            return self.kernel.struct("pid"), self.before(self.audit.shape["nr"][0] // 8)
        if kind == "pids" and rule == "H1":
            return self.kernel.struct("task_struct"), self.before(self.audit.shape["chain"][2] + self.audit.shape["links"])
        return self.in_array(rule) if kind in ("xarray", "pids") else self.of_node(rule, kind)

    def in_array(self, rule):
        names = {"X1": "shift", "X2": "offset", "X3": "parent", "X4": "array", "X5": "count", "X6": "nr_values"}
        return (self.kernel.struct("xa_node"), self.before(self.audit.shape[names[rule]])) if rule in names else None

    def of_node(self, rule, kind):
        """Of a ring, a hash chain or a tree: the element whose node has the address."""
        node = None
        if kind == "ring" and rule in ("L1", "K"):
            node = self.before(self.kernel.offset("list_head", "prev" if rule == "L1" else "next"))
            node = None if node == self.broken.start else node
        if kind == "hlist" and rule == "H1":
            node = self.before(self.kernel.offset("hlist_node", "pprev"))
        if kind == "hlist" and rule == "K" and self.broken.at != (self.broken.start + self.kernel.offset("hlist_head", "first")) % TOP:
            node = self.before(self.kernel.offset("hlist_node", "next"))
        if kind == "rbtree" and rule in ("R1", "R2", "R3"):
            node = self.before(self.audit.shape["parent"])
        if kind == "rbtree" and rule == "R4" and self.audit.shape["key"]:
            return self.audit.element, self.before(self.audit.shape["key"][0] // 8)
        return None if node is None or self.audit.element is None else (self.audit.element, (node - self.audit.link) % TOP)

    def step(self, kind, byte):
        """The step into a type to what has a byte: its label, its type and the byte there."""
        bare = self.types.bare(kind)
        if self.types.kind(bare) == 3:
            element, _, count = self.types.records[bare][4]
            size = self.types.size(element)
            return (f"[{byte // size}]", element, byte % size) if size and (byte < count * size or count == 0) else None
        if bare is None or self.types.kind(bare) not in (4, 5):
            return None
        members = list(self.types.members(bare))
        for name, inner, bit, width in members:
            if bit // 8 <= byte < bit // 8 + (1 if width else self.types.size(inner) or 0):
                return visible(name), inner, byte - bit // 8
        name, inner, bit, _ = members[-1] if members else (b"", 0, 0, 0)
        last = self.types.bare(inner)
        if last is not None and self.types.kind(last) == 3 and self.types.records[last][4][2] == 0 and bit // 8 <= byte:
            return visible(name), inner, byte - bit // 8
        return None

    def path(self, kind, byte):
        """The path of the innermost member that has a byte."""
        text = ""
        for _ in range(32):
            step = self.step(kind, byte)
            if step is None:
                break
            label, kind, byte = step
            text += "." + label if text and label and label[0] != "[" else label
        return text

    def line(self):
        return self.text(self.found())

    def text(self, found):
        if found is None:
            return ""
        kind, at = found
        path = "" if self.broken.rule in ("C", "U4") else self.path(kind, self.before(at))
        alone = self.broken.rule in "L1 H1 R1 X1 X2 X3 X4 U4 G1".split() or self.broken.rule == "C" and self.audit.kind == "xarray"
        return f"element {self.types.name(self.types.records[kind][1]).decode()} {at:016x}{' ' * bool(path)}{path}{' unconfirmed' * alone}\n"

    def list_lines(self):
        """The list of tasks or of a slab cache in which the violation lies: the first that is broken, where it is so by this violation."""
        found = self.in_list()
        if found is None:
            return ""
        label, head, owner, struct, link = found
        return f"list {label}\n" + self.text(self.of_list(head % TOP, owner, struct, link))

    def led_by(self, areas):
        """The task and its member by which the walk of the task list came there: the leader's `signal` of a list of threads, and where the violation lies in no
        list the `stack` of the task whose stack begins there; or nothing."""
        listed = self.in_list()
        if listed is not None:
            return (int(listed[0].split()[-1], 16), "signal") if listed[0].startswith("threads") else None
        owner = areas.owner(self.broken.at)
        return (owner[0], "stack") if owner and owner[3] == 0 else None

    def by_line(self, areas):
        """The word of that member."""
        try:
            found = self.led_by(areas) if self.audit.kind == "tasks" else None
            if found is None:
                return ""
            byte = self.kernel.byte("task_struct", found[1])
            place = self.kernel.memory.place((found[0] + byte) % TOP)
        except (Broken, Refused):
            return ""
        return f"by {place_line(place)[6:-1]} {self.path(self.kernel.struct('task_struct'), byte)}\n"

    def in_list(self):
        """That list, or nothing."""
        lists = {"tasks": self.task_lists, "slub": self.partial_lists}.get(self.audit.kind)
        try:
            for found in lists() if lists else ():
                try:
                    self.kernel.ring(found[1])
                except Broken as broken:
                    return found if (broken.rule, broken.at) == (self.broken.rule, self.broken.at) else None
        except Broken:
            pass
        return None

    def of_list(self, head, owner, struct, link):
        """What has the pointer of a list: the owner of its head, or what has a node."""
        members = {"L1": "prev", "K": "next", "N": "next"}
        if self.broken.rule not in members:
            return None
        node = self.before(self.kernel.offset("list_head", members[self.broken.rule]))
        if node != head:
            return self.kernel.struct(struct), (node - link) % TOP
        number = self.types.find(owner[0])
        return None if number is None else (number, owner[1])

    def task_lists(self):
        """Each list of tasks, in the order of the walk: its label, its head, what has the head, and what has its nodes at which byte."""
        kernel, byte = self.kernel, self.kernel.byte
        tasks, thread_node = byte("task_struct", "tasks"), byte("task_struct", "thread_node")
        first = self.broken.start
        yield "tasks", first + tasks, ("task_struct", first), "task_struct", tasks
        for leader in [first] + [(node - tasks) % TOP for node in kernel.ring(first + tasks)]:
            signal = kernel.field(leader, "task_struct", "signal")[0]
            head = signal + byte("signal_struct", "thread_head")
            yield f"threads of {leader:016x}", head, ("signal_struct", signal), "task_struct", thread_node
            for node in kernel.ring(head):
                thread = (node - thread_node) % TOP
                yield f"children of {thread:016x}", thread + byte("task_struct", "children"), ("task_struct", thread), "task_struct", byte("task_struct", "sibling")

    def partial_lists(self):
        """Each partial list of a cache."""
        kernel, cache = self.kernel, self.broken.start
        _, node_at, kind = self.types.located(kernel.struct("kmem_cache"), "node")
        nodes, symbol = self.types.length(kind), address(kernel.rows, "nr_node_ids", kernel.info.kaslr)
        if symbol is not None:
            nodes = min(nodes, kernel.memory.number(symbol, 0, 32)[0])
        for index in range(nodes):
            node = kernel.memory.number((cache + node_at + 8 * index) % TOP, 0, 64)[0]
            if node:
                yield f"partial of node {index}", node + kernel.byte("kmem_cache_node", "partial"), ("kmem_cache_node", node), "slab", kernel.byte("slab", "slab_list")

    def spot(self):
        """Where the number stands: from which bit of its first byte on, its width, and its bits that aren't looked at."""
        rule, kind = self.broken.rule, self.audit.kind
        if rule in ("X1", "X2", "X5", "X6") and kind in ("xarray", "pids"):
            return 0, 8, 0
        if rule != "U6" and rule in FIELDS and rule in OF_KIND.get(kind, "").split():
            bit, width, _ = self.types.plain(self.kernel.struct(FIELDS[rule][0]), FIELDS[rule][1])
            return bit % 8, width, 0
        if rule == "G1" and kind == "pids":
            return self.audit.shape["nr"][0] % 8, self.audit.shape["nr"][1], 0
        words = {"ring": "L1", "hlist": "H1", "rbtree": "R1 R2 R3 R6", "xarray": "X3 X4", "slub": "L1", "tasks": "L1 T6", "pids": "H1 X3 X4"}
        return (0, 64, 3 if rule == "R1" else 0) if rule in words[kind].split() else None

    def number_line(self):
        """The number that stands there against the expected one, where the word at the address is all that is shown."""
        at, places, spot = self.broken.at, self.broken.places, self.spot()
        if spot is None or self.broken.expected is None or len(places) != 1 or places[0][0] != at - at % 8:
            return ""
        bit, width, low = spot
        start = 8 * (at % 8) + bit
        if start + width > 64:
            return ""
        mask = (1 << width) - 1
        found, wanted = places[0][3] >> start & mask & ~low, self.broken.expected & mask
        return f"expected {wanted:016x} found {found:016x} bits {(found ^ wanted).bit_count()}\n"


def columns(place, number):
    """A word and the number that it may have held."""
    return "%016x %016x %016x %016x" % place + f" {number:016x}"


class Causes:
    """A dump whose words can be changed, with its types and symbols and a plan."""

    def __init__(self, core, btf, map_, plan):
        self.core = Core(core)
        info = Info(self.core)
        self.kernel = Kernel(Memory(self.core, info.table, info.levels, info.mask), Types(btf), symbols(map_), info)
        self.audits, self.numbers, self.tables, self.version = plan_of(plan, self.kernel)
        self.sights = Sights(core, btf, map_)
        self.sights.why.memory = self.kernel.memory  # whose tails are the plan's

    def judge(self, root):
        """The violation that a root audit comes to, and the audit that finds it; or nothing."""
        run = Run(self.kernel, self.audits, self.numbers)
        try:
            run.take(root, self.audits[root].symbol)
        except Broken as broken:
            return broken, self.audits[run.blamed]
        return None

    def with_word(self, place, number, act):
        """What is found with another number in a word."""
        _, _, offset, old = place
        self.put(offset, number)
        try:
            return act()
        finally:
            self.put(offset, old)

    def put(self, offset, word):
        self.core.data[offset : offset + 8] = word.to_bytes(8, "little")

    def own_walk(self, audit, broken, of):
        """The walk that finds a violation, as what breaks it, where one finds the same; or nothing."""
        walk = self.kernel.ring if of.kind != audit.kind else lambda at: audit.walk(self.kernel, at)

        def breaks():
            try:
                walk(of.start)
            except Broken as found:
                return found.rule, found.at
            return None
        return breaks if breaks() == (broken.rule, broken.at) else None

    def tried(self, root, broken, audit, changed):
        """How many words are tried, whether there are more, the one that repairs, and else the first that leads to another violation, and to which one. The
        words that are changed so far aren't tried. One repairs where the walk that finds the violation stands, and the root audit does; one leads elsewhere
        where that walk doesn't find the same again, and the root audit finds another. Where words are changed already, it is enough that the walk does."""
        of, same = Suspects(self.kernel, audit, broken), (broken.rule, broken.at)
        walk = self.own_walk(audit, broken, of) or (lambda: None)
        suspects = (one for one in of.all() if all(abs(one[0][2] - at) >= 8 for at in changed))
        some = list(itertools.islice(suspects, MOST))
        for one in some:
            if self.with_word(*one, lambda: not walk() and self.judge(root) is None):
                return len(some), False, one, None
        more, then = next(suspects, None) is not None, None

        def leads():
            first = walk()
            return first, None if first == same or first and changed else self.judge(root)
        for one in some:
            first, found = self.with_word(*one, leads)
            if first != same and (first and changed or found and (found[0].rule, found[0].at) != same):
                then = *one, found
                break
        return len(some), more, None, then

    def walk_again(self, last):
        """What the walk of the audit that found a violation finds, from where it started; or nothing."""
        if last is not None:
            broken, audit = last
            try:
                started(broken.start, lambda: audit.walk(self.kernel, broken.start))
            except Broken as found:
                return found, audit
        return None

    def chain(self, root, then):
        """The words that repair together, after the first that leads to another violation; or nothing. What is left is what the walk of the violation before
        finds, and else what the root audit does, which is asked after the first word."""
        words, old, last = [], [], None
        try:
            while then and len(words) < MOST_WORDS:
                place, number, _ = then
                words.append((place, number))
                old.append(place[2:])
                self.put(place[2], number)
                last = self.walk_again(last) or self.judge(root)
                if last is None:
                    return []
                _, _, repaired, then = self.tried(root, *last, [at for at, _ in old])
                if repaired and len(words) < MOST_WORDS:
                    return words + [repaired]
            return []
        finally:
            for offset, word in reversed(old):
                self.put(offset, word)

    def led(self, place, number):
        """A word and its other number, what was written over it, and what that number leads to in the dump as it is, in the words of `near`."""
        said, written = self.sights.why.said(place[0], number), is_written(place[0], place[3])
        return columns(place, number) + "\n" + (self.sights.says(place[0], place[3]) if written else "") + ("" if said == "number" else f"leads {said}\n")

    def stand(self, root, broken, audit):
        """How many words repair of those tried: after the first that does at most MORE others, up to a second one."""
        of = Suspects(self.kernel, audit, broken)
        walk = self.own_walk(audit, broken, of) or (lambda: None)
        repairing, tried, left = 0, 0, None
        for one in of.all():
            if repairing == 2 or left == 0:
                break
            tried, left = tried + 1, None if left is None else left - 1
            if self.with_word(*one, lambda: not walk() and self.judge(root) is None):
                repairing, left = repairing + 1, MORE
        return f"stand {repairing} of {tried} tried\n"

    def elements(self, root, audit, words):
        """How many elements the audit that found the violation meets with these words."""
        run, old = Run(self.kernel, self.audits, self.numbers), []
        try:
            for place, number in words:
                old.append((place[2], int.from_bytes(self.core.data[place[2] : place[2] + 8], "little")))
                self.put(place[2], number)
            run.take(root, self.audits[root].symbol)
        finally:
            for offset, word in reversed(old):
                self.put(offset, word)
        return f"elements {run.elements[self.audits.index(audit)]}\n"

    def repair(self, root, broken, audit):
        """The lines of the repair."""
        tried, more, last, then = self.tried(root, broken, audit, [])
        if last:
            return f"{'fits' if only_fits(broken, *last) else 'repair'} {self.led(*last)}{self.stand(root, broken, audit)}{self.elements(root, audit, [last])}"
        text, words = f"repair none of {'the first ' * more}{tried} tried\n", self.chain(root, then)
        if words:
            return text + f"chain {len(words)}\n" + "".join(f"word {self.led(*word)}" for word in words) + chain_sign(words) + self.elements(root, audit, words)
        return text + (f"then {columns(*then[:2])} {then[2][0].rule} {then[2][0].at:016x}\n" if then else "")

    def lines(self, root):
        """What explains the violation of a root audit, if it is broken."""
        found = self.judge(root)
        if found is None:
            return ""
        broken, audit = found
        elements = Elements(self.kernel, audit, broken)
        text = f"root {self.audits[root].name}\naudit {audit.name}\nrule {broken.rule} {SENTENCES[broken.rule]}\n{elements.line()}{elements.list_lines()}{elements.by_line(self.sights.areas)}"
        return text + "".join(map(self.place_lines, broken.places)) + self.signs(broken) + self.slot(broken) + elements.number_line() + self.repair(root, broken, audit)

    def value(self, at):
        """The number at an address, if it can be read."""
        try:
            return self.kernel.memory.place(at % TOP)[3]
        except Broken:
            return None

    def signs(self, broken):
        """Where the pointer that is expected stands beside its place, and whether a node has another one's bytes, or was added once more further on."""
        text = ""
        if broken.rule in BESIDE and broken.expected:
            for far in (8, 16) if broken.rule == "L1" else (8, 16, -8, -16):
                value = self.value(broken.at + far)
                if value is not None and value & BITS.get(broken.rule, TOP - 1) == broken.expected:
                    text += f"beside {(broken.at + far) % TOP:016x}\n"
        if broken.rule in BESIDE and broken.expected == 0:
            before, here, after = (self.value(broken.at + far) for far in (-8, 0, 8))
            text += f"beside {(broken.at + 8) % TOP:016x}\n" if before and before == here and after == 0 else ""
        other, node = self.copied(broken), (broken.at - 8) % TOP
        if other is None and broken.rule == "L1" and self.is_again(node, broken.expected):
            return text + f"twice {node:016x}\n"
        other = self.copied_link(broken.at) if other is None else other
        return text + (f"copy of {other:016x}\n" if other is not None else "")

    def is_again(self, node, above):
        """Whether a ring's node, to which the one before leads, also stands further on: the way back from there comes to it again without the one before."""
        here = self.value(node + 8)
        if here in (None, node) or self.value(here) != node:
            return False
        for _ in range(LINKS):
            here = self.value(here + 8)
            if here in (None, node, above):
                return here == node
        return False

    def copied(self, broken):
        """The node whose bytes another one has, by the pointers of both: of a ring, a hash chain or a tree."""
        word = self.value(broken.at)
        if broken.rule in ("L1", "H1") and word is not None:
            other, node = self.value(word), (broken.at - 8) % TOP
            if other not in (None, node) and self.value(other + 8) == word and self.value(other) and self.value(other) == self.value(node):
                return other
        if broken.rule == "R1" and word is not None:
            parent = word & ~3
            pairs = [(broken.at, self.value(parent + far)) for far in (8, 16)] + [(broken.expected, parent)]
            return next((other for node, other in pairs if None not in (node, other) and self.are_alike(node, other)), None)
        return None

    def are_alike(self, node, other):
        """Whether two nodes of a tree have the same words, and another word that isn't 0 and shows it: a child, or both before them."""
        one, two = ([self.value(at + far) for far in (0, 8, 16, -8, -16)] for at in (node, other))
        same = [first == second is not None for first, second in zip(one, two)]
        return node != other and all(same[:3]) and (one[1] != 0 or one[2] != 0 or all(same[3:]) and 0 not in one[3:])

    def copied_link(self, near):
        """The first node of a list near an address whose neighbours lead to another node, which has the same pointers."""
        for at in range(near // 8 * 8 - 512, near // 8 * 8 + 512, 8):
            ahead, behind = self.value(at), self.value(at + 8)
            other = self.value(ahead + 8) if ahead else None
            if behind and other not in (None, at % TOP, (at + 8) % TOP, (at - 8) % TOP) and (self.value(other), self.value(other + 8)) == (ahead, behind) and self.value(behind) == other:
                return other
        return None

    def slot(self, broken):
        """The first word of an xarray's node over which something was written, where the numbers of its slots are wrong."""
        if broken.rule in ("X5", "X6"):
            for at in range(broken.at // 8 * 8, broken.at // 8 * 8 + 8 * NODE, 8):
                try:
                    place = self.kernel.memory.place(at % TOP)
                except Broken:
                    continue
                if is_written(place[0], place[3]):
                    return place_line(place).replace("place", "slot", 1) + self.sights.says(place[0], place[3])
        return ""

    def place_lines(self, place):
        """A word of a violation, and what lies at its address."""
        return place_line(place) + ("" if place[0] in (None, "-") else self.sights.says(place[0], place[3]) + self.sights.told(place[0]))

    def text(self):
        """Of version 1 the first root audit that is broken, and of version 2 each."""
        some = filter(None, (self.lines(number) for number, table in enumerate(self.tables) if "root" in table))
        return ("".join(some) if self.version == 2 else next(some, "")) or "clean\n"

    def report(self):
        """What `check` prints."""
        roots = [number for number, table in enumerate(self.tables) if "root" in table]
        return told(self.kernel, self.audits, self.numbers, roots, range(len(self.audits)))[1] if self.version == 1 else None


def compare(kwhy, words, report, wanted, scratch):
    """Whether kwhy explains a report as it is wanted."""
    if kwhy is None:
        return
    with open(f"{scratch}/report", "w") as file:
        file.write(report)
    status, out, err, _ = timer.run([kwhy, *words, f"{scratch}/report"], scratch)
    assert (status, err, out.decode()) == (0, b"", wanted), f"{words} {status} {err}\n{out.decode()}wanted\n{wanted}"


def try_damages(kwhy, folder, names, scratch):
    dump = f"{scratch}/vmcore"
    shutil.copyfile(f"{folder}/vmcore", dump)
    with open(dump, "r+b") as file:
        core = mmap.mmap(file.fileno(), 0)
    paths = [os.path.abspath(f"{folder}/{name}") for name in files.NAMES[1:]]
    btf, map_ = map(files.read, paths)
    for damage in files.damages(folder):
        if names and damage.name not in names:
            continue
        began, path = time.monotonic(), files.plan_path(folder, damage.plan)
        causes = Causes(core, btf, map_, files.read(path))
        causes.put(damage.offset, damage.new)
        assert causes.report() == damage.report, damage.name
        text = causes.text()
        seconds = time.monotonic() - began
        compare(kwhy, [dump, *paths, path], damage.report, text, scratch)
        causes.put(damage.offset, damage.old)
        is_true = f"{damage.offset:016x} {damage.new:016x} {damage.old:016x}" in text
        print(f"{damage.name} {'true' if is_true else 'other'} {seconds:.1f} s\n{text}", flush=True)


def words_read(given):
    """The file places of the words that a plan's audits read."""
    causes, found = Causes(*given), {}
    place = causes.kernel.memory.place

    def noted(va):
        seen = place(va)
        found[seen[2]] = seen[3]
        return seen

    causes.kernel.memory.place = noted
    for number, table in enumerate(causes.tables):
        if "root" in table:
            causes.judge(number)
    return sorted(offset for offset in found if offset != "tail")


def paired(rng, core, offsets):
    """A word and the next are those of another place, or what `list_del` leaves, or stand 8 bytes further on."""
    at, other = rng.choice(offsets), rng.choice(offsets)
    poisons = b"".join(word.to_bytes(8, "little") for word in POISONS)
    to, pair = rng.choice(((at, core[other : other + 16]), (at, poisons), (at + 8, core[at : at + 16])))
    core[to : to + 16] = pair


def damaged(rng, core, offsets):
    """One of these words is changed, or two: by a bit, by little, to what nothing may be, or to what another holds."""
    if rng.random() < 0.2:
        return paired(rng, core, offsets)
    for _ in range(rng.choice((1, 1, 2))):
        at, other = rng.choice(offsets), rng.choice(offsets)
        old, far = (int.from_bytes(core[k : k + 8], "little") for k in (at, other))
        new = rng.choice((old ^ 1 << rng.randrange(64), old ^ 1 << rng.randrange(32), old + rng.choice((-64, -8, -1, 1, 8, 64)) * 256 ** rng.randrange(8),
                          rng.choice(damages.SPECIAL), 0, far, damages.other_name(old)))
        core[at : at + 8] = (new % TOP).to_bytes(8, "little")


def made_files(rng):
    """A kernel with a word or two changed, its types and its map, and a plan of all that it has."""
    core = bytearray(made.Made(rng).core())
    plan = damages.shuffled(rng, damages.WHOLE + damages.PIDS)
    given = core, made.with_pids(damages.BTF), made.MAP, plan.replace(b"version = 1", b"version = 2") if rng.random() < 0.3 else plan
    offsets = words_read(given)
    if rng.random() < 0.9 and offsets:
        damaged(rng, core, offsets)
    else:
        damages.damage_words(rng, core)
    return given


def try_made(kwhy, count, seed, scratch):
    seen, names = collections.Counter(), ("z.core", "z.btf", "z.map", "z.plan")
    for number in range(seed, seed + count):
        given = made_files(random.Random(number))
        status, report, _ = verdict(*map(bytes, given))
        if status > 1:
            continue
        text = Causes(*given).text()
        for name, data in zip(names, given):
            with open(f"{scratch}/{name}", "wb") as file:
                file.write(data)
        try:
            compare(kwhy, names, report, text, scratch)
        except AssertionError as differs:
            print(f"seed {number}\n{differs}", flush=True)
            seen["differ"] += 1
        for found in re.finditer(r"^rule (\S+)(?:.*\n)+?(?:repair|fits) (none)?(?:.*\n(then)?)", text, re.M):
            seen[" ".join(word for word in (found[1], found[2] or "repair", found[3]) if word)] += 1
    for what, times in sorted(seen.items()):
        print(f"{times:6} {what}")


def main(words):
    programs, folder, *rest = words
    kwhy = None if programs == "none" else files.program(programs, "kwhy")
    with tempfile.TemporaryDirectory() as scratch:
        if folder == "--made":
            try_made(kwhy, int(rest[0]), int(rest[1]) if rest[1:] else 1, scratch)
        else:
            try_damages(kwhy, folder, rest, scratch)
