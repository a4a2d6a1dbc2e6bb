"""Is a second reader of the areas in which an address of a dump lies, for `why`: the module whose memory has it, the processor whose area has it, and
the task whose stack has it. It stands on `verdict.py`, and shares no code with the program.
"""
import bisect

from plans.reader import TOP, Broken, Refused, address
from second.rings import first_of, reached
from second.verdict import tasks

PROCESSORS = 8192
NO_VARIABLE = ("__per_cpu_start", "kexec_control_code_size")


def kernel_byte(kernel, at):
    """The byte at an address."""
    return kernel.memory.number(at, 0, 8)[0]


def shown(name):
    """A name as it is printed."""
    return "".join(chr(c) if 0x21 <= c <= 0x7E else "?" for c in name)


class Areas:
    """The areas of a dump, by a kernel of `verdict.py` and the rows of its map: run-time addresses and names, in the order of the file."""

    def __init__(self, kernel, rows):
        self.kernel, self.rows = kernel, rows
        self.kept = {}

    def symbol(self, name):
        """The address of a symbol that has one alone."""
        try:
            found = address(self.kernel.rows, name, self.kernel.info.kaslr)
        except Refused:
            return None
        return found

    def text(self, at, most):
        """The bytes at an address up to a NUL, or to what can't be read."""
        found = []
        while len(found) < most:
            try:
                byte = self.kernel.memory.number((at + len(found)) % TOP, 0, 8)[0]
            except Broken:
                break
            if byte == 0:
                break
            found.append(byte)
        return found

    def length(self, struct, path):
        """How many elements an array has."""
        types = self.kernel.types
        kind = types.located(self.kernel.struct(struct), path)[2]
        return types.records[types.bare(kind)][4][2]

    def parts(self):
        """The paths of the parts of a module's memory."""
        named = [path for path in ("core_layout", "init_layout") if self.has("module", f"{path}.base")]
        return named if "core_layout" in named else [f"mem[{k}]" for k in range(self.length("module", "mem"))]

    def has(self, struct, path):
        """Whether a struct has a member."""
        try:
            self.kernel.byte(struct, path)
        except Refused:
            return False
        return True

    def module(self, at):
        kernel, head = self.kernel, self.symbol("modules")
        if head is None:
            return None
        paths, link, most = self.parts(), kernel.byte("module", "list"), self.length("module", "name")

        def in_part(module, path):
            base, size = (kernel.field(module, "module", f"{path}.{name}")[0] for name in ("base", "size"))
            if base and base <= at < base + size:
                return module, base, shown(self.text(module + kernel.byte("module", "name"), most))
            return None

        nodes, broken = reached(kernel, head)
        return first_of(nodes, lambda node: first_of(paths, lambda path: in_part((node - link) % TOP, path)), broken)

    def named(self, module):
        """The symbols of a module but the first that are defined and have a name that isn't a mapping symbol's: values, places in the table and where
        the names begin, in the order of the values; none where a symbol can't be read, or where it has more than 2^20.
        """
        kernel = self.kernel
        table = kernel.field(module, "module", "kallsyms")[0]
        first, count, names = (kernel.field(table, "mod_kallsyms", name)[0] for name in ("symtab", "num_symtab", "strtab"))
        if count > 1 << 20:
            return []
        found = []
        for place in range(1, count):
            head, value = (kernel.memory.place((first + 24 * place + byte) % TOP)[3] for byte in (0, 8))
            name, section = (names + (head & 0xFFFFFFFF)) % TOP, head >> 48
            if section:
                found.append((value, place, name))
        return sorted(found)

    def has_name(self, at):
        """Whether a symbol's name is one of a symbol; one that can't be read may be."""
        try:
            first = kernel_byte(self.kernel, at)
        except Broken:
            return True
        try:
            start = bytes((first, kernel_byte(self.kernel, (at + 1) % TOP)))
        except Broken:
            start = bytes((first,))
        return start[:1] not in (b"\0", b"$") and start not in (b".L", b"L0")

    def symbol_in(self, at, module, base):
        """The symbol of a module from a part's first byte on that stands nearest below one of its bytes, with the distance: what `find_kallsyms_symbol` of
        the kernel's kernel/module/kallsyms.c takes.
        """
        if module not in self.kept:
            try:
                self.kept[module] = self.named(module)
            except (Broken, Refused):
                self.kept[module] = []
        # those that stand nearest, of which the first with a name counts
        below, symbols = None, self.kept[module]
        for value, place, name in reversed(symbols[: bisect.bisect_right(symbols, (at, TOP))]):
            if value < base or below is not None and value != below[0]:
                break
            if self.has_name(name):
                below = value, name
        if below is None:
            return None
        text = self.text(below[1], 255)
        return f"{shown(text)}+{at - below[0]}" if text else None

    def module_lines(self, at):
        """The lines of the module that has an address, and of its symbol."""
        owner = []

        def found_in(address):
            found = self.module(address)
            owner.extend([found] if found else [])
            return found and f"{found[2]}+{address - found[1]}"

        lines = self.told("module", found_in, at)
        for module, base, name in owner:
            symbol = self.symbol_in(at, module, base)
            lines += [f"symbol {symbol} [{name}]"] if symbol else []
        return lines

    def variable(self, first, at):
        """The symbol nearest below an address, from the first one on, where it isn't the area's own."""
        below = [row for row in self.rows if first <= row[0] <= at and row[1] not in NO_VARIABLE]
        if not below:
            return ""
        most = max(row[0] for row in below)
        return f" {next(row[1] for row in below if row[0] == most)}+{at - most}"

    def processor(self, at):
        memory = self.kernel.memory
        count, offsets, first, end = (self.symbol(name) for name in ("nr_cpu_ids", "__per_cpu_offset", "__per_cpu_start", "__per_cpu_end"))
        if None in (count, offsets, first, end):
            return None

        def in_area(number):
            listed = (at - memory.place((offsets + 8 * number) % TOP)[3]) % TOP
            return f"{number}{self.variable(first, listed)}" if first <= listed < end else None

        return first_of(range(min(memory.number(count, 0, 32)[0], PROCESSORS)), in_area)

    def led_to(self, head, member):
        """The tasks that have the nodes of a ring, also where it is broken."""
        return [(node - self.kernel.byte("task_struct", member)) % TOP for node in reached(self.kernel, head)[0]]

    def led_from(self, first):
        """The tasks that the rings of a broken task list still lead to: leaders, and the threads of each."""
        kernel = self.kernel
        for leader in [first] + self.led_to(first + kernel.byte("task_struct", "tasks"), "tasks"):
            yield leader
            try:
                signal = kernel.field(leader, "task_struct", "signal")[0]
            except Broken:
                continue
            yield from self.led_to(signal + kernel.byte("signal_struct", "thread_head"), "thread_node")

    def tasks(self):
        """The tasks of the task list in their order, or those that its rings still lead to, and what it breaks."""
        if "tasks" not in self.kept:
            first = self.symbol("init_task")
            try:
                self.kept["tasks"] = tasks(self.kernel, first), None
            except Broken as broken:
                self.kept["tasks"] = list(self.led_from(first)), broken
        return self.kept["tasks"]

    def stack_of(self, task):
        """Where a task's stack begins."""
        return self.kernel.field(task, "task_struct", "stack")[0]

    def owner(self, at):
        """The task whose stack has an address, as its own, its number, its name, and the byte of the stack."""
        kernel = self.kernel
        first, end = self.symbol("init_stack"), self.symbol("__end_init_task") or self.symbol("__end_init_stack")
        if first is None or end is None or end < first:
            return None
        size, most = end - first, self.length("task_struct", "comm")

        def in_stack(task):
            stack = self.stack_of(task)
            if stack and stack <= at < stack + size:
                pid = kernel.field(task, "task_struct", "pid")[0]
                return task, pid, shown(self.text(task + kernel.byte("task_struct", "comm"), most)), at - stack
            return None

        found, broken = self.tasks()
        return first_of(found, in_stack, broken)

    def stack(self, at):
        owner = self.owner(at)
        return owner and "{1} {2}+{3}".format(*owner)

    def told(self, name, act, at):
        try:
            found = act(at)
        except Refused:
            return []
        except Broken as broken:
            return [f"{name} unknown {broken.rule} {broken.at:016x}"]
        return [] if found is None else [f"{name} {found}"]

    def lines(self, at, slab):
        """The lines of an address outside the image, which may lie in a slab."""
        lines = self.module_lines(at) + self.told("percpu", self.processor, at)
        return lines if slab else lines + self.told("stack", self.stack, at)


class Holders:
    """The symbols of the image's data, by the words that they name."""

    def __init__(self, memory, rows, start, end, freed, kept):
        self.names = {}
        for at, name in rows:
            if start is None or end is None or at % 8 or not max(start, 0xFFFFFFFF80000000) <= at < end:
                continue
            if freed is not None and kept is not None and freed <= at < kept:
                continue
            try:
                self.names.setdefault(memory.place(at)[3], []).append(name)
            except Broken:
                pass

    def of(self, cache):
        return self.names.get(cache, [])
