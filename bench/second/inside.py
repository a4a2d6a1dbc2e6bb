"""Is a second reader of the object in which an address of a dump lies, for `why`: the task or the slab cache that it says it is, and how words that
say the same lie in it. It stands on what `objects.py` prints of the object, and shares no code with the program.
"""
from plans.reader import TOP, Broken, Refused
from second.areas import shown

PAGE = 4096
OF_STACKS = {
    "list_head": ("next", "prev"),
    "task_struct": ("tasks", "children", "sibling", "thread_node", "pid", "tgid", "real_parent", "group_leader", "signal", "stack", "comm"),
    "signal_struct": ("thread_head",),
}


class Object:
    """An object, by the lines of what holds its address."""

    def __init__(self, objects, lines):
        rows = {words[0]: words[1:] for words in (line.split(" ") for line in lines)}
        self.cache, self.name = int(rows["cache"][0], 16), rows["cache"][1]
        self.first, self.byte, self.is_free = int(rows["object"][0], 16), int(rows["object"][4]), rows["object"][5] == "free"
        self.size = int(rows["cache"][3]) - (objects.optional(self.cache, "red_left_pad") or 0)


def object_of(objects, lines):
    """The object that these lines tell of, if they do."""
    return Object(objects, lines) if lines and lines[-1].startswith("object ") else None


def has_stacks(areas):
    """Whether a kernel has what tells of stacks, and so of tasks."""
    start, end = areas.symbol("init_stack"), areas.symbol("__end_init_task") or areas.symbol("__end_init_stack")
    return None not in (start, end, areas.symbol("init_task")) and start <= end and all(areas.has(struct, name) for struct in OF_STACKS for name in OF_STACKS[struct])


def text(areas, at, most):
    """The text at an address, where its first word can be read."""
    areas.kernel.memory.place(at - at % 8)
    return shown(areas.text(at, most))


def task(areas, at):
    kernel = areas.kernel
    if not has_stacks(areas):
        return []
    pid = kernel.field(at, "task_struct", "pid")[0]
    return [f"task {pid} {text(areas, (at + kernel.byte('task_struct', 'comm')) % TOP, areas.length('task_struct', 'comm'))}"]


def cache(areas, at):
    return [f"names {text(areas, areas.kernel.field(at, 'kmem_cache', 'name')[0], 64)}"]


def named(areas, found):
    """The line of what an object says it is, where it isn't free."""
    says = {"task_struct": task, "kmem_cache": cache}
    try:
        return [] if found is None or found.is_free or found.name not in says else says[found.name](areas, found.first)
    except (Broken, Refused):
        return []


def counted(number, text):
    return text.format(number) if number > 0 else ""


def covers(at, span, found):
    """The lines of how the bytes of a span line lie in a page, and in an object that has the address."""
    first, last = (int(word, 16) for word in span.split()[1:])
    lines = ["covers page"] if first % PAGE == 0 and last == first + PAGE - 1 else []
    if found is None:
        return lines
    start = at - found.byte
    had = [byte for byte in (first, last, start, start + found.size - 1) if first <= byte <= last and start <= byte < start + found.size]
    part = min(had) - start, max(had) - start
    part = "object" if part == (0, found.size - 1) else f"byte {part[0]} to {part[1]} of {found.size}"
    return lines + ["covers " + counted(start - first, "{} before and ") + part + counted(last - (start + found.size - 1), " and {} after")]
