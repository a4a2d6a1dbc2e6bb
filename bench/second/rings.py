"""Is a second reader of the nodes of a ring, also where it is broken, for `areas`, `objects` and `slabs`. It stands on `verdict.py`, and shares no
code with the program.
"""
from plans.reader import TOP, Broken

MOST = 1 << 22


def along(memory, head, on, back, ends):
    """The nodes that one pointer leads to from a head, while the other leads back."""
    found, node = [], head
    try:
        while len(found) < MOST:
            then = memory.place((node + on) % TOP)[3]
            if memory.place((then + back) % TOP)[3] != node or then in ends:
                break
            found.append(then)
            node = then
    except Broken:
        pass
    return found


def reached(kernel, head):
    """The nodes of a ring, and the rule that it breaks: of a broken one those that are reached from either end."""
    head %= TOP
    try:
        return kernel.ring(head), None
    except Broken as broken:
        after, before = (kernel.byte("list_head", name) for name in ("next", "prev"))
        first = along(kernel.memory, head, after, before, (head,))
        return first + along(kernel.memory, head, before, after, (head, first[-1] if first else head)), broken


def first_of(things, act, broken=None):
    """What `act` finds first of some things: one that can't be told is passed over; where none has it, the first violation is met."""
    for thing in things:
        try:
            found = act(thing)
        except Broken as one:
            broken = broken or one
            continue
        if found is not None:
            return found
    if broken:
        raise broken
    return None
