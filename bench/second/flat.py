"""The definition of flattened files (crates/kc_flattened/specs) in executable form.

    flat FILE > OUT          writes the file that a flattened file means
    flat --count FILE        prints its records, its size and how many records are over another
"""
import sys

SIGNATURE, HEADER, MOST, LAST = b'makedumpfile\0\0\0\0', 4096, 4194304, 2 ** 64 - 1


class Fault(Exception):
    pass


def number(bs, at):
    return int.from_bytes(bs[at:at + 8], 'big')


def records_of(bs):
    """(to, count, from) of each record"""
    if len(bs) < HEADER or number(bs, 16) != 1 or number(bs, 24) != 1:
        raise Fault('Header')
    at, records = HEADER, []
    for _ in range(MOST):
        if len(bs) < at + 16:
            raise Fault('NoEnd')
        to, count = number(bs, at), number(bs, at + 8)
        if to == LAST and count == LAST:
            return records
        if to + count >= 2 ** 63:
            raise Fault('Bounds')
        if len(bs) < at + 16 + count:
            raise Fault('PastEnd')
        records.append((to, count, at + 16))
        at += 16 + count
    raise Fault('TooMany')


def size_of(records):
    return max([to + count for to, count, _ in records if count], default=0)


def unflat(bs):
    if bs[:16] != SIGNATURE:
        return bytes(bs)
    records = records_of(bs)
    out = bytearray(size_of(records))
    for to, count, at in records:
        out[to:to + count] = bs[at:at + count]
    return bytes(out)


def main(words):
    bs = open(words[-1], 'rb').read()
    try:
        if words[0] == '--count':
            records = records_of(bs)
            order = sorted(records)
            print(len(records), size_of(records), sum(a[0] + a[1] > b[0] for a, b in zip(order, order[1:])))
        else:
            sys.stdout.buffer.write(unflat(bs))
    except Fault as e:
        print(e.args[0], file=sys.stderr)
        return 1
    return 0
