#!/usr/bin/env python3
"""A second opinion on the oracle: what document 01 has printed for an order file, read from its bytes alone.

    oracle orders SEED COUNT | orders_model.py

reads the frames that README.md lays out, and prints how many cases differ, and the first few. The tree's part is
claims_model.py; nothing is shared with the harness. Areas and pages are told from the registrations by the address
rule: an address is usable that is inside the limits, inside a Free registration and inside no other.
"""
import struct
import sys

sys.dont_write_bytecode = True
from claims_model import DEVICE, FREE, NULL, PAGE, RESERVED, Refused, claims, register  # noqa: E402

LARGEST, SLOTS = 65536, 512
T = 2 ** 64 - PAGE
RECLAIM, KERNEL, IDENTITY_MAP = 2, 0x100, 0x102
KINDS = {NULL, FREE, RECLAIM, RESERVED, KERNEL, DEVICE, IDENTITY_MAP}
PAIR_KINDS = [KERNEL] + 4 * [IDENTITY_MAP]


# ── The layout ──

def layout(file):
    """Whether the build is for ARM, the limits, the pairs, the list and the tree of a file."""
    if not 112 <= len(file) <= LARGEST:
        raise Refused(9)
    magic, version, flags, count, low, high, *numbers, length, zeros = struct.unpack("<3sHBH12Q2I", file[:112])
    end = 112 + 24 * count
    if (magic, version, zeros) != (b"GBO", 1, 0) or flags > 7 or len(file) != end + length:
        raise Refused(9)
    if low and not flags & 2 or high and not flags & 4:
        raise Refused(9)
    limits = low if flags & 2 else 0, high if flags & 4 else 2 ** 64 - 1
    pairs = [(*pair, kind) for *pair, kind in zip(numbers[::2], numbers[1::2], PAIR_KINDS)]
    return flags & 1, limits, pairs, list(struct.iter_unpack("<3Q", file[112:end])), file[end:]


def registrations(arm, pairs, entries, tree):
    if any(kind not in KINDS for _, _, kind in entries):
        raise Refused(1)
    made, held = [*entries, *claims(tree, arm), *pairs], []
    if not all(register(held, *claim) for claim in made):
        raise Refused(2)
    return made


# ── Pages ──

def down(x):
    return x // PAGE * PAGE


def up(x):
    return min(-(-x // PAGE) * PAGE, T)


def rounded(base, size, kind):
    end = min(base + size, 2 ** 64 - 1)
    return (up(base), down(end)) if kind == FREE else (down(base), up(end))


def stretches(made, low, high):
    """The addresses inside the limits, cut wherever a registration starts or ends: start, end, and how many Free and
    how many other registrations hold each stretch."""
    steps = {up(low): [0, 0], down(high): [0, 0]}
    for base, size, kind in made:
        start, end = rounded(base, size, kind)
        if kind != NULL and size and start < end:
            steps.setdefault(start, [0, 0])[kind != FREE] += 1
            steps.setdefault(end, [0, 0])[kind != FREE] -= 1
    places, counts = sorted(steps), [0, 0]
    for start, end in zip(places, places[1:]):
        counts = [count + step for count, step in zip(counts, steps[start])]
        if up(low) <= start and end <= down(high):
            yield start, end, *counts


def joined(ranges):
    areas = []
    for start, end in ranges:
        if areas and areas[-1][1] == start:
            start = areas.pop()[0]
        areas.append((start, end))
    return areas


def pages(ranges):
    return sum(end - start for start, end in ranges) // PAGE


def share(usable, free):
    """The bits of the nearest double, which document 01's own rule must allow."""
    if not free:
        return "none"
    bits = struct.unpack(">Q", struct.pack(">d", usable / free))[0]
    m, k = (bits % 2 ** 52 + 2 ** 52, 1075 - (bits >> 52)) if bits else (0, 0)
    assert 2 * abs(m * free - usable * 2 ** k) <= free
    return "%016x" % bits


# ── The report ──

def report(file):
    arm, (low, high), pairs, entries, tree = layout(file)
    made = registrations(arm, pairs, entries, tree)
    parts = [part for part in stretches(made, low, high) if part[2]]
    free = pages(part[:2] for part in parts)
    areas = joined(part[:2] for part in parts if not part[3])
    assert len(areas) <= SLOTS
    lines = ["%016x %016x\n" % (start, end - start) for start, end in areas]
    usable = pages(areas)
    return "areas %d\n%spages %d %d %s\n" % (len(areas), "".join(lines), free, usable, share(usable, free))


def text(file):
    try:
        return report(file)
    except Refused as refused:
        return "refused %d\n" % refused.args[0]


def frames(stream):
    """The files of a stream, each with its text."""
    def part(length):
        data = stream.read(length)
        if len(data) != length:
            sys.exit("cut off")
        return data

    def sized():
        return part(int.from_bytes(part(8), "little"))

    while stream.peek(1):
        yield sized(), sized()


def main():
    count = differ = 0
    for count, (file, said) in enumerate(frames(sys.stdin.buffer), 1):
        ours = text(file).encode()
        differ += ours != said
        if ours != said and differ <= 5:
            print("case %d\n  here %s\n  oracle %s\n  file %s" % (count - 1, ours, said, file.hex()))
    print("cases %d\ndiffer %d" % (count, differ))
    sys.exit(differ > 0)


if __name__ == "__main__":
    main()
