#!/usr/bin/env python3
"""A second opinion on late claims: what request L3 of document 02 says of them, read from its sentences alone.

    oracle late SEED COUNT | late_model.py

reads the frames that README.md lays out, and prints how many cases differ, and the first few. What an order file says is
orders_model.py; nothing is shared with the harness, nor with the proved code. A table is never edited here: it is a set
of pages, the claim is another, and the areas afterwards are the runs of what is left. `late` is one claim on any map and
any table, also on one that came from elsewhere; late/tables asks for such, in the form that `table_answer` reads.
"""
import functools
import struct
import sys
from typing import NamedTuple

sys.dont_write_bytecode = True
from claims_model import FREE, NULL, PAGE, Refused, register  # noqa: E402
from orders_model import KINDS, SLOTS, T, frames, joined, layout, registrations, rounded, stretches  # noqa: E402

HEAD, ENTRY = 112, 24


class After(NamedTuple):
    """What a late claim leaves."""
    number: int
    held: list
    count: int
    numbers: list


# ── One claim on any table ──

def slots(numbers):
    """A slot is a whole pair. A last number without another is in none."""
    return list(zip(numbers[::2], numbers[1::2]))


def is_finished(count, numbers):
    """Whether 14 has nothing against a table."""
    if count > len(slots(numbers)):
        return False
    areas = slots(numbers)[:count]
    apart = all(base + size < after for (base, size), (after, _) in zip(areas, areas[1:]))
    aligned = all(base % PAGE == 0 and size % PAGE == 0 for base, size in areas)
    return apart and aligned and all(size > 0 and base + size <= T for base, size in areas)


def left(areas, base, size, kind):
    """The areas less the rounded claim. Between two neighbouring edges, all addresses are in an area or none is."""
    start, end = rounded(base, size, kind)
    edges = sorted({start, end, *(edge for base, size in areas for edge in (base, base + size))})
    starts = {base: base + size for base, size in areas}
    inside, kept = 0, []
    for here, there in zip(edges, edges[1:]):
        inside = starts.get(here, inside)
        if here < inside and not start <= here < end:
            kept.append((here, there))
    return [(start, end - start) for start, end in joined(kept)]


def written(areas, count, numbers):
    """The numbers with these areas in the first slots. Slots that fall out of use become zero; all else stays."""
    unused = max(count - len(areas), 0)
    new = [number for area in areas + unused * [(0, 0)] for number in area]
    return new + numbers[len(new):]


def late(held, base, size, kind, count, numbers):
    """A late claim. The refusals come in their order, and leave everything as it was."""
    def refused(number):
        return After(number, held, count, numbers)

    if kind not in KINDS:
        return refused(1)
    if kind in (NULL, FREE):
        return refused(13)
    if not is_finished(count, numbers):
        return refused(14)
    if size == 0:
        return refused(0)
    after = held[:]
    if not register(after, base, size, kind):
        return refused(2)
    areas = left(slots(numbers)[:count], base, size, kind)
    if len(areas) > len(slots(numbers)):
        return refused(3)
    return After(0, after, len(areas), written(areas, count, numbers))


# ── The build, and claims behind it ──

def build(file):
    """The limits and the registrations of a file."""
    arm, limits, pairs, entries, tree = layout(file)
    return limits, registrations(arm, pairs, entries, tree)


def map_of(made):
    """The map of registrations that it has room for."""
    held = []
    for claim in made:
        register(held, *claim)
    return held


def areas_of(made, low, high):
    """What a build afresh lists, by the address rule."""
    parts = joined(part[:2] for part in stretches(made, low, high) if part[2] and not part[3])
    return [(start, end - start) for start, end in parts]


def split(data):
    """The order file, whose length is what its header says, and the claims right after its end."""
    length = len(data)
    if length >= HEAD:
        entries, tree = struct.unpack_from("<H", data, 6)[0], struct.unpack_from("<I", data, 104)[0]
        length = HEAD + ENTRY * entries + tree
    rest = data[length:]
    return data[:length], [struct.unpack_from("<3Q", rest, at) for at in range(0, len(rest) - ENTRY + 1, ENTRY)]


def run(data):
    """The areas after the claims up to the first refusal, how many were made, and the number of that refusal or 0."""
    file, claims = split(data)
    limits, made = build(file)
    areas, before = areas_of(made, *limits), len(made)
    number, held, count, numbers = After(0, map_of(made), len(areas), written(areas, 0, 2 * SLOTS * [0]))
    for claim in claims:
        number, held, count, numbers = late(held, *claim, count, numbers)
        if number:
            break
        made.append(claim)
    assert slots(numbers) == areas_of(made, *limits) + (SLOTS - count) * [(0, 0)], "not what a build afresh lists"
    return slots(numbers)[:count], len(made) - before, number


def text(data):
    try:
        areas, index, number = run(data)
    except Refused as refused:
        return "refused %d\n" % refused.args[0]
    lines = "areas %d\n%s" % (len(areas), "".join("%016x %016x\n" % area for area in areas))
    return lines + ("refused %d at %d\n" % (number, index) if number else "late %d\n" % index)


# ── A claim on a table from elsewhere ──

@functools.cache
def map_or_number(file):
    """The map of a file's build and 0, or none and the number of its refusal."""
    try:
        return map_of(build(file)[1]), 0
    except Refused as refused:
        return None, refused.args[0]


def packed(numbers):
    return struct.pack("<%dQ" % len(numbers), *numbers)


def table_answer(data):
    """The answer to a case of late/tables, byte for byte."""
    length = int.from_bytes(data[:8], "little")
    file, asked = data[8:8 + length], data[8 + length:]
    base, size, kind, count, _, *numbers = struct.unpack("<%dQ" % (len(asked) // 8), asked)
    held, number = map_or_number(file)
    if number:
        return packed([number])
    after = late(held, base, size, kind, count, numbers)
    return packed([0, after.number, after.count, *after.numbers, after.held == held])


def main():
    count = differ = 0
    for count, (data, said) in enumerate(frames(sys.stdin.buffer), 1):
        ours = text(data).encode()
        differ += ours != said
        if ours != said and differ <= 5:
            print("case %d\n  here %s\n  oracle %s\n  input %s" % (count - 1, ours, said, data.hex()))
    print("cases %d\ndiffer %d" % (count, differ))
    sys.exit(differ > 0)


if __name__ == "__main__":
    main()
