#!/usr/bin/env python3
"""A second opinion on the oracle: what document 01 says of a tree's claims and translations, read from its bytes alone.

    oracle claims SEED COUNT | claims_model.py

reads the stream that README.md lays out, and prints how many cases differ, and the first few. It shares nothing with
the harness. Numbers have no bounds here: a sum is just compared with 2^64.
"""
import struct
import sys

PAGE, TOP = 4096, 2 ** 64
NULL, FREE, RESERVED, DEVICE = 0, 1, 3, 0x101
ADDRESS, SIZE = b"#address-cells", b"#size-cells"


class Refused(Exception):
    """The number that a caller gets back."""


# ── The tree ──

class Node:
    def __init__(self, name, parent):
        self.name, self.parent, self.properties, self.children = name, parent, [], []

    def get(self, name):
        """The value of the first property of that name, or None."""
        return next((value for found, value in self.properties if found == name), None)

    def child(self, step):
        return next((c for c in self.children if step and step in (c.name, c.name.split(b"@")[0])), None)


def opened(blob):
    """The root, and the bytes from the reservations to the structure."""
    header = struct.unpack(">10I", blob[:40]) if len(blob) >= 40 else [0] * 10
    magic, total, at, names, block, version, last, _, names_size, size = header
    if not (magic == 0xd00dfeed and 40 <= total <= len(blob) and version >= 17 and last <= 17 and at >= 40
            and names >= 40 and at + size <= total and names + names_size <= total and at % 4 == 0):
        raise Refused(4)
    if total > 1048576:
        raise Refused(6)
    root = walk(blob[at:at + size], blob[names:names + names_size])
    return root, blob[block:at] if 40 <= block <= at and block % 8 == 0 else b""


def ended(block, at):
    """The bytes from a place up to a zero byte."""
    if block.find(b"\0", at) < 0:
        raise Refused(5)
    return block[at:block.find(b"\0", at)]


def walk(structure, strings):
    """Goes from token to token. The open node is None before the root, and False after it."""
    at = level = count = 0
    node = root = None
    while True:
        if at + 4 > len(structure):
            raise Refused(5)
        token = int.from_bytes(structure[at:at + 4], "big")
        at += 4
        if token == 1 and node is not False:
            name = ended(structure, at)
            if node is None and name:
                raise Refused(5)
            level, count = level + 1, count + 1
            if level > 32 or count > 4096:
                raise Refused(6)
            node = Node(name, node)
            if node.parent:
                node.parent.children.append(node)
            root = root or node
            at += (len(name) + 4) // 4 * 4
        elif token == 2 and node:
            node, level = node.parent or False, level - 1
        elif token == 3 and node and not node.children and at + 8 <= len(structure):
            length, offset = struct.unpack(">II", structure[at:at + 8])
            if at + 8 + length > len(structure):
                raise Refused(5)
            node.properties.append((ended(strings, offset), structure[at + 8:at + 8 + length]))
            at += 8 + (length + 3) // 4 * 4
        elif token == 9 and node is False and at == len(structure):
            return root
        elif token != 4:
            raise Refused(5)


# ── Values ──

def string(value):
    return value.split(b"\0")[0] if value is not None and b"\0" in value else None


def stated(node, name):
    """The count of cells that a node states in 4 bytes, or None."""
    value = node.get(name)
    return int.from_bytes(value, "big") if value is not None and len(value) == 4 else None


def cells(node, name):
    """The count that governs, or None where it cannot be read."""
    count = stated(node, name) if node.get(name) is not None else {ADDRESS: 2, SIZE: 1}[name]
    return count if count in (1, 2) else None


def rows(value, counts):
    """The rows of numbers; None where there is no value, or an unreadable one."""
    if not value:
        return None if value is None else []
    if None in counts or len(value) % (4 * sum(counts)):
        return None
    numbers, at = [], 0
    while at < len(value):
        for count in counts:
            numbers.append(int.from_bytes(value[at:at + 4 * count], "big"))
            at += 4 * count
    return list(zip(*(numbers[i::len(counts)] for i in range(len(counts)))))


def reg(node):
    return rows(node.get(b"reg"), [cells(node.parent, ADDRESS), cells(node.parent, SIZE)])


def ranges(bus):
    return rows(bus.get(b"ranges"), [cells(bus, ADDRESS), cells(bus.parent, ADDRESS), cells(bus, SIZE)])


# ── Claims ──

def block_claims(block):
    for at in range(0, len(block) - 15, 16):
        address, size = struct.unpack(">QQ", block[at:at + 16])
        if (address, size) == (0, 0):
            return
        if size and address + size < TOP:
            yield address, size, RESERVED


def counted(root):
    """The children of /reserved-memory that count."""
    node = root.child(b"reserved-memory")
    if node is None or node.get(b"ranges") != b"" or any(
            stated(node, name) is None or stated(node, name) != stated(root, name) for name in (ADDRESS, SIZE)):
        return []
    return [child for child in node.children if child.get(b"status") in (None, b"okay\0")]


def reserved_claims(root):
    for child in counted(root):
        size, where = child.get(b"size"), child.get(b"alloc-ranges")
        if child.get(b"reg") is not None:
            for entry in reg(child):
                yield *entry, RESERVED
        elif size is not None:
            counts = [stated(root, ADDRESS), stated(root, SIZE)]
            sound = set(counts) <= {1, 2} and len(size) == 4 * counts[1] and len(where or b"") == 4 * sum(counts)
            for place in rows(where, counts) if sound else []:
                if place[1] == int.from_bytes(size, "big") > 0 and sum(place) < TOP:
                    yield *place, RESERVED


def in_soc(soc, address, size):
    """Where the soc window leads, or None."""
    more = max(size, 1) - 1
    for child, parent, length in ranges(soc):
        if child <= address and min(address + more, TOP - 1) - child <= length:
            found = parent + address - child
            return found if found + more < TOP else None
    return None if ranges(soc) else address


def ancestors(node):
    """Those below the root, nearest first."""
    while node.parent.parent:
        node = node.parent
        yield node


def translated(node, address, size):
    more = max(size, 1) - 1
    for bus in ancestors(node):
        if ranges(bus) is None:  # there is none, or it is unreadable
            return None
        ways = [parent + address - child for child, parent, length in ranges(bus)
                if child <= address and address - child < length and more < length - (address - child)]
        if ranges(bus) and not (ways and ways[0] < TOP):
            return None
        address = ways[0] if ways else address
    return address if address + more < TOP else None


def in_order(root):
    """The nodes in document order: after each come its children, and then its next sibling."""
    left = [root]
    while left:
        yield (node := left.pop(0))
        left = node.children + left


def translations(tree):
    """Where the first `reg` entry of each node leads, the root first, with the number of nodes tried: the root's first
    child is 1. A failure gives 0. The root is no node below the root."""
    try:
        root = opened(tree)[0] if tree else None
    except Refused:
        root = None
    found = []
    for place, node in enumerate(in_order(root)) if root else []:
        entry = (reg(node) or [None])[0] if node.parent else None
        address = translated(node, *entry) if entry else None
        found.append((address, place) if address is not None else (0, 0))
    return found


def found(root, path):
    node = root
    for step in path[1:].split(b"/") if path != b"/" else []:
        node = node and node.child(step)
    return node if path.startswith(b"/") else None


def stdout(root):
    def text(node, name):
        return string(root.child(node).get(name)) if root.child(node) else None
    path = text(b"chosen", b"stdout-path")
    if path is not None and not (path := path.split(b":")[0]).startswith(b"/"):
        path = text(b"aliases", path)
    return found(root, path) if path is not None else None


def device_claims(root, soc):
    for device in soc.children if soc else []:
        for address, size in reg(device) or []:
            yield in_soc(soc, address, size), size, DEVICE
    console = stdout(root)
    if console not in (None, root) and console.get(b"compatible") is not None:
        for address, size in (reg(console) or [])[:1]:
            yield translated(console, address, size), size, DEVICE
    for child in root.children:
        if child.get(b"interrupt-controller") is not None:
            for address, size in reg(child) or []:
                yield translated(child, address, size), size, DEVICE


def claims(tree, arm):
    if not tree:
        return []
    root, block = opened(tree)
    if any(child.get(b"reg") is not None and reg(child) is None for child in counted(root)):
        raise Refused(7)
    reservations = [*block_claims(block), *reserved_claims(root)]
    if arm and b"linux,dummy-virt" in (string(root.get(b"model")) or b""):
        return reservations + [(0x08000000, 0x08000000, DEVICE), (0x10000000, 0x30000000, DEVICE)]
    soc = root.child(b"soc")
    soc = soc if soc and soc.get(b"ranges") is not None else None
    if soc and ranges(soc) is None and any(reg(device) for device in soc.children):
        raise Refused(8)
    return reservations + [claim for claim in device_claims(root, soc) if claim[0] is not None]


# ── The map ──

def register(held, base, size, kind):
    """Whether a claim is taken; the map changes only then."""
    last = min(base + size, TOP - 1)
    down = [x // PAGE * PAGE for x in (base, last)]
    up = [min((x + PAGE - 1) // PAGE * PAGE, TOP - PAGE) for x in (base, last)]
    start, end = (up[0], down[1]) if kind == FREE else (down[0], up[1])
    if kind == NULL or size == 0 or start >= end:
        return True
    i, room = 0, len(held) < 512
    while i < len(held):
        s, e, k = held[i]
        if k == kind and s <= end and start <= e:
            start, end, room = min(start, s), max(end, e), True
            held[i] = held[-1]
            held.pop()
        else:
            i += 1
    if room:
        held.append((start, end, kind))
    return room


def called(before, arm, tree):
    """The answer, the claims up to the first that is refused, and the map."""
    held = []
    assert all(register(held, *claim) for claim in before)
    try:
        made = claims(tree, arm)
    except Refused as refused:
        return refused.args[0], [], held
    after = held[:]
    for i, claim in enumerate(made):
        if not register(after, *claim):
            return 2, made[:i + 1], held
    return 0, made, after


def model(before, arm, tree):
    """The same, and the translations."""
    return *called(before, arm, tree), translations(tree)


def cases(stream):
    def numbers(count):
        return struct.unpack("<%dQ" % count, stream.read(8 * count))

    def rows_of(width, count):
        return list(zip(*[iter(numbers(width * count))] * width))

    def threes(count):
        return rows_of(3, count)

    while head := stream.read(32):
        n, arm, size, k = struct.unpack("<4Q", head)
        before, tree = threes(n), stream.read((size + 7) // 8 * 8)[:size]
        yield before, arm, tree, (*numbers(1), threes(k), threes(*numbers(1)), rows_of(2, *numbers(1)))


def main():
    count = differ = 0
    for count, (before, arm, tree, said) in enumerate(cases(sys.stdin.buffer), 1):
        ours = model(before, arm, tree)
        differ += ours != said
        if ours != said and differ <= 5:
            part = next(x for x in zip(("answer", "claims", "map", "translations"), ours, said) if x[1] != x[2])
            print("case %d: %s\n  here %s\n  oracle %s" % (count - 1, *part))
            print("  arm %d, map %s\n  tree %s" % (arm, before, tree.hex()))
    print("cases %d\ndiffer %d" % (count, differ))
    sys.exit(differ > 0)


if __name__ == "__main__":
    main()
