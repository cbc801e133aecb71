#!/usr/bin/env python3
"""An independent reader of flattened devicetrees, written from document 01 alone.

    judge.py FILE..      prints, for each file, the text of its tree, `refused N` or `no tree`

It is a second opinion on our proved reader, so it shares nothing with it: not the code, and not its shape. Ours
goes over tokens in a loop; this one descends by the grammar, a call for each node. Names are bytes and stay bytes:
nothing here asks that they be text.
"""
import struct
import sys

BYTES = 1048576
LEVELS = 32
NODES = 4096

BEGIN_NODE, END_NODE, PROP, NOP, END = 1, 2, 3, 4, 9


class Refused(Exception):
    """The number that a caller gets back."""


class Header:
    def __init__(self, blob):
        if len(blob) < 40:
            raise Refused(4)
        (magic, self.total, self.structure, self.strings, self.reservations, version, compatible, _cpu,
         self.strings_size, self.structure_size) = struct.unpack(">10I", blob[:40])
        sound = (magic == 0xd00dfeed
                 and 40 <= self.total <= len(blob)
                 and version >= 17 and compatible <= 17
                 and self.structure >= 40 and self.strings >= 40
                 and self.structure + self.structure_size <= self.total
                 and self.strings + self.strings_size <= self.total
                 and self.structure % 4 == 0)
        if not sound:
            raise Refused(4)
        if self.total > BYTES:
            raise Refused(6)


class Structure:
    """Reads one structure block from its start, and gathers the lines of its text."""

    def __init__(self, block, strings):
        self.block = block
        self.strings = strings
        self.at = 0
        self.nodes = 0
        self.lines = []

    def word(self):
        if self.at + 4 > len(self.block):
            raise Refused(5)
        value = int.from_bytes(self.block[self.at:self.at + 4], "big")
        self.at += 4
        return value

    def token(self):
        found = NOP
        while found == NOP:
            found = self.word()
        return found

    def align(self):
        self.at += -self.at % 4

    def node(self, level):
        """The rest of a node whose first token is read. 5 comes before 6, so the limits are looked at last."""
        end = self.block.find(b"\0", self.at)
        if end < 0:
            raise Refused(5)
        name = self.block[self.at:end]
        if level == 1 and name:
            raise Refused(5)
        self.nodes += 1
        if level > LEVELS or self.nodes > NODES:
            raise Refused(6)
        self.at = end + 1
        self.align()
        self.lines.append(b"node %d %s\n" % (level - 1, name))
        token = self.token()
        while token == PROP:
            self.property()
            token = self.token()
        while token == BEGIN_NODE:
            self.node(level + 1)
            token = self.token()
        if token != END_NODE:
            raise Refused(5)

    def property(self):
        length = self.word()
        offset = self.word()
        value = self.block[self.at:self.at + length]
        end = self.strings.find(b"\0", offset)
        if len(value) < length or end < 0:
            raise Refused(5)
        self.at += length
        self.align()
        self.lines.append(b"prop %s %s\n" % (self.strings[offset:end], value.hex().encode()))

    def tree(self):
        if self.token() != BEGIN_NODE:
            raise Refused(5)
        self.node(1)
        if self.token() != END or self.at != len(self.block):
            raise Refused(5)
        return b"".join(self.lines)


def reservations(blob, header):
    """A line for each entry; what an entry is worth is for others to say, so one of size 0 is here too."""
    at = header.reservations
    if at < 40 or at % 8 != 0 or at > header.structure:
        return b""
    lines = []
    while at + 16 <= header.structure:
        address, size = struct.unpack(">QQ", blob[at:at + 16])
        if (address, size) == (0, 0):
            break
        lines.append(b"rsv %016x %016x\n" % (address, size))
        at += 16
    return b"".join(lines)


def judge(blob):
    if not blob:
        return b"no tree\n"
    try:
        header = Header(blob)
        block = blob[header.structure:header.structure + header.structure_size]
        strings = blob[header.strings:header.strings + header.strings_size]
        tree = Structure(block, strings).tree()
        return reservations(blob, header) + tree
    except Refused as refused:
        return b"refused %d\n" % refused.args[0]


def main():
    for path in sys.argv[1:]:
        with open(path, "rb") as file:
            sys.stdout.buffer.write(judge(file.read()))


if __name__ == "__main__":
    main()
