"""Runs a program on each stored input of a folder, and compares what it prints, byte for byte.

A folder has `cases`, frames of an input and its text, and `names`, the names of the first of them.
"""
import os
import subprocess
import sys

SHOWN = 5


def stored(path):
    """The parts of a stored file by twos: each input with what must come of it."""
    with open(path, "rb") as file:
        data = file.read()
    at = 0

    def part():
        nonlocal at
        start = at + 8
        at = start + int.from_bytes(data[at:start], "little")
        if start > len(data) or at > len(data):
            sys.exit("%s is cut off" % short(path))
        return data[start:at]

    while at < len(data):
        yield part(), part()


def short(path):
    """A stored file by its folder's name and its own."""
    return "/".join(path.split(os.sep)[-2:])


def named(cases, names):
    """The stored cases of a file, each with its name: those past the names are random ones."""
    with open(names, encoding="utf-8") as file:
        lines, pairs = file.read().splitlines(), list(stored(cases))
    if len(lines) > len(pairs):
        sys.exit("%s has fewer cases than %s has names" % (short(cases), short(names)))
    lines += (len(pairs) - len(lines)) * ["a random one"]
    return [(name, *pair) for name, pair in zip(lines, pairs)]


def program_at(path, maker):
    """The whole path of a program, which must be there."""
    if not os.path.exists(path):
        sys.exit("no program at %s: %s makes it" % (os.path.abspath(path), maker))
    return os.path.abspath(path)


def replay(folder, program):
    """Runs a program once for each stored input, and ends with status 1 where one text differs."""
    cases, differ = named(os.path.join(folder, "cases"), os.path.join(folder, "names")), 0
    for i, (name, data, text) in enumerate(cases):
        done = subprocess.run([program], input=data, stdout=subprocess.PIPE)
        if (done.returncode, done.stdout) != (0, text):
            differ += 1
            if differ <= SHOWN:
                print("case %d, %s:" % (i, name))
                print("  must print %r\n  printed %r, status %d" % (text, done.stdout, done.returncode))
    print("cases %d\ndiffer %d" % (len(cases), differ))
    sys.exit(differ > 0)
