#!/usr/bin/env python3
"""Lists the places in crates/*/src that docs/DESIGN-PASS.md speaks of, by its points, and counts them.

tools/places.py [POINT ..] [-c]   with -c the counts alone. It reads the tree that it is run in.
"""
import glob
import re
import sys

FILES = {path: open(path).read() for path in sorted(glob.glob("crates/*/src/*.rt"))}
# The two shapes: a case with nothing or a refusal, and one with a value; or cases with nothing, of which one is done.
NOTHING = r"^(pub )?enum \w+ \{\n((?:    //.*\n)*)((?:    \w+(?:\([^)]*\))?,\n(?:    //.*\n)*)+)\}"


def lines(pattern, flags=re.M):
    for path, text in FILES.items():
        for m in re.finditer(pattern, text, flags):
            yield f"{path}:{text.count(chr(10), 0, m.start()) + 1}: {m.group(0).strip().splitlines()[0]}"


def enums():
    for path, text in FILES.items():
        for m in re.finditer(r"^(?:pub )?enum (\w+) \{\n(.*?)^\}", text, re.M | re.S):
            cases = re.findall(r"^    (\w+)(\([^)]*\))?,", m.group(2), re.M)
            values = [c for c, v in cases if v]
            bare = [c for c, v in cases if not v]
            option = len(values) == 1 and len(bare) == 1
            done = [c for c in bare if c in ("Done", "Accepted", "Sound", "Written", "NoTree", "Goes")]
            result = bool(done) and len(cases) > 2 and len(values) <= 1 or (len(values) >= 1 and len(bare) >= 1 and len(cases) == 2) or (
                len(cases) == 2 and len(values) == 2 and cases[1][0] in ("Refused", "Rejected", "Stop"))
            if option or result:
                yield f"{path}:{text.count(chr(10), 0, m.start()) + 1}: {m.group(1)} {{ {', '.join(c + v for c, v in cases)} }}"


def twins():
    """Functions whose bodies are one but for names and numbers, in one file or in two."""
    seen = {}
    for path, text in FILES.items():
        for m in re.finditer(r"^( *)(?:pub )?(?:extern \"C\" )?fn (\w+).*?\n\1\{\n(.*?)^\1\}", text, re.M | re.S):
            body = re.sub(r"\b(0x[0-9a-f_]+|\d[\d_]*)\b", "0", m.group(3))
            body = re.sub(r"\b(?!if\b|else\b|match\b|while\b|for\b|in\b|let\b|mut\b|return\b|loop\b)[A-Za-z_]\w*", "x", body)
            body = re.sub(r"\s+", " ", body)
            if body.count("x") > 6:
                seen.setdefault(body, []).append(f"{path}: {m.group(2)}")
    for group in seen.values():
        if len(group) > 1:
            yield " = ".join(group)


def together():
    """Groups of parameters that stand side by side in three signatures or more."""
    groups = {
        "three arrays of a map": r"starts: &(?:'a )?(?:mut )?\[u64(?:; 512)?\],\s*ends: ",
        "structure and strings": r"structure: &'a \[u8\],\s*strings: &'a \[u8\]",
        "base, size and kind": r"base: u64,\s*(?:size|len): u64,\s*kind: ",
        "lo and hi, start and end": r"(?:lo: u64,\s*hi: u64|start: u64,\s*end: u64)",
        "own, parent and length cells": r"own: CellCount,\s*parent: CellCount,\s*length: CellCount",
        "address and size cells": r"address: CellCount,\s*size: CellCount",
        "slots and their count": r"slots: &(?:mut )?\[u64\],\s*(?:count|n): usize",
        "out and a place in it": r"out: &mut \[u8\],\s*at: usize",
        "made": r"requires \{ Made 4096",
    }
    for name, pattern in groups.items():
        for place in lines(pattern, re.M | re.S):
            yield f"{name}: {place}"


POINTS = {
    "1a own enums of the shape of Option or Result": enums,
    "1b a flag or an answer with a value beside it": lambda: lines(r"^    (?:pub )?(?:answer|verdict|stop|same|cut|next): (?:\w+|bool|Result.*),$"),
    "1c numbers of kinds and refusals, by a method of each enum": lambda: lines(r"^    (?:pub )?fn number\("),
    "2 functions that are one but for names and numbers": twins,
    "3 loops that count by hand": lambda: lines(r"^ +while .*$"),
    "4 equality, order, conversion or printing by hand": lambda: lines(
        r"^ *(?:pub )?(?:const )?fn (?:number|kind_of|same|lesser|greater|wide|least|or_else|counted_as|count|limit|refused|tree_verdict|print_\w+|saturating_add|copy\w*)\b.*$"),
    "5 parameters that travel together, and facts in many contracts": together,
    "6 parallel arrays, buffers with a length beside, lists searched by hand": lambda: lines(
        r"^    (?:pub )?(?:starts|ends|kinds|slots): (?:\[u64.*|&.*),$|^.*while lo \+ 1 < hi.*$|^    (?:pub )?size: usize,$"),
    "7 switches on which step to run": lambda: lines(r"^ +match (?:stage|way|step|call|letter)\b.*$|^ +if letter == .*$|^ *(?:pub )?fn \w+\(.*\bsoc: bool.*$|^ +soc: bool,$"),
}

if __name__ == "__main__":
    wanted = [a for a in sys.argv[1:] if a != "-c"]
    for point, places in POINTS.items():
        if wanted and not any(point.startswith(w) for w in wanted):
            continue
        found = list(places())
        print(f"{point}: {len(found)}")
        if "-c" not in sys.argv:
            for place in found:
                print("   ", place)
