#!/usr/bin/env python3
"""Brings the repository's own definitions and lemmas to the spelling of today's Rattle: words in snake case, a prime as an apostrophe.

usage: tools/snake.py [--check] [TOP]      in the checkout, once, after the move to today's Rattle

What turns is each name that a file of specs/ or proofs/ declares and that has a dash, a capital inside or an old prime: in .antt files, in
the clauses and comments of .rt files, in must-fail edits, and in the code spans of pages. What Rattle names (a goal, and what stands on it)
keeps its spelling, as do strings, functions of src/ and names of std. A name that a function's proof declares for itself turns in that proof alone. --check writes nothing and prints the table.
"""
import os
import re
import sys

WORD = re.compile(r'[^\s(){}.;,@"`«»\[\]|\\→λ]+')
DECL = re.compile(r"^(\s*)((?:(?:pub|abbrev|unfoldable|opaque|instance)\s+)*)([^\s(){}.;,@\"`:]+)((?:\s+[^\s(){}.;,@\"`:]+)*)\s+:(?:\s+(.*))?$")
HEAD = re.compile(r"^\s*(?:(?:pub|abbrev|unfoldable)\s+)*(record|data)\s+(\S+)")
USE = re.compile(r"use\s+([^\s;{]+?)\.?(?:\{([^}]*)\}|\s+as\s+(\S+))", re.S)
SPAN = re.compile(r"`[^`\n]+`")


def snake(name):
    n = name.replace("′", "'").replace("-", "_")
    n = re.sub(r"(?<=[a-z0-9])([A-Z])(?=[a-z])", lambda m: "_" + m[1].lower(), n)
    n = re.sub(r"(?<=[a-z0-9])([A-Z])(?![a-z])", lambda m: "_" + m[1].lower(), n)
    return n


def odd(name):
    if name[0] in "◌‵_" or "◌" in name or not re.match(r"[A-Za-z]", name):
        return False
    if name[0].isupper():
        return "-" in name or "′" in name
    return "-" in name or "′" in name or re.search(r"[a-z0-9][A-Z]", name) is not None


def turned(name):
    if name[0].isupper():
        return name.replace("′", "'").replace("-", "_")
    return snake(name)


# Lemmas that a definition's new name falls together with: each gets `_lem`, in its file and where it is imported from there.
LEMMAS = {
    "cells/proofs/RowsLaws": ["reg_row"],
    "words/proofs/BytesLaws": ["part_bytes"],
    "lent_map/proofs/Lent": ["map_of"],
    "subtree/proofs/SubtreeLaws": ["count_at"],
    "lent_table/proofs/Editing": ["cut_inside"],
    "tree_theorems/proofs/Unreadable": ["stated_alike"],
    "reading/proofs/Places": ["node_at"],
    "areas/proofs/Cuts": ["go_on"],
    "startup/proofs/SourceLaws": ["is_known"],
}


def lemmas(text, path):
    """`_lem` behind the lemmas of LEMMAS, in the text of a file of crates/."""
    if any(n + "_lem" in text for names in LEMMAS.values() for n in names):
        return text  # turned before
    for module, names in LEMMAS.items():
        own = path.endswith("/crates/" + module + ".antt")
        path_of = "Rattle." + module.replace("/", ".")
        for n in names:
            here = own or any(m[1] == path_of and n in [i.strip() for i in (m[2] or "").split(",")] for m in USE.finditer(text))
            if here:
                text = re.sub(r"(?<![\w.'-])" + n + r"(?![\w'-])(?=[^.])", n + "_lem", text)
    return text


def files(top, ends):
    for folder, dirs, names in os.walk(top):
        dirs[:] = sorted(d for d in dirs if d not in (".git", "out", "target"))
        for n in sorted(names):
            if n.endswith(ends):
                yield os.path.join(folder, n)


def read(p):
    with open(p, encoding="utf-8") as f:
        return f.read()


def is_proof_of(p):
    """Whether a file is the proof of a function: it lies in a folder below proofs/."""
    return re.search(r"/proofs/.+/[^/]+\.antt$", p) is not None


def declared(p):
    """The odd names that a file declares, less those of goals."""
    names, inside = set(), None
    for line in read(p).split("\n"):
        if re.match(r"\s*--", line):
            continue
        h = HEAD.match(line)
        if h and odd(h[2]):
            names.add(h[2])
        m = DECL.match(line)
        if not m:
            continue
        if is_proof_of(p) and (re.match(r"(tie|goal)\.|$", m[5] or "") or m[3].endswith("-spec")):
            continue
        for n in [m[3]] + m[4].split():
            if odd(n) and WORD.fullmatch(n):
                names.add(n)
    return names


def table(top):
    own, where = {}, {}
    plain = set()
    for p in files(os.path.join(top, "crates"), ".antt"):
        plain |= {m[3] for m in map(DECL.match, read(p).split("\n")) if m}
        for n in () if is_proof_of(p) else declared(p):
            own[n] = turned(n)
            where.setdefault(n, []).append(p)
    # a lemma whose name falls together with a definition's
    for n in own:
        if "-" in n and (own[n] in plain or any(o != n and own[o] == own[n] for o in own)):
            own[n] += "_lem"
    foreign = {}
    for p in files(os.path.join(top, "crates"), (".antt", ".rt")):
        for m in USE.finditer(read(p)):
            crate = re.match(r"Rattle\.(\w+)\.(specs|proofs)\b", m[1])
            if crate and os.path.isdir(os.path.join(top, "crates", crate[1])):
                continue
            for it in (m[2] or "").split(","):
                it = it.strip().split(" as ")[-1].strip()
                if it in own:
                    foreign.setdefault(it, set()).add(p)
    return own, where, foreign


def apply(text, own, skip=(), prose=False):
    """The text with each own name in its new spelling. In prose a name with a dash turns only behind a dot: else it may be plain English."""

    def one(m):
        w = m[0]
        if w not in own or w in skip or (prose and "-" in w and text[m.start() - 1 : m.start()] != "."):
            return w
        return own[w]

    return WORD.sub(one, text)


def code(text, own, skip, comment):
    """The same for code: strings stay, and a comment is prose but for its code spans."""
    out = []
    for line in text.splitlines(keepends=True):
        last = 0
        for q in re.finditer(r'"(?:[^"\\\n]|\\.)*"|(?:%s).*' % comment, line):
            out.append(apply(line[last : q.start()], own, skip))
            if q[0].startswith('"'):
                out.append(q[0])
            else:
                out.append("".join(apply(b, own, skip, not b.startswith("`")) for b in re.split(r"(`[^`\n]+`)", q[0])))
            last = q.end()
        out.append(apply(line[last:], own, skip))
    return "".join(out)


def main(argv):
    check = "--check" in argv
    rest = [a for a in argv if a != "--check"]
    top = os.path.abspath(rest[0] if rest else ".")
    own, where, foreign = table(top)
    if check:
        for n in sorted(own):
            print(n, own[n], len(where[n]), "FOREIGN" if n in foreign else "", sep="\t")
        return 0
    said, everywhere = 0, own
    for p in files(top, (".antt", ".rt", ".edit", ".md")):
        old = read(p)
        skip = {n for n in everywhere if p in foreign.get(n, ())}
        own = everywhere | {n: turned(n) for n in declared(p) if n not in everywhere} if is_proof_of(p) else everywhere
        if p.endswith(".md"):
            new = SPAN.sub(lambda m: apply(m[0], own), old)
        elif p.endswith(".rt"):
            new = code(old, own, skip, "//")
        else:
            new = code(lemmas(old, p), own, skip, "-- " if p.endswith(".antt") else "# ")
        if new != old:
            said += 1
            with open(p, "w", encoding="utf-8") as f:
                f.write(new)
    print(f"snake: {len(own)} names, {said} files")
    return 0


if __name__ == "__main__":
    sys.exit(main(sys.argv[1:]))
