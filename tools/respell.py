#!/usr/bin/env python3
"""Brings this repository's own definitions and lemmas to the spelling of today's Rattle, once, after the kit's port.py.

usage: python3 tools/respell.py [TOP]      rewrites specs, proofs, clauses, edits and docs below TOP (default: here)

Words in camel case become snake case, and a fact becomes a type's name. A dash in a lemma's name stays: it joins two names.
Code, inputs and outputs have no such words. It goes by text, so a string that looks like one is turned too and mended by hand:
the byte strings of crates/treefiles_tests.
It stops without a change where two names would fall together.
"""

import os
import re
import sys

# Facts, and names for which the rule is not enough: of the library's old words, and of lemmas that would fall together with a
# definition.
SPECIAL = {
    "whenFound": "WhenFound",
    "whenOffered": "WhenOffered",
    "whenRanged": "WhenRanged",
    "getD-samples": "get_or-samples",
    "test-getD": "test-get_or",
}

# Names that the kit's script gives to lemmas and that a definition now has.
FREED = {
    "in_order": ("granted-in_order", ("crates/plan/proofs/", "crates/index/proofs/Index/build/")),
    "some_item": ("some_item-ok", ("crates/treefiles/proofs/",)),
    "four_bytes": ("four_bytes-back", ("crates/treefiles/proofs/",)),
}

NAME = re.compile(r"(?<![A-Za-z0-9_'\-/])[A-Za-z_][A-Za-z0-9_'\-]*")
HUMP = re.compile(r"([a-z0-9])([A-Z])")
GENERATED = re.compile(r"(^|-)in-[A-Z]")  # names of steps and goals, which follow the code


def snake(part):
    if not part[:1].islower() or not HUMP.search(part):
        return part
    return HUMP.sub(lambda m: m.group(1) + "_" + m.group(2).lower(), part)


def respelled(name):
    if name in SPECIAL:
        return SPECIAL[name]
    if GENERATED.search(name):
        return name
    return "-".join(snake(p) for p in name.split("-"))


def files(top):
    for folder, dirs, names in os.walk(os.path.join(top, "crates")):
        dirs[:] = sorted(d for d in dirs if d != "out")
        for n in sorted(names):
            if n.endswith((".antt", ".rt", ".edit")):
                yield os.path.join(folder, n)
    yield os.path.join(top, "README.md")
    for n in sorted(os.listdir(os.path.join(top, "docs"))):
        if n.endswith(".md") and n != "PORT.md":
            yield os.path.join(top, "docs", n)


def turned(name, short):
    """The new spelling of a name in the file `short`."""
    new, where = FREED.get(name, ("", ()))
    return new if short.startswith(where) else respelled(name)


def turn(path, short, text):
    def one(m):
        return turned(m.group(), short)

    if not path.endswith(".md"):
        return NAME.sub(one, text)
    # in a page only what stands between backticks
    return re.sub(r"`[^`\n]*`", lambda m: NAME.sub(one, m.group()), text)


def main():
    top = sys.argv[1] if len(sys.argv) > 1 else "."
    olds = {}
    texts = []
    for p in files(top):
        with open(p, encoding="utf-8") as f:
            t = f.read()
        short = os.path.relpath(p, top)
        new = turn(p, short, t)
        texts.append((p, t, new))
        if p.endswith(".antt"):
            bare = re.sub(r"--.*", "", t)
            for name in {m.group() for m in NAME.finditer(bare) if bare[m.start() - 1 : m.start()] != "."}:
                olds.setdefault((short.split("/")[1], turned(name, short)), set()).add(name)
    clash = {k: v for k, v in olds.items() if len(v) > 1}
    for (crate, to), names in sorted(clash.items()):
        print(f"respell: in {crate} {', '.join(sorted(names))} would all be {to}", file=sys.stderr)
    if clash:
        raise SystemExit(1)
    changed = 0
    for p, t, new in texts:
        if new != t:
            with open(p, "w", encoding="utf-8") as f:
                f.write(new)
            changed += 1
    print(f"respell: {changed} files changed")


main()
