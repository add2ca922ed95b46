#!/usr/bin/env python3
"""Makes a tree file from a text.

Usage: make_tree.py SOURCE TARGET [BYTES]

SOURCE holds a line "list PARENT" for each list and behind it a line for each of its entries: the term, and after a
bar its marks, as "withdrawn", "ban", "preferred" or the number of a bit. Empty lines and lines that begin with "#"
are passed over. In a term \\xNN stands for the byte NN. With BYTES only that many bytes are written, which gives a
damaged file.
"""
import re
import sys

BITS = {"withdrawn": 0, "ban": 1, "preferred": 2}


def field(tag, body):
    return tag + len(body).to_bytes(2, "big") + body


def marks(words):
    bits = 0
    for word in words.split():
        bits |= 1 << (BITS[word] if word in BITS else int(word))
    return bits.to_bytes(4, "big")


def text(term):
    return re.sub(rb"\\x([0-9a-f]{2})", lambda m: bytes([int(m[1], 16)]), term.strip().encode())


def tree(lines):
    out = field(b"V", b"\x00\x01")
    entries = 0
    for line in lines:
        line = line.rstrip("\n")
        if not line or line.startswith("#"):
            continue
        if line.startswith("list "):
            out += field(b"L", bytes([int(line[5:])]))
            continue
        term, _, words = line.partition("|")
        out += field(b"E", marks(words) + text(term))
        entries += 1
    return out + field(b"Z", entries.to_bytes(4, "big"))


def main():
    source, target = sys.argv[1:3]
    with open(source, encoding="utf-8") as lines:
        made = tree(lines)
    if len(sys.argv) > 3:
        made = made[: int(sys.argv[3])]
    with open(target, "wb") as out:
        out.write(made)


main()
