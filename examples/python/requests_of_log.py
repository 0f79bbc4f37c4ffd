#!/usr/bin/env python3
"""The requests of lackey's log on standard input, worked out anew: byte by byte, with Python's own
numbers and dictionaries. `examples/true.requests` is what this wrote of `examples/true.lackey`."""

import sys

pages = {}
loads = 0


def place(word):
    """The word of memory that a word of the program is."""
    page, within = divmod(word, 1024)
    return pages.setdefault(page, len(pages)) * 1024 + within


for number, line in enumerate(sys.stdin, 1):
    if line[0] != " ":
        continue
    letter = line[1]
    first, size = line[3:].split(",")
    touched = range(int(first, 16), int(first, 16) + int(size))
    words = sorted({byte // 4 for byte in touched})
    if letter in "LM":
        for word in words:
            print("load", loads % 65536, place(word))
            loads += 1
    if letter in "SM":
        for word in words:
            lanes = [4 * word + lane for lane in range(4)]
            mask = "".join("1" if byte in touched else "0" for byte in lanes)
            data = bytes((byte + number) % 256 if byte in touched else 0 for byte in lanes)
            print("store", place(word), mask, data.hex())
