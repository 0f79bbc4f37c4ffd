"""What a plain model of the same cache counts: `model.py LOG.xz`, by the line that came first and by the one used last."""

import lzma
import sys


def misses(accesses, is_lru):
    """How many accesses miss: each set has its lines in the order in which they are given up."""
    sets, missed = [{} for _ in range(64)], 0
    for first, size in accesses:
        absent = [line for line in range(first // 64, (first + size - 1) // 64 + 1) if line not in sets[line % 64]]
        missed += bool(absent)
        for line in range(first // 64, (first + size - 1) // 64 + 1):
            lines = sets[line % 64]
            if line in lines and is_lru:
                del lines[line]
            if line not in lines and len(lines) == 8:
                del lines[next(iter(lines))]
            lines[line] = True  # a line that stands there keeps its place
    return missed


with lzma.open(sys.argv[1], "rt") as log:
    found = [(int(it[3:].split(",")[0], 16), int(it[3:].split(",")[1])) for it in log]
print(f"first in, first out: {misses(found, False)} miss; least recently used: {misses(found, True)} miss")
