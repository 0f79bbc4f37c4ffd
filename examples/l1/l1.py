"""A first-level cache of today over the accesses of a real program: `l1.py LOG.xz`, with the package `kroft` on the path."""

import lzma
import sys

from kroft import Lookup, Machine, Shape

# 32 KiB: 64 sets of 8 lines, each of 64 bytes, that is 16 words; 16 miss registers; and 4 MiB of memory.
L1 = Shape(ways=8, block_words=16, regs=16, depth=16, words=1 << 20, sets=64, banks=16, bank_queue=64, write_queue=64, replies=64)
PAGE, LINE, WORD = 4096, 64, 4
pages = {}  # the program's pages get pages of memory in the order in which it comes to them: the sets stay the same


def accesses_of(path):
    """Each access of a log: its kind, and the first word of each line that it lies in."""
    with lzma.open(path, "rt") as log:
        for access in log:  # " L 1fff000768,8": a load of eight bytes; S is a store, M a load with a store behind it
            kind, place = access.split()
            first, size = int(place.split(",")[0], 16), int(place.split(",")[1])
            lines = range(first // LINE * LINE, first + size, LINE)
            yield kind, [(pages.setdefault(line // PAGE, len(pages)) * PAGE + line % PAGE) // WORD for line in lines]


if __name__ == "__main__":
    accesses = misses = 0
    with Machine(L1) as machine:
        for kind, words in accesses_of(sys.argv[1]):
            accesses += 1
            misses += any(machine.find(at) == Lookup.MISS for at in words)
            for at in words:
                if kind == "S":
                    machine.store(at, bytes(WORD))
                else:
                    machine.load(0, at)
                list(machine.pump())  # nothing is on its way when the next one asks
    print(f"{accesses} accesses to {len(pages)} pages: {misses} miss")
