"""A memory with a write buffer, checked by random runs and the judge of histories: `history.py LIBKROFT.SO`.

Nothing but the standard library is needed. A run is a list of actions; one that ends badly is made as short as it gets, by
leaving actions out while it still does. An action that has nothing to act on does nothing, so any list is a run.
"""
import ctypes as c
import random

from rows import Handle, kroft

u64 = c.c_uint64
REGULAR, ZEROS, OK = 0, 0, 0


class WriteBuffer:
    """Bytes with a buffer of stores before them. With the bug a load finds the oldest store to its byte."""

    def __init__(self, has_bug):
        self.memory, self.buffer, self.has_bug = {}, [], has_bug

    def store(self, address, byte):
        self.buffer.append((address, byte))

    def load(self, address):
        found = [byte for at, byte in self.buffer if at == address]
        if found:
            return found[0 if self.has_bug else -1]
        return self.memory.get(address, 0)

    def drain(self):
        if self.buffer:
            address, byte = self.buffer.pop(0)
            self.memory[address] = byte


def random_run(chance, length=60):
    """Requests, the hidden moments at which they take effect, their answers, and drains."""
    actions = []
    for number in range(length // 3):
        if chance.random() < 0.5:
            actions.append(("store", number, chance.randrange(2), chance.randrange(1, 256)))
        else:
            actions.append(("load", number, chance.randrange(2)))
        for kind in ("acts", "is answered"):
            for _ in range(chance.randrange(4)):
                actions.append((kind, max(0, number - chance.randrange(4))))
        if chance.random() < 0.2:
            actions.append(("drain",))
    return actions


def unlawful(actions, has_bug):
    """The place of the first action that no memory makes, and what a load returned there; None if all is lawful."""
    memory, handle = WriteBuffer(has_bug), Handle()
    requested, done = {}, {}
    assert kroft.kroft_history_open(c.byref(handle), REGULAR, 1, ZEROS, b"", c.c_size_t(0)) == OK
    try:
        for place, (kind, *words) in enumerate(actions):
            status, returned = OK, None
            if kind == "drain":
                memory.drain()
                continue
            number = u64(words[0])
            if kind == "store":
                requested[words[0]] = ("store", words[1], words[2])
                status = kroft.kroft_history_store_request(c.byref(handle), number, u64(words[1]), bytes([words[2]]), c.c_size_t(1), u64(1))
            elif kind == "load":
                requested[words[0]] = ("load", words[1], None)
                status = kroft.kroft_history_load_request(c.byref(handle), number, u64(words[1]), c.c_size_t(1), u64(2**64 - 1))
            elif kind == "acts" and words[0] in requested:
                what, address, byte = requested.pop(words[0])
                if what == "store":
                    memory.store(address, byte)
                done[words[0]] = (what, memory.load(address))
            elif kind == "is answered" and words[0] in done:
                what, returned = done.pop(words[0])
                if what == "store":
                    status = kroft.kroft_history_store_response(c.byref(handle), number)
                else:
                    status = kroft.kroft_history_load_response(c.byref(handle), number, bytes([returned]), c.c_size_t(1))
            if status != OK:
                return place, returned
        return None
    finally:
        kroft.kroft_history_close(c.byref(handle))


def shortest(actions):
    """The run with as many actions left out as can be, one at a time, while it still ends badly."""
    actions = actions[: unlawful(actions, True)[0] + 1]
    left_out = True
    while left_out:
        left_out = False
        for place in reversed(range(len(actions))):
            shorter = actions[:place] + actions[place + 1 :]
            if unlawful(shorter, True) is not None:
                actions, left_out = shorter, True
    return actions


runs = [random_run(random.Random(seed)) for seed in range(500)]
assert all(unlawful(run, False) is None for run in runs)
wrong = [run for run in runs if unlawful(run, True) is not None]
print(f"the write buffer: {len(runs)} runs are lawful; with the bug {len(runs) - len(wrong)} are")
short = min((shortest(run) for run in wrong[:20]), key=len)
kinds = [kind for kind, *_ in short]
assert (kinds.count("store"), kinds.count("load"), len(short)) == (2, 1, 9), short
print("the shortest of the others:", ", ".join(" ".join(str(word) for word in action) for action in short) + f": {unlawful(short, True)[1]}")
