"""The same cache and log in rounds, with 10 and with 16 registers: a request is asked in each, and a bank takes 20 for a word:
`rounds.py LOG.xz`."""

import sys

from kroft import Load, Machine, Store

from l1 import L1, accesses_of

requests = []
for kind, words in accesses_of(sys.argv[1]):
    requests += [Store(at, bytes(4)) if kind == "S" else Load(len(requests) % 64, at) for at in words]
for regs in 10, 16:
    with Machine(L1._replace(regs=regs)) as machine:
        counts = machine.drive(requests, latency=20, busy=1)
    assert counts.hits + counts.joins + counts.misses == counts.accepted == len(requests)
    print(f"{counts.rounds} rounds: {counts.hits} hit, {counts.joins} join, {counts.misses} miss; {counts.registers} registers at once")
    print("rounds lost:", ", ".join(f"{rounds} to {cause.name.lower()}" for cause, rounds in counts.lost.items() if rounds))
