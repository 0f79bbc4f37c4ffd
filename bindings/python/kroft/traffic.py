"""Random loads and stores that caches find hard, from a seed."""

import ctypes as c
from operator import index
from typing import Iterator, NamedTuple, SupportsIndex

from .library import AccessRow, PlanRow, library

_OK = 0
_WIDEST = 64


class TrafficAccess(NamedTuple):
    """A load or a store of some bytes of one block."""

    number: int
    requester: int  #: who asks
    turn: int  #: how many accesses this requester had before
    address: int
    size: int
    enables: int  #: the bytes that a store writes: bit `k` is its byte `k`; 0: a load
    data: bytes  #: what a store writes; of a load, nothing

    @property
    def is_store(self) -> bool:
        return self.enables != 0


class Traffic:
    """The traffic of a plan and a seed: `traffic[n]` is the access of a number, and iterating gives them all, for ever.

    Shares are in 256ths. `ValueError`: one of the numbers isn't as `kroft.h` describes it.

    >>> traffic = Traffic(seed=1, base=0x1000, blocks=16, block_bytes=64, requesters=2)
    >>> traffic[5].requester, traffic[5].turn
    (1, 2)
    """

    def __init__(
        self,
        seed: SupportsIndex,
        *,
        base: SupportsIndex = 0,
        blocks: SupportsIndex,
        block_bytes: SupportsIndex,
        widest: SupportsIndex = 8,
        sets: SupportsIndex = 1,
        conflicts: SupportsIndex = 0,
        burst: SupportsIndex = 1,
        requesters: SupportsIndex = 1,
        apart: bool = False,
        stores: SupportsIndex = 128,
        partial: SupportsIndex = 64,
        words: SupportsIndex = 0,
        blocks_of_set: SupportsIndex = 0,
    ) -> None:
        given = (base, blocks, block_bytes, widest, sets, conflicts, burst, requesters, int(apart), stores, partial, words, blocks_of_set)
        seed, numbers = index(seed), [index(number) for number in given]
        for name, number in [("seed", seed), *zip((field[0] for field in PlanRow._fields_), numbers)]:
            above = 2**64 if name in ("seed", "base") else 2**32
            if not 0 <= number < above:
                raise ValueError(f"no plan of traffic: {name} is 0 to {above - 1}, not {number}")
        self._library = library()
        self._plan = PlanRow(*numbers)
        self._seed = seed
        self[0]

    def __getitem__(self, number: SupportsIndex) -> TrafficAccess:
        number = index(number)
        if not 0 <= number < 2**64:
            raise IndexError(number)
        row, data = AccessRow(), c.create_string_buffer(_WIDEST)
        if self._library.kroft_traffic_draw(c.byref(self._plan), self._seed, number, c.byref(row), data, _WIDEST) != _OK:
            raise ValueError("no plan of traffic")
        stored = data.raw[: row.length] if row.enables else b""
        return TrafficAccess(number, row.requester, row.turn, row.address, row.length, row.enables, stored)

    def __iter__(self) -> Iterator[TrafficAccess]:
        number = 0
        while True:
            yield self[number]
            number += 1
