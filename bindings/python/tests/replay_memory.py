"""A memory to judge, with the traffic of a seed: a small non-blocking cache that isn't Kroft's machine.

What is accepted while a line is on its way stands in a list, and is replayed when the line comes. A bug can be
turned on.
"""

import random
from collections import deque
from typing import Deque, Dict, List, NamedTuple, Optional, Tuple

import kroft

LINE = 64
BASE = 0xFFFF_8000_0000_1000
BUGS = ("stores first", "whole words", "stale refill", "lost answer")


class Request(NamedTuple):
    id: int
    address: int
    size: int
    enables: int
    data: bytes  # of a store; a load has none


def traffic(seed: int, count: int) -> "list[Request]":
    """Requests within lines, of which most share a few sets. Half of them are the library's traffic; the others begin at
    any byte."""
    chance = random.Random(seed)
    planned = kroft.Traffic(
        seed, base=BASE, blocks=24, block_bytes=LINE, widest=16, sets=8, conflicts=64, burst=4, requesters=4, stores=128, partial=96
    )
    requests, line = [], BASE
    for id in range(count):
        if id // 16 % 2:
            access = planned[id]
            enables = access.enables or (1 << access.size) - 1
            requests.append(Request(id, access.address, access.size, enables, access.data))
            continue
        bits = chance.getrandbits(64)
        if bits & 7 == 0:
            line = BASE + (bits >> 3) % 24 * LINE
        size = 1 << (bits >> 10) % 5
        if bits & 0x300000 == 0:
            size = 1 + (bits >> 24) % LINE
        enables = (1 << size) - 1
        if bits & 0xC00000 == 0:
            enables &= chance.getrandbits(64) | 1
        data = chance.getrandbits(8 * size).to_bytes(size, "little") if bits >> 40 & 1 else b""
        requests.append(Request(id, line + (bits >> 48) % (LINE - size + 1), size, enables, data))
    return requests


class Frame:
    def __init__(self, line: int) -> None:
        self.line = line
        self.bytes = bytearray(LINE)
        self.pending = True
        self.dirty = False


class Register(NamedTuple):
    line: int
    ready: int
    waiting: List[Request]


class Cache:
    """Eight frames, direct-mapped, with three miss registers; a victim is on its way to memory for a while."""

    def __init__(self, bug: Optional[str] = None) -> None:
        self.bug = bug
        self.now = self.loads = self.hits_under_miss = self.secondary_misses = self.refilled = 0
        self.frames: List[Optional[Frame]] = [None] * 8
        self.registers: List[Register] = []
        self.write_backs: Deque[Tuple[int, int, bytearray]] = deque()  # ready, line, bytes
        self.memory: Dict[int, bytearray] = {}
        self.answers: Deque[Tuple[Request, bytes]] = deque()

    def accept(self, request: Request) -> bool:
        """Whether the request was taken in this cycle."""
        line = request.address // LINE
        frame = self.frames[line % 8]
        if frame is not None and frame.line == line:
            if frame.pending:
                self.secondary_misses += 1
                next(each for each in self.registers if each.line == line).waiting.append(request)
            else:
                self.hits_under_miss += bool(self.registers)
                self.perform(frame, request, True)
            return True
        if len(self.registers) == 3 or (frame is not None and frame.pending):
            return False
        if frame is not None and frame.dirty:
            self.write_backs.append((self.now + 40, frame.line, frame.bytes))
        self.frames[line % 8] = Frame(line)
        self.registers.append(Register(line, self.now + 10 + (line * 7 + self.now) % 30, [request]))
        return True

    def tick(self) -> Optional[Tuple[Request, bytes]]:
        """A cycle: what memory has ready comes, and at most one answer is given."""
        self.now += 1
        if self.write_backs and self.write_backs[0][0] <= self.now:
            _, line, data = self.write_backs.popleft()
            self.memory[line] = data
        for register in self.registers:
            if register.ready <= self.now:
                self.registers.remove(register)
                self.fill(register)
                break
        return self.answers.popleft() if self.answers else None

    def fill(self, register: Register) -> None:
        frame = self.frames[register.line % 8]
        assert frame is not None
        frame.bytes = bytearray(self.memory.get(register.line, bytes(LINE)))
        for _, line, data in self.write_backs:
            if line == register.line:
                self.refilled += 1
                if self.bug != "stale refill":
                    frame.bytes = bytearray(data)
        frame.pending = False
        waiting = register.waiting
        if self.bug == "stores first":
            waiting = sorted(waiting, key=lambda request: not request.data)
        for request in waiting:
            self.perform(frame, request, False)

    def perform(self, frame: Frame, request: Request, hit: bool) -> None:
        at = request.address % LINE
        if not request.data:
            self.loads += 1
            if self.bug != "lost answer" or self.loads % 5000:
                self.answers.append((request, bytes(frame.bytes[at : at + request.size])))
            return
        frame.dirty = True
        if request.enables == (1 << request.size) - 1 or (hit and self.bug == "whole words"):
            frame.bytes[at : at + request.size] = request.data
        else:
            for i in range(request.size):
                if request.enables >> i & 1:
                    frame.bytes[at + i] = request.data[i]
        self.answers.append((request, b""))
