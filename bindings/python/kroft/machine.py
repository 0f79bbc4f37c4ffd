"""The machine of the library: a non-blocking, write-back cache over banks of memory, with no clock."""

import ctypes as c
import enum
from operator import index
from types import TracebackType
from typing import Dict, Iterable, Iterator, List, NamedTuple, NoReturn, Optional, SupportsIndex, Tuple, Type, TypeVar, Union

from .data import Buffer, bytes_of
from .errors import BadShape, Cause, Closed, InRounds, KroftError, NoRounds, Refused, ShapeFault
from .events import (
    Accepted,
    Answer,
    Evict,
    Event,
    Load,
    Prefetch,
    Refusal,
    Store,
    Value,
    answer_of,
    event_of,
    event_row,
)
from .library import (
    ArrivalRow,
    CommandRow,
    CountsRow,
    FieldRow,
    FrameRow,
    FrameWordRow,
    Handle,
    QueuedRow,
    RegisterRow,
    RoundRow,
    ShapeRow,
    TargetRow,
    Word,
    library,
)

_Row = TypeVar("_Row", bound=c.Structure)

_OK, _CLOSED, _NO_EVENT = 0, 100, 147
_EVENT_BYTES, _ANSWER_BYTES = 20, 16
_OUT_OF_MEMORY = 101
_NO_ROUNDS, _IN_ROUNDS = 106, 107
_NOT_DRIVEN = {
    131: "a latency is at most 1000 rounds",
    132: "more than 16777216 requests",
    _NO_EVENT: "a request is a load, a store, a prefetch or an eviction",
}
_LOST = (
    Cause.TAG_IN_USE,
    Cause.REPLIES_FULL,
    Cause.TARGETS_FULL,
    Cause.NO_REGISTER,
    Cause.SET_PENDING,
    Cause.QUEUE_FULL,
    Cause.BANK_FULL,
)


class Shape(NamedTuple):
    """The numbers of a machine: 1 to 16 ways and words of a block, and 1 to 64 registers and places of the input stack."""

    ways: int = 2
    block_words: int = 4
    regs: int = 8  #: miss registers (MSHRs)
    depth: int = 4  #: places of the input stack
    words: int = 1024  #: words of memory: 1 to 4294967295, and a multiple of block_words
    sets: int = 4  #: sets of the cache: 1 to 1024
    banks: int = 4  #: banks of memory: 1 to 16
    bank_queue: int = 8  #: commands that wait at a bank at most: block_words / banks, rounded up, to 64
    write_queue: int = 8  #: words that wait in the write queue at most: block_words to 256
    replies: int = 8  #: loads that are awaited and ready together at most: 1 to 64


class Register(NamedTuple):
    """What a miss register shows of itself. What doesn't apply is 0."""

    valid: bool  #: it stands for a block that is missing words
    obsolete: bool  #: its block lost its frame
    block: int
    frame: int  #: the frame of a live register
    processed: int  #: how many words of the block are processed


class Field(NamedTuple):
    """What a register shows of one word of its block. What doesn't apply is 0."""

    send: bool  #: a load waits for the word
    in_stack: bool  #: the word stands in the input stack
    processed: bool
    targets: int  #: how many loads wait: 0 to 4
    tag: int  #: the tag of the first load that waits
    code: int  #: the lanes of the buffer that the arriving word leaves as they are
    held_lanes: int  #: the lanes whose bytes the first load has already
    held: bytes  #: those bytes: only those in the held lanes count


class Target(NamedTuple):
    """A load that waits for a word."""

    tag: int
    lanes: int  #: the lanes whose bytes it has already
    held: bytes  #: those bytes: only those in the lanes count


class FrameWord(NamedTuple):
    """A word of the block that a frame holds."""

    word: bytes  #: the bytes in the buffer; of a word on its way only those in the lanes of its register's code are there
    dirty: int  #: the lanes that were stored since the frame took the block, and that memory hasn't yet


class Arrival(NamedTuple):
    """A word on its way from its bank to a register."""

    slot: int  #: the register
    i: int  #: the number of the word in the register's block
    word: bytes


class Queued(NamedTuple):
    """A word that waits in the write queue."""

    block: int  #: the block that was given up
    at: int
    word: bytes  #: only the bytes in the lanes count
    lanes: int


class Read(NamedTuple):
    """A command of a bank: a word is read for a register."""

    slot: int
    i: int  #: the number of the word in the register's block
    place: int  #: where the word lies in the bank


class Write(NamedTuple):
    """A command of a bank: bytes are written."""

    place: int  #: where the word lies in the bank
    word: bytes  #: only the bytes in the lanes count
    lanes: int


Command = Union[Read, Write]


Request = Union[Load, Store, Prefetch, Evict]


class Counts(NamedTuple):
    """What a run in rounds counted. A round is a step of a schedule, and no time of any hardware."""

    rounds: int  #: rounds; of `drive` the last one, too, in which nothing moves
    accepted: int
    denied: int  #: requests that were refused for what no move changes
    hits: int  #: accepted loads, stores and prefetches, by what they found
    joins: int
    misses: int
    stalled: int  #: requests that were refused at first, and asked again
    lost: Dict[Cause, int]  #: rounds in which the request at hand was refused and asked again in the next, by the cause
    values: int  #: loads that were answered
    waited: int  #: rounds from each such load's acceptance to its answer, in all
    longest: int  #: the most of these for one load
    written: int  #: words that were written back
    registers: int  #: the most registers in use at once


class Lookup(enum.IntEnum):
    """What a request for a word finds."""

    HIT = 0  #: the word is at hand
    JOIN = 1  #: a register waits for the word, and the request would join it
    MISS = 2  #: no frame holds the block: it would be asked for, under a register of its own


class Outcome(enum.IntEnum):
    """What became of the request that was offered in a round."""

    IDLE = 0  #: none was offered
    ACCEPTED = 1
    LOST = 2  #: it was refused for now: offer it again
    DENIED = 3  #: it was refused for what no round changes


class Round(NamedTuple):
    """What is told of one round."""

    number: int  #: counted from 1
    outcome: Outcome
    cause: Optional[Cause]  #: why the request was refused
    found: Optional[Lookup]  #: what a load, a store or a prefetch of a word of memory found, accepted or not
    answered: Optional[Value]  #: the load that was answered: one at most


class Machine:
    """A machine over an image of memory: four bytes for each word, or zeros.

    The caller makes its events in any order. Every load gets the word that flat memory held when it was accepted.
    It is a context manager; its memory is given back at the end of it, by `close`, or with the object.

    Several threads may use one machine: each method is done as a whole before another one begins, in some order; `pump` and
    `values` let others in between their events. It can't be copied or pickled.

    >>> with Machine(Shape(words=64)) as machine:
    ...     machine.load(tag=7, at=5)
    ...     machine.store(at=5, word=b"\\xaa\\0\\0\\0", lanes=0b0001)
    ...     print(list(machine.values()))
    [Value(tag=7, word=b'\\x00\\x00\\x00\\x00')]
    """

    def __init__(self, shape: Shape = Shape(), image: Optional[Buffer] = None) -> None:
        self.shape = Shape(*map(index, shape))
        if any(not 0 <= number < 2**32 for number in self.shape):
            raise ValueError(f"a number of 32 bits is out of its range in {shape}")
        data = b"" if image is None else bytes_of(image)
        if len(data) % 4:
            raise ValueError("an image has four bytes for each word")
        row = ShapeRow(*self.shape)
        self._handle = Handle(library(), "kroft_machine_close")
        # (numbers are judged before any zeros are made for them)
        status = self._open(row, data)
        if status == ShapeFault.IMAGE and image is None:
            status = self._open(row, bytes(4 * self.shape.words))
        if status == _OUT_OF_MEMORY:
            raise MemoryError("no machine was opened")
        if status != _OK:
            raise BadShape(ShapeFault(status))

    def apply(self, event: Event) -> Answer:
        """Makes one event. A refusal is an answer here, as any other: it changes nothing."""
        answer = c.create_string_buffer(_ANSWER_BYTES)
        self._call("kroft_machine_apply", event_row(event), answer)
        return answer_of(answer.raw)

    def load(self, tag: SupportsIndex, at: SupportsIndex) -> None:
        """Asks for the word at `at`. Or Refused."""
        self._accept(Load(index(tag), index(at)))

    def store(self, at: SupportsIndex, word: Buffer, lanes: SupportsIndex = 0b1111) -> None:
        """Writes the bytes of `word` in these lanes. Or Refused."""
        self._accept(Store(index(at), bytes_of(word), index(lanes)))

    def prefetch(self, at: SupportsIndex) -> None:
        """Wants the block of the word at `at` in the cache. Or Refused."""
        self._accept(Prefetch(index(at)))

    def evict(self, block: SupportsIndex) -> None:
        """Gives a block up. Or Refused."""
        self._accept(Evict(index(block)))

    def pump(self) -> Iterator[Tuple[Event, Answer]]:
        """The driver's events with the machine's answers, until nothing is on its way: the first of these that is
        possible: the first ready reply is taken; the first word of the input stack is processed; the lowest bank with
        an answer has its first one arrive; the lowest bank with a command serves it; the write queue is drained."""
        event, answer = c.create_string_buffer(_EVENT_BYTES), c.create_string_buffer(_ANSWER_BYTES)
        while self._call("kroft_machine_pump", event, answer) == _OK:
            yield event_of(event.raw), answer_of(answer.raw)

    def values(self) -> Iterator[Value]:
        """The values that loads get, as the driver pumps, until nothing is on its way."""
        for _, answer in self.pump():
            if isinstance(answer, Value):
                yield answer

    def drive(self, requests: Iterable[Request], latency: SupportsIndex = 10, busy: Optional[SupportsIndex] = None) -> Counts:
        """Drives requests through the machine in rounds, as the command `drive` does, until nothing is on its way.

        In a round each bank begins a command if it isn't busy, and serves one that it began `latency` rounds before; one
        answer arrives, one word is processed, one reply taken and one word written back; and the request at hand is
        asked, again and again until it is accepted or denied. With `busy` below `latency` a bank begins a command each
        `busy` rounds at most; otherwise it has one at a time. ValueError if the latency isn't 0 to 1000, if there are
        more than 16777216 requests, or if one is an event but no load, store, prefetch or eviction, and TypeError if it is
        no event; nothing was asked then."""
        rows = b"".join(map(event_row, requests))
        row = CountsRow()
        status = self._call("kroft_machine_drive", *_rounds(latency, busy), rows, len(rows) // _EVENT_BYTES, c.byref(row))
        if status == _OUT_OF_MEMORY:
            raise MemoryError("too little memory to drive these requests")
        if status != _OK:
            raise ValueError(_NOT_DRIVEN[status])
        return _counts(row)

    def begin_rounds(self, latency: SupportsIndex = 10, busy: Optional[SupportsIndex] = None) -> None:
        """Begins rounds, which are those of `drive` and are made one at a time by `round`: nothing is counted yet.

        Rounds that were begun before end. Until `end_rounds` they alone make the machine's events: all else that makes one
        raises InRounds. ValueError if the latency isn't 0 to 1000, with everything as it was."""
        status = self._call("kroft_machine_begin_rounds", *_rounds(latency, busy))
        if status == _OUT_OF_MEMORY:
            raise MemoryError("too little memory to begin rounds")
        if status != _OK:
            raise ValueError(_NOT_DRIVEN[status])

    def round(self, request: Optional[Request] = None) -> Round:
        """Makes one round, in which this request is offered, or none. A request that is lost isn't remembered: it is the
        caller's to offer again. NoRounds if none were begun; ValueError if it is no request, with no round made."""
        row, event = RoundRow(), b"" if request is None else event_row(request)
        status = self._call("kroft_machine_round", event, len(event) // _EVENT_BYTES, c.byref(row))
        if status != _OK:
            raise ValueError(_NOT_DRIVEN[_NO_EVENT] if status == _NO_EVENT else "as many rounds as may be were made")
        cause = Cause(row.cause) if row.cause else None
        found = Lookup(row.found) if row.found in iter(Lookup) else None
        answered = Value(row.tag, bytes(row.word)) if row.answered else None
        return Round(row.round, Outcome(row.outcome), cause, found, answered)

    def round_counts(self) -> Counts:
        """What was counted since the rounds were begun; `rounds` are those that were made. NoRounds if none were begun."""
        row = CountsRow()
        self._call("kroft_machine_round_counts", c.byref(row))
        return _counts(row)

    def end_rounds(self) -> None:
        """Ends the rounds that were begun; the machine stays as it is. NoRounds if none were."""
        self._call("kroft_machine_end_rounds")

    @property
    def weight(self) -> int:
        """What is on its way, weighed: each event of `pump` lowers it, and at 0 there is none."""
        return self._weighed()[0]

    @property
    def settled(self) -> bool:
        """Whether memory has everything: nothing waits, and no word is dirty."""
        return self._weighed()[1]

    def bank_word(self, at: SupportsIndex) -> bytes:
        """The word of memory at `at`, as it stands in its bank. IndexError if there is none."""
        word = Word()
        self._find("kroft_machine_bank_word", c.byref(word), at)
        return bytes(word)

    def memory(self) -> bytes:
        """All words of memory, as they stand in their banks."""
        with self._handle.lock:
            return b"".join(self.bank_word(at) for at in range(self.shape.words))

    def register(self, slot: SupportsIndex) -> Register:
        """A miss register. IndexError if there is none."""
        row = RegisterRow()
        self._find("kroft_machine_register", c.byref(row), slot)
        return Register(bool(row.valid), bool(row.obsolete), row.block, row.frame, row.processed)

    def registers(self) -> List[Register]:
        """All miss registers."""
        with self._handle.lock:
            return [self.register(slot) for slot in range(self.shape.regs)]

    def field(self, slot: SupportsIndex, i: SupportsIndex) -> Field:
        """Word `i` of the block of a register. IndexError if there is none."""
        row = FieldRow()
        self._find("kroft_machine_field", c.byref(row), slot, i)
        marks = bool(row.send), bool(row.in_stack), bool(row.processed)
        return Field(*marks, row.targets, row.tag, row.code, row.held_lanes, bytes(row.held))

    def targets(self, slot: SupportsIndex, i: SupportsIndex) -> List[Target]:
        """The loads that wait for word `i` of the block of a register, in the order in which they were accepted.
        IndexError if there is no such word."""
        row, targets = TargetRow(), []
        with self._handle.lock:
            for place in range(self.field(slot, i).targets):
                self._find("kroft_machine_target", c.byref(row), slot, i, place)
                targets.append(Target(row.tag, row.lanes, bytes(row.held)))
        return targets

    def find(self, at: SupportsIndex) -> Lookup:
        """What a request for the word at `at` would find now. Nothing is asked. IndexError if there is no such word."""
        lookup = c.c_uint32()
        self._find("kroft_machine_find", c.byref(lookup), at)
        return Lookup(lookup.value)

    def frame(self, frame: SupportsIndex) -> Optional[int]:
        """The block that a frame holds, None if it is free. Set `s` has the frames from `s * ways` on. IndexError if there
        is no such frame."""
        row = FrameRow()
        self._find("kroft_machine_frame", c.byref(row), frame)
        return row.block if row.valid else None

    def frames(self) -> List[Optional[int]]:
        """The blocks of all frames, set by set."""
        with self._handle.lock:
            return [self.frame(frame) for frame in range(self.shape.sets * self.shape.ways)]

    def frame_word(self, frame: SupportsIndex, i: SupportsIndex) -> FrameWord:
        """Word `i` of the block that a frame holds. IndexError if there is no such frame or word, or the frame is free."""
        row = FrameWordRow()
        self._find("kroft_machine_frame_word", c.byref(row), frame, i)
        return FrameWord(bytes(row.word), row.dirty)

    def stack(self) -> List[Arrival]:
        """The words of the input stack, the one that came first at 0."""
        return [_arrival(row) for row in self._places(ArrivalRow, "kroft_machine_stack_entry")]

    def queue(self) -> List[Queued]:
        """The words of the write queue, the one that is drained next at 0."""
        rows = self._places(QueuedRow, "kroft_machine_queue_entry")
        return [Queued(row.block, row.at, bytes(row.word), row.lanes) for row in rows]

    def bank_commands(self, bank: SupportsIndex) -> List[Command]:
        """The commands that wait at a bank, the one that is served next at 0. IndexError if there is no such bank."""
        return [_command(row) for row in self._places(CommandRow, "kroft_machine_bank_command", self._bank(bank))]

    def bank_answers(self, bank: SupportsIndex) -> List[Arrival]:
        """The answers that stand in a bank, the oldest one at 0. IndexError if there is no such bank."""
        return [_arrival(row) for row in self._places(ArrivalRow, "kroft_machine_bank_answer", self._bank(bank))]

    def replies(self) -> List[Value]:
        """The values that stand ready to be taken, in the order of their places."""
        answers: List[Value] = []
        answer = c.create_string_buffer(_ANSWER_BYTES)
        with self._handle.lock:
            while self._call("kroft_machine_reply", len(answers), answer) == _OK:
                value = answer_of(answer.raw)
                assert isinstance(value, Value)
                answers.append(value)
        return answers

    @property
    def closed(self) -> bool:
        return not self._handle.is_open

    def close(self) -> None:
        """Gives the machine up, with all its memory. Once more changes nothing."""
        self._handle.close()

    def __enter__(self) -> "Machine":
        return self

    def __exit__(self, kind: Optional[Type[BaseException]], error: Optional[BaseException], trace: Optional[TracebackType]) -> None:
        self.close()

    def __reduce__(self) -> NoReturn:
        raise TypeError("a machine can't be copied")

    def _weighed(self) -> Tuple[int, bool]:
        weight, settled = c.c_uint64(), c.c_uint32()
        self._call("kroft_machine_weight", c.byref(weight), c.byref(settled))
        return weight.value, bool(settled.value)

    def _open(self, row: ShapeRow, data: bytes) -> int:
        return self._handle.call("kroft_machine_open", c.byref(row), c.c_char_p(data), len(data) // 4)

    def _accept(self, event: Event) -> None:
        answer = self.apply(event)
        if isinstance(answer, Refusal):
            raise Refused(answer.cause)
        if not isinstance(answer, Accepted):
            raise KroftError(f"{event} was answered by {answer}")

    def _bank(self, bank: SupportsIndex) -> int:
        number = index(bank)
        if not 0 <= number < self.shape.banks:
            raise IndexError("there is none")
        return number

    def _places(self, row: Type[_Row], name: str, *arguments: int) -> List[_Row]:
        """What a view shows at place 0, 1 and so on, until there is nothing."""
        found: List[_Row] = []
        shown = row()
        with self._handle.lock:
            while self._call(name, *arguments, len(found), c.byref(shown)) == _OK:
                found.append(shown)
                shown = row()
        return found

    def _call(self, name: str, *arguments: object) -> int:
        status = self._handle.call(name, *arguments)
        if status == _CLOSED:
            raise Closed("the machine was closed")
        if status == _IN_ROUNDS:
            raise InRounds("rounds are under way, and make the machine's events")
        if status == _NO_ROUNDS:
            raise NoRounds("no rounds were begun")
        return status

    def _find(self, name: str, row: object, *places: SupportsIndex) -> None:
        """What a view shows at these places goes into the row. (ctypes would cut a number of more bits off.)"""
        numbers = [index(place) for place in places]
        if any(not 0 <= number < 2**32 for number in numbers) or self._call(name, *numbers, row) != _OK:
            raise IndexError("there is none")


def _rounds(latency: SupportsIndex, busy: Optional[SupportsIndex]) -> Tuple[int, int]:
    """The numbers of rounds, for the library."""
    numbers = index(latency), index(latency if busy is None else busy)
    if any(not 0 <= number < 2**32 for number in numbers):
        raise ValueError("a number of rounds is out of its range")
    return numbers


def _counts(row: CountsRow) -> Counts:
    lost = {cause: getattr(row, f"lost_{cause.name.lower()}") for cause in _LOST}
    first = (row.rounds, row.accepted, row.denied, row.hits, row.joins, row.misses, row.stalled)
    return Counts(*first, lost, row.values, row.waited, row.longest, row.written, row.registers)


def _arrival(row: ArrivalRow) -> Arrival:
    return Arrival(row.slot, row.i, bytes(row.word))


def _command(row: CommandRow) -> Command:
    if row.kind == 0:
        return Read(row.slot, row.i, row.place)
    return Write(row.place, bytes(row.word), row.lanes)
