"""Events and answers. A word is four bytes, the first of the lowest address."""

import struct
from dataclasses import dataclass, fields
from operator import index
from typing import Any, Callable, Dict, Tuple, Type, Union

from .data import Buffer, bytes_of
from .errors import Cause


@dataclass(frozen=True)
class Load:
    """The word at `at` is asked for, under a tag of 0 to 65535."""

    tag: int
    at: int


@dataclass(frozen=True)
class Store:
    """The bytes of `word` in these lanes are written: bit k of `lanes` is byte k; bits 4 to 7 are dropped."""

    at: int
    word: bytes
    lanes: int = 0b1111


@dataclass(frozen=True)
class Prefetch:
    """The block of the word at `at` is wanted in the cache."""

    at: int


@dataclass(frozen=True)
class Evict:
    """A block is given up."""

    block: int


@dataclass(frozen=True)
class Drain:
    """The front of the write queue goes to its bank."""


@dataclass(frozen=True)
class Serve:
    """A bank serves its first command."""

    bank: int


@dataclass(frozen=True)
class Arrive:
    """The answer at `place` of a bank comes to the input stack."""

    bank: int
    place: int


@dataclass(frozen=True)
class Process:
    """The entry of the input stack at `place` is processed."""

    place: int = 0


@dataclass(frozen=True)
class Take:
    """The ready reply at `place` is taken."""

    place: int = 0


Event = Union[Load, Store, Prefetch, Evict, Drain, Serve, Arrive, Process, Take]


@dataclass(frozen=True)
class Accepted:
    """A request or an eviction was accepted."""


@dataclass(frozen=True)
class Moved:
    """Something moved on."""


@dataclass(frozen=True)
class Value:
    """A reply was taken: the word that the load got."""

    tag: int
    word: bytes


@dataclass(frozen=True)
class Nothing:
    """There was nothing to do."""


@dataclass(frozen=True)
class Refusal:
    """Refused, with everything unchanged."""

    cause: Cause


Answer = Union[Accepted, Moved, Value, Nothing, Refusal]

_EVENT = struct.Struct("=IHBxII4s")  # kind, tag, lanes, at, place, word
_ANSWER = struct.Struct("=IIH4s2x")  # kind, cause, tag, word

_MOST = {"tag": 2**16 - 1, "lanes": 2**8 - 1}  # the most that a member may be; any other one has 32 bits

_Members = Dict[Type[Any], Callable[[Any], Tuple[object, ...]]]  # the members of a row, by the class that has them
_EVENTS: _Members = {
    Load: lambda it: (0, it.tag, 0, it.at, 0, b""),
    Store: lambda it: (1, 0, it.lanes, it.at, 0, _word(it.word)),
    Prefetch: lambda it: (2, 0, 0, it.at, 0, b""),
    Evict: lambda it: (3, 0, 0, it.block, 0, b""),
    Drain: lambda it: (4, 0, 0, 0, 0, b""),
    Serve: lambda it: (5, 0, 0, it.bank, 0, b""),
    Arrive: lambda it: (6, 0, 0, it.bank, it.place, b""),
    Process: lambda it: (7, 0, 0, 0, it.place, b""),
    Take: lambda it: (8, 0, 0, 0, it.place, b""),
}
_ANSWERS: _Members = {
    Accepted: lambda it: (0, 0, 0, b""),
    Moved: lambda it: (1, 0, 0, b""),
    Value: lambda it: (2, 0, it.tag, _word(it.word)),
    Nothing: lambda it: (3, 0, 0, b""),
    Refusal: lambda it: (4, index(it.cause), 0, b""),
}


def event_row(event: Event) -> bytes:
    """The row of kroft.h of an event, or of one of a class below an event's. ValueError if a number or a word has no room in
    it; TypeError if it is no event, or a number is no whole one."""
    return _row(_EVENT, _EVENTS, event, "event")


def answer_row(answer: Answer) -> bytes:
    """The row of kroft.h of an answer, as `event_row` has that of an event."""
    return _row(_ANSWER, _ANSWERS, answer, "answer")


def event_of(row: bytes) -> Event:
    """The event of a row that the library wrote."""
    kind, tag, lanes, at, place, word = _EVENT.unpack(row)
    members: Dict[int, Event] = {
        0: Load(tag, at),
        1: Store(at, word, lanes),
        2: Prefetch(at),
        3: Evict(at),
        4: Drain(),
        5: Serve(at),
        6: Arrive(at, place),
        7: Process(place),
        8: Take(place),
    }
    return members[kind]


def answer_of(row: bytes) -> Answer:
    """The answer of a row that the library wrote."""
    kind, cause, tag, word = _ANSWER.unpack(row)
    if kind == 2:
        return Value(tag, word)
    if kind == 4:
        return Refusal(Cause(cause))
    plain: Dict[int, Answer] = {0: Accepted(), 1: Moved(), 3: Nothing()}
    return plain[kind]


def _word(word: Buffer) -> bytes:
    data = bytes_of(word)
    if len(data) != 4:
        raise ValueError(f"a word is four bytes, not {len(data)}")
    return data


def _row(form: struct.Struct, members: _Members, of: object, kind: str) -> bytes:
    known = next((it for it in type(of).__mro__ if it in members), None)
    if known is None:
        raise TypeError(f"no {kind}: {of!r}")
    try:
        return form.pack(*members[known](of))
    except struct.error as error:
        raise ValueError(_misfit(known, of) or str(error)) from None


def _misfit(known: Type[Any], of: object) -> str:
    """Which member of an event or an answer has no room in its row; a word has. TypeError if it is no whole number."""
    for name in (it.name for it in fields(known) if it.name != "word"):
        member, most = getattr(of, name), _MOST.get(name, 2**32 - 1)
        try:
            number = index(member)
        except TypeError:
            raise TypeError(f"{name} is a whole number, not {member!r}") from None
        if not 0 <= number <= most:
            return f"{name} is 0 to {most}, not {member!r}"
    return ""
