"""What goes wrong, as exceptions. Each has its cause as a number with a name."""

import enum
from typing import List, NamedTuple, Optional, Tuple, Type


class KroftError(Exception):
    """Any of the exceptions of this package. It can be copied and pickled, as another process gives it back."""

    def __reduce__(self) -> Tuple[object, ...]:
        return _again, (type(self), self.args), self.__dict__


def _again(kind: Type[KroftError], args: Tuple[object, ...]) -> KroftError:
    """An exception with this text; what else it holds is put into it afterwards."""
    return kind.__new__(kind, *args)


class LibraryMissing(KroftError, OSError):
    """libkroft.so was found nowhere, or isn't one that this package knows."""


class Cause(enum.IntEnum):
    """Why an event is refused."""

    OUT_OF_RANGE = 1  #: the word or block isn't in memory
    NO_LANES = 2  #: a store without a lane
    TAG_IN_USE = 3  #: the tag is awaited, or its value stands ready
    REPLIES_FULL = 4  #: the limit of outstanding loads is reached
    TARGETS_FULL = 5  #: four loads wait for the word
    BLOCK_QUEUED = 6  #: never given by the machine of this library
    NO_REGISTER = 7  #: no register is free
    SET_PENDING = 8  #: every way of the set waits for words
    QUEUE_FULL = 9  #: the write queue has too few places for the victim's dirty words
    BANK_FULL = 10  #: a bank has too little room
    NOT_PRESENT = 11  #: no frame holds the block
    STACK_FULL = 12  #: the input stack is full
    STRAY_WORD = 13  #: no register waits for the word; never given by a whole machine


class Refused(KroftError):
    """The machine refused an event, and is as it was."""

    def __init__(self, cause: Cause) -> None:
        super().__init__(f"refused: {cause.name.lower()}")
        self.cause = cause
        self.name = cause.name


class ShapeFault(enum.IntEnum):
    """The first number of a shape that opens no machine, or what else keeps it from that. (Too little memory is a MemoryError.)"""

    OPEN_ALREADY = 102
    BLOCK_WORDS = 111
    WAYS = 112
    REGS = 113
    DEPTH = 114
    WORDS = 115
    SETS = 116
    BANKS = 117
    BANK_QUEUE = 118
    WRITE_QUEUE = 119
    REPLIES = 120
    IMAGE = 121  #: the image hasn't as many words as memory


class BadShape(KroftError, ValueError):
    """A machine wasn't opened."""

    def __init__(self, cause: ShapeFault) -> None:
        super().__init__(f"no machine of this shape: {cause.name.lower()}")
        self.cause = cause
        self.name = cause.name


class Closed(KroftError, ValueError):
    """The machine was closed."""


class InRounds(KroftError):
    """Rounds are under way in the machine, and they alone make its events."""


class NoRounds(KroftError):
    """No rounds were begun in the machine."""


class Reason(enum.Enum):
    """What is wrong with a request, an answer or a step."""

    BAD_SIZE = "an access of no bytes"
    OUT_OF_RANGE = "bytes outside of memory"
    NO_LANES = "a store of no byte"
    ID_IN_USE = "the id still waits for its answer"
    NOTHING_OWED = "an answer that nobody waits for"
    WRONG_DATA = "wrong data"
    FAILED = "a store inside of memory failed"
    OTHER_ANSWER = "flat memory never gives this event such an answer"
    NO_STEP = "a row that says nothing"
    BROKEN_LIBRARY = "not the library of this package"


class Access(NamedTuple):
    """One access, as its request told it."""

    kind: str  #: "load" or "store"
    id: object
    address: int
    size: int
    enables: int  #: bit i stands for byte i; 0 if the access has no byte, or one outside of memory
    call: int  #: the call of the judge that told it: 1 is the first


class NotFlat(KroftError):
    """Flat memory never makes this request or gives this answer."""

    def __init__(self, cause: Reason, access: Optional[Access] = None, owed: Optional[bytes] = None, got: Optional[bytes] = None) -> None:
        self.cause = cause
        self.name = cause.name
        self.access = access
        self.owed = owed  #: WRONG_DATA: what was owed; bytes that aren't enabled are as they came
        self.got = got
        super().__init__(self._text())

    def _text(self) -> str:
        text = self.cause.value
        if self.access is not None:
            where = f" of {self.access.size} bytes at {self.access.address:#x}" if self.access.size else ""
            text = f"{self.access.kind} {self.access.id}{where}: {text}"
        if self.owed is not None and self.got is not None:
            text += f": owed {self.owed.hex()}, got {self.got.hex()}"
        return text


class Unanswered(KroftError):
    """A judge was left while accesses wait for their answers."""

    def __init__(self, accesses: List[Access]) -> None:
        first = accesses[0]
        super().__init__(f"{len(accesses)} without an answer, the first: {first.kind} {first.id} at {first.address:#x}")
        self.accesses = accesses
