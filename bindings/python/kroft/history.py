"""A history of a memory's loads and stores, judged as it goes: only their requests and responses are seen."""

import ctypes as c
import enum
from operator import index
from types import TracebackType
from typing import FrozenSet, List, NamedTuple, NoReturn, Optional, SupportsIndex, Type

from .data import Buffer, bytes_of
from .errors import Access, Closed, KroftError, Unanswered
from .library import Handle, HistoryCountsRow, OperationRow, ReasonRow, library

_OK, _CLOSED, _OUT_OF_MEMORY, _UNDECIDED, _NO_UNITS, _WRONG_BYTE = 0, 100, 101, 105, 108, 156
_FIRST_OVERWRITTEN, _STORE_OVERWRITTEN = 162, 163
_LOAD, _STORE = 0, 1
_SET_BYTES = 32


class Law(enum.IntEnum):
    """When an operation takes effect."""

    REGULAR = 0  #: at some moment between its request and its response, each byte for itself
    FLAT = 1  #: at its request
    ATOMIC = 2  #: at one moment between them, in each aligned unit of memory that it touches


class HistoryFault(enum.IntEnum):
    """Why a history with an event is none of its law."""

    BAD_RANGE = 151  #: the operation has no byte or more than 64, or runs beyond the last address
    NO_BYTE_ENABLED = 152  #: no byte is enabled
    NUMBER_IN_USE = 153  #: an operation of this kind is open under the number
    NOT_OPEN = 154  #: no operation of this kind is open under the number
    WRONG_LENGTH = 155  #: the load was requested with another length
    WRONG_BYTE = 156  #: the load may not return one of the bytes
    TOO_LONG = 104  #: as many events as can be counted were taken


class SeenStore(NamedTuple):
    """A store of a history, by its number and the event that requested it: how many events were taken before."""

    number: int
    event: int


class NotLawful(KroftError):
    """The history with this event is none of its law. The history is as it was before."""

    def __init__(self, cause: HistoryFault, event: str, place: Optional[int] = None, may: Optional[FrozenSet[int]] = None) -> None:
        text = f"{event}: {cause.name.lower()}"
        if place is not None and may is not None:
            # (by the atomic law each byte of a unit may be right, and no moment explains them together)
            wanted = " or ".join(f"{byte:02x}" for byte in sorted(may)[:4]) + (" or others" if len(may) > 4 else "")
            text += f" {place}: may be {wanted}"
        super().__init__(text)
        self.cause = cause
        self.name = cause.name
        self.place = place  #: WRONG_BYTE: the place of the first wrong byte in the response; by the atomic law, in the wrong unit, as `kroft_history_why` has it
        self.stored: Optional[SeenStore] = None  #: WRONG_BYTE: the last store that put the byte there, if one is known
        self.overwritten_by: Optional[SeenStore] = None  #: and the last one that overwrote it before the load's request
        self.may = may  #: WRONG_BYTE: what the load may return there; None if the atomic law can't tell


class Undecided(KroftError):
    """There is no verdict: the open operations may have taken effect in too many ways in one unit. By the atomic law alone.

    The history is as it was before. Once the unit is forgotten, the answer can be told again.
    """

    def __init__(self, event: str, address: Optional[int] = None) -> None:
        where = "" if address is None else f" in the unit at {address:#x}"
        super().__init__(f"{event}: undecided, for too many ways{where}")
        self.address = address  #: where the unit begins; None of a question that isn't an answer


class Operation(NamedTuple):
    """An operation that is open: requested, and not yet answered."""

    number: int
    address: int
    length: int


class Coverage(NamedTuple):
    """What was counted of a history: answers to what was requested since `History.cover`."""

    loads: int  #: loads that were answered
    choices: int  #: of these, the ones of which some byte might have been another
    beside_store: int  #: and the ones that were open at once with a store to one of their bytes
    overtaking: int  #: loads and stores that were answered before an older one with a byte in common


class History:
    """A history by a law over the image of a memory, from address 0 on. Beyond it there are zeros, or nothing is known.

    By the atomic law memory has aligned units of 1, 2, 4 or 8 bytes: 8, unless `unit` says otherwise. It is for that law alone.
    Events are told in the order in which they happened. It is a context manager: left without an exception, it raises
    `Unanswered` if an operation is open. Numbers are free again once their operation is answered.

    Several threads may use one history: each method is done as a whole before another one begins, in some order. It can't be
    copied or pickled.

    >>> with History() as history:
    ...     history.store_request(1, 0x1000, b"\\x5a")
    ...     history.load_request(1, 0x1000, 1)
    ...     print(sorted(history.may_return(1, 0x1000)))
    ...     history.load_response(1, b"\\0")
    ...     history.store_response(1)
    [0, 90]
    """

    def __init__(self, law: Law = Law.REGULAR, image: Buffer = b"", *, unit: Optional[SupportsIndex] = None, unknown: bool = False) -> None:
        self.law = Law(law)
        self.unit = index(unit) if unit is not None else 8 if self.law == Law.ATOMIC else 1
        if self.unit not in ((1, 2, 4, 8) if self.law == Law.ATOMIC else (1,)):
            raise ValueError(f"no unit of the {self.law.name.lower()} law: {self.unit}")
        data = bytes_of(image)
        self._handle = Handle(library(), "kroft_history_close")
        status = self._handle.call("kroft_history_open", self.law, self.unit, int(unknown), c.c_char_p(data), len(data))
        if status == _OUT_OF_MEMORY:
            raise MemoryError("no history was opened")
        assert status == _OK, status

    def load_request(
        self, number: SupportsIndex, address: SupportsIndex, length: SupportsIndex, enables: Optional[SupportsIndex] = None
    ) -> None:
        """A load of the bytes whose enable is set is requested, of `length` from `address` on: bit `k` of `enables` is that of byte
        `k`; none: all are. What is answered of the others isn't judged."""
        number, address, length = _word(number), _word(address), _word(length)
        mask = 2**64 - 1 if enables is None else _word(enables)
        self._tell(f"load {number} of {length} bytes at {address:#x}", "kroft_history_load_request", number, address, length, mask)

    def load_response(self, number: SupportsIndex, data: Buffer) -> None:
        """The load that is open under the number is answered with these bytes."""
        number, got = _word(number), bytes_of(data)
        event = f"load {number} returns {got.hex()}"
        with self._handle.lock:
            try:
                self._tell(event, "kroft_history_load_response", number, c.c_char_p(got), len(got))
            except NotLawful as error:
                if error.cause != HistoryFault.WRONG_BYTE:
                    raise
                raise self._with_place(number, got, event) from None

    def store_request(
        self, number: SupportsIndex, address: SupportsIndex, data: Buffer, enables: Optional[SupportsIndex] = None
    ) -> None:
        """A store of the bytes whose enable is set is requested: bit `k` of `enables` is that of byte `k`; none: all are."""
        number, address, stored = _word(number), _word(address), bytes_of(data)
        mask = 2**64 - 1 if enables is None else _word(enables)
        event = f"store {number} of {len(stored)} bytes at {address:#x}"
        self._tell(event, "kroft_history_store_request", number, address, c.c_char_p(stored), len(stored), mask)

    def store_response(self, number: SupportsIndex) -> None:
        """The store that is open under the number is answered."""
        number = _word(number)
        self._tell(f"store {number} is answered", "kroft_history_store_response", number)

    def may_return(self, number: SupportsIndex, address: SupportsIndex) -> Optional[FrozenSet[int]]:
        """What the load that is open under a number may return for the byte at an address, if it is answered now; None if no
        such load asks for that byte. By the atomic law it is said of this byte alone, and may be `Undecided`."""
        number, address = _word(number), _word(address)
        row = c.create_string_buffer(_SET_BYTES)
        status = self._call("kroft_history_may_return", number, address, row)
        if status == _OUT_OF_MEMORY:
            raise MemoryError(f"load {number} at {address:#x}")
        if status == _UNDECIDED:
            raise Undecided(f"load {number} at {address:#x}")
        if status != _OK:
            return None
        bits = int.from_bytes(row.raw, "little")
        return frozenset(byte for byte in range(256) if bits >> byte & 1)

    def forget(self, address: SupportsIndex) -> None:
        """Forgets the unit in which the byte at an address lies, of a history by the atomic law. From there on its bytes are
        unknown: whatever a load returns there is allowed. The other units are judged on."""
        address = _word(address)
        status = self._call("kroft_history_forget", address)
        if status == _OUT_OF_MEMORY:
            raise MemoryError(f"the unit with {address:#x} was not forgotten")
        if status == _NO_UNITS:
            raise ValueError(f"the {self.law.name.lower()} law has no units")

    def cover(self) -> None:
        """Counts from here on, anew if it did so before: of each operation that is requested from now on, its answer. A load's
        answer then takes longer."""
        self._call("kroft_history_cover")

    def coverage(self) -> Optional[Coverage]:
        """What was counted; None if nothing is."""
        row = HistoryCountsRow()
        if self._call("kroft_history_coverage", c.byref(row)) != _OK:
            return None
        return Coverage(row.loads, row.choices, row.beside_store, row.overtaking)

    def open_loads(self) -> List[Operation]:
        """The loads that are open, in the order of their requests."""
        return self._operations(_LOAD)

    def open_stores(self) -> List[Operation]:
        """The stores that are open, in the order of their requests."""
        return self._operations(_STORE)

    def close(self) -> None:
        """Gives the memory back. Every later call raises `Closed`."""
        self._handle.close()

    def __enter__(self) -> "History":
        return self

    def __exit__(self, kind: Optional[Type[BaseException]], error: Optional[BaseException], trace: Optional[TracebackType]) -> None:
        with self._handle.lock:
            is_asked = kind is None and self._handle.is_open
            lost = [_access("load", it) for it in self.open_loads()] if is_asked else []
            lost += [_access("store", it) for it in self.open_stores()] if is_asked else []
            self.close()
        if lost:
            raise Unanswered(lost)

    def __reduce__(self) -> NoReturn:
        raise TypeError("a history can't be copied")

    def _call(self, name: str, *arguments: object) -> int:
        status = self._handle.call(name, *arguments)
        if status == _CLOSED:
            raise Closed("the history was closed")
        return status

    def _tell(self, event: str, name: str, *arguments: object) -> None:
        first = c.c_uint64()
        with self._handle.lock:
            status = self._call(name, *arguments)
            if status == _UNDECIDED:
                self._call("kroft_history_undecided", c.byref(first))
                raise Undecided(event, first.value)
        if status == _OUT_OF_MEMORY:
            raise MemoryError(event)
        if status != _OK:
            raise NotLawful(HistoryFault(status), event)

    def _with_place(self, number: int, got: bytes, event: str) -> NotLawful:
        row = ReasonRow()
        if self._call("kroft_history_why", number, c.c_char_p(got), len(got), c.byref(row)) != _WRONG_BYTE:
            return NotLawful(HistoryFault.WRONG_BYTE, event)  # there was too little memory to say where
        load = next(it for it in self.open_loads() if it.number == number)
        try:
            may = self.may_return(number, load.address + row.place)
        except Undecided:
            may = None
        error = NotLawful(HistoryFault.WRONG_BYTE, event, row.place, may)
        if row.reason == _STORE_OVERWRITTEN:
            error.stored = SeenStore(row.stored, row.stored_at)
        if row.reason in (_FIRST_OVERWRITTEN, _STORE_OVERWRITTEN):
            error.overwritten_by = SeenStore(row.overwritten_by, row.overwritten_at)
        return error

    def _operations(self, kind: int) -> List[Operation]:
        found: List[Operation] = []
        row, count = OperationRow(), c.c_uint64()
        with self._handle.lock:
            while self._call("kroft_history_unanswered", kind, len(found), c.byref(row), c.byref(count)) == _OK:
                found.append(Operation(row.number, row.address, row.length))
        return found


def _access(kind: str, operation: Operation) -> Access:
    return Access(kind, operation.number, operation.address, operation.length, 2**operation.length - 1, 0)


def _word(number: SupportsIndex) -> int:
    """A number of 64 bits, of whatever class: ctypes would cut another one off. TypeError if it is no whole number."""
    whole = index(number)
    if not 0 <= whole < 2**64:
        raise ValueError(f"not a number of 64 bits: {whole}")
    return whole
