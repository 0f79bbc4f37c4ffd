"""Judges by flat memory, in which an access happens at the moment of its request.

`FlatJudge` looks on while a memory system is used, by accesses of bytes under ids; `StepJudge` judges steps of words
under tags, as the library does.
"""

import ctypes as c
import struct
from operator import index
from types import TracebackType
from typing import Callable, Container, Dict, Iterator, List, NamedTuple, Optional, SupportsIndex, Tuple, Type

from .data import Buffer, bytes_of
from .errors import Access, NotFlat, Reason, Unanswered
from .events import Answer, Event, Value, answer_row, event_row
from .library import TAGS, Due, Word, fast_judge, library

PAGE_BYTES = 4096
_WORD = 4
_OK = 0
_WRONG_WORD = 145
# The reasons of the library, by their numbers: all but _WRONG_WORD, which comes with the word that is owed.
_REASONS = {
    141: Reason.OUT_OF_RANGE,
    142: Reason.NO_LANES,
    143: Reason.ID_IN_USE,
    144: Reason.NOTHING_OWED,
    146: Reason.OTHER_ANSWER,
    147: Reason.NO_STEP,
    148: Reason.NO_STEP,
}
_LOAD, _STORE, _VALUE = 0, 1, 2
_EVENT = struct.Struct("=IHBxII4s").pack  # kind, tag, lanes, at, place, word
_ANSWER = struct.Struct("=IIH4s2x").pack  # kind, cause, tag, word
_TAKEN, _ACCEPTED = _EVENT(8, 0, 0, 0, 0, b""), _ANSWER(0, 0, 0, b"")
_PAGE_WORDS = c.c_size_t(PAGE_BYTES // 4)
_MASKS = {f"{mask:x}": mask for mask in range(16)}
_LANES = [[lane for lane in range(_WORD) if mask >> lane & 1] for mask in range(16)]  # the bytes of a mask


class StepJudge:
    """The judge of one step at a time, over a memory of words: `image` has four bytes for each. One thread uses it at a time.

    >>> judge = StepJudge(bytes(256))
    >>> judge.step(Load(tag=7, at=5), Accepted())
    >>> judge.step(Take(), Value(tag=7, word=bytes(4)))
    """

    def __init__(self, image: Buffer) -> None:
        words = bytes_of(image)
        if len(words) % _WORD:
            raise ValueError("an image has four bytes for each word")
        self._library = library()
        self._words = (c.c_char * max(len(words), 1)).from_buffer_copy(words or b"\0")
        self._count = len(words) // _WORD
        self._due = (Due * TAGS)()

    def step(self, event: Event, answer: Answer) -> None:
        """Judges a step, and makes it. NotFlat with its cause if flat memory never gives this answer to this event,
        and then nothing changed."""
        right = Word()
        rows = event_row(event), answer_row(answer)
        result = self._library.kroft_flat_judge(self._words, self._count, self._due, *rows, c.byref(right))
        if result == _WRONG_WORD and isinstance(answer, Value):
            raise NotFlat(Reason.WRONG_DATA, owed=bytes(right), got=bytes_of(answer.word))
        if result != _OK:
            raise NotFlat(_REASONS.get(result, Reason.BROKEN_LIBRARY))

    def owed(self, tag: SupportsIndex) -> Optional[bytes]:
        """The word that a tag is owed. None if it is owed nothing."""
        number = index(tag)
        if not 0 <= number < TAGS or not self._due[number].owed:
            return None
        return bytes(self._due[number].word)

    def open_count(self) -> int:
        """How many tags are owed words: the accepted loads that have no answer yet."""
        count: int = self._library.kroft_flat_unanswered(self._due, 0, c.byref(c.c_uint16()))
        return count

    def open(self) -> Iterator[Tuple[int, bytes]]:
        """The tags that are owed words, with these words, in the order of the tags."""
        for tag in range(TAGS):
            if self._due[tag].owed:
                yield tag, bytes(self._due[tag].word)

    def memory(self) -> bytes:
        """The bytes of memory as they are now."""
        return bytes(self._words)[: self._count * _WORD]


class _Page(NamedTuple):
    data: bytearray
    words: "c.Array[c.c_char]"  # the same bytes, for the library


class _Table(NamedTuple):
    due: "c.Array[Due]"
    view: memoryview  # its bytes
    free: List[int]  # tags that are owed nothing


# The part of an access in one word, as a plain tuple, for there are many: the page; the word in it; the lanes that are
# enabled; and the access's byte in lane 0, below 0 if the access begins in a later lane.
_Part = Tuple[_Page, int, int, int]


class _Owed(NamedTuple):
    access: Access
    parts: List[Tuple[_Part, _Table, int]]  # each with its tag


class FlatJudge:
    """Judges accesses of bytes, as a memory system's ports show them.

    Tell it of each request when it is accepted, in that order, and of each answer when it comes, in any order.
    Addresses have 64 bits, an access any size, and ids are whatever a dictionary takes, of loads and stores apart.
    `enables` has a bit for each byte that an access touches: bit i is byte i, and None is all. What isn't right is
    a NotFlat. As a context manager, it also asks at the end whether everything was answered. One thread uses it at a time.

    >>> with FlatJudge() as judge:
    ...     judge.store(1, 0x8000, b"four")
    ...     judge.load(2, 0x8002, 2)
    ...     judge.value(2, b"ur")
    ...     judge.stored(1)

    Memory is `first` to `last`, both included. It begins with zeros, or with what `image` gives for the address of a
    page: PAGE_BYTES bytes.
    """

    def __init__(self, first: SupportsIndex = 0, last: SupportsIndex = 2**64 - 1, image: Optional[Callable[[int], Buffer]] = None) -> None:
        self._step = fast_judge()
        self._first, self._last, self._image = index(first), index(last), image
        self._pages: Dict[int, _Page] = {}
        self._tables = [_new_table()]
        self._spare = self._tables[:]  # those with a tag that is owed nothing
        self._loads: Dict[object, _Owed] = {}
        self._stores: Dict[object, Access] = {}
        self._right = (c.c_char * _WORD)()
        self.calls = 0  #: how often the judge was told something

    def load(self, id: object, address: SupportsIndex, size: SupportsIndex, enables: Optional[SupportsIndex] = None) -> None:
        """A load was accepted: it is owed what its bytes hold now. Else, with nothing changed, a NotFlat: BAD_SIZE,
        OUT_OF_RANGE or ID_IN_USE."""
        access = self._request("load", id, address, size, enables)
        self._check(access, self._loads)
        self._loads[id] = _Owed(access, self._load_words(self._parts(access)))

    def value(self, id: object, data: Buffer) -> None:
        """A load's value came, as many bytes as it asked for. NotFlat: WRONG_DATA, and the load has its answer and its
        id is free; or NOTHING_OWED."""
        got = bytes_of(data)
        load = self._end_load(id, len(got))
        owed = bytearray(got)
        self._take_words(load, got, owed)
        if owed != got:
            raise NotFlat(Reason.WRONG_DATA, load.access, bytes(owed), got)

    def failed_load(self, id: object) -> None:
        """A load was answered with an error: it is owed nothing any more. Or NOTHING_OWED."""
        load = self._end_load(id, None)
        for part, table, tag in load.parts:
            self._pay_word(part, table, tag)

    def store(self, id: object, address: SupportsIndex, data: Buffer, enables: Optional[SupportsIndex] = None) -> None:
        """A store was accepted: its bytes are as `data` from now on, and it waits for its answer. Else, with nothing
        changed, a NotFlat: BAD_SIZE, OUT_OF_RANGE, NO_LANES or ID_IN_USE."""
        stored = bytes_of(data)
        access = self._request("store", id, address, len(stored), enables)
        self._check(access, self._stores)
        self._write(access, stored)
        self._stores[id] = access

    def post(self, id: object, address: SupportsIndex, data: Buffer, enables: Optional[SupportsIndex] = None) -> None:
        """A store was accepted that no answer follows. Else as `store`, but for ID_IN_USE."""
        stored = bytes_of(data)
        access = self._request("store", id, address, len(stored), enables)
        self._check(access, ())
        self._write(access, stored)

    def stored(self, id: object) -> None:
        """A store's answer came. Or NOTHING_OWED."""
        self._end_store(id)

    def failed_store(self, id: object) -> None:
        """A store was answered with an error: FAILED, for memory has its bytes since its request. Or NOTHING_OWED."""
        raise NotFlat(Reason.FAILED, self._end_store(id))

    def unanswered(self) -> List[Access]:
        """The accesses that wait for their answers, in the order of their requests."""
        waiting = [load.access for load in self._loads.values()] + list(self._stores.values())
        return sorted(waiting, key=lambda access: access.call)

    def memory(self, address: SupportsIndex, size: SupportsIndex) -> bytes:
        """The bytes that memory holds now. IndexError if some of them are outside of memory."""
        places = range(index(address), index(address) + index(size))
        if places and (places[0] < self._first or places[-1] > self._last):
            raise IndexError("bytes outside of memory")
        return bytes(self._page(at // PAGE_BYTES).data[at % PAGE_BYTES] for at in places)

    def __enter__(self) -> "FlatJudge":
        return self

    def __exit__(self, kind: Optional[Type[BaseException]], error: Optional[BaseException], trace: Optional[TracebackType]) -> None:
        waiting = self.unanswered()
        if kind is None and waiting:
            raise Unanswered(waiting)

    # (a number of a class with few bits would lose some of them below; and a size is judged before any mask is made of it)
    def _request(self, kind: str, id: object, begin: SupportsIndex, length: SupportsIndex, enables: Optional[SupportsIndex]) -> Access:
        address, size = index(begin), index(length)
        given = -1 if enables is None else index(enables)
        self.calls += 1
        if size < 1:
            raise NotFlat(Reason.BAD_SIZE, Access(kind, id, address, size, 0, self.calls))
        if address < self._first or address + size - 1 > self._last:
            raise NotFlat(Reason.OUT_OF_RANGE, Access(kind, id, address, size, 0, self.calls))
        return Access(kind, id, address, size, given & (1 << size) - 1, self.calls)

    def _stray(self, kind: str, id: object) -> Access:
        return Access(kind, id, 0, 0, 0, self.calls)

    def _check(self, access: Access, waiting: Container[object]) -> None:
        if access.kind == "store" and access.enables == 0:
            raise NotFlat(Reason.NO_LANES, access)
        if access.id in waiting:
            raise NotFlat(Reason.ID_IN_USE, access)

    # The words of an access that have an enabled byte, the lowest first.
    def _parts(self, access: Access) -> List[_Part]:
        parts = []
        begin = -(access.address % _WORD)
        number, place = divmod(access.address + begin, PAGE_BYTES)
        page, at = self._page(number), place // _WORD
        for digit in reversed("%x" % (access.enables << -begin)):  # that of a word has its lanes (shifts would be quadratic)
            if at == PAGE_BYTES // _WORD:
                number, at = number + 1, 0
                page = self._page(number)
            if digit != "0":
                parts.append((page, at, _MASKS[digit], begin))
            begin += _WORD
            at += 1
        return parts

    def _page(self, number: int) -> _Page:
        page = self._pages.get(number)
        if page is None:
            data = bytearray(PAGE_BYTES if self._image is None else bytes_of(self._image(number * PAGE_BYTES)))
            if len(data) != PAGE_BYTES:
                raise ValueError(f"an image of {len(data)} bytes for a page of {PAGE_BYTES}")
            page = self._pages[number] = _Page(data, (c.c_char * PAGE_BYTES).from_buffer(data))
        return page

    # Loads words. A page is memory enough for a step of one of its words, here and below.
    def _load_words(self, parts: List[_Part]) -> List[Tuple[_Part, _Table, int]]:
        owed, spare, step = [], self._spare, self._step
        for part in parts:
            if not spare:
                self._tables.append(_new_table())
                spare.append(self._tables[-1])
            table = spare[-1]
            due, _, free = table
            tag = free.pop()
            if not free:
                spare.pop()
            if step(part[0].words, _PAGE_WORDS, due, _EVENT(_LOAD, tag, 0, part[1], 0, b""), _ACCEPTED, self._right) != _OK:
                raise NotFlat(Reason.BROKEN_LIBRARY)
            owed.append((part, table, tag))
        return owed

    # Takes the words of a load; where one is wrong, `owed` gets what it should be. The tags are free after it.
    def _take_words(self, load: _Owed, data: bytes, owed: bytearray) -> None:
        step = self._step
        for part, table, tag in load.parts:
            page, _, lanes, begin = part
            due, _, free = table
            word = data[begin : begin + _WORD] if lanes == 0b1111 else self._filled_up(part, table, tag, data)
            answer = _ANSWER(_VALUE, 0, tag, word)
            if step(page.words, _PAGE_WORDS, due, _TAKEN, answer, self._right) == _OK:
                if not free:
                    self._spare.append(table)
                free.append(tag)
                continue
            right = self._pay_word(part, table, tag)
            for lane in _LANES[lanes]:
                owed[begin + lane] = right[lane]

    # The enabled bytes of a word of a load, and the others as they are owed.
    def _filled_up(self, part: _Part, table: _Table, tag: int, data: bytes) -> bytes:
        word = bytearray(self._owed_word(table, tag))
        for lane in _LANES[part[2]]:
            word[lane] = data[part[3] + lane]
        return bytes(word)

    # Takes the word that is owed, whatever came. It is returned.
    def _pay_word(self, part: _Part, table: _Table, tag: int) -> bytes:
        right = self._owed_word(table, tag)
        answer = _ANSWER(_VALUE, 0, tag, right)
        if self._step(part[0].words, _PAGE_WORDS, table.due, _TAKEN, answer, self._right) != _OK:
            raise NotFlat(Reason.BROKEN_LIBRARY)
        if not table.free:
            self._spare.append(table)
        table.free.append(tag)
        return right

    def _owed_word(self, table: _Table, tag: int) -> bytes:
        if not table.view[8 * tag]:  # (the library writes 1 there)
            raise NotFlat(Reason.BROKEN_LIBRARY)
        return bytes(table.view[8 * tag + 4 : 8 * tag + 8])

    # Stores the words. A store uses no tag, so any table does.
    def _write(self, access: Access, data: bytes) -> None:
        due = self._tables[0].due
        padded = bytes(_WORD) + data + bytes(_WORD)
        for page, at, lanes, begin in self._parts(access):
            event = _EVENT(_STORE, 0, lanes, at, 0, padded[begin + _WORD : begin + 2 * _WORD])
            if self._step(page.words, _PAGE_WORDS, due, event, _ACCEPTED, self._right) != _OK:
                raise NotFlat(Reason.BROKEN_LIBRARY)

    def _end_load(self, id: object, size: Optional[int]) -> _Owed:
        load = self._loads.get(id)
        if load is None:
            self.calls += 1
            raise NotFlat(Reason.NOTHING_OWED, self._stray("load", id))
        if size is not None and size != load.access.size:
            raise ValueError(f"a value of {size} bytes for a load of {load.access.size}")
        self.calls += 1
        del self._loads[id]
        return load

    def _end_store(self, id: object) -> Access:
        self.calls += 1
        access = self._stores.pop(id, None)
        if access is None:
            raise NotFlat(Reason.NOTHING_OWED, self._stray("store", id))
        return access


def _new_table() -> _Table:
    due = (Due * TAGS)()
    return _Table(due, memoryview(due).cast("B"), list(range(TAGS - 1, -1, -1)))
