"""libkroft.so: where it is, and its functions with the rows of kroft.h."""

import ctypes as c
import os
import sys
from pathlib import Path
from threading import RLock
from typing import Callable, Iterator, Optional

from .errors import LibraryMissing

NAME = "libkroft.so"
TAGS = 65536

u8, u16, u32, u64 = c.c_uint8, c.c_uint16, c.c_uint32, c.c_uint64


class Word(c.Structure):
    _fields_ = [("b", u8 * 4)]


class Due(c.Structure):
    _fields_ = [("owed", u32), ("word", Word)]


class EventRow(c.Structure):
    _fields_ = [("kind", u32), ("tag", u16), ("lanes", u8), ("at", u32), ("place", u32), ("word", Word)]


class AnswerRow(c.Structure):
    _fields_ = [("kind", u32), ("cause", u32), ("tag", u16), ("word", Word)]


class HandleRow(c.Structure):
    _fields_ = [("open", u32), ("at", c.c_void_p)]


class ShapeRow(c.Structure):
    _fields_ = [
        (name, u32)
        for name in ("ways", "block_words", "regs", "depth", "words", "sets", "banks", "bank_queue", "write_queue", "replies")
    ]


class RegisterRow(c.Structure):
    _fields_ = [(name, u32) for name in ("valid", "obsolete", "block", "frame", "processed")]


class FieldRow(c.Structure):
    _fields_ = [
        ("send", u32),
        ("in_stack", u32),
        ("processed", u32),
        ("targets", u32),
        ("tag", u16),
        ("code", u8),
        ("held_lanes", u8),
        ("held", Word),
    ]


class TargetRow(c.Structure):
    _fields_ = [("tag", u16), ("lanes", u8), ("held", Word)]


class FrameRow(c.Structure):
    _fields_ = [("valid", u32), ("block", u32)]


class FrameWordRow(c.Structure):
    _fields_ = [("word", Word), ("dirty", u8)]


class ArrivalRow(c.Structure):
    _fields_ = [("slot", u32), ("i", u32), ("word", Word)]


class QueuedRow(c.Structure):
    _fields_ = [("block", u32), ("at", u32), ("word", Word), ("lanes", u8)]


class CommandRow(c.Structure):
    _fields_ = [("kind", u32), ("slot", u32), ("i", u32), ("place", u32), ("word", Word), ("lanes", u8)]


class CountsRow(c.Structure):
    _fields_ = [
        *(
            (name, u64)
            for name in (
                "rounds",
                "accepted",
                "denied",
                "hits",
                "joins",
                "misses",
                "stalled",
                "lost_tag_in_use",
                "lost_replies_full",
                "lost_targets_full",
                "lost_no_register",
                "lost_set_pending",
                "lost_queue_full",
                "lost_bank_full",
                "values",
                "waited",
                "longest",
                "written",
            )
        ),
        ("registers", u32),
    ]


class RoundRow(c.Structure):
    _fields_ = [
        ("round", u64),
        *((name, u32) for name in ("outcome", "cause", "found", "answered")),
        ("tag", u16),
        ("word", Word),
    ]


class ReasonRow(c.Structure):
    _fields_ = [*((name, u64) for name in ("wrong_place", "place", "stored", "stored_at", "overwritten_by", "overwritten_at")), ("reason", u32)]


class OperationRow(c.Structure):
    _fields_ = [("number", u64), ("address", u64), ("length", u64)]


class HistoryCountsRow(c.Structure):
    _fields_ = [(name, u64) for name in ("loads", "choices", "beside_store", "overtaking")]


class PlanRow(c.Structure):
    _fields_ = [
        ("base", u64),
        *(
            (name, u32)
            for name in (
                *("blocks", "block_bytes", "widest", "sets", "conflicts", "burst", "requesters", "apart", "stores", "partial"),
                *("words", "blocks_of_set"),
            )
        ),
    ]


class AccessRow(c.Structure):
    _fields_ = [("requester", u32), ("length", u32), ("turn", u64), ("address", u64), ("enables", u64)]


def places() -> Iterator[Path]:
    """Where the library may be, the first that counts first: the folder or file that KROFT_LIB names, and then nowhere
    else; this package, into which pip puts it; the lib folder of the prefix that the package is installed in, and that of
    Python's; dist/x86_64-linux of the repository that the package lies in; /usr/local/lib and /usr/lib."""
    named = os.environ.get("KROFT_LIB")
    if named:
        yield Path(named) if Path(named).is_file() else Path(named) / NAME
        return
    folder = Path(__file__).resolve().parent
    yield folder / NAME
    is_installed = folder.parent.name in ("site-packages", "dist-packages")  # in PREFIX/lib/pythonN
    for prefix in [*([folder.parents[3]] if is_installed else []), Path(sys.prefix), Path(sys.base_prefix)]:
        yield prefix / "lib" / NAME
    if folder.parent.parts[-2:] == ("bindings", "python"):
        yield folder.parents[2] / "dist" / "x86_64-linux" / NAME
    for prefix in [Path("/usr/local"), Path("/usr")]:
        yield prefix / "lib" / NAME


def declare(library: c.CDLL) -> c.CDLL:
    """The library, with the types of its functions."""
    handle, out = c.POINTER(HandleRow), c.c_void_p
    signatures = {
        "kroft_flat_judge": [out, c.c_size_t, out, out, out, out],
        "kroft_flat_unanswered": [out, u32, out],
        "kroft_history_open": [handle, u32, u32, u32, out, c.c_size_t],
        "kroft_history_close": [handle],
        "kroft_history_load_request": [handle, u64, u64, c.c_size_t, u64],
        "kroft_history_load_response": [handle, u64, out, c.c_size_t],
        "kroft_history_store_request": [handle, u64, u64, out, c.c_size_t, u64],
        "kroft_history_store_response": [handle, u64],
        "kroft_history_may_return": [handle, u64, u64, out],
        "kroft_history_why": [handle, u64, out, c.c_size_t, out],
        "kroft_history_forget": [handle, u64],
        "kroft_history_undecided": [handle, out],
        "kroft_history_cover": [handle],
        "kroft_history_coverage": [handle, out],
        "kroft_history_unanswered": [handle, u32, u64, out, out],
        "kroft_machine_open": [handle, out, out, c.c_size_t],
        "kroft_machine_close": [handle],
        "kroft_machine_apply": [handle, out, out],
        "kroft_machine_pump": [handle, out, out],
        "kroft_machine_weight": [handle, out, out],
        "kroft_machine_bank_word": [handle, u32, out],
        "kroft_machine_register": [handle, u32, out],
        "kroft_machine_field": [handle, u32, u32, out],
        "kroft_machine_target": [handle, u32, u32, u32, out],
        "kroft_machine_frame": [handle, u32, out],
        "kroft_machine_frame_word": [handle, u32, u32, out],
        "kroft_machine_stack_entry": [handle, u32, out],
        "kroft_machine_queue_entry": [handle, u32, out],
        "kroft_machine_bank_command": [handle, u32, u32, out],
        "kroft_machine_bank_answer": [handle, u32, u32, out],
        "kroft_machine_reply": [handle, u32, out],
        "kroft_machine_find": [handle, u32, out],
        "kroft_machine_drive": [handle, u32, u32, out, c.c_size_t, out],
        "kroft_machine_begin_rounds": [handle, u32, u32],
        "kroft_machine_round": [handle, out, c.c_size_t, out],
        "kroft_machine_round_counts": [handle, out],
        "kroft_machine_end_rounds": [handle],
        "kroft_traffic_draw": [out, u64, u64, out, out, c.c_size_t],
        "kroft_result_text": [u32, out, c.c_size_t],
        "kroft_version": [out, c.c_size_t],
    }
    for name, types in signatures.items():
        function = getattr(library, name)
        function.argtypes = types
        function.restype = u32
    return library


_loaded: Optional[c.CDLL] = None


def library() -> c.CDLL:
    """libkroft.so, loaded at the first call. LibraryMissing if it is nowhere, or has another version than this package."""
    global _loaded
    if _loaded is None:
        looked = list(places())
        path = next((place for place in looked if place.is_file()), None)
        if path is None:
            raise LibraryMissing(f"{NAME} is nowhere: set KROFT_LIB to the folder of ./kroft-lib (looked at {looked[0]} first)")
        try:
            found = declare(c.CDLL(str(path.resolve())))  # (a name without a folder is looked for in the system's)
        except (OSError, AttributeError) as error:
            raise LibraryMissing(f"{path}: {error}") from error
        _check_version(path, _version(found))
        _loaded = found
    return _loaded


def version() -> str:
    """The version of the library."""
    return _version(library())


def _version(of: c.CDLL) -> str:
    text = c.create_string_buffer(16)
    of.kroft_version(text, len(text))
    return text.value.decode("ascii")


def _check_version(path: Path, told: str) -> None:
    from . import __version__  # (the package is whole only once it has imported this module)

    if told != __version__:
        raise LibraryMissing(f"{path} has the version {told}, and this package {__version__}")


class Handle:
    """A history or a machine of the library, which is closed with this object at the latest.

    Calls with one handle may not overlap: each holds `lock`, and so does closing. A method that makes several calls holds
    it over them, so that no other thread's come between. (A handler of a signal may call from the midst of a call's own
    thread, so the lock is one that a thread may take again.)
    """

    def __init__(self, loaded: c.CDLL, close: str) -> None:
        self.lock = RLock()
        self._row = HandleRow()
        self._library, self._close = loaded, close

    @property
    def is_open(self) -> bool:
        """Whether it was opened, and not closed. (While a call is under way the library's own mark is of no use.)"""
        with self.lock:
            return bool(self._row.open)

    def call(self, name: str, *arguments: object) -> int:
        """What a function of the library returns that takes the handle first."""
        with self.lock:
            status: int = getattr(self._library, name)(c.byref(self._row), *arguments)
        return status

    def close(self) -> None:
        """Gives the memory back. Once more changes nothing."""
        with self.lock:
            if self._row.open:
                getattr(self._library, self._close)(c.byref(self._row))

    def __del__(self) -> None:
        self.close()


def fast_judge() -> Callable[..., int]:
    """kroft_flat_judge without types for its arguments, which takes half as long: lengths are c_size_t, rows bytes or
    arrays."""
    step = library()["kroft_flat_judge"]
    step.restype = u32
    return step
