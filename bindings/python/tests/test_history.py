"""Histories, judged as a Python programmer would."""

import copy
import gc
import pickle
import random
import threading
import unittest
from typing import Any, Callable, Dict, List, Optional, Tuple, Type

from kroft import Closed, Coverage, History, HistoryFault, Law, NotLawful, Operation, SeenStore, Unanswered, Undecided
from whole import whole


class Histories(unittest.TestCase):
    def test_a_load_beside_a_store(self) -> None:
        for law, may in [(Law.REGULAR, {0x00, 0x5A}), (Law.FLAT, {0x5A})]:
            with self.subTest(law=law), History(law) as history:
                history.store_request(1, 0x1000, b"\x5a\x5b", 0b01)
                history.load_request(1, 0x1000, 2)
                self.assertEqual(history.may_return(1, 0x1000), may)
                self.assertEqual(history.may_return(1, 0x1001), {0x00})
                self.assertIsNone(history.may_return(1, 0x1002))
                with self.assertRaises(NotLawful) as wrong:
                    history.load_response(1, b"\x5a\x5b")
                self.assertEqual((wrong.exception.name, wrong.exception.place, wrong.exception.may), ("WRONG_BYTE", 1, {0}))
                self.assertEqual(str(wrong.exception), "load 1 returns 5a5b: wrong_byte 1: may be 00")
                history.load_response(1, bytearray(b"\x5a\x00"))
                history.store_response(1)

    def test_each_fault_has_its_cause(self) -> None:
        with History(image=b"\x01\x02", unknown=True) as history:
            history.load_request(1, 0, 2)
            history.store_request(1, 2**64 - 1, b"\x09")
            faults = HistoryFault
            rows: List[Tuple[HistoryFault, Callable[[], None]]] = [
                (faults.BAD_RANGE, lambda: history.load_request(2, 0, 65)),
                (faults.BAD_RANGE, lambda: history.store_request(2, 2**64 - 1, b"ab")),
                (faults.NO_BYTE_ENABLED, lambda: history.store_request(2, 0, b"a", 2)),
                (faults.NUMBER_IN_USE, lambda: history.load_request(1, 0, 1)),
                (faults.NUMBER_IN_USE, lambda: history.store_request(1, 0, b"a")),
                (faults.NOT_OPEN, lambda: history.load_response(2, b"a")),
                (faults.NOT_OPEN, lambda: history.store_response(2)),
                (faults.WRONG_LENGTH, lambda: history.load_response(1, b"a")),
                (faults.WRONG_BYTE, lambda: history.load_response(1, b"\x02\x02")),
            ]
            for fault, call in rows:
                with self.subTest(fault=fault.name), self.assertRaises(NotLawful) as wrong:
                    call()
                self.assertEqual((wrong.exception.cause, wrong.exception.name), (fault, fault.name))
            for number in (-1, 2**64):
                with self.assertRaises(ValueError):
                    history.load_request(number, 0, 1)
            history.load_request(3, 2, 1)
            self.assertEqual(history.may_return(3, 2), set(range(256)))
            self.assertEqual(history.open_loads(), [Operation(1, 0, 2), Operation(3, 2, 1)])
            self.assertEqual(history.open_stores(), [Operation(1, 2**64 - 1, 1)])
            history.load_response(3, b"\x77")
            history.load_response(1, b"\x01\x02")
            history.store_response(1)

    def test_a_load_with_enables(self) -> None:
        for law in Law:
            with self.subTest(law=law), History(law) as history:
                history.store_request(1, 0x1000, b"\x11\x22")
                history.store_response(1)
                with self.assertRaises(NotLawful) as refused:
                    history.load_request(1, 0x1000, 2, 4)
                self.assertEqual(refused.exception.cause, HistoryFault.NO_BYTE_ENABLED)
                history.load_request(1, 0x1000, 2, 2)
                self.assertEqual(history.may_return(1, 0x1000), set(range(256)))
                self.assertEqual(history.may_return(1, 0x1001), {0x22})
                with self.assertRaises(NotLawful):
                    history.load_response(1, b"\x11\x99")
                history.load_response(1, b"\x99\x22")

    def test_a_number_is_no_data(self) -> None:
        with self.assertRaises(TypeError):
            History(image=5)  # type: ignore[arg-type]
        with History() as history:
            history.load_request(1, 0, 4)
            for data in (4, "abcd", None):
                with self.subTest(data=data):
                    with self.assertRaises(TypeError):
                        history.load_response(1, data)  # type: ignore[arg-type]
                    with self.assertRaises(TypeError):
                        history.store_request(1, 0, data)  # type: ignore[arg-type]
            self.assertEqual((len(history.open_loads()), history.open_stores()), (1, []))
            history.load_response(1, bytes(4))

    def test_whole_numbers_of_any_class(self) -> None:
        with History() as history:
            history.load_request(whole(1), whole(2**64 - 1), whole(1))
            history.store_request(whole(2), whole(2**64 - 1), b"\x01", whole(1))
            self.assertEqual(history.open_loads(), [Operation(1, 2**64 - 1, 1)])
            self.assertEqual(history.may_return(whole(1), whole(2**64 - 1)), {0, 1})
            wrong: List[Tuple[Any, Type[Exception]]] = [(it, ValueError) for it in (whole(-1), whole(2**64), -1, 2**64)]
            wrong += [(it, TypeError) for it in ("7", 1.0, b"7", None)]
            for number, kind in wrong:
                for words in ((number, 0, 1), (5, number, 1), (5, 0, number)):
                    with self.subTest(words=words), self.assertRaises(kind):
                        history.load_request(*words)
                with self.assertRaises(kind):
                    history.store_request(number, 0, b"\x01")
                with self.assertRaises(kind):
                    history.load_response(number, b"")
                with self.assertRaises(kind):
                    history.may_return(number, 0)
            with self.assertRaises(ValueError):
                history.store_request(6, 0, b"\x01", whole(2**64))
            with self.assertRaises(TypeError):
                History(Law.ATOMIC, unit=8.0)  # type: ignore[arg-type]
            history.load_response(whole(1), b"\x01")
            history.store_response(whole(2))

    def test_what_is_lost_is_told_at_the_end(self) -> None:
        with self.assertRaises(Unanswered) as lost:
            with History() as history:
                history.load_request(7, 0x20, 4)
                history.store_request(8, 0x30, b"abcd")
        self.assertEqual([(it.kind, it.id, it.address, it.size) for it in lost.exception.accesses], [("load", 7, 0x20, 4), ("store", 8, 0x30, 4)])
        with self.assertRaises(Closed):
            history.load_request(1, 0, 1)

    def test_what_is_counted(self) -> None:
        for law, choices in [(Law.REGULAR, 1), (Law.FLAT, 0), (Law.ATOMIC, 1)]:
            with self.subTest(law=law), History(law) as history:
                self.assertIsNone(history.coverage())
                history.cover()
                history.load_request(1, 0x1000, 2)
                history.store_request(1, 0x1001, b"\x5a")
                history.load_request(2, 0x1000, 1)
                history.load_response(2, b"\x00")
                self.assertEqual(history.coverage(), Coverage(loads=1, choices=0, beside_store=0, overtaking=1))
                history.load_response(1, b"\x00\x00")
                history.store_response(1)
                self.assertEqual(history.coverage(), Coverage(loads=2, choices=choices, beside_store=1, overtaking=1))
                history.cover()
                self.assertEqual(history.coverage(), Coverage(0, 0, 0, 0))

    def test_one_that_is_closed_before_its_end(self) -> None:
        with History() as history:
            history.load_request(7, 0x20, 4)
            history.close()
        with self.assertRaises(Closed):
            history.open_loads()

    def test_a_history_is_not_copied(self) -> None:
        with History() as history:
            history.store_request(1, 0, b"a")
            copies: List[Callable[[object], object]] = [copy.copy, copy.deepcopy, pickle.dumps]
            for made in copies:
                with self.subTest(made=made), self.assertRaises(TypeError):
                    made(history)
            gc.collect()
            history.store_response(1)

    def test_threads_wait_for_each_other(self) -> None:
        failures: List[Exception] = []

        def use(history: History, base: int) -> None:
            try:
                for number in range(base, base + 500):
                    data = number.to_bytes(8, "little")
                    history.store_request(number, base, data)
                    history.store_response(number)
                    history.load_request(number, base, 8)
                    with self.assertRaises(NotLawful) as wrong:
                        history.load_response(number, bytes(7) + b"\1")
                    self.assertEqual(wrong.exception.cause, HistoryFault.WRONG_BYTE)
                    history.load_response(number, data)
            except Exception as error:
                failures.append(error)

        with History(Law.ATOMIC) as history:
            threads = [threading.Thread(target=use, args=(history, base)) for base in range(1 << 20, 5 << 20, 1 << 20)]
            for thread in threads:
                thread.start()
            for thread in threads:
                thread.join()
            self.assertEqual(failures, [])

    def test_new_then_old(self) -> None:
        """The atomic law refuses what the regular law lets pass."""
        for law, unit in [(Law.REGULAR, None), (Law.ATOMIC, None), (Law.ATOMIC, 1), (Law.ATOMIC, 4)]:
            with self.subTest(law=law, unit=unit), History(law, unit=unit) as history:
                history.store_request(1, 0x13, b"\x5a")
                history.load_request(1, 0x13, 1)
                history.load_response(1, b"\x5a")
                history.load_request(2, 0x13, 1)
                if law == Law.ATOMIC:
                    with self.assertRaises(NotLawful) as wrong:
                        history.load_response(2, b"\0")
                    self.assertEqual((wrong.exception.cause, wrong.exception.place, wrong.exception.may), (HistoryFault.WRONG_BYTE, 0, {0x5A}))
                    history.load_response(2, b"\x5a")
                else:
                    history.load_response(2, b"\0")
                history.store_response(1)

    def test_who_stored_a_wrong_byte_and_who_overwrote_it(self) -> None:
        with History(image=b"\x80") as history:
            history.load_request(9, 0x40, 1)
            for number, byte in [(21, b"\x5a"), (22, b"\x11")]:
                history.store_request(number, 0, byte)
                history.store_response(number)
            history.load_request(1, 0, 1)
            for byte, stored, by in [
                (b"\x5a", SeenStore(21, 1), SeenStore(22, 3)),
                (b"\x80", None, SeenStore(22, 3)),
                (b"\x33", None, None),
            ]:
                with self.subTest(byte=byte), self.assertRaises(NotLawful) as wrong:
                    history.load_response(1, byte)
                self.assertEqual((wrong.exception.stored, wrong.exception.overwritten_by), (stored, by))
            history.load_response(1, b"\x11")
            history.load_response(9, b"\0")

    def test_a_torn_word_by_the_size_of_a_unit(self) -> None:
        for unit in (1, 2, 4, 8):
            with self.subTest(unit=unit), History(Law.ATOMIC, unit=unit) as history:
                history.store_request(1, 0x20, b"\x11\x11")
                history.store_request(2, 0x20, b"\x22\x22")
                history.store_response(1)
                history.store_response(2)
                history.load_request(1, 0x20, 2)
                if unit == 1:
                    history.load_response(1, b"\x11\x22")
                    continue
                with self.assertRaises(NotLawful) as wrong:
                    history.load_response(1, b"\x11\x22")
                self.assertEqual((wrong.exception.place, wrong.exception.may), (0, {0x11, 0x22}))
                history.load_response(1, b"\x22\x22")

    def test_a_unit_without_a_verdict_is_forgotten(self) -> None:
        """A load stays open, and thirteen stores are open at once: too many pairs of a word and the stores in effect."""
        with History(Law.ATOMIC) as history:
            history.load_request(1, 0x43, 1)
            for number in range(1, 14):
                history.store_request(number, 0x43, bytes([number]))
            with self.assertRaises(Undecided) as undecided:
                history.store_response(13)
            self.assertEqual(undecided.exception.address, 0x40)
            with self.assertRaises(Undecided) as asked:
                history.may_return(1, 0x43)
            self.assertIsNone(asked.exception.address)
            self.assertEqual(len(history.open_stores()), 13)
            history.forget(0x47)
            for number in range(1, 14):
                history.store_response(number)
            self.assertEqual(history.may_return(1, 0x43), set(range(256)))
            history.load_response(1, b"\x77")
            history.load_request(2, 0x48, 1)
            with self.assertRaises(NotLawful):
                history.load_response(2, b"\x01")
            history.load_response(2, b"\0")

    def test_each_law_has_its_units(self) -> None:
        for law, unit in [(Law.ATOMIC, 0), (Law.ATOMIC, 3), (Law.ATOMIC, 16), (Law.REGULAR, 8), (Law.FLAT, 2)]:
            with self.subTest(law=law, unit=unit), self.assertRaises(ValueError):
                History(law, unit=unit)
        for law in (Law.REGULAR, Law.FLAT):
            with self.subTest(law=law), History(law) as history, self.assertRaises(ValueError):
                history.forget(0)

    def test_random_runs_of_two_copies(self) -> None:
        """Two copies of a byte that a store changes at one moment are blamed by no law; if it changes them at two, the
        atomic law alone finds it."""
        for apart in (False, True):
            for law in (Law.REGULAR, Law.ATOMIC):
                with self.subTest(apart=apart, law=law):
                    blamed = [run_of_copies(random.Random(seed), law, apart) for seed in range(10)]
                    wanted = apart and law == Law.ATOMIC
                    self.assertEqual([it is not None for it in blamed], [wanted] * 10, blamed)

    def test_random_runs_of_a_memory(self) -> None:
        """A memory that takes effect at a hidden moment is never blamed; one that forgets stores is, soon."""
        for forgets in (False, True):
            for seed in range(20):
                with self.subTest(forgets=forgets, seed=seed):
                    blamed = run_of_memory(random.Random(seed), forgets)
                    self.assertEqual(blamed is not None, forgets, blamed)


def run_of_memory(chance: random.Random, forgets: bool) -> Optional[NotLawful]:
    """Loads and stores of a byte at three addresses, each of which takes effect at a moment of its own."""
    memory = [0, 0, 0]
    waiting: Dict[int, Tuple[str, int, int]] = {}  # requested, and of no effect yet: kind, address, byte
    done: Dict[int, Tuple[str, int]] = {}  # of effect, and not yet answered: kind, the byte of a load
    history = History()
    try:
        for number in range(400):
            address, byte = chance.randrange(3), chance.randrange(1, 256)
            kind = chance.choice(["load", "store"])
            waiting[number] = (kind, address, byte)
            if kind == "load":
                history.load_request(number, address, 1)
            else:
                history.store_request(number, address, bytes([byte]))
            for moved in some_of(chance, list(waiting)):
                kind, address, byte = waiting.pop(moved)
                if kind == "store" and not (forgets and chance.random() < 0.2):
                    memory[address] = byte
                done[moved] = (kind, memory[address])
            for answered in some_of(chance, list(done)):
                kind, byte = done.pop(answered)
                if kind == "load":
                    history.load_response(answered, bytes([byte]))
                else:
                    history.store_response(answered)
    except NotLawful as error:
        return error
    finally:
        history.close()
    return None


def run_of_copies(chance: random.Random, law: Law, apart: bool) -> Optional[NotLawful]:
    """Loads and stores of a byte that two ports have a copy of. A load reads one copy at a moment of its own; a store
    writes both at one moment, or each at its own."""
    copies = [0, 0]
    waiting: Dict[int, Tuple[str, List[int], int]] = {}  # kind, the copies that it still has to come to, byte
    done: Dict[int, Tuple[str, int]] = {}
    history = History(law)
    try:
        for number in range(1000):
            kind, byte, port = chance.choice(["load", "store"]), chance.randrange(1, 256), chance.randrange(2)
            if len(waiting) < 3:
                waiting[number] = (kind, [port] if kind == "load" else [0, 1], byte)
                if kind == "load":
                    history.load_request(number, 0x1000, 1)
                else:
                    history.store_request(number, 0x1000, bytes([byte]))
            for moved in some_of(chance, list(waiting)):
                kind, left, byte = waiting[moved]
                now = left[:1] if apart else left
                if kind == "store":
                    for copy in now:
                        copies[copy] = byte
                if left == now:
                    waiting.pop(moved)
                    done[moved] = (kind, copies[left[0]])
                else:
                    waiting[moved] = (kind, left[1:], byte)
            for answered in some_of(chance, list(done)):
                kind, byte = done.pop(answered)
                if kind == "load":
                    history.load_response(answered, bytes([byte]))
                else:
                    history.store_response(answered)
    except NotLawful as error:
        return error
    finally:
        history.close()
    return None


def some_of(chance: random.Random, numbers: List[int]) -> List[int]:
    return [number for number in numbers if chance.random() < 0.5]


if __name__ == "__main__":
    unittest.main()
