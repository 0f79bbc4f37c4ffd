"""The exceptions: each goes to another process and comes back whole."""

import concurrent.futures
import copy
import pickle
import unittest
from typing import Callable, List

import kroft
from kroft import Access, Cause, HistoryFault, KroftError, Reason, SeenStore, ShapeFault

ACCESS = Access("load", 7, 0x1000, 4, 0b1111, 3)


class Named(kroft.Refused):
    """One of a class below, made in another way."""

    def __init__(self, name: str, cause: Cause) -> None:
        super().__init__(cause)
        self.of = name


def each() -> List[KroftError]:
    wrong = kroft.NotLawful(HistoryFault.WRONG_BYTE, "load 1 returns 5a", 0, frozenset({0}))
    wrong.stored, wrong.overwritten_by = SeenStore(2, 5), SeenStore(3, 8)
    return [
        KroftError("a", 1),
        kroft.LibraryMissing("libkroft.so is nowhere"),
        kroft.Refused(Cause.TAG_IN_USE),
        kroft.BadShape(ShapeFault.SETS),
        kroft.Closed("the machine was closed"),
        kroft.InRounds("rounds are under way"),
        kroft.NoRounds("no rounds were begun"),
        kroft.NotFlat(Reason.WRONG_DATA, ACCESS, b"\0\0", b"\0\1"),
        kroft.NotFlat(Reason.NO_STEP),
        kroft.Unanswered([ACCESS]),
        wrong,
        kroft.NotLawful(HistoryFault.NOT_OPEN, "store 1 is answered"),
        kroft.Undecided("load 1 returns 5a", 0x1000),
        kroft.Undecided("load 1 at 0x1000"),
        Named("first", Cause.NO_LANES),
    ]


def raised(place: int) -> None:
    raise each()[place]


class Errors(unittest.TestCase):
    def same(self, error: BaseException, given: KroftError) -> None:
        self.assertIsNot(error, given)
        self.assertIs(type(error), type(given))
        self.assertEqual((str(error), error.args, vars(error)), (str(given), given.args, vars(given)))

    def test_every_exception_is_among_these(self) -> None:
        named = {it for it in vars(kroft).values() if isinstance(it, type) and issubclass(it, KroftError)}
        self.assertEqual(named - {type(it) for it in each()}, set())

    def test_copied_and_pickled(self) -> None:
        ways: List[Callable[[KroftError], KroftError]] = [copy.copy, copy.deepcopy]
        for protocol in range(pickle.HIGHEST_PROTOCOL + 1):
            ways.append(lambda it, protocol=protocol: pickle.loads(pickle.dumps(it, protocol)))  # type: ignore[misc]
        for given in each():
            for way in ways:
                with self.subTest(error=repr(given)):
                    self.same(way(given), given)

    def test_from_another_process(self) -> None:
        with concurrent.futures.ProcessPoolExecutor(1) as pool:
            for place, given in enumerate(each()):
                with self.subTest(error=repr(given)):
                    with self.assertRaises(KroftError) as found:
                        pool.submit(raised, place).result(60)
                    found.exception.__cause__ = None
                    self.same(found.exception, given)


if __name__ == "__main__":
    unittest.main()
