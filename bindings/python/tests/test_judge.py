"""The judges: their verdicts one by one, and over a cache that is right or has a bug."""

import array
import contextlib
import random
import time
import unittest
from typing import Any, Iterator, List, Optional, Tuple

import kroft
from kroft import Accepted, FlatJudge, Load, NotFlat, Reason, Store, StepJudge, Take, Value
from replay_memory import BUGS, Cache, Request, traffic
from whole import whole


class Causes(unittest.TestCase):
    @contextlib.contextmanager
    def fails(self, cause: Reason) -> Iterator[Any]:
        with self.assertRaises(NotFlat) as found:
            yield found
        self.assertEqual((found.exception.cause, found.exception.name), (cause, cause.name))


class Steps(Causes):
    def test_values_of_loads_beside_a_store(self) -> None:
        judge = StepJudge(bytes(256))
        judge.step(Load(7, 5), Accepted())
        judge.step(Store(5, b"\xaa\0\0\0", 0b0001), Accepted())
        judge.step(Load(8, 5), Accepted())
        self.assertEqual(list(judge.open()), [(7, bytes(4)), (8, b"\xaa\0\0\0")])
        self.assertEqual(judge.open_count(), 2)
        with self.fails(Reason.WRONG_DATA) as wrong:
            judge.step(Take(), Value(7, b"\xaa\0\0\0"))
        self.assertEqual((wrong.exception.owed, wrong.exception.got), (bytes(4), b"\xaa\0\0\0"))
        judge.step(Take(), Value(8, b"\xaa\0\0\0"))
        judge.step(Take(), Value(7, bytes(4)))
        self.assertEqual((judge.owed(7), judge.owed(70000)), (None, None))
        self.assertEqual(judge.memory(), bytes(20) + b"\xaa" + bytes(235))

    def test_causes(self) -> None:
        judge = StepJudge(bytes(256))
        judge.step(Load(7, 5), Accepted())
        judge.step(Load(7, 5), kroft.Refusal(kroft.Cause.TAG_IN_USE))
        steps: List[Tuple[Reason, kroft.Event, kroft.Answer]] = [
            (Reason.OUT_OF_RANGE, Load(8, 64), Accepted()),
            (Reason.OUT_OF_RANGE, Store(64, bytes(4)), Accepted()),
            (Reason.NO_LANES, Store(5, bytes(4), 0), Accepted()),
            (Reason.ID_IN_USE, Load(7, 6), Accepted()),
            (Reason.NOTHING_OWED, Take(), Value(8, bytes(4))),
            (Reason.OTHER_ANSWER, Load(8, 5), Value(8, bytes(4))),
            (Reason.OTHER_ANSWER, kroft.Drain(), Accepted()),
            (Reason.OTHER_ANSWER, Load(8, 5), kroft.Refusal(kroft.Cause.STRAY_WORD)),
        ]
        for cause, event, answer in steps:
            with self.subTest(cause=cause, event=event), self.fails(cause):
                judge.step(event, answer)

    def test_rows_that_are_none(self) -> None:
        judge = StepJudge(bytes(8))
        events: List[kroft.Event] = [Load(-1, 0), Load(65536, 0), Load(0, 2**32), Store(0, b"abc"), Store(0, b"abcd", 256)]
        for event in events:
            with self.subTest(event=event), self.assertRaises(ValueError):
                judge.step(event, Accepted())
        with self.assertRaises(ValueError):
            StepJudge(bytes(7))

    def test_classes_below_those_of_events_and_answers(self) -> None:
        class Traced(Load):
            block = lanes = place = 3  # (of the same names as members of other events)

        class Late(Value):
            pass

        judge = StepJudge(bytes(8))
        judge.step(Traced(7, 1), Accepted())
        judge.step(Take(), Late(7, bytes(4)))
        with self.assertRaises(TypeError):
            judge.step(Take(), None)  # type: ignore[arg-type]
        with self.assertRaises(TypeError):
            judge.step(Accepted(), Accepted())  # type: ignore[arg-type]

    def test_memory_without_words(self) -> None:
        with self.fails(Reason.OUT_OF_RANGE):
            StepJudge(b"").step(Load(0, 0), Accepted())


class Accesses(Causes):
    def test_wrong_data_says_what_was_owed(self) -> None:
        judge = FlatJudge()
        judge.load("a", 0x1000, 4)
        judge.store("a", 0x1000, b"\1\2\3\4", 0b0010)
        judge.load("b", 0x1000, 4)
        self.assertEqual([access.kind for access in judge.unanswered()], ["load", "store", "load"])
        judge.value("b", b"\0\2\0\0")
        with self.fails(Reason.WRONG_DATA) as wrong:
            judge.value("a", b"\0\2\0\0")
        self.assertEqual(str(wrong.exception), "load a of 4 bytes at 0x1000: wrong data: owed 00000000, got 00020000")
        with self.fails(Reason.NOTHING_OWED):
            judge.value("a", bytes(4))
        judge.stored("a")
        with self.fails(Reason.NOTHING_OWED):
            judge.stored("a")
        self.assertEqual(judge.unanswered(), [])
        self.assertEqual(judge.memory(0xFFF, 4), b"\0\0\2\0")

    def test_refusals_change_nothing(self) -> None:
        judge = FlatJudge(first=0x100, last=0x1FF)
        for cause, address, size in [(Reason.BAD_SIZE, 0x100, 0), (Reason.OUT_OF_RANGE, 0xFF, 1), (Reason.OUT_OF_RANGE, 0x1FF, 2)]:
            with self.fails(cause):
                judge.load(1, address, size)
        with self.fails(Reason.NO_LANES):
            judge.store(1, 0x100, bytes(4), 0xF0)
        judge.load(1, 0x1FF, 1)
        with self.fails(Reason.ID_IN_USE):
            judge.load(1, 0x100, 1)
        with self.assertRaises(ValueError):
            judge.value(1, bytes(2))
        judge.failed_load(1)
        with self.fails(Reason.NOTHING_OWED):
            judge.failed_load(1)
        judge.store(1, 0x100, b"x")
        with self.fails(Reason.FAILED):
            judge.failed_store(1)

    def test_what_is_no_data_changes_nothing(self) -> None:
        with FlatJudge() as judge:
            judge.load(1, 0, 4)
            for data in ("abcd", 4, None, [0, 0, 0, 0]):
                with self.subTest(data=data):
                    with self.assertRaises(TypeError):
                        judge.value(1, data)  # type: ignore[arg-type]
                    with self.assertRaises(TypeError):
                        judge.store(2, 0, data)  # type: ignore[arg-type]
            with self.assertRaises(ValueError):
                judge.value(1, bytes(5))
            self.assertEqual((judge.calls, len(judge.unanswered())), (1, 1))
            judge.value(1, bytes(4))

    def test_whole_numbers_of_any_class(self) -> None:
        with FlatJudge() as judge:
            judge.store(1, whole(0x101), b"abc", whole(0b101))
            judge.load(2, whole(0x100), whole(4))
            self.assertEqual(judge.memory(whole(0x100), whole(4)), b"\0a\0c")
            self.assertEqual([(it.address, it.size, it.enables) for it in judge.unanswered()], [(0x101, 3, 0b101), (0x100, 4, 0b1111)])
            judge.value(2, b"\0a\0c")
            judge.stored(1)
        self.assertIsNone(StepJudge(b"").owed(whole(5)))
        with self.assertRaises(TypeError):
            StepJudge(b"").owed(5.0)  # type: ignore[arg-type]
        with self.assertRaises(TypeError):
            FlatJudge(last=15.0)  # type: ignore[arg-type]
        FlatJudge(whole(0), whole(15)).load(1, 15, 1)

    def test_memory_has_no_other_bytes(self) -> None:
        judge = FlatJudge(first=0x100, last=0x1FF)
        self.assertEqual(judge.memory(0x100, 0x100), bytes(0x100))
        for address, size in ((0xFF, 1), (0x1FF, 2), (-1, 1)):
            with self.assertRaises(IndexError):
                judge.memory(address, size)

    def test_wide_items_are_counted_by_their_bytes(self) -> None:
        ones = memoryview(array.array("I", [0x11111111] * 4))
        with FlatJudge(image=lambda address: memoryview(array.array("I", [0x22222222] * 1024))) as judge:
            judge.store(1, 0, ones)
            judge.stored(1)
            judge.post(1, 16, ones)
            self.assertEqual(judge.memory(0, 36), b"\x11" * 32 + b"\x22" * 4)
            judge.load(1, 0, 4)
            with self.assertRaises(ValueError):
                judge.value(1, ones)
            with self.fails(Reason.WRONG_DATA) as wrong:
                judge.value(1, memoryview(array.array("I", [0x11111110])))
            self.assertEqual(wrong.exception.got, b"\x10\x11\x11\x11")
            judge.load(1, 0, 16)
            judge.value(1, ones)
        steps = StepJudge(ones)
        self.assertEqual(steps.memory(), b"\x11" * 16)

    def test_a_lost_answer_is_seen_at_the_end(self) -> None:
        with self.assertRaises(kroft.Unanswered) as lost:
            with FlatJudge() as judge:
                judge.load(1, 0, 4)
                judge.load(2, 4, 4)
                judge.value(1, bytes(4))
        self.assertEqual([access.id for access in lost.exception.accesses], [2])

    def test_image(self) -> None:
        with FlatJudge(image=lambda address: bytes([address >> 12 & 255]) * 4096) as judge:
            judge.load(1, 0x5FFE, 4)
            judge.value(1, b"\5\5\6\6")
            judge.load(2, 2**64 - 64, 64)
            judge.value(2, b"\xff" * 64)
            with self.fails(Reason.OUT_OF_RANGE):
                judge.load(3, 2**64 - 63, 64)

    def test_sizes_and_places(self) -> None:
        """What is stored is loaded again; each wrong byte is seen if it is enabled, and only then."""
        chance = random.Random(1)
        for size in list(range(1, 20)) + [64, 300]:
            for place in range(5):
                judge, address, enables = FlatJudge(), 0x1FF0 + place, chance.getrandbits(size) | 1
                data = bytes(chance.randrange(1, 256) for _ in range(size))
                right = bytes(byte if enables >> i & 1 else 0 for i, byte in enumerate(data))
                judge.store(1, address, data, enables)
                self.assertEqual(judge.memory(address - 1, size + 2), b"\0" + right + b"\0")
                for i in range(size):
                    wrong = bytearray(right)
                    wrong[i] ^= 16
                    judge.load(1, address, size, enables)
                    if enables >> i & 1:
                        with self.fails(Reason.WRONG_DATA) as found:
                            judge.value(1, wrong)
                        self.assertEqual(found.exception.owed, right)
                    else:
                        judge.value(1, wrong)

    def test_more_words_owed_than_one_table_has_tags(self) -> None:
        with FlatJudge() as judge:
            for id in range(5000):
                judge.post(id, 64, id.to_bytes(2, "little"))
                judge.load(id, 64, 64)
            for id in reversed(range(5000)):
                judge.value(id, id.to_bytes(64, "little"))
            tables = len(judge._tables)
            for id in range(5000):
                judge.load(id, 64, 64)
            self.assertEqual(len(judge._tables), tables)
            for id in range(5000):
                judge.failed_load(id)

    def test_sizes_beyond_memory_are_told_before_anything_is_made_of_them(self) -> None:
        judge = FlatJudge(last=0xFFF)
        for call, size in enumerate((2**36, 2**70), 1):
            with self.fails(Reason.OUT_OF_RANGE) as found:
                judge.load(1, 0, size)
            self.assertEqual(found.exception.access, kroft.Access("load", 1, 0, size, 0, call))
            self.assertEqual(str(found.exception), f"load 1 of {size} bytes at 0x0: bytes outside of memory")
        with self.fails(Reason.BAD_SIZE):
            judge.load(1, 0, -(2**70), -1)
        for store in (judge.store, judge.post):
            with self.fails(Reason.OUT_OF_RANGE):
                store(1, 2**70, b"a", 1)
        self.assertEqual((judge.calls, judge.unanswered()), (5, []))

    def test_a_large_access_costs_as_many_small_ones(self) -> None:
        def seconds(count: int) -> float:
            data, judge = bytes(range(256)) * (count // 256), FlatJudge()
            begun = time.process_time()
            judge.store(1, 2, data)
            judge.load(1, 2, count)
            judge.value(1, data)
            ended = time.process_time()
            self.assertEqual(judge.memory(2, count), data)
            return ended - begun

        few, many = seconds(128 << 10), seconds(1 << 20)
        print(f"a store and a load of a MiB in {many:.1f} s of processor time")
        self.assertLess(many, 16 * few)

    def test_tags_are_used_again(self) -> None:
        with FlatJudge() as judge:
            for id in range(5000):  # of 16 words: 80,000, and a table has 65,536 tags
                judge.load(id, 64, 64)
                judge.value(id, bytes(64))
            self.assertEqual(len(judge._tables), 1)


Wrong = Optional[kroft.KroftError]


def told(judge: FlatJudge, request: Request) -> None:
    if request.data:
        judge.store(request.id, request.address, request.data, request.enables)
    else:
        judge.load(request.id, request.address, request.size, request.enables)


def run(cache: Cache, requests: List[Request]) -> Tuple[int, Wrong]:
    """How many requests were accepted, and what was wrong first."""
    at, idle = 0, 0
    try:
        with FlatJudge() as judge:
            while idle < 100:
                idle += 1
                if at < len(requests) and cache.accept(requests[at]):
                    told(judge, requests[at])
                    at, idle = at + 1, 0
                answer = cache.tick()
                if answer is not None:
                    idle = 0
                    if answer[0].data:
                        judge.stored(answer[0].id)
                    else:
                        judge.value(answer[0].id, answer[1])
    except kroft.KroftError as error:
        return at, error
    return at, None


def slowness() -> float:
    """By how much this machine is slower just now than one that adds a million numbers in a twentieth of a second: 1 if it isn't."""
    begun, total = time.process_time(), 0
    for number in range(1000000):
        total += number
    return max(1.0, (time.process_time() - begun) / 0.05)


class Designs(unittest.TestCase):
    def test_right_cache_at_a_million_accesses_a_minute(self) -> None:
        count, slower = 25000, slowness()
        begun = time.process_time()
        for seed in (1, 2):
            cache = Cache()
            self.assertEqual(run(cache, traffic(seed, count)), (count, None))
            self.assertGreater(min(cache.hits_under_miss, cache.secondary_misses), count // 100)
            self.assertGreater(cache.refilled, count // 1000)
        seconds = time.process_time() - begun
        print(f"{2 * count} accesses of a right cache in {seconds:.1f} s of processor time")
        self.assertLess(seconds, 2 * count * 60 / 1e6 * max(slower, slowness()))

    def test_bugs_are_found(self) -> None:
        requests = {seed: traffic(seed, 15000) for seed in (1, 2, 3)}
        for bug in BUGS:
            for seed in requests:
                with self.subTest(bug=bug, seed=seed):
                    count, wrong = run(Cache(bug), requests[seed])
                    if bug == "lost answer":
                        self.assertIsInstance(wrong, kroft.Unanswered)
                    else:
                        self.assertIsInstance(wrong, NotFlat)
                        self.assertIs(getattr(wrong, "cause", None), Reason.WRONG_DATA)
            print(f"{bug}: after {count} accesses: {wrong}")


if __name__ == "__main__":
    unittest.main()
