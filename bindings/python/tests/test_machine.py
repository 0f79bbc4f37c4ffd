"""The machine, driven as a Python programmer would."""

import array
import copy
import gc
import pickle
import random
import resource
import sys
import threading
import unittest
from typing import Any, Callable, List, Tuple, Type
from unittest import mock

import kroft
from kroft import (
    Accepted,
    Arrival,
    Arrive,
    Cause,
    Drain,
    Evict,
    FrameWord,
    Load,
    Lookup,
    Machine,
    Outcome,
    Prefetch,
    Process,
    Queued,
    Read,
    Refused,
    Serve,
    Shape,
    StepJudge,
    Store,
    Value,
    Write,
)
from whole import whole

SMALL = Shape(ways=2, block_words=4, regs=8, depth=4, words=64, sets=4, banks=4, bank_queue=8, write_queue=8, replies=8)


class Machines(unittest.TestCase):
    def test_a_load_beside_a_store(self) -> None:
        with Machine(SMALL) as machine:
            machine.load(7, 5)
            machine.store(5, b"\xaa\1\2\3", 0b0001)
            machine.load(8, 5)
            with self.assertRaises(Refused) as refused:
                machine.load(7, 6)
            self.assertEqual((refused.exception.cause, refused.exception.name), (Cause.TAG_IN_USE, "TAG_IN_USE"))
            self.assertCountEqual(machine.values(), [Value(7, bytes(4)), Value(8, b"\xaa\0\0\0")])
            self.assertEqual(machine.weight, 0)
            self.assertFalse(machine.settled)
            self.assertEqual(machine.bank_word(5), bytes(4))
            machine.evict(1)
            list(machine.pump())
            self.assertTrue(machine.settled)
            self.assertEqual(machine.bank_word(5), b"\xaa\0\0\0")
            self.assertEqual(machine.memory(), bytes(20) + b"\xaa" + bytes(235))

    def test_what_a_miss_shows(self) -> None:
        with Machine(SMALL) as machine:
            machine.load(7, 5)
            machine.store(5, b"\xaa\1\2\3", 0b0001)
            machine.load(8, 5)
            busy = [slot for slot, register in enumerate(machine.registers()) if register.valid]
            self.assertEqual(len(busy), 1)
            self.assertEqual(machine.register(busy[0]).block, 1)
            field = machine.field(busy[0], 1)
            self.assertTrue(field.send)
            self.assertEqual((field.targets, field.tag, field.code), (2, 7, 0b0001))
            first, second = machine.targets(busy[0], 1)
            self.assertEqual((first.tag, first.lanes), (7, 0))
            self.assertEqual((second.tag, second.lanes, second.held[0]), (8, 0b0001, 0xAA))
            self.assertGreater(machine.weight, 0)
            for wrong in [(8, 0), (0, 4), (-1, 0), (2**32, 0)]:
                with self.subTest(wrong=wrong), self.assertRaises(IndexError):
                    machine.field(*wrong)
            with self.assertRaises(IndexError):
                machine.bank_word(64)

    def test_what_the_parts_show(self) -> None:
        image = bytes(range(256))
        with Machine(SMALL, image) as machine:
            self.assertEqual(machine.frames(), [None] * 8)
            self.assertEqual((machine.stack(), machine.queue(), machine.replies()), ([], [], []))
            self.assertEqual(machine.find(5), Lookup.MISS)
            machine.load(7, 5)  # block 1, in set 1; its words 4 to 7 lie at place 1 of the banks 0 to 3
            self.assertEqual(machine.frames(), [None, None, 1, None, None, None, None, None])
            self.assertEqual(machine.find(5), Lookup.JOIN)
            self.assertEqual([machine.bank_commands(bank) for bank in range(4)], [[Read(0, i, 1)] for i in range(4)])
            machine.apply(Serve(1))
            self.assertEqual(machine.bank_answers(1), [Arrival(0, 1, image[20:24])])
            machine.apply(Arrive(1, 0))
            self.assertEqual((machine.bank_answers(1), machine.stack()), ([], [Arrival(0, 1, image[20:24])]))
            machine.apply(Process(0))
            self.assertEqual((machine.stack(), machine.replies()), ([], [Value(7, image[20:24])]))
            self.assertEqual(machine.find(5), Lookup.HIT)
            machine.store(5, b"\xaa\xbb\xcc\xdd", 0b0110)
            self.assertEqual(machine.frame_word(2, 1), FrameWord(b"\x14\xbb\xcc\x17", 0b0110))
            list(machine.pump())
            machine.evict(1)
            self.assertEqual(machine.frame(2), None)
            (queued,) = machine.queue()
            self.assertEqual(queued, Queued(1, 5, queued.word, 0b0110))
            self.assertEqual(queued.word[1:3], b"\xbb\xcc")
            machine.apply(Drain())
            self.assertEqual(machine.bank_commands(1), [Write(1, queued.word, 0b0110)])
            with self.assertRaises(IndexError):
                machine.find(64)
            with self.assertRaises(IndexError):
                machine.frame(8)
            with self.assertRaises(IndexError):
                machine.frame_word(2, 0)
            for bank in (-1, 4):
                with self.assertRaises(IndexError):
                    machine.bank_commands(bank)
                with self.assertRaises(IndexError):
                    machine.bank_answers(bank)

    def test_rounds(self) -> None:
        """As `./kroft drive --summary` counts them (examples/README.md, tests/runs/drive.runs)."""
        usual = Shape(2, 4, 4, 4, 64, 4, 4, 8, 8, 8)
        with Machine(usual) as machine:
            first: List[kroft.Request] = [Load(1, 0), Load(2, 4), Load(3, 8)]
            counts = machine.drive(first)
            self.assertEqual((counts.rounds, counts.accepted, counts.misses, counts.registers), (38, 3, 3, 3))
            self.assertEqual((counts.values, counts.waited, counts.longest), (3, 63, 31))
            self.assertEqual(sum(counts.lost.values()), 0)
            counts = machine.drive([Load(1, 0), Load(1, 16), Load(1, 16), Load(1, 64)])
            self.assertEqual((counts.hits, counts.misses, counts.denied), (2, 1, 1))
            self.assertEqual(counts.lost[Cause.TAG_IN_USE], 10)
            self.assertEqual(machine.weight, 0)
            for requests, latency in [([Drain()], 10), ([Load(1, 0)], 1001), ([Load(1, 0)], -1)]:
                with self.assertRaises(ValueError):
                    machine.drive(requests, latency)  # type: ignore[arg-type]
        for latency, busy, rounds in [(5, 1, 11), (5, 2, 14), (5, None, 26), (9, 2, 18)]:
            with Machine(usual._replace(banks=1)) as machine:
                self.assertEqual(machine.drive([Load(1, 0)], latency, busy).rounds, rounds)

    def test_rounds_one_at_a_time(self) -> None:
        """A load that misses is accepted in round 1, its word's command begins in round 2, and with banks that serve two rounds
        after that it is answered in round 4; the block's other words come in rounds 5 to 7."""
        with Machine(SMALL, bytes([5, 6, 7, 8]) * SMALL.words) as machine:
            machine.begin_rounds(latency=2)
            accepted = kroft.Round(1, Outcome.ACCEPTED, None, Lookup.MISS, None)
            self.assertEqual(machine.round(Load(tag=1, at=0)), accepted)
            lost = kroft.Round(2, Outcome.LOST, Cause.TAG_IN_USE, Lookup.JOIN, None)
            self.assertEqual(machine.round(Load(tag=1, at=0)), lost)
            self.assertEqual(machine.round(), kroft.Round(3, Outcome.IDLE, None, None, None))
            value = Value(tag=1, word=bytes([5, 6, 7, 8]))
            self.assertEqual(machine.round(Evict(3)), kroft.Round(4, Outcome.DENIED, Cause.NOT_PRESENT, None, value))
            self.assertEqual([machine.round().answered for _ in range(3)], [None, None, None])
            counts = machine.round_counts()
            self.assertEqual((counts.rounds, counts.accepted, counts.denied, counts.values, counts.waited), (7, 1, 1, 1, 3))
            self.assertEqual((counts.lost[Cause.TAG_IN_USE], sum(counts.lost.values())), (1, 1))
            with self.assertRaises(kroft.InRounds):
                machine.load(1, 0)
            with self.assertRaises(kroft.InRounds):
                list(machine.pump())
            with self.assertRaises(kroft.InRounds):
                machine.drive([])
            with self.assertRaises(ValueError):
                machine.round(Drain())  # type: ignore[arg-type]
            with self.assertRaises(ValueError):
                machine.begin_rounds(1001)
            self.assertEqual((machine.round_counts().rounds, machine.weight), (7, 0))
            machine.end_rounds()
            with self.assertRaises(kroft.NoRounds):
                machine.round()
            with self.assertRaises(kroft.NoRounds):
                machine.round_counts()
            with self.assertRaises(kroft.NoRounds):
                machine.end_rounds()
            machine.load(1, 0)
            self.assertEqual(list(machine.values()), [value])

    def test_shapes(self) -> None:
        faults = kroft.ShapeFault
        for shape, image, fault in [
            (SMALL._replace(ways=17), None, faults.WAYS),
            (SMALL._replace(block_words=0), None, faults.BLOCK_WORDS),
            (SMALL._replace(regs=65), None, faults.REGS),
            (SMALL._replace(depth=0), None, faults.DEPTH),
            (SMALL._replace(words=63), None, faults.WORDS),
            (SMALL._replace(sets=0), None, faults.SETS),
            (SMALL._replace(banks=17), None, faults.BANKS),
            (SMALL._replace(bank_queue=0), None, faults.BANK_QUEUE),
            (SMALL._replace(write_queue=3), None, faults.WRITE_QUEUE),
            (SMALL._replace(replies=65), None, faults.REPLIES),
            (SMALL, bytes(252), faults.IMAGE),
            (SMALL, b"", faults.IMAGE),
        ]:
            with self.subTest(fault=fault), self.assertRaises(kroft.BadShape) as bad:
                Machine(shape, image)
            self.assertEqual((bad.exception.cause, bad.exception.name), (fault, fault.name))
        for wrong in (SMALL._replace(ways=2**32 + 2), SMALL._replace(words=2**62), SMALL._replace(words=-4)):
            with self.subTest(shape=wrong), self.assertRaises(ValueError):
                Machine(wrong)
        for ways, block_words, regs, depth in [(1, 4, 1, 1), (8, 16, 10, 16), (3, 2, 7, 5)]:
            shape = Shape(ways, block_words, regs, depth, 64, 4, 4, 64, 64, 8)
            with self.subTest(shape=shape), Machine(shape):
                pass

    def test_numbers_are_judged_before_zeros_are_made_for_them(self) -> None:
        """Also where there is too little memory for as many zeros as the words would be."""
        faults = kroft.ShapeFault
        most = 2**32 - 1
        before = resource.getrlimit(resource.RLIMIT_AS)
        resource.setrlimit(resource.RLIMIT_AS, (4_000_000 << 10, before[1]))
        try:
            for shape, fault in [
                (Shape(ways=17, words=most), faults.WAYS),
                (Shape(words=most), faults.WORDS),
                (Shape(block_words=1, words=most, banks=17), faults.BANKS),
                (Shape(block_words=3, words=most, replies=0), faults.REPLIES),
            ]:
                with self.subTest(shape=shape), self.assertRaises(kroft.BadShape) as bad:
                    Machine(shape)
                self.assertEqual(bad.exception.cause, fault)
        finally:
            resource.setrlimit(resource.RLIMIT_AS, before)

    def test_too_little_memory_is_a_memory_error(self) -> None:
        """Where there is none for the zeros, and where there is none for the machine."""
        before = resource.getrlimit(resource.RLIMIT_AS)
        with open("/proc/self/statm", encoding="ascii") as statm:
            taken = int(statm.read().split()[0]) * resource.getpagesize()
        resource.setrlimit(resource.RLIMIT_AS, (taken + (200 << 20), before[1]))
        try:
            for words in (2**25, 2**28):
                with self.subTest(words=words), self.assertRaises(MemoryError):
                    Machine(Shape(words=words))
        finally:
            resource.setrlimit(resource.RLIMIT_AS, before)
        self.assertFalse(hasattr(kroft.ShapeFault, "OUT_OF_MEMORY"))

    def test_classes_below_those_of_events(self) -> None:
        class Traced(Load):
            word = b"name"  # (of the same name as a member of a store)

        with Machine(SMALL) as machine:
            self.assertEqual(machine.apply(Traced(7, 5)), Accepted())
            self.assertEqual(machine.drive([Traced(8, 5)]).accepted, 1)
            for wrong in (1, None, Accepted(), "load"):
                with self.subTest(wrong=wrong):
                    with self.assertRaises(TypeError):
                        machine.apply(wrong)  # type: ignore[arg-type]
                    with self.assertRaises(TypeError):
                        machine.drive([Load(1, 1), wrong])  # type: ignore[list-item]
            self.assertEqual(machine.drive([]).accepted, 0)
            with self.assertRaises(TypeError):
                Machine(SMALL, 256)  # type: ignore[arg-type]
            with self.assertRaises(TypeError):
                machine.store(1, 4)  # type: ignore[arg-type]

    def are_refused(
        self, wrong: List[Tuple[kroft.Event, str]], error: Type[Exception], machine: Machine, judge: StepJudge
    ) -> None:
        """That each of these events is an error with its text, in every call that takes one."""
        for event, said in wrong:
            with self.subTest(event=event):
                with self.assertRaisesRegex(error, f"^{said}$"):
                    machine.apply(event)
                with self.assertRaisesRegex(error, f"^{said}$"):
                    machine.drive([Load(1, 1), event])  # type: ignore[list-item]
                with self.assertRaisesRegex(error, f"^{said}$"):
                    judge.step(event, Accepted())

    def test_a_member_that_is_out_of_its_range_is_named(self) -> None:
        most = 2**32 - 1
        wrong: List[Tuple[kroft.Event, str]] = [
            (Load(65536, 0), "tag is 0 to 65535, not 65536"),
            (Load(-1, 0), "tag is 0 to 65535, not -1"),
            (Load(0, -1), f"at is 0 to {most}, not -1"),
            (Store(5, b"abcd", 256), "lanes is 0 to 255, not 256"),
            (Store(2**32, b"abcd"), f"at is 0 to {most}, not {2**32}"),
            (Store(5, b"abc"), "a word is four bytes, not 3"),
            (Prefetch(-5), f"at is 0 to {most}, not -5"),
            (Evict(2**32), f"block is 0 to {most}, not {2**32}"),
            (Serve(-1), f"bank is 0 to {most}, not -1"),
            (Arrive(0, 2**64), f"place is 0 to {most}, not {2**64}"),
            (Process(-1), f"place is 0 to {most}, not -1"),
        ]
        judge = StepJudge(bytes(256))
        with Machine(SMALL) as machine:
            self.are_refused(wrong, ValueError, machine, judge)
            with self.assertRaisesRegex(ValueError, "^tag is 0 to 65535, not 65536$"):
                judge.step(kroft.Take(0), Value(65536, b"abcd"))
            self.assertEqual(machine.apply(Load(65535, 0)), Accepted())

    def test_a_member_that_is_no_whole_number_is_named(self) -> None:
        wrong: List[Tuple[kroft.Event, str]] = [
            (Load(1.5, 0), "tag is a whole number, not 1.5"),  # type: ignore[arg-type]
            (Load("1", 0), "tag is a whole number, not '1'"),  # type: ignore[arg-type]
            (Store(0, b"1234", 1.0), "lanes is a whole number, not 1.0"),  # type: ignore[arg-type]
            (Serve(0.0), "bank is a whole number, not 0.0"),  # type: ignore[arg-type]
            (Process(None), "place is a whole number, not None"),  # type: ignore[arg-type]
        ]
        judge = StepJudge(bytes(256))
        with Machine(SMALL) as machine:
            self.are_refused(wrong, TypeError, machine, judge)
            calls: List[Callable[[Any], object]] = [
                lambda it: machine.load(it, 0),
                lambda it: machine.load(0, it),
                lambda it: machine.store(it, b"1234"),
                lambda it: machine.store(0, b"1234", it),
                machine.prefetch,
                machine.evict,
                lambda it: judge.step(kroft.Take(), kroft.Refusal(it)),
            ]
            for call in calls:
                for given in ("1", 1.0, None):
                    with self.assertRaises(TypeError):
                        call(given)
            self.assertEqual(machine.weight, 0)

    def test_whole_numbers_of_any_class(self) -> None:
        with Machine(kroft.Shape(words=whole(64))) as machine:  # type: ignore[arg-type]
            self.assertEqual(machine.shape.words, 64)
            machine.load(whole(1), whole(4))
            self.assertEqual(machine.find(whole(4)), kroft.Lookup.JOIN)
            views: List[Callable[[Any], object]] = [machine.find, machine.bank_word, machine.register, machine.frame]
            views += [machine.bank_commands, machine.bank_answers, lambda it: machine.field(it, 0), lambda it: machine.field(0, it)]
            for number in (2**32, 2**32 + 4, -(2**32), -1):
                for view in views:
                    for it in (number, whole(number)):
                        with self.assertRaises(IndexError):
                            view(it)
                with self.assertRaises(ValueError):
                    machine.begin_rounds(whole(number))
                with self.assertRaises(ValueError):
                    machine.drive([], 10, whole(number))
            for view in views:
                for given in ("7", 1.0, None):
                    with self.assertRaises(TypeError):
                        view(given)
            with self.assertRaises(TypeError):
                machine.begin_rounds(10.0)  # type: ignore[arg-type]
            machine.begin_rounds(whole(2), whole(1))

    def test_wide_items_are_counted_by_their_bytes(self) -> None:
        words = memoryview(array.array("I", [0x11111111] * SMALL.words))
        with Machine(SMALL, words) as machine:
            self.assertEqual(machine.memory(), b"\x11" * 256)
            machine.store(1, memoryview(array.array("H", [0x2222] * 2)))
            with self.assertRaises(ValueError):
                machine.store(1, array.array("I", [1, 2, 3, 4]))
            list(machine.pump())
            self.assertEqual(machine.frame_word(0, 1).word, b"\x22" * 4)

    def test_a_closed_machine_says_so(self) -> None:
        machine = Machine(SMALL)
        machine.close()
        machine.close()
        self.assertTrue(machine.closed)
        with self.assertRaises(kroft.Closed):
            machine.load(1, 1)
        with self.assertRaises(kroft.Closed):
            list(machine.pump())

    def test_a_machine_is_not_copied(self) -> None:
        with Machine(SMALL) as machine:
            copies: List[Callable[[object], object]] = [copy.copy, copy.deepcopy, pickle.dumps]
            for made in copies:
                with self.subTest(made=made), self.assertRaises(TypeError):
                    made(machine)
            machine.load(1, 1)

    def test_a_class_below_that_opens_none(self) -> None:
        class Hollow(Machine):
            def __init__(self) -> None:
                pass

        with mock.patch.object(sys, "unraisablehook") as told:
            Hollow()
            gc.collect()
        told.assert_not_called()

    def test_threads_wait_for_each_other(self) -> None:
        failures: List[Exception] = []
        machine = Machine(Shape(words=1024))

        def watch() -> None:
            try:
                while machine.weight >= 0:
                    pass
            except kroft.Closed:
                pass
            except Exception as error:
                failures.append(error)

        watchers = [threading.Thread(target=watch) for _ in range(3)]
        for thread in watchers:
            thread.start()
        for n in range(20):
            counts = machine.drive([Load(tag, tag * 37 % 1024) for tag in range(1000)])
            self.assertEqual(counts.values, 1000)
            self.assertTrue(all(thread.is_alive() for thread in watchers), n)
            self.assertFalse(machine.closed)
        machine.close()
        for thread in watchers:
            thread.join()
        self.assertEqual(failures, [])

    def test_machines_are_given_back(self) -> None:
        for _ in range(200):
            Machine(Shape(words=262144))
        gc.collect()
        with open("/proc/self/statm", encoding="ascii") as statm:
            pages = int(statm.read().split()[1])
        self.assertLess(pages * 4096, 150 << 20)  # one has more than a megabyte

    def test_a_random_run_is_flat(self) -> None:
        """Every answer of the machine to random events is one of flat memory, and memory is flat memory's at last."""
        chance = random.Random(5)
        image = chance.getrandbits(2048).to_bytes(256, "little")
        judge, told = StepJudge(image), 0
        with Machine(SMALL, image) as machine:
            for n in range(3000):
                event = self.random_event(chance, n)
                answer = machine.apply(event)
                judge.step(event, answer)
                told += isinstance(answer, Accepted)
                for _ in range(chance.randrange(4)):
                    pumped = next(machine.pump(), None)
                    if pumped:
                        judge.step(*pumped)
            for block in range(16):
                for pair in machine.pump():
                    judge.step(*pair)
                machine.apply(Evict(block))
            for pair in machine.pump():
                judge.step(*pair)
            self.assertTrue(machine.settled)
            self.assertEqual(machine.memory(), judge.memory())
        self.assertEqual(list(judge.open()), [])
        self.assertGreater(told, 1000)

    @staticmethod
    def random_event(chance: random.Random, n: int) -> kroft.Event:
        at = chance.randrange(64)
        events: List[kroft.Event] = [
            Load(n, at),
            Store(at, chance.getrandbits(32).to_bytes(4, "little"), chance.randrange(1, 16)),
            Prefetch(at),
            Evict(at // 4),
        ]
        return chance.choices(events, (5, 5, 1, 1))[0]


if __name__ == "__main__":
    unittest.main()
