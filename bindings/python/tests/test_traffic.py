"""Traffic: against the generator written down once more, and what holds of each access."""

import itertools
import unittest
from typing import Dict, List, Tuple

import kroft
from kroft.library import version
from whole import whole

MASK = 2**64 - 1


class Pcg32:
    """PCG XSH RR 64/32, as its author publishes it."""

    def __init__(self, state: int, stream: int) -> None:
        self.increment = (stream << 1 | 1) & MASK
        self.state = state + self.increment & MASK
        self.step()

    def step(self) -> None:
        self.state = self.state * 6364136223846793005 + self.increment & MASK

    def word(self) -> int:
        state = self.state
        self.step()
        mixed, turned = ((state >> 18 ^ state) >> 27) & 0xFFFFFFFF, state >> 59
        return (mixed >> turned | mixed << (32 - turned)) & 0xFFFFFFFF


def mix(state: int) -> int:
    """The word of SplitMix64 at a state, as its author publishes it."""
    state = state + 0x9E3779B97F4A7C15 & MASK
    state = (state ^ state >> 30) * 0xBF58476D1CE4E5B9 & MASK
    state = (state ^ state >> 27) * 0x94D049BB133111EB & MASK
    return state ^ state >> 31


Plan = Dict[str, int]
LINES: Plan = dict(base=0x1000, blocks=24, block_bytes=64, widest=16, sets=8, conflicts=64, burst=4, requesters=3, stores=100, partial=90)
BYTES: Plan = dict(base=2**64 - 64 * 8, blocks=8, block_bytes=64, widest=64, sets=2, conflicts=128, burst=5, requesters=7, apart=1, stores=256, partial=0)
ONE: Plan = dict(base=0, blocks=1, block_bytes=1, widest=1, requesters=1, stores=200, partial=256)
FEW: Plan = dict(LINES, blocks=100, conflicts=200, words=3, blocks_of_set=5)
FEW_BYTES: Plan = dict(BYTES, widest=8, words=1, blocks_of_set=4)
PLANS = (LINES, BYTES, ONE, FEW, FEW_BYTES)


def expected(plan: Plan, seed: int, number: int) -> Tuple[int, int, int, int, int, bytes]:
    """Requester, turn, address, size, enables and data, by the words of kroft.h and the order of the draws."""
    p = dict(sets=1, conflicts=0, burst=1, apart=0, words=0, blocks_of_set=0)
    p.update(plan)
    burst = number // p["burst"]
    of_burst, own = Pcg32(mix(mix(seed) ^ burst), burst), Pcg32(mix(mix(MASK - seed) ^ number), number)
    used = p["words"] * p["widest"] or p["block_bytes"]
    block = of_burst.word()
    if of_burst.word() % 256 < p["conflicts"]:
        block = block % (p["blocks_of_set"] or -(-p["blocks"] // p["sets"])) * p["sets"]
    else:
        block %= p["blocks"]
    place, pick = own.word(), own.word()
    chosen = own.word() | own.word() << 32
    requester = number % p["requesters"]
    if p["apart"]:
        size = 1
        offset = place % (used // p["requesters"]) * p["requesters"] + requester
    else:
        size = max(1, p["widest"] >> pick % 4)
        offset = place % (used // size) * size
    enables = 0
    if pick // 4 % 256 < p["stores"]:
        enables = (1 << size) - 1
        if pick // 1024 % 256 < p["partial"]:
            enables &= chosen
    data = b"".join(own.word().to_bytes(4, "little") for _ in range(16))
    address = p["base"] + block * p["block_bytes"] + offset
    return requester, number // p["requesters"], address, size, enables, data[:size] if enables else b""


def told(access: kroft.TrafficAccess) -> Tuple[int, int, int, int, int, bytes]:
    return access.requester, access.turn, access.address, access.size, access.enables, access.data


class Accesses(unittest.TestCase):
    def test_the_published_first_words(self) -> None:
        generator = Pcg32(42, 54)
        self.assertEqual([generator.word() for _ in range(3)], [0xA15C02B7, 0x7B47F409, 0xBA1D3330])
        self.assertEqual([mix(0), mix(1234567)], [0xE220A8397B1DCDAF, 6457827717110365317])

    def test_each_access_is_drawn_as_described(self) -> None:
        for plan in PLANS:
            for seed in (0, 1, 0x5EED, MASK):
                traffic = kroft.Traffic(seed, **plan)  # type: ignore[arg-type]
                for number in [*range(300), 2**32 - 1, 2**32, MASK]:
                    with self.subTest(plan=plan, seed=seed, number=number):
                        self.assertEqual(told(traffic[number]), expected(plan, seed, number))

    def test_what_a_plan_promises(self) -> None:
        for plan in PLANS:
            for access in itertools.islice(kroft.Traffic(7, **plan), 3000):  # type: ignore[arg-type]
                first, past = plan["base"], plan["base"] + plan["blocks"] * plan["block_bytes"]
                self.assertTrue(first <= access.address and access.address + access.size <= past)
                self.assertEqual((access.address - first) // plan["block_bytes"], (access.address + access.size - 1 - first) // plan["block_bytes"])
                self.assertLess(access.enables, 1 << access.size)
                used = plan.get("words", 0) * plan["widest"] or plan["block_bytes"]
                self.assertLessEqual((access.address - first) % plan["block_bytes"] + access.size, used)
                if plan.get("apart"):
                    self.assertEqual((access.address - first) % plan["block_bytes"] % plan["requesters"], access.requester)

    def test_shares_bursts_and_turns(self) -> None:
        accesses: List[kroft.TrafficAccess] = list(itertools.islice(kroft.Traffic(3, **LINES), 12000))  # type: ignore[arg-type]
        # (100 of 256, but for stores of one byte that leave it out)
        self.assertTrue(0.34 < sum(it.is_store for it in accesses) / len(accesses) < 0.42)
        blocks = [(it.address - 0x1000) // 64 for it in accesses]
        self.assertTrue(all(len(set(blocks[at : at + 4])) == 1 for at in range(0, 12000, 4)))
        # (a quarter of the bursts, and an eighth of the others)
        self.assertTrue(0.29 < sum(it % 8 == 0 for it in blocks) / len(blocks) < 0.40)
        self.assertEqual(set(blocks), set(range(24)))
        for requester in range(3):
            own = [it.turn for it in accesses if it.requester == requester]
            self.assertEqual(own, list(range(4000)))

    def test_few_words_of_few_blocks(self) -> None:
        plan = dict(FEW, conflicts=256)
        places = {it.address - 0x1000 for it in itertools.islice(kroft.Traffic(3, **plan), 12000)}  # type: ignore[arg-type]
        # (48 bytes of five blocks of set 0)
        self.assertEqual({it // 64 for it in places}, {0, 8, 16, 24, 32})
        self.assertEqual({it % 64 for it in places}, set(range(0, 48, 2)))

    def test_numbers_that_are_no_plan(self) -> None:
        for change in (
            {"blocks": 0}, {"block_bytes": 0}, {"widest": 0}, {"widest": 3}, {"widest": 128}, {"sets": 0}, {"burst": 0}, {"requesters": 0},
            {"base": 0x1001}, {"base": 2**64 - 64}, {"block_bytes": 24}, {"base": 2**64}, {"stores": -1}, {"blocks": 2**32},
            {"apart": True, "requesters": 65}, {"words": 5}, {"blocks_of_set": 4}, {"apart": True, "words": 2, "requesters": 33},
        ):
            with self.subTest(change=change), self.assertRaises(ValueError):
                kroft.Traffic(1, **{**LINES, **change})  # type: ignore[arg-type]
        for change in ({"apart": True, "requesters": 64}, {"words": 4, "blocks_of_set": 3}, {"apart": True, "words": 2, "requesters": 32}):
            kroft.Traffic(1, **{**LINES, **change})  # type: ignore[arg-type]
        for change, said in [
            ({"seed": -1}, f"seed is 0 to {MASK}, not -1"),
            ({"seed": 2**64}, f"seed is 0 to {MASK}, not {2**64}"),
            ({"base": -64}, f"base is 0 to {MASK}, not -64"),
            ({"stores": -1}, f"stores is 0 to {2**32 - 1}, not -1"),
            ({"partial": 2**32}, f"partial is 0 to {2**32 - 1}, not {2**32}"),
        ]:
            with self.subTest(change=change), self.assertRaisesRegex(ValueError, f"^no plan of traffic: {said}$"):
                kroft.Traffic(**{"seed": 1, **LINES, **change})  # type: ignore[arg-type]
        with self.assertRaises(IndexError):
            kroft.Traffic(1, **LINES)[2**64]  # type: ignore[arg-type]
        for number in (whole(2**64 + 1), whole(-1)):
            with self.assertRaises(ValueError):
                kroft.Traffic(number, **LINES)  # type: ignore[arg-type]
            with self.assertRaises(IndexError):
                kroft.Traffic(1, **LINES)[number]  # type: ignore[arg-type]
        self.assertEqual(kroft.Traffic(whole(1), **LINES)[whole(2)], kroft.Traffic(1, **LINES)[2])  # type: ignore[arg-type]


class Versions(unittest.TestCase):
    def test_the_library_is_of_this_package(self) -> None:
        self.assertEqual(version(), kroft.__version__)


if __name__ == "__main__":
    unittest.main()
