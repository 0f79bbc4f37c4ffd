#!/usr/bin/env python3
"""Draws how many rounds 64 misses take, or the requests of a trace, by the number of miss registers: a line for each
latency of memory.

    examples/plots/registers.py [--trace FILE [--shape FILE]] [LATENCY..] > registers.svg

The latencies are 5, 20 and 80 rounds if none are given, and each bank begins a command every round. The numbers are
those that `./kroft sweep` counts; both axes are logarithmic, so where twice as many registers take half of the rounds
a line falls by one step for each step to the right. Needs nothing beside Python.

What the program refuses is told in one line on standard error, with the program's status; the status is 2 if the trace
can't be read.
"""

import argparse
import math
import pathlib
import subprocess
import sys
from xml.sax.saxutils import escape

TOP = pathlib.Path(__file__).resolve().parent.parent.parent
SWEEP = [TOP / "kroft", "sweep", "--busy", "1"]
MISSES = "".join(f"load {block} {4 * block}\n" for block in range(64)).encode()

# Units of the picture: its size, and where the axes are.
WIDTH, HEIGHT = 480, 400
LEFT, RIGHT, TOP_EDGE, BOTTOM = 70, 440, 40, 340
COLOURS = ["#1b6ca8", "#c8553d", "#3a7d44", "#7b4b94", "#8a6d00"]


class Fault(Exception):
    """Why there is no picture, and the status to end with."""

    def __init__(self, why, status):
        super().__init__(why)
        self.status = status


def rounds_by_registers(trace, shape, latency):
    """The rounds that a sweep of the trace counts, by the number of registers."""
    done = subprocess.run([*SWEEP, "--latency", str(latency), *shape], input=trace, capture_output=True)
    if done.returncode != 0:
        raise Fault((done.stderr.decode(errors="replace").splitlines() or ["./kroft sweep failed"])[0], done.returncode)
    rows = (line.split() for line in done.stdout.decode().splitlines())
    return {int(row[1]): int(row[3]) for row in rows}


class Axes:
    """Where a number of registers and a number of rounds lie in the picture."""

    def __init__(self, lines):
        self.registers = sorted({n for line in lines.values() for n in line})
        rounds = [r for line in lines.values() for r in line.values()]
        lowest, highest = math.floor(math.log2(min(rounds))), math.ceil(math.log2(max(rounds)))
        # (two at least, also if all rounds are one power of two)
        self.ticks = [2**power for power in range(lowest, max(highest, lowest + 1) + 1)]

    @staticmethod
    def along(value, ends, begin, end):
        low, high = (math.log2(it) for it in ends)
        return begin + (end - begin) * (math.log2(value) - low) / (high - low)

    def x(self, registers):
        return self.along(registers, (self.registers[0], self.registers[-1]), LEFT, RIGHT)

    def y(self, rounds):
        return self.along(rounds, (self.ticks[0], self.ticks[-1]), BOTTOM, TOP_EDGE)


def text(x, y, words, anchor="middle", colour="#222"):
    # (a name may have in it what no picture may)
    shown = escape("".join(it if it.isprintable() else "?" for it in str(words))).encode("ascii", "xmlcharrefreplace").decode()
    return f'<text x="{x:.1f}" y="{y:.1f}" text-anchor="{anchor}" fill="{colour}">{shown}</text>'


def grid(axes, counted):
    """The lines and numbers behind the curves."""
    for rounds in axes.ticks:
        y = axes.y(rounds)
        yield f'<path d="M{LEFT} {y:.1f}H{RIGHT}" stroke="#ddd"/>'
        yield text(LEFT - 8, y + 4, rounds, "end")
    for registers in axes.registers:
        x = axes.x(registers)
        yield f'<path d="M{x:.1f} {TOP_EDGE}V{BOTTOM}" stroke="#ddd"/>'
        yield text(x, BOTTOM + 20, registers)
    yield text((LEFT + RIGHT) / 2, BOTTOM + 44, "miss registers")
    yield text(LEFT, TOP_EDGE - 16, f"rounds for {counted}", "start")


def curve(axes, latency, line, colour):
    """The points of one latency, joined, with its name at the first."""
    points = [(axes.x(registers), axes.y(rounds)) for registers, rounds in sorted(line.items())]
    joined = "L".join(f"{x:.1f} {y:.1f}" for x, y in points)
    yield f'<path d="M{joined}" fill="none" stroke="{colour}" stroke-width="2"/>'
    for x, y in points:
        yield f'<circle cx="{x:.1f}" cy="{y:.1f}" r="4" fill="{colour}"/>'
    yield text(points[0][0] + 12, points[0][1] - 2, f"latency {latency}", "start", colour)


def asked():
    """What the words ask for: a trace, how it is called, the words that name its shape, and the latencies."""
    parser = argparse.ArgumentParser(description="Draws rounds by miss registers: an SVG picture on standard output.")
    parser.add_argument("--trace", type=pathlib.Path, help="the requests that are counted, in place of 64 misses")
    parser.add_argument("--shape", type=pathlib.Path, help="the TOML file with the numbers of the machine for the trace")
    parser.add_argument("latency", type=int, nargs="*", default=[5, 20, 80], help="rounds of memory, 1 to 1000")
    words = parser.parse_args()
    if words.trace is None:
        if words.shape:
            parser.error("--shape is for a trace: it needs --trace")
        return MISSES, "64 misses", ["--shape", TOP / "examples/misses.toml"], words.latency
    shape = ["--shape", words.shape] if words.shape else []
    try:
        return words.trace.read_bytes(), words.trace.name, shape, words.latency
    except OSError as fault:
        raise Fault(f"{words.trace}: {fault.strerror}", 2) from None


def main():
    trace, counted, shape, latencies = asked()
    lines = {latency: rounds_by_registers(trace, shape, latency) for latency in latencies}
    axes = Axes(lines)
    print(f'<svg xmlns="http://www.w3.org/2000/svg" viewBox="0 0 {WIDTH} {HEIGHT}" font-family="sans-serif" font-size="13">')
    print(f'<rect width="{WIDTH}" height="{HEIGHT}" fill="white"/>')
    print(*grid(axes, counted), sep="\n")
    for colour, (latency, line) in zip(COLOURS * len(lines), lines.items()):
        print(*curve(axes, latency, line, colour), sep="\n")
    print("</svg>")


if __name__ == "__main__":
    try:
        main()
    except Fault as fault:
        print(fault, file=sys.stderr)
        sys.exit(fault.status)
