#!/usr/bin/env python3
"""Draws what the requests of a real program wait for: the rounds by the number of miss registers, those that were lost by cause.

    examples/plots/waits.py [--counts] > waits.svg

With --counts it writes the numbers. To draw, it needs matplotlib (Debian: python3-matplotlib)."""

import rounds


def main(counts):
    rows = rounds.lost_by_registers()
    if counts:
        for registers, (whole, lost) in rows.items():
            told = " ".join(f"{count} {rounds.CAUSES[cause]}," for cause, count in lost.items() if count)
            print(f"{registers} registers: {told} {whole - sum(lost.values())} others")
        return
    plot = rounds.pictured()
    axes = plot.subplots()[1]
    names = [str(it) for it in rows]
    below = [0] * len(rows)
    others = [whole - sum(lost.values()) for whole, lost in rows.values()]
    parts = [("a request is accepted, or the last values come", others, "#9aa5b1")]
    for (cause, name), colour in zip(rounds.CAUSES.items(), ("#444444", "#8a6d00", "#3a7d44", "#c8553d", "#7b4b94", "#1b6ca8", "#d98e04")):
        counts = [lost[cause] for _, lost in rows.values()]
        if any(counts):
            parts.append((f"lost: {name}", counts, colour))
    for name, counts, colour in parts:
        axes.bar(names, counts, bottom=below, label=name, color=colour)
        below = [a + b for a, b in zip(below, counts)]
    axes.set_ylim(0, 1.05 * max(whole for whole, _ in rows.values()))
    axes.set_xlabel("miss registers")
    axes.set_ylabel("rounds (latency 20, a bank busy for 1)")
    axes.legend(fontsize=11)
    rounds.write(plot)


main(rounds.wants_counts(__doc__))
