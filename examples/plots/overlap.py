#!/usr/bin/env python3
"""Draws how far misses overlap: in which share of the rounds 0, 1, 2, .. miss registers are in use at once.

    examples/plots/overlap.py [--counts] > overlap.svg

Counted are the rounds in which a request is asked. With --counts it writes the numbers. To draw, it needs matplotlib (Debian:
python3-matplotlib)."""

import rounds


def main(counts):
    rows = {registers: rounds.busy_rounds(registers) for registers in rounds.REGISTERS}
    if counts:
        for registers, busy in rows.items():
            print(f"{registers} registers:", ", ".join(f"{count} rounds with {used} in use" for used, count in sorted(busy.items())))
        return
    plot = rounds.pictured()
    axes = plot.subplots()[1]
    left = [0.0] * len(rows)
    names = [f"{registers} registers" if registers > 1 else "1 register" for registers in rows]
    colours = plot.get_cmap("viridis_r")
    for used in range(max(rows) + 1):
        shares = [100 * busy[used] / sum(busy.values()) for busy in rows.values()]
        axes.barh(names, shares, left=left, label=str(used), color=colours(used / max(rows)), edgecolor="white")
        left = [a + b for a, b in zip(left, shares)]
    axes.invert_yaxis()
    axes.set_xlim(0, 100)
    axes.set_xlabel("% of the rounds in which a request is asked\n(latency 20, a bank busy for 1)")
    axes.legend(title="in use", ncol=9, fontsize=10, loc="lower center", bbox_to_anchor=(0.5, 1.0), columnspacing=0.8, handlelength=1)
    rounds.write(plot)


main(rounds.wants_counts(__doc__))
