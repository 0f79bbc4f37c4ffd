"""What the requests of a real program (examples/true.requests) wait for, by the number of miss registers: counts that
`./kroft` tells. waits.py and overlap.py draw them."""

import argparse
import collections
import pathlib
import re
import subprocess
import sys
import tempfile

TOP = pathlib.Path(__file__).resolve().parent.parent.parent
REQUESTS = (TOP / "examples/true.requests").read_text()
# Room for each page of the program, and 64 sets; all else as the default machine has it.
SHAPE = "words = 1048576\nsets = 64\n"
ROUNDS = ["--latency", "20", "--busy", "1"]
REGISTERS = [1, 2, 4, 8]
# The causes for which a round may be lost, by the names that figures and formats have.
CAUSES = {3: "tag in use", 4: "replies full", 5: "targets full", 7: "no register", 8: "set pending", 9: "queue full", 10: "bank full"}


def wants_counts(description):
    """Whether the numbers are asked for in place of the picture."""
    parser = argparse.ArgumentParser(description=description, formatter_class=argparse.RawDescriptionHelpFormatter)
    parser.add_argument("--counts", action="store_true", help="write the numbers")
    return parser.parse_args().counts


def kroft(*words, given, shape=SHAPE):
    with tempfile.NamedTemporaryFile("w", suffix=".toml") as file:
        file.write(shape)
        file.flush()
        command = [TOP / "kroft", *words, "--shape", file.name]
        return subprocess.run(command, input=given, capture_output=True, text=True, check=True).stdout


def lost_by_registers():
    """For each number of registers the rounds in all, and those in which the request at hand was refused, by the cause."""
    told = kroft("sweep", *ROUNDS, given=REQUESTS)
    rows = {}
    for line in told.splitlines():
        words = line.split()
        lost = {int(cause): int(count) for cause, count in re.findall(r"(\d+):(\d+)", line)}
        rows[int(words[1])] = (int(words[3]), lost)
    return rows


def busy_rounds(registers):
    """How many rounds each number of registers was in use for, while there were requests to ask.

    `drive` asks the request at hand once in each round, behind all else that the round does, so each line of a request ends a
    round. Behind each the registers are shown, by `run` of the same lines on a machine of the same shape."""
    shape = f"{SHAPE}regs = {registers}\n"
    shows = "".join(f"reg {slot}\n" for slot in range(registers))
    trace = ""
    for line in kroft("drive", *ROUNDS, given=REQUESTS, shape=shape).splitlines():
        event = line.split(" -> ")[0]
        trace += f"{event}\n"
        if event.split()[0] in ("load", "store", "prefetch", "evict"):
            trace += shows
    said = kroft("run", given=trace, shape=shape).splitlines()
    shown = [line.split(" -> ")[1] for line in said if line.startswith("reg ")]
    rounds = [shown[k : k + registers] for k in range(0, len(shown), registers)]
    return collections.Counter(sum(it.startswith("V") for it in each) for each in rounds)


def pictured():
    """The library that draws."""
    try:
        import matplotlib
    except ImportError:
        sys.exit(f"{pathlib.Path(sys.argv[0]).name}: needs matplotlib (Debian: python3-matplotlib); --counts doesn't")
    matplotlib.use("svg")
    # (so that the same numbers make the same bytes)
    matplotlib.rcParams.update({"svg.hashsalt": "kroft", "font.size": 13, "figure.figsize": (7, 4.6), "figure.autolayout": True})
    import matplotlib.pyplot
    return matplotlib.pyplot


def write(plot):
    plot.savefig(sys.stdout.buffer, format="svg", metadata={"Date": None})
