"""The recorded runs of the program: each file of tests/runs is a theme, and its lines tell what a run is given and what it does.

  = NAME $ kroft WORD.. [STATUS]   a case: its name, the words behind the program's, and the status that it ends with, if not 0
  # TEXT       for the reader: why the run is expected to end so
  FILE: LINE   a line of a file that a word names
  < LINE       a line of standard input
  > LINE       a line of standard output
  !> REGEX     what matches nowhere in standard output
  2> LINE      a line of standard error

What no line tells of is empty. A heading with headings of one `=` more behind it is a group: what is told under it holds for
each of these that doesn't tell the same itself. What stands before the first heading holds for the whole file, and a
status stands there alone, as `[STATUS]`. Empty lines say nothing.

In a line `\\xNN` is a byte, `\\n` an LF and `\\\\` a backslash, and a `\\` at its end says that no LF is there. In an output a line
`...` stands for any lines, or none, and `[..]` for any text within a line. Behind a marker `*N` says that N such lines are
there, each with what the expressions of Python in its braces are, where n counts the lines from 0: `<*9 load {n} {4 * n}`.
"""

import pathlib
import re
import sys

TOP = pathlib.Path(__file__).resolve().parent.parent
RUNS = TOP / "tests/runs"
HEADING = re.compile(r"(=+) (\S+)(?: \$ kroft((?: \S+)*?))?(?: \[(\d+)\])?")
LINE = re.compile(r"(<|2?>|!>|[a-z][\w.]*:)(?:\*(\d+))?(?: (.*))?")
ESCAPED = re.compile(rb"\\(x[0-9a-f]{2}|n|\\|)")


class Case:
    """What is told of a run, or of the runs of a group: its texts by the markers of their lines."""

    def __init__(self, name, place, above=None):
        self.name, self.place, self.is_group = name, place, False
        self.words, self.status, self.texts, self.own = None, 0, {}, set()
        if above:
            above.is_group = True
            self.words, self.status, self.texts = above.words, above.status, dict(above.texts)

    def add(self, marker, text):
        self.texts[marker] = (self.texts[marker] if marker in self.own else b"") + text
        self.own.add(marker)

    def text(self, marker):
        return self.texts.get(marker, b"")

    def files(self):
        """The files that the run reads, by their names."""
        return {it[:-1]: text for it, text in self.texts.items() if it.endswith(":")}


def escaped_byte(found):
    escape = found[1].decode()
    if not escape:
        raise ValueError("no such escape")
    return bytes.fromhex(escape[1:]) if escape[0] == "x" else {"n": b"\n", "\\": b"\\"}[escape]


def plain(text):
    """The bytes that a text with escapes stands for."""
    return ESCAPED.sub(escaped_byte, text.encode())


def repeated(times, form):
    """So many lines of a form."""
    if "{" not in form:
        return plain(form + "\n") * times
    line = compile("f" + repr(form), form, "eval")
    return plain("".join(eval(line, {"n": n}) + "\n" for n in range(times)))


def read_line(case, line):
    """Adds what a line says to its case."""
    found = LINE.fullmatch(line)
    if found:
        marker, times, text = found[1], found[2], found[3] or ""
        is_cut = (len(text) - len(text.rstrip("\\"))) % 2
        case.add(marker, repeated(int(times), text) if times else plain(text[:-1] if is_cut else text + "\n"))
    elif re.fullmatch(r"\[\d+\]", line):
        case.status = int(line[1:-1])
    elif line and not line.startswith("#"):
        raise ValueError("no line of a recorded run")


def headed(line, place, above):
    """The case of a heading, behind the headings above it."""
    found = HEADING.fullmatch(line)
    if not found or len(found[1]) > len(above):
        raise ValueError("no heading of a recorded run")
    del above[len(found[1]):]
    case = Case(f"{above[-1].name}/{found[2]}", place, above[-1])
    case.words = case.words if found[3] is None else [plain(it) for it in found[3].split()]
    case.status = int(found[4] or case.status)
    above.append(case)
    return case


def told_in(file):
    """What a file tells: its theme, its groups and its cases."""
    above = [Case(file.stem, str(file.relative_to(TOP)))]
    told = above[:]
    for number, line in enumerate(file.read_text(encoding="utf-8").split("\n"), 1):
        place = f"{file.relative_to(TOP)}:{number}"
        try:
            if line.startswith("="):
                told.append(headed(line, place, above))
            else:
                read_line(above[-1], line)
        except (ValueError, SyntaxError, NameError, TypeError) as fault:
            sys.exit(f"{place}: {fault}: {line}")
    return told


def cases():
    """All cases, by their names."""
    named = {}
    for case in (it for file in sorted(RUNS.glob("*.runs")) for it in told_in(file)):
        if case.name in named:
            sys.exit(f"{case.place}: {case.name} stands at {named[case.name].place} too")
        named[case.name] = case
    return {name: case for name, case in named.items() if not case.is_group}
