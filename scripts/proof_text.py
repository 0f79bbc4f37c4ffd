"""The items of a proof file."""

import re

ITEM = re.compile(r"^( *)(?:abbrev )?(?:pub )?([^\s():{}]+) : ")
HEAD = re.compile(r"^( *)(?:pub )?(?:module|use|ruleset|record|data|unfoldable)\b")
DATA = re.compile(r"^(?:[^\s()]+|\(?(?:List|Option|Type) .*)$")


class Item:
    """What begins in one line of a file, or of a `module _` in it, up to the next such line."""

    def __init__(self, lines):
        self.text = "\n".join(lines)
        head = ITEM.match(lines[0])
        self.name = head[2] if head else None

    def is_proof(self):
        """Whether it proves something: a definition would mean something else if it were changed."""
        line = self.text.partition("\n")[0]
        return self.name is not None and "abbrev " not in line and not is_data(signature(self.lines(), 0))

    def is_answer(self):
        """Whether it answers a goal of a function, under its name."""
        return self.is_proof() and " : goal." in self.text.partition("\n")[0]

    def lines(self):
        return self.text.split("\n")


def split(text):
    """The items of a file, in order; joined by line ends they are the file."""
    items, lines, level = [], [], 0
    for line in text.split("\n"):
        indent = len(line) - len(line.lstrip(" "))
        begins = bool(line.strip()) and bool(ITEM.match(line) or HEAD.match(line) or line.lstrip().startswith("--"))
        if begins and (indent == 0 or indent == level):
            if lines:
                items.append(Item(lines))
            lines, level = [], indent + 2 if re.match(r" *module ", line) else indent
        lines.append(line)
    items.append(Item(lines))
    return items


def signature(lines, first):
    """The signature that begins in this line, in one line."""
    indent = len(lines[first]) - len(lines[first].lstrip(" "))
    found = [lines[first]]
    for line in lines[first + 1 :]:
        if not line.strip() or len(line) - len(line.lstrip(" ")) <= indent:
            break
        found.append(line.strip())
    return " ".join(found)


def is_data(text):
    """Whether what a signature ends in is a type of data."""
    depth, last, kind = 0, 0, text.partition(" : ")[2]
    for at, char in enumerate(kind):
        depth += (char in "([{") - (char in ")]}")
        if char == "→" and depth == 0:
            last = at + 1
    end = kind[last:].strip()
    # (a goal's name stands for what it says)
    return end != "⊥" and not end.startswith("goal.") and bool(DATA.match(end))
