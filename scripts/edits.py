"""Edits of sources, as a text file has them: a block each, with an empty line between two.

A block begins with a line that names it, as `body: NAME`. Behind it stand lines `KEY: TEXT`: `file: PATH`, and then pairs of lines
`old: TEXT` and `new: TEXT`, where the old text stands once in that file. What else a block may say is told where it is read.
A line that begins with # is a comment.
"""


class Edit:
    """A block: its name, where it begins, and its lines, each with its number in the text file."""

    def __init__(self, place, name):
        self.place, self.name, self.lines = place, name, []

    def first(self, key):
        """The text of the first line with this key, if there is one."""
        return next((text for _, it, text in self.lines if it == key), None)

    def pairs(self):
        """Each old text with the new one that follows it."""
        texts = [(key, text) for _, key, text in self.lines if key in ("old", "new")]
        return [(old[1], new[1]) for old, new in zip(texts, texts[1:]) if (old[0], new[0]) == ("old", "new") and old[1]]

    def says(self):
        """All that it says, wherever it stands."""
        return self.name, [(key, text) for _, key, text in self.lines]


def edits_of(path, head, keys, top):
    """The blocks of a text file, which begin with the key `head` and have no other keys than these."""
    edits, name = [], path.relative_to(top).as_posix()
    for number, line in enumerate(path.read_text(encoding="utf-8").split("\n"), 1):
        key, colon, text = line.partition(":")
        text = text[text.startswith(" ") :]
        if not line or line.startswith("#"):
            continue
        if colon and key == head and text not in [it.name for it in edits]:
            edits.append(Edit(f"{name}:{number}", text))
        elif colon and key in keys and edits:
            edits[-1].lines.append((number, key, text))
        else:
            fault = f"{text} stands there twice" if key == head else f"no block has a line {line!r} there"
            raise SystemExit(f"{name}:{number}: {fault}")
    return edits
