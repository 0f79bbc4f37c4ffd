"""The words behind a script's name, where they are numbers."""

import sys


def numbers(usage, *defaults):
    """What the words say, and behind it the defaults of what isn't said. Of other words the usage is told, with status 2."""
    words = sys.argv[1:]
    if len(words) > len(defaults) or not all(it.isascii() and it.isdigit() for it in words):
        print(f"usage: {usage}", file=sys.stderr)
        sys.exit(2)
    return [*map(int, words), *defaults[len(words):]]
