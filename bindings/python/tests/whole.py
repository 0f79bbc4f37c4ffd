"""Numbers of another class than int."""

class Whole:
    """A whole number that is no int, as an item of an array may be."""

    def __init__(self, number: int) -> None:
        self.number = number

    def __index__(self) -> int:
        return self.number

    def __format__(self, form: str) -> str:
        return format(self.number, form)


def whole(number: int) -> Whole:
    """One, as the types let it pass."""
    return Whole(number)
