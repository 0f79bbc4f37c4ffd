"""The machine of libkroft by ctypes: `machine.py LIBKROFT.SO`."""
import ctypes as c

from rows import ACCEPTED, EVICT, LOAD, REFUSED, STORE, VALUE, Answer, Event, Handle, Shape, Word, kroft

OK, CLOSED = 0, 100
SHAPE = Shape(ways=2, block_words=4, regs=8, depth=4, words=64, sets=4, banks=4, bank_queue=8, write_queue=8, replies=8)


class Machine:
    """A machine over zeros, freed at the end of a `with`."""

    def __enter__(self):
        self.handle, image = Handle(), (Word * SHAPE.words)()
        status = kroft.kroft_machine_open(c.byref(self.handle), c.byref(SHAPE), image, c.c_size_t(SHAPE.words))
        assert status == OK, f"kroft_machine_open: {status}"
        return self

    def __exit__(self, *_):
        assert kroft.kroft_machine_close(c.byref(self.handle)) == OK
        assert kroft.kroft_machine_close(c.byref(self.handle)) == CLOSED

    def apply(self, event):
        """The answer to an event."""
        answer = Answer()
        assert kroft.kroft_machine_apply(c.byref(self.handle), c.byref(event), c.byref(answer)) == OK
        return answer

    def pumps(self):
        """The driver's events with their answers, until nothing is on its way."""
        event, answer = Event(), Answer()
        while kroft.kroft_machine_pump(c.byref(self.handle), c.byref(event), c.byref(answer)) == OK:
            yield event, answer

    def bank_word(self, at):
        """A word of memory as it stands in its bank."""
        word = Word()
        assert kroft.kroft_machine_bank_word(c.byref(self.handle), at, c.byref(word)) == OK
        return bytes(word).hex()


with Machine() as machine:
    for event in [Event(LOAD, tag=7, at=5), Event(STORE, lanes=1, at=5, word=Word(0xAA))]:
        assert machine.apply(event).kind == ACCEPTED
    refusal = machine.apply(Event(LOAD, tag=7, at=6))
    assert (refusal.kind, refusal.cause) == (REFUSED, 3)
    told = [(answer.kind, answer.tag, bytes(answer.word).hex()) for _, answer in machine.pumps()]
    values = [(tag, word) for kind, tag, word in told if kind == VALUE]
    assert machine.apply(Event(EVICT, at=1)).kind == ACCEPTED
    drained = len(list(machine.pumps()))
    print(f"{len(told)} pumps, values {values}; {drained} more, and word 5 is {machine.bank_word(5)} in its bank")
