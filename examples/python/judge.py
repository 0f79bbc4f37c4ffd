"""The judge of libkroft by ctypes: `judge.py LIBKROFT.SO`."""
import ctypes as c

from rows import ACCEPTED, LOAD, STORE, TAKE, VALUE, Answer, Due, Event, Word, kroft, u16

WORDS, TAGS = 64, 65536
NOTHING_OWED, WRONG_WORD = 144, 145
words, due = (Word * WORDS)(), (Due * TAGS)()


def judge(event, answer):
    """0: flat memory gives this answer; else the number of the reason why not."""
    return kroft.kroft_flat_judge(words, c.c_size_t(WORDS), due, c.byref(event), c.byref(answer), c.byref(Word()))


def owed(tag):
    """The word that a tag is owed, as hexadecimal digits; None if it is owed nothing."""
    return bytes(due[tag].word).hex() if due[tag].owed else None


def unanswered():
    """The tags of the loads that were accepted and have no answer."""
    tag = u16()
    count = kroft.kroft_flat_unanswered(due, 0, c.byref(tag))
    tags = []
    for n in range(count):
        kroft.kroft_flat_unanswered(due, n, c.byref(tag))
        tags.append(tag.value)
    return tags


# A load, a store into the same word before its answer, and another load.
accepted = Answer(ACCEPTED)
for event in [Event(LOAD, tag=7, at=5), Event(STORE, lanes=1, at=5, word=Word(0xAA)), Event(LOAD, tag=8, at=5)]:
    assert judge(event, accepted) == 0
assert (owed(7), owed(8), owed(9)) == ("00000000", "aa000000", None)
assert unanswered() == [7, 8]
for tag, word, verdict in [(7, 0xAA, WRONG_WORD), (8, 0xAA, 0), (7, 0, 0), (7, 0, NOTHING_OWED)]:
    assert judge(Event(TAKE), Answer(VALUE, tag=tag, word=Word(word))) == verdict
assert (owed(7), owed(8), unanswered()) == (None, None, [])
print("7 got 00000000, 8 got aa000000: flat; a byte stored after its load, and a value taken twice: not flat")
