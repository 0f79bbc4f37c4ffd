"""The rows of kroft.h as ctypes.Structures, and the library: a script is run as `SCRIPT.py LIBKROFT.SO`."""
import ctypes as c
import sys

u8, u16, u32, Word = c.c_uint8, c.c_uint16, c.c_uint32, c.c_uint8 * 4
LOAD, STORE, PREFETCH, EVICT, DRAIN, SERVE, ARRIVE, PROCESS, TAKE = range(9)
ACCEPTED, MOVED, VALUE, NOTHING, REFUSED = range(5)


class Due(c.Structure):
    _fields_ = [("owed", u32), ("word", Word)]


class Event(c.Structure):
    _fields_ = [("kind", u32), ("tag", u16), ("lanes", u8), ("at", u32), ("place", u32), ("word", Word)]


class Answer(c.Structure):
    _fields_ = [("kind", u32), ("cause", u32), ("tag", u16), ("word", Word)]


class Shape(c.Structure):
    _fields_ = [(name, u32) for name in ["ways", "block_words", "regs", "depth", "words", "sets", "banks",
                                         "bank_queue", "write_queue", "replies"]]


class Handle(c.Structure):
    _fields_ = [("open", u32), ("at", c.c_void_p)]


kroft = c.CDLL(sys.argv[1])
