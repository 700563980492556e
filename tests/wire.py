"""The driver's binary format, and the answer that a reference module gives to a call.

driver.c states the format at its head. Both differential.py and standin.py use this file, so that the
stand-in reads and writes exactly what the driver does.
"""

import struct
from collections import namedtuple

OPEN, RUN, CHOOSE, SAVE, LOAD = 1, 2, 3, 4, 5
CALL_NAMES = {OPEN: "open", RUN: "run", CHOOSE: "choose", SAVE: "save", LOAD: "load"}
UNWRITTEN = 0xA5A5A5A5

BUFFERS = ("domains", "tables", "agenda", "requests", "file")
HEAD = struct.Struct("<BBIIIIQI")
NUMBERS = struct.Struct("<IIIIQIIII")

Answer = namedtuple("Answer", "refusal n d steps checks subproblems verdict taken blocks buffers intact")


class Difference(Exception):
    """What was compared differs; the message says where."""


class Call:
    """One call: its name, its numbers, and its five buffers as bytearrays."""

    def __init__(self, name, n=0, d=0, limit=0, steps=0, checks=0, subproblems=0, shift=0):
        """A call with empty buffers."""
        self.name, self.shift = name, shift
        self.n, self.d, self.limit = n, d, limit
        self.steps, self.checks, self.subproblems = steps, checks, subproblems
        self.domains, self.tables, self.agenda = bytearray(), bytearray(), bytearray()
        self.requests, self.file = bytearray(), bytearray()

    def buffers(self):
        """The five buffers in the format's order."""
        return [getattr(self, name) for name in BUFFERS]


def pack_call(call):
    """The bytes of a call."""
    message = HEAD.pack(call.name, call.shift, call.n, call.d, call.limit, call.steps, call.checks,
                        call.subproblems)
    for buffer in call.buffers():
        message += struct.pack("<I", len(buffer)) + bytes(buffer)
    return message


def read_call(read):
    """The next call from a function that reads so many bytes, or None at the end."""
    head = read(HEAD.size)
    if len(head) < HEAD.size:
        return None
    name, shift, n, d, limit, steps, checks, subproblems = HEAD.unpack(head)
    call = Call(name, n, d, limit, steps, checks, subproblems, shift)
    for buffer in call.buffers():
        length = struct.unpack("<I", read(4))[0]
        buffer[:] = read(length)
    return call


def pack_answer(answer):
    """The bytes of an answer."""
    return NUMBERS.pack(*answer[:9]) + b"".join(answer.buffers) + bytes([answer.intact])


def read_answer(read, call):
    """The answer to a call, from a function that reads exactly so many bytes."""
    numbers = NUMBERS.unpack(read(NUMBERS.size))
    buffers = [read(len(buffer)) for buffer in call.buffers()]
    return Answer(*numbers, buffers, read(1)[0])


def answer_by(reference, call):
    """What a reference module says that the call leaves: refusal, every number, every buffer."""
    lent = {name: bytearray(buffer) for name, buffer in zip(BUFFERS, call.buffers())}
    left = {"n": call.n, "d": call.d, "verdict": UNWRITTEN, "taken": UNWRITTEN, "blocks": UNWRITTEN}
    state = reference.State(call.steps, call.checks, call.subproblems)
    problem = (call.n, call.d, lent["domains"], lent["tables"], lent["agenda"])
    if call.name == OPEN:
        outcome = reference.c_open(*problem)
    elif call.name == RUN:
        outcome = reference.c_run(*problem, lent["requests"], state)
    elif call.name == CHOOSE:
        outcome = reference.c_choose(*problem, call.limit, state)
    elif call.name == SAVE:
        outcome = reference.c_save(*problem, state, lent["file"])
    else:
        outcome = reference.c_load(bytes(lent["file"]), lent["domains"], lent["tables"], lent["agenda"])
    left.update(outcome._asdict())
    state = left.pop("state", state)
    return Answer(buffers=[bytes(lent[name]) for name in BUFFERS], intact=1, **left, **state._asdict())
