"""Every call of the C library's tests with what it answered and left, in a file that a small machine can read.

A call is: its function's place among the exports, by name, and how many arguments it has; each argument, a letter, 8 bytes, and where it is lent that many
bytes; the answer, 8 bytes; the bytes left of each argument that may be written. Numbers have the lowest byte first."""
import collections
import struct
import unittest

from archive import exported
from cases import test_firmware
from helpers.firmware import GUARD, PREFIX, Library
from models import model_firmware as model

NUMBER, TO_READ, TO_WRITE = b"nrw"
# As many bytes has a replay for all that a call is lent, with guards; a small machine has no more to spare.
ROOM = 4608


def names():
    """The exports without what all names begin with, sorted: a function's place."""
    return sorted(name.removeprefix(PREFIX) for name in exported())


class Recorded(Library):
    """A library whose calls are kept."""
    kept = []

    def call(self, name, *arguments):
        arguments = [argument if isinstance(argument, int) else type(argument)(argument) for argument in arguments]
        answered = super().call(name, *arguments)
        self.kept.append((name, arguments, answered))
        return answered


class Recording(test_firmware.Calls):
    """The test, with every call kept, and not counted among the refusals that the gate's tests meet."""
    program = None

    @classmethod
    def setUpClass(cls):
        super().setUpClass()
        cls.library = Recorded(cls.folder.name, cls.made)


def written(place, arguments, answered):
    """A call as bytes."""
    parts = [struct.pack("<BB", place, len(arguments))]
    room = 0
    for argument in arguments:
        if isinstance(argument, int):
            parts.append(struct.pack("<BQ", NUMBER, argument))
            continue
        parts.append(struct.pack("<BQ", TO_WRITE if isinstance(argument, bytearray) else TO_READ, len(argument)) + bytes(argument))
        room += len(argument) + 2 * len(GUARD)
    if room > ROOM:
        raise ValueError(f"a call is lent {room} bytes with guards, and a replay has {ROOM}")
    return b"".join([*parts, struct.pack("<Q", answered[0]), *map(bytes, answered[1:])])


def recorded(path, calls):
    """Runs the test, with as many random calls as are asked for, into a file; answers how often each function did or refused what."""
    Recorded.kept = []
    test_firmware.CALLS = calls
    result = unittest.TestResult()
    unittest.defaultTestLoader.loadTestsFromTestCase(Recording).run(result)
    if not result.wasSuccessful():
        raise AssertionError((result.failures + result.errors)[0][1])
    places, met = {name: place for place, name in enumerate(names())}, collections.Counter()
    with open(path, "wb") as file:
        for name, arguments, answered in Recorded.kept:
            file.write(written(places[name], arguments, answered))
            met[name, answered[0] - model.REFUSED if answered[0] >= model.REFUSED else "done"] += 1
    return met


def not_met(met):
    """The functions and refusals of the header that no recorded call met."""
    return sorted({(name, number) for name, numbers in test_firmware.REFUSALS.items() for number in (*numbers, "done")} - set(met), key=str)
