"""What the tests share: the module under test and the reference (tests/reference), numpy where it may be used, forms of input, and counts of
what was met.

With the variable WITHOUT_NUMPY set, numpy is out of reach, as where it is not installed.
"""

import ctypes
import os
import sys
import unittest
from array import array
from collections import Counter
from pathlib import Path

sys.dont_write_bytecode = True
if os.environ.get("WITHOUT_NUMPY"):
    sys.modules["numpy"] = None
try:
    import numpy
except ImportError:
    numpy = None

BINDING = Path(__file__).resolve().parents[1]
REPOSITORY = BINDING.parents[1]
sys.path[:0] = [str(BINDING), str(REPOSITORY / "tests" / "reference")]

import softdemap  # noqa: E402

DTYPES = {"B": "uint8", "H": "uint16", "h": "int16", "i": "int32", "q": "int64", "f": "float32"}


def read_only_array(values, code):
    """A numpy array that nobody may write to."""
    made = numpy.array(values, DTYPES[code])
    made.flags.writeable = False
    return made


def strided_array(values, code):
    """A numpy array with other entries between its own."""
    return numpy.repeat(numpy.array(values, DTYPES[code]), 3)[::3]


def wider_array(values, code):
    """A numpy array of a type that holds more whole numbers than are wanted; of floats, for which there is no such, of the right one."""
    return numpy.array(values, "float32" if code == "f" else "int64")


FORMS = [
    lambda values, code: list(values),
    lambda values, code: tuple(values),
    lambda values, code: array(code, values),
    lambda values, code: memoryview(array(code, values)).toreadonly(),
    lambda values, code: memoryview(array(code, [twice for value in values for twice in (value, value)]))[::2],
]
if numpy:
    FORMS += [lambda values, code: numpy.array(values, DTYPES[code]), read_only_array, strided_array, wider_array]


def is_ndarray(values):
    return numpy is not None and isinstance(values, numpy.ndarray)


def check_type(test, output, code, inputs):
    """Sees that an output is a numpy array where an input is one, else an array, with entries of the type."""
    if any(map(is_ndarray, inputs)):
        test.assertIs(type(output), numpy.ndarray)
        test.assertEqual(output.dtype, DTYPES[code])
    else:
        test.assertIs(type(output), array)
        test.assertEqual(output.typecode, code)


def answer_of(call, *arguments, **named):
    """What a call gives and None, or None and (number, symbol) of its refusal, where no symbol is named with 0 for it."""
    try:
        return call(*arguments, **named), None
    except softdemap.Refused as refused:
        return None, (refused.refusal, refused.symbol or 0)


class Counts:
    """Accepted calls, and refused calls by number."""

    def __init__(self):
        self.met = Counter()

    def add(self, refusal):
        self.met[refusal[0] if refusal else 0] += 1

    def check(self, test, name, numbers, least):
        """Prints the counts, and sees that each of the numbers, 0 for accepted, was met so often, and no other."""
        shown = ", ".join(f"{number}: {self.met[number]}" for number in sorted(self.met))
        print(f"{name}: {sum(self.met.values())} calls, by answer {shown}")
        test.assertEqual(sorted(self.met), sorted(numbers), name)
        test.assertGreaterEqual(min(self.met.values()), least, name)


class Recorded:
    """Stands for the library: passes calls on and keeps the arguments, but for those of the call for sizes, which takes no buffers."""

    def __init__(self, library):
        self.library, self.calls = library, []

    def __getattr__(self, name):
        def call(*arguments):
            if name != "softdemap_sizes":
                self.calls.append(arguments)
            return getattr(self.library, name)(*arguments)

        return call


def address_of(argument):
    """The address in an argument: a number, or a reference."""
    return argument if isinstance(argument, int) else ctypes.addressof(argument._obj)


class RecordedCase(unittest.TestCase):
    """A test that sees what the library was called with."""

    def setUp(self):
        library = softdemap._library
        softdemap._library = self.recorded = Recorded(library)
        self.addCleanup(setattr, softdemap, "_library", library)
