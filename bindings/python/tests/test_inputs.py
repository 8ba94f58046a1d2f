"""Numbers and sequences that are not passed on: wrong types, numbers too large, and how buffers are lent."""

import ctypes
import unittest
from array import array

import support
from support import address_of, softdemap

from softdemap import Cellular, Modulation, Pam, Psk, Qam, Refused


class Silent:
    """Stands for the library, and ends the test where a call is made."""

    def __getattr__(self, name):
        def call(*arguments):
            raise AssertionError(f"{name} was called")

        return call


def frame(**changed):
    """The call of a frame of two symbols of 16-QAM with something changed."""
    arguments = {"modulation": Qam(2, 2), "gains": [5, 6], "yi": [3, 4], "yq": [-20, 7], **changed}
    return softdemap.demap_frame(**arguments)


# A call, and the argument that does not fit, which the message names.
TOO_LARGE = [
    (lambda: frame(modulation=Modulation(300, 2, 2)), "kind is 300, outside 0 to 255"),
    (lambda: frame(modulation=Modulation(-1, 2, 2)), "kind is -1, outside 0 to 255"),
    (lambda: frame(modulation=Qam(256, 2)), "bits_i is 256, outside 0 to 255"),
    (lambda: frame(modulation=Qam(2, -1)), "bits_q is -1, outside 0 to 255"),
    (lambda: frame(modulation=Cellular(256)), "bits_i is 256, outside 0 to 255"),
    (lambda: frame(payload=70000), "payload is 70000, outside 0 to 65535"),
    (lambda: frame(payload=-1), "payload is -1, outside 0 to 65535"),
    (lambda: frame(weight=-1), "weight is -1, outside 0 to 65535"),
    (lambda: frame(weight=65537), "weight is 65537, outside 0 to 65535"),
    (lambda: frame(shift=256), "shift is 256, outside 0 to 255"),
    (lambda: frame(limit=-32767), "limit is -32767, outside 0 to 65535"),
    (lambda: frame(gains=[5, 65536]), r"gains\[1\] is 65536, outside 0 to 65535"),
    (lambda: frame(gains=array("l", [5, -1])), r"gains\[1\] is -1, outside 0 to 65535"),
    (lambda: frame(weights=[5, 65536]), r"weights\[1\] is 65536, outside 0 to 65535"),
    (lambda: frame(weights=[5, 6], weight=65537), "weight is 65537, outside 0 to 65535"),
    (lambda: frame(yi=[2**40, 4]), r"yi\[0\] is 1099511627776, outside -2147483648 to 2147483647"),
    (lambda: frame(yq=(0, -(2**31) - 1)), r"yq\[1\] is -2147483649, outside -2147483648 to 2147483647"),
    (lambda: softdemap.sizes(Qam(2, 256), 1), "bits_q is 256, outside 0 to 255"),
    (lambda: softdemap.sizes(Qam(2, 2), 65536), "payload is 65536, outside 0 to 65535"),
    (lambda: softdemap.sizes(Qam(2, 2), 1, limit=-1), "limit is -1, outside 0 to 65535"),
    (lambda: softdemap.map_bits(Pam(1), 65536, [1]), "gain is 65536, outside 0 to 65535"),
    (lambda: softdemap.map_bits(Pam(1), 1, [1, 300]), r"bits\[1\] is 300, outside 0 to 255"),
    (lambda: softdemap.map_bits(Pam(300), 1, [1]), "bits_i is 300, outside 0 to 255"),
    (lambda: softdemap.points(Pam(-1)), "bits_i is -1, outside 0 to 255"),
    (lambda: softdemap.sample_i32(256, 1.0), "scale is 256, outside 0 to 255"),
    (lambda: softdemap.sample_i32(0, 1e39), "x is 1e[+]39, beyond the range of binary32"),
    (lambda: softdemap.quadrature_i32(0, 1, -(10**400)), "quadrature is -10+, beyond the range of binary32"),
    (lambda: softdemap.samples_i32(Modulation(256, 1), 0, [1.0]), "kind is 256, outside 0 to 255"),
    (lambda: softdemap.samples_i32(Pam(1), -1, [1.0]), "scale is -1, outside 0 to 255"),
    (lambda: softdemap.samples_i32(Pam(1), 0, [1.0, 1e300]), r"capture\[1\] is 1e[+]300, beyond the range of binary32"),
    (lambda: softdemap.soft_f32(0, 32768), "soft is 32768, outside -32768 to 32767"),
    (lambda: softdemap.softs_f32(0, [0, -32769]), r"soft\[1\] is -32769, outside -32768 to 32767"),
    (lambda: softdemap.softs_f32(300, [0]), "scale is 300, outside 0 to 255"),
]

WRONG_TYPES = [
    (lambda: frame(modulation="16-QAM"), "modulation is '16-QAM', not a Modulation"),
    (lambda: frame(modulation=Qam(2.0, 2)), "bits_i is 2.0, not an integer"),
    (lambda: frame(payload=3.0), "payload is 3.0, not an integer"),
    (lambda: frame(weight="1"), "weight is '1', not an integer"),
    (lambda: frame(shift=None), "shift is None, not an integer"),
    (lambda: frame(gains=[5, 5.0]), r"gains\[1\] is 5.0, not an integer"),
    (lambda: frame(gains=array("f", [5, 5])), r"gains\[0\] is 5.0, not an integer"),
    (lambda: frame(gains=5), "gains is 5, not a sequence"),
    (lambda: frame(gains="55"), r"gains\[0\] is '5', not an integer"),
    (lambda: frame(weights=[5, 5.0]), r"weights\[1\] is 5.0, not an integer"),
    (lambda: frame(weights=5), "weights is 5, not a sequence"),
    (lambda: frame(yi=None), "yi is None, not a sequence"),
    (lambda: frame(yq=[1, None]), r"yq\[1\] is None, not an integer"),
    (lambda: frame(yi=memoryview(array("i", [3, 4])).cast("B").cast("i", (1, 2))), "yi has 2 dimensions, not 1"),
    (lambda: frame(yi=ctypes.c_int32.__ctype_be__.__mul__(2)()), "yi is <memory.*, not a sequence"),
    (lambda: softdemap.sizes((1, 2, 2), 4), "modulation is .1, 2, 2., not a Modulation"),
    (lambda: softdemap.sizes(Qam(2, 2), 4.0), "payload is 4.0, not an integer"),
    (lambda: softdemap.points("16-QAM"), "modulation is '16-QAM', not a Modulation"),
    (lambda: softdemap.map_bits(Pam(1), 1.5, [1]), "gain is 1.5, not an integer"),
    (lambda: softdemap.map_bits(Pam(1), 1, "10"), r"bits\[0\] is '1', not an integer"),
    (lambda: softdemap.map_bits(None, 1, [1]), "modulation is None, not a Modulation"),
    (lambda: softdemap.answer_line(17), "line is 17, not a sequence"),
    (lambda: softdemap.sample_i32(0, "1"), "x is '1', not a number"),
    (lambda: softdemap.samples_i32(Pam(1), 0, [1.0, None]), r"capture\[1\] is None, not a number"),
    (lambda: softdemap.samples_i32(Pam(1), 0, bytes(8)), "capture has entries of format 'B', not 'f', which is binary32"),
    (lambda: softdemap.samples_i32(Pam(1), 0, array("d", [1])), "capture has entries of format 'd', not 'f', which is binary32"),
    (lambda: softdemap.soft_f32(0, 1.0), "soft is 1.0, not an integer"),
]


class Errors(unittest.TestCase):
    """No call reaches the library."""

    def setUp(self):
        self.library, softdemap._library = softdemap._library, Silent()

    def tearDown(self):
        softdemap._library = self.library

    def try_all(self, error, cases):
        for call, message in cases:
            with self.subTest(message=message), self.assertRaisesRegex(error, "^" + message):
                call()

    def test_numbers_too_large(self):
        self.try_all(OverflowError, TOO_LARGE)

    def test_wrong_types(self):
        self.try_all(TypeError, WRONG_TYPES)

    def test_the_stand_in_would_tell(self):
        with self.assertRaisesRegex(AssertionError, "softdemap_sizes was called"):
            frame()


class Lending(support.RecordedCase):
    """Buffers of the right type are lent, not copied."""

    def test_arrays_are_lent(self):
        gains, yi, yq = array("H", [5]), array("i", [3]), memoryview(array("i", [9, -20]))[1:]
        softdemap.demap_frame(Qam(2, 2), gains, yi, yq)
        arguments = self.recorded.calls[0]
        self.assertEqual([address_of(arguments[7]), address_of(arguments[9])], [gains.buffer_info()[0], yi.buffer_info()[0]])
        self.assertEqual(address_of(arguments[11]), ctypes.addressof(ctypes.c_int32.from_buffer(yq)))

    def test_other_buffers_are_copied(self):
        """Read-only ones, ones with gaps, and ones at an address that the type cannot have; the numbers are the same."""
        held = bytearray(9)
        held[1:] = array("i", [3, 4]).tobytes()
        views = (memoryview(held)[1:].cast("i"), memoryview(array("i", [3, 4])).toreadonly(), memoryview(array("i", [3, 0, 4]))[::2])
        for yi in views:
            self.assertEqual(softdemap.demap_frame(Pam(2), [5, 5], yi), softdemap.demap_frame(Pam(2), [5, 5], [3, 4]))
            self.assertEqual(address_of(self.recorded.calls[-2][9]) % 4, 0)

    def test_one_call_each(self):
        """Each function makes one call with buffers; an empty buffer has no address."""
        frame()
        softdemap.map_bits(Pam(1), 1, [1])
        softdemap.samples_i32(Pam(1), 0, [])
        softdemap.samples_i32(Qam(1, 1), 0, [1, 2])
        softdemap.softs_f32(0, array("h"))
        self.assertEqual(len(self.recorded.calls), 5)
        self.assertEqual(self.recorded.calls[-1][1:], (None, 0, None, 0))

    def test_single_numbers_of_a_capture(self):
        """A capture is taken for pairs first, and where their outputs are too short for single numbers."""
        yi, yq = softdemap.samples_i32(Pam(1), 0, [1, 2, 3])
        self.assertEqual((yi.tolist(), yq.tolist()), ([1, 2, 3], []))
        self.assertEqual([(call[5], call[7]) for call in self.recorded.calls], [(1, 1), (3, 0)])

    def test_any_iterable(self):
        wanted = softdemap.demap_frame(Pam(2), [5, 6], [3, 4])
        for gains in (iter([5, 6]), range(5, 7), (gain for gain in (5, 6)), bytes([5, 6]), (ctypes.c_uint16 * 2)(5, 6), {5: 0, 6: 0}.keys()):
            self.assertEqual(softdemap.demap_frame(Pam(2), gains, [3, 4]), wanted)
        self.assertEqual(softdemap.map_bits(Pam(1), 1, [True, False]), softdemap.map_bits(Pam(1), 1, b"\1\0"))

    def test_floats_become_binary32(self):
        """A float that binary32 lacks is taken as the nearest one that it has: 1048576.55 as 1048576.5."""
        self.assertEqual(softdemap.sample_i32(0, 1048576.55), 1048576)
        self.assertEqual(softdemap.samples_i32(Pam(1), 0, [1048576.55])[0].tolist(), [1048576])


# Calls that end in an error, and an input whose memory they were lent or looked at.
KEPT = [
    (Refused, array("H", [5, 4096]), lambda gains: frame(gains=gains)),
    (Refused, array("i", [1, 2, 3]), lambda yi: frame(yi=yi)),
    (Refused, array("H", [5, 4096]), lambda weights: frame(weights=weights)),
    (Refused, array("B", [1, 2]), lambda bits: softdemap.map_bits(Pam(1), 1, bits)),
    (Refused, bytearray(b"0102"), softdemap.answer_line),
    (Refused, array("f", [1, 1e9]), lambda capture: softdemap.samples_i32(Pam(1), 0, capture)),
    (Refused, array("h", [1]), lambda soft: softdemap.softs_f32(15, soft)),
    (OverflowError, array("H", [5, 6]), lambda gains: frame(gains=gains, payload=70000)),
    (OverflowError, array("H", [5, 6]), lambda gains: frame(gains=gains, yi=[2**31, 0])),
    (OverflowError, array("l", [5, 65536]), lambda gains: frame(gains=gains)),
    (TypeError, array("f", [5, 6]), lambda gains: frame(gains=gains)),
    (TypeError, array("d", [1]), lambda capture: softdemap.samples_i32(Pam(1), 0, capture)),
]


class Kept(unittest.TestCase):
    def test_an_error_keeps_no_input_lent(self):
        """An array that is lent cannot grow."""
        for error, given, call in KEPT:
            with self.subTest(error=error, given=given):
                try:
                    call(given)
                except error:
                    given.append(given[0])
                else:
                    self.fail("there is no error")


class Modulations(unittest.TestCase):
    def test_numbers(self):
        cases = (Pam(3), (0, 3, 0, 3)), (Qam(2, 4), (1, 2, 4, 6)), (Psk(4), (2, 4, 0, 4)), (Cellular(3), (3, 3, 3, 6))
        for modulation, numbers in cases:
            found = (modulation.kind, modulation.bits_i, modulation.bits_q, modulation.bits_per_symbol)
            self.assertEqual(found, numbers)

    def test_they_are_values(self):
        self.assertEqual(Qam(2, 3), Qam(2, 3))
        self.assertNotEqual(Qam(2, 3), Qam(3, 2))
        self.assertNotEqual(Pam(2), Psk(2))
        self.assertNotEqual(Qam(2, 2), Cellular(2))
        self.assertEqual(len({Pam(1), Pam(1), Psk(1)}), 2)
        self.assertNotEqual(Pam(2), (0, 2, 0))
        for modulation, numbers in ((Pam(3), (0, 3)), (Qam(2, 3), (1, 2, 3)), (Psk(4), (2, 4, 0)), (Cellular(2), (3, 2, 2))):
            self.assertEqual(modulation, Modulation(*numbers))
            self.assertEqual(Modulation(*numbers), modulation)
            self.assertEqual(hash(modulation), hash(Modulation(*numbers)))
        shown = ["Pam(1)", "Qam(2, 3)", "Psk(4)", "Cellular(2)"]
        self.assertEqual([repr(modulation) for modulation in (Pam(1), Qam(2, 3), Psk(4), Cellular(2))], shown)
        with self.assertRaises(AttributeError):
            Pam(1).bits_i = 2

    def test_bits_by_name(self):
        self.assertEqual((Pam(bits=3), Qam(bits_q=3, bits_i=2), Psk(bits=4), Cellular(bits=2)), (Pam(3), Qam(2, 3), Psk(4), Cellular(2)))

    def test_any_numbers_may_be_written(self):
        self.assertEqual((Pam(99).bits_i, Modulation(7, -1).kind), (99, 7))
