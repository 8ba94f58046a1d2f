"""What holds of numpy arrays alone; where there is no numpy, that the module works without it."""

import subprocess
import sys
import unittest

import support
from support import address_of, numpy, softdemap

from softdemap import Pam, Qam


class WithoutNumpy(unittest.TestCase):
    def test_numpy_is_not_imported(self):
        code = "import sys, softdemap; softdemap.demap_frame(softdemap.Pam(1), [1], [1]); sys.exit('numpy' in sys.modules)"
        subprocess.run([sys.executable, "-B", "-c", code], cwd=support.BINDING, check=True)

    def test_numpy_out_of_reach(self):
        code = "import sys; sys.modules['numpy'] = None; import softdemap; softdemap.demap_frame(softdemap.Pam(1), [1], [1])"
        subprocess.run([sys.executable, "-B", "-c", code], cwd=support.BINDING, check=True)


@unittest.skipIf(numpy is None, "there is no numpy")
class Arrays(support.RecordedCase):
    def test_arrays_are_lent(self):
        """Also where they are read-only."""
        gains, yi = numpy.array([5], "uint16"), numpy.array([3], "int32")
        yq = support.read_only_array([-20], "i")
        softdemap.demap_frame(Qam(2, 2), gains, yi, yq)
        arguments = self.recorded.calls[0]
        self.assertEqual(arguments[7:13:2], (gains.ctypes.data, yi.ctypes.data, yq.ctypes.data))
        weights = numpy.array([7], "uint16")
        softdemap.demap_frame(Qam(2, 2), gains, yi, yq, weights=weights)
        arguments = self.recorded.calls.pop()
        self.assertEqual(arguments[7:15:2], (gains.ctypes.data, weights.ctypes.data, yi.ctypes.data, yq.ctypes.data))
        capture = numpy.array([1, 2], "complex64").view("float32")
        softdemap.samples_i32(Qam(2, 2), 0, capture)
        self.assertEqual(self.recorded.calls[1][2:4], (capture.ctypes.data, 4))

    def test_other_buffers_are_copied(self):
        """Other types, byte orders, gaps and addresses; the numbers are the same."""
        held = numpy.zeros(9, "uint8")
        held[1:] = numpy.array([3, -4], "int32").view("uint8")
        forms = [held[1:].view("int32"), numpy.array([3, 0, -4], "int32")[::2], numpy.array([-4, 3], "int32")[::-1]]
        forms += [numpy.array([3, -4], dtype) for dtype in ("int8", "int16", "int64", ">i4", ">i8")]
        for yi in forms:
            reading = softdemap.demap_frame(Pam(2), [5, 5], yi)
            self.assertEqual(reading.soft.tolist(), softdemap.demap_frame(Pam(2), [5, 5], [3, -4]).soft.tolist())
            self.assertEqual(address_of(self.recorded.calls[-2][9]) % 4, 0)

    def test_exact_types(self):
        self.assertEqual(softdemap.demap_frame(Pam(1), numpy.array([5], "uint64"), [3]).soft.tolist(), [-60])
        self.assertEqual(softdemap.map_bits(Pam(1), 7, numpy.array([True, False]))[0].tolist(), [7, -7])
        for dtype in ("float16", "int16", "uint8", ">f4", "bool"):
            yi, _ = softdemap.samples_i32(Pam(1), 3, numpy.array([1, 0], dtype))
            self.assertEqual((yi.tolist(), yi.dtype), ([8, 0], "int32"))

    def test_inexact_types(self):
        """Types some of whose numbers would be lost, whatever the numbers are."""
        for dtype in ("float32", "float64", "complex64", "object", "S1", "datetime64[s]"):
            with self.assertRaisesRegex(TypeError, "^gains has entries of type .*, not uint16$"):
                softdemap.demap_frame(Pam(1), numpy.zeros(1, dtype), [3])
        for dtype in ("float64", "int32", "uint64", "complex64", "object"):
            with self.assertRaisesRegex(TypeError, f"^capture has entries of type {dtype}, not float32$"):
                softdemap.samples_i32(Pam(1), 0, numpy.zeros(1, dtype))
        self.assertEqual(self.recorded.calls, [])

    def test_numbers_too_large(self):
        cases = (
            (lambda: softdemap.demap_frame(Pam(1), numpy.array([1, 65536]), [3, 3]), r"gains\[1\] is 65536"),
            (lambda: softdemap.demap_frame(Pam(1), [1], numpy.array([2**40])), r"yi\[0\] is 1099511627776"),
            (lambda: softdemap.demap_frame(Pam(1), [1], numpy.array([2**63], "uint64")), r"yi\[0\] is 9223372036854775808"),
            (lambda: softdemap.map_bits(Pam(1), 1, numpy.array([0, -1], "int8")), r"bits\[1\] is -1"),
            (lambda: softdemap.softs_f32(0, numpy.array([40000], "uint16")), r"soft\[0\] is 40000"),
        )
        for call, message in cases:
            with self.assertRaisesRegex(OverflowError, "^" + message + ", outside"):
                call()
        self.assertEqual(self.recorded.calls, [])

    def test_masks(self):
        """The library would not know of a mask, also where it hides nothing."""
        cases = (
            (lambda given: softdemap.demap_frame(Pam(1), given, [3, 3]), "gains"),
            (lambda given: softdemap.demap_frame(Pam(1), [5, 5], [3, 3], weights=given), "weights"),
            (lambda given: softdemap.demap_frame(Pam(1), [5, 5], given), "yi"),
            (lambda given: softdemap.demap_frame(Qam(1, 1), [5, 5], [3, 3], given), "yq"),
            (lambda given: softdemap.map_bits(Pam(1), 1, given), "bits"),
            (lambda given: softdemap.answer_line(given), "line"),
            (lambda given: softdemap.samples_i32(Pam(1), 0, given), "capture"),
            (lambda given: softdemap.softs_f32(0, given), "soft"),
        )
        for call, name in cases:
            for mask in ([False, True], [False, False], numpy.ma.nomask):
                with self.assertRaisesRegex(TypeError, f"^{name} is a masked array, and its mask would be lost$"):
                    call(numpy.ma.array([1, 1], "uint8", mask=mask))
        self.assertEqual(self.recorded.calls, [])

    def test_one_dimension(self):
        for yi in (numpy.zeros((1, 1), "int32"), numpy.zeros((), "int32"), numpy.int32(0)):
            with self.assertRaisesRegex(TypeError, "^yi has . dimensions, not 1"):
                softdemap.demap_frame(Pam(1), [1], yi)

    def test_numbers_of_numpy(self):
        """Scalars stand for numbers everywhere, and small types of theirs do not overflow."""
        small = Qam(numpy.uint8(6), numpy.uint8(6))
        reading = softdemap.demap_frame(small, [numpy.int64(5)] * 100, [numpy.int32(3)] * 100, [0] * 100, weight=numpy.uint8(2))
        self.assertEqual((len(reading.soft), type(reading.soft)), (1200, support.array))
        self.assertEqual(softdemap.sample_i32(numpy.int8(2), numpy.float32(0.5)), 2)

    def test_empty_arrays(self):
        yi, yq = softdemap.samples_i32(Qam(1, 1), 0, numpy.zeros(0, "float32"))
        self.assertEqual((yi.dtype, len(yi), len(yq)), ("int32", 0, 0))
        self.assertEqual(support.answer_of(softdemap.demap_frame, Pam(1), numpy.zeros(0, "uint16"), yi)[1], (6, 0))
