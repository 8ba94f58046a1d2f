"""The binary32 calls against the reference, which converts in exact fractions."""

import math
import struct
import unittest
from fractions import Fraction

import support
from support import softdemap

from capture_draws import PARTICULAR, CaptureDraws
from captures import coordinate, read_capture, read_sample
from constellations import KINDS
from headers import WEIGHTED
from softdemap import Modulation


def number_of(pattern):
    """The binary32 number with this pattern."""
    return struct.unpack("<f", struct.pack("<I", pattern))[0]


class Captures(unittest.TestCase):
    def setUp(self):
        self.counts = support.Counts()

    def try_sample(self, scale, bits):
        wanted, refusal = read_sample(scale, [bits])
        found, refused = support.answer_of(softdemap.sample_i32, scale, number_of(bits))
        self.assertEqual((found, refused), (wanted and wanted[0], refusal), f"scale {scale}, bits {bits:#010X}")
        self.counts.add(refusal)

    def test_single_samples(self):
        draws = CaptureDraws(43)
        for _ in range(8000):
            scale = draws.scale(20)
            self.try_sample(scale, draws.number(scale))
        self.counts.check(self, "single samples", [0, 12, 13, 14], 200)

    def test_particular_numbers_at_every_scale(self):
        for scale in (*range(23), 128, 255):
            for bits in PARTICULAR:
                self.try_sample(scale, bits)
                self.try_sample(scale, bits | 1 << 31)
        self.counts.check(self, "particular numbers", [0, 12, 13, 14], 20)

    def test_worked_cases(self):
        self.assertEqual(softdemap.sample_i32(0, 2.5), 2)
        self.assertEqual(softdemap.sample_i32(0, 1048576.5), 1048576)
        self.assertEqual(support.answer_of(softdemap.sample_i32, 0, 1048576.75)[1], (13, 0))

    def test_quadrature_samples(self):
        draws = CaptureDraws(47)
        for _ in range(4000):
            scale = draws.scale(20)
            pair = draws.number(scale), draws.number(scale)
            wanted, refusal = read_sample(scale, pair)
            found, refused = support.answer_of(softdemap.quadrature_i32, scale, *map(number_of, pair))
            self.assertEqual((found, refused), (wanted and tuple(wanted), refusal), f"scale {scale}, bits {pair}")
            self.counts.add(refusal)
        self.counts.check(self, "quadrature samples", [0, 12, 13, 14], 100)

    def try_capture(self, draws, kind, scale, numbers):
        wanted, refusal = read_capture(kind, scale, numbers)
        given = draws.one_of(support.FORMS)([number_of(bits) for bits in numbers], "f")
        with self.subTest(kind=kind, scale=scale, numbers=numbers):
            found, refused = support.answer_of(softdemap.samples_i32, Modulation(kind, 1, 1), scale, given)
            self.assertEqual(refused, refusal)
            if wanted:
                self.assertEqual([output.tolist() for output in found], list(wanted))
                for output in found:
                    support.check_type(self, output, "i", [given])
        self.counts.add(refusal)

    def test_captures(self):
        """Numbers in range, with one of any sort among them half of the time."""
        draws = CaptureDraws(53)
        for _ in range(2500):
            kind = draws.one_of((max(KINDS) + 1, 255)) if draws.once_in(25) else draws.one_of(list(KINDS)) + draws.one_of((0, 0, WEIGHTED))
            scale = draws.scale(20)
            drawn = [draws.number(scale) for _ in range(draws.between(0, 40))]
            numbers = [bits for bits in drawn if not coordinate(min(scale, 20), bits)[1]]
            if numbers and draws.once_in(2):
                numbers[draws.between(0, len(numbers) - 1)] = draws.number(scale)
            self.try_capture(draws, kind, scale, numbers if draws.once_in(9) else numbers[: len(numbers) // 2 * 2])
        self.counts.check(self, "captures", [0, 4, 12, 13, 14, 16], 40)

    def test_a_bad_number_at_every_place(self):
        draws = CaptureDraws(59)
        for kind in KINDS:
            for place in range(40):
                numbers = [0x3F800000] * 40
                numbers[place] = draws.one_of((0x7FC00000, 0xFF800000, 0x4F000000))
                self.try_capture(draws, kind, 3, numbers)
        self.counts.check(self, "bad numbers", [12, 13], 20)


class SoftValues(unittest.TestCase):
    VALUES = sorted({sign * (2**power + by) for sign in (-1, 1) for power in range(15) for by in (-1, 0, 1)} | {-32768, -32767, 32767})

    def is_exact(self, x, value, scale):
        return Fraction(x) == Fraction(value, 2**scale) and (value != 0 or math.copysign(1, x) == 1)

    def test_single_values(self):
        for scale in range(15):
            for value in self.VALUES:
                self.assertTrue(self.is_exact(softdemap.soft_f32(scale, value), value, scale), f"{value} at scale {scale}")
        for scale in (15, 16, 255):
            self.assertEqual(support.answer_of(softdemap.soft_f32, scale, 1)[1], (14, 0))

    def test_whole_buffers(self):
        for form in support.FORMS:
            for values in (self.VALUES, [], [7]):
                given = form(values, "h")
                for scale in range(15):
                    found = softdemap.softs_f32(scale, given)
                    support.check_type(self, found, "f", [given])
                    self.assertEqual(found.tolist(), [value / 2**scale for value in values])
                    self.assertTrue(all(self.is_exact(x, value, scale) for x, value in zip(found.tolist(), values)))
                self.assertEqual(support.answer_of(softdemap.softs_f32, 15, given)[1], (14, 0))

    def test_bytes_of_the_output(self):
        """The output holds binary32 numbers in the machine's order."""
        found = softdemap.softs_f32(4, [-40, 0, 3])
        self.assertEqual(found.tobytes(), struct.pack("3f", -2.5, 0.0, 0.1875))
