"""The mapping call and the constellations against the reference."""

import unittest

import support
from support import softdemap

from constellations import KINDS, MODULATIONS, constellation_of
from headers import most_bits
from message_cases import MessageDraws
from messages import map_bits
from softdemap import Modulation


class Maps(unittest.TestCase):
    def setUp(self):
        self.counts = support.Counts()

    def try_map(self, draws, modulation, gain, bits):
        wanted, refusal = map_bits(modulation, gain, bits)
        given = draws.one_of(support.FORMS + [lambda values, code: bytes(values)])(bits, "B")
        with self.subTest(modulation=modulation, gain=gain, bits=bits):
            sent, refused = support.answer_of(softdemap.map_bits, Modulation(*modulation), gain, given)
            self.assertEqual(refused, refusal)
            self.assertEqual(list(given), bits)
            if wanted:
                self.assertEqual([output.tolist() for output in sent], list(wanted))
                for output in sent:
                    support.check_type(self, output, "i", [given])
        self.counts.add(refusal)
        return sent

    def test_valid_maps(self):
        """Every modulation with any padding, also full frames; what is sent is read back."""
        draws = MessageDraws(29)
        for modulation in MODULATIONS:
            size = modulation[1] + modulation[2]
            for count in (1, size, size + 1, draws.between(1, 5 * size), 256 * size if size < 5 else 1):
                bits = draws.bit_bytes(count)
                gain = max(1, draws.gain())
                yi, yq = self.try_map(draws, modulation, gain, bits)
                reading = softdemap.demap_frame(Modulation(*modulation), [gain] * len(yi), yi, yq, payload=count)
                self.assertEqual(reading.hard.tolist(), bits)
        self.counts.check(self, "maps", [0], 200)

    def test_damaged_maps(self):
        """Wrong kinds, bit counts, lengths, gains and bits, two at a time."""
        draws = MessageDraws(31)
        for _ in range(1500):
            modulation, gain = draws.one_of(MODULATIONS), draws.gain()
            most = most_bits(modulation)
            bits = draws.bit_bytes(draws.between(1, 20))
            for _ in range(2):
                fault = draws.between(0, 4)
                if fault == 0:
                    modulation = (draws.one_of((max(KINDS) + 1, 255)), *modulation[1:])
                elif fault == 1:
                    modulation = (modulation[0], *draws.one_of(((0, 0), (7, 0), (5, 0), (0, 7), (2, 255), (2, 3), (4, 4))))
                elif fault == 2:
                    bits = draws.one_of(([], [1] * (most + 1)))
                elif fault == 3:
                    gain = draws.one_of((4095, 4096, 65535))
                elif bits:
                    bits[draws.between(0, len(bits) - 1)] = draws.one_of((2, 128, 255))
            self.try_map(draws, modulation, gain, bits)
        self.counts.check(self, "damaged maps", [0, 4, 5, 6, 10, 17], 20)


class Points(unittest.TestCase):
    def test_every_constellation(self):
        for modulation in MODULATIONS:
            constellation, wanted = constellation_of(modulation), {}
            for place, label in enumerate(constellation.points.labels):
                index = divmod(place, 2 ** modulation[2]) if len(constellation.parts) == 2 else (place,)
                wanted[label] = (index, *constellation.sent(place, 1))
            found = softdemap.points(Modulation(*modulation))
            self.assertEqual({point.label: tuple(point[1:]) for point in found}, wanted)
            self.assertEqual([point.label for point in found], sorted(wanted))

    def test_refused(self):
        for number, modulations in ((4, ((4, 1, 1),)), (5, ((0, 0, 0), (0, 7, 0), (2, 5, 0), (1, 200, 200), (3, 1, 2), (3, 4, 4)))):
            for numbers in modulations:
                self.assertEqual(support.answer_of(softdemap.points, Modulation(*numbers))[1], (number, 0))
