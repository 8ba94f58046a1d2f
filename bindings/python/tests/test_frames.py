"""The frame call against the reference, and the worked cases of the requirements."""

import unittest

import support
from support import softdemap

from constellations import MODULATIONS
from frame_cases import of_lines, of_weighted_lines
from frame_faults import FAULTS, FrameFaults, WeightedFaults
from frames import read_frame
from softdemap import Cellular, Modulation, Pam, Psk, Qam


class Frames(unittest.TestCase):
    def setUp(self):
        self.counts = support.Counts()

    def try_call(self, draws, call, **left_out):
        """Makes a call with inputs in any forms, and compares outputs, their types and the inputs with what they should be. Weights are handed over
        where the kind is a weighted one."""
        wanted, refusal = read_frame(call)
        codes = {"gains": "H", "yi": "i", "yq": "i", **({"weights": "H"} if call.weighted else {})}
        inputs = {name: draws.one_of(support.FORMS)(getattr(call, name), code) for name, code in codes.items()}
        named = {"payload": call.payload, "weight": call.weight, "shift": call.shift, "limit": call.limit, **left_out}
        with self.subTest(call=call):
            reading, refused = support.answer_of(softdemap.demap_frame, Modulation(*call.modulation), **inputs, **named)
            self.assertEqual(refused, refusal)
            for name, given in inputs.items():
                self.assertEqual(list(given), getattr(call, name), f"{name}, an input")
            if wanted:
                for output, code, should in zip(reading, "BhBq", wanted):
                    self.assertEqual(output.tolist(), should)
                    support.check_type(self, output, code, inputs.values())
                self.assertEqual(reading.probes, len(wanted[2]))
        self.counts.add(refusal)
        return wanted

    def test_valid_frames(self):
        for draws in FrameFaults(7), WeightedFaults(8):
            for modulation in MODULATIONS:
                bits = modulation[1] + modulation[2]
                for _ in range(240 // bits):
                    self.try_call(draws, draws.few_symbols(modulation))
        self.counts.check(self, "valid frames", [0], 3000)

    def test_every_padding(self):
        for draws in FrameFaults(11), WeightedFaults(12):
            for modulation in MODULATIONS:
                for padding in range(modulation[1] + modulation[2]):
                    self.try_call(draws, draws.frame(modulation, 2, padding))
        self.counts.check(self, "paddings", [0], 400)

    def test_full_frames(self):
        for draws in FrameFaults(13), WeightedFaults(14):
            for modulation in ((0, 1, 0), (0, 6, 0), (1, 1, 2), (1, 2, 2), (2, 1, 0), (2, 4, 0), (3, 1, 1), (3, 2, 2)):
                call = draws.frame(modulation, 256)
                self.try_call(draws, call)
                for changed in (call._replace(payload=call.payload + 1), call._replace(weight=4096)):
                    self.try_call(draws, changed)
        self.counts.check(self, "full frames", [0, 6, 7, 18], 6)

    def test_damaged_frames(self):
        """Every pair of faults many times; that of an output's length does not occur here, nor a plain kind with weights."""
        faults = [fault for fault in FAULTS if fault != "room"]
        for draws in FrameFaults(17), WeightedFaults(18):
            for place, first in enumerate(faults):
                for second in faults[place:]:
                    for _ in range(24):
                        call = draws.damaged(draws.damaged(draws.few_symbols(), first), second)
                        if call.weighted or not call.weights:
                            self.try_call(draws, call)
        self.counts.check(self, "damaged frames", [0, 4, 5, 6, 7, 8, 9, 10, 11, 16, 18], 20)

    def test_frames_of_lines(self):
        """The frames that the lines of softlines hold: ties on levels and angles, halves, ends of ranges, every shift."""
        draws = FrameFaults(19)
        for cases in of_lines(draws), of_lines(WeightedFaults(20)), of_weighted_lines(draws):
            for frame, _, _ in cases:
                self.try_call(draws, frame)
        self.counts.check(self, "frames of lines", [0, 7, 8, 9, 10, 11], 4)

    def test_payload_left_out(self):
        """All bits of the symbols are payload; too many symbols are refused, and so are modulations, before anything else."""
        for draws in FrameFaults(23), WeightedFaults(24):
            for modulation in MODULATIONS:
                self.try_call(draws, draws.frame(modulation, 2), payload=None)
        for modulation, symbols, number in ((Pam(1), 257, 6), (Qam(6, 6), 70000, 6), (Pam(7), 70000, 5), (Pam(3), 0, 6), (Pam(0), 1, 5)):
            _, refused = support.answer_of(softdemap.demap_frame, modulation, [1] * symbols, [0] * symbols)
            self.assertEqual(refused, (number, 0))

    def test_defaults(self):
        """Without weight, shift and limit these are 1, 0 and 32767; with weights the weight is 0."""
        given = Qam(2, 2), [5], [30], [-20]
        self.assertEqual(softdemap.demap_frame(*given), softdemap.demap_frame(*given, payload=4, weight=1, shift=0, limit=32767))
        self.assertEqual(softdemap.demap_frame(*given, weights=[7]), softdemap.demap_frame(*given, weight=7))
        self.assertEqual(softdemap.demap_frame(*given, weights=[7], weight=0), softdemap.demap_frame(*given, weight=7))

    def test_weights_beside_a_weighted_kind(self):
        """A kind that is a weighted one already is handed on as it is; without weights it lacks them."""
        given = Modulation(0x81, 2, 2), [5], [30], [-20]
        self.assertEqual(softdemap.demap_frame(*given, weights=[7]), softdemap.demap_frame(Qam(2, 2), *given[1:], weight=7))
        self.assertEqual(support.answer_of(softdemap.demap_frame, *given, weight=0)[1], (16, 0))
        self.assertEqual(support.answer_of(softdemap.demap_frame, *given, weight=7)[1], (18, 0))
        self.assertEqual(support.answer_of(softdemap.demap_frame, *given, weights=[])[1], (16, 0))
        self.assertEqual(support.answer_of(softdemap.demap_frame, Modulation(0x84, 2, 2), *given[1:], weights=[7])[1], (4, 0))

    def test_one_buffer_for_both_axes(self):
        samples = support.array("i", [3, -20])
        reading = softdemap.demap_frame(Qam(2, 2), [5, 5], samples, samples)
        self.assertEqual(reading, softdemap.demap_frame(Qam(2, 2), [5, 5], [3, -20], [3, -20]))


class WorkedCases(unittest.TestCase):
    """The worked cases of the requirements that a frame call can show."""

    def try_case(self, modulation, scale, gain, samples, soft=None, probes=()):
        weight, shift, limit = scale
        yi, yq = zip(*samples)
        yq = () if isinstance(modulation, Pam) else yq
        reading = softdemap.demap_frame(modulation, [gain] * len(yi), yi, yq, weight=weight, shift=shift, limit=limit)
        if soft is not None:
            self.assertEqual(reading.soft.tolist(), soft)
        self.assertEqual(reading.probe_index.tolist()[: len(probes)], list(probes))

    def test_cases(self):
        plain = (1, 0, 32767)
        self.try_case(Pam(3), (1, 3, 127), 10, [(-33, 0)], [127, -35, -65], (2, 4, 1, 3))
        for y in (0, 1, -77, 1048576, -1048576):
            self.try_case(Pam(3), plain, 0, [(y, 0)], [0, 0, 0], (0, 4, 2, 1))
        self.try_case(Pam(1), plain, 4, [(0, 0)], [0], (0,))
        self.try_case(Psk(3), plain, 1, [(100, 0)], [0, 261, 108], (0, 7))
        self.try_case(Psk(4), plain, 1, [(100000, 41418)], probes=(1,))
        self.try_case(Pam(1), (1, 3, 127), 1, [(-3, 0), (3, 0)], [2, -2])
        self.try_case(Cellular(2), (1, 2, 32767), 5, [(3, -20)], [15, -150, 35, -50], (2, 1, 3, 0, 2, 1))
        self.try_case(Cellular(3), (1, 4, 127), 10, [(45, -60)], [127, -127, -13, -50, 38, 0])

    def test_weights(self):
        frame = Qam(2, 2), [5, 5], [3, 3], [-20, -20]
        reading = softdemap.demap_frame(*frame, weights=[3, 7], payload=6, shift=2)
        self.assertEqual((reading.soft.tolist(), reading.probes), ([-45, -105, 450, 150, -105, -245], 12))
        self.assertEqual(reading.probe_cost, softdemap.demap_frame(*frame, payload=6, shift=2).probe_cost)
        self.assertEqual(softdemap.demap_frame(Psk(2), [1], [1], [2], weights=[2]).soft.tolist(), [11, 6])

    def test_costs(self):
        """The differences N of the first case, as the probes show them."""
        cost = softdemap.demap_frame(Pam(3), [10], [-33]).probe_cost
        self.assertEqual([cost[1] - cost[0], cost[0] - cost[2], cost[0] - cost[3]], [1840, -280, -520])

    def test_padding_is_dropped(self):
        reading = softdemap.demap_frame(Qam(2, 2), [5], [3], [-20], payload=3, weight=1, shift=2, limit=32767)
        self.assertEqual((reading.hard.tolist(), reading.soft.tolist(), reading.probes), ([1, 1, 0], [-15, -35, 150], 6))
        reading = softdemap.demap_frame(Cellular(2), [5], [3], [-20], payload=3, weight=1, shift=2, limit=32767)
        self.assertEqual((reading.hard.tolist(), reading.soft.tolist(), reading.probes), ([0, 1, 0], [15, -150, 35], 6))

    def test_labels(self):
        for modulation, index, label in ((Pam(3), 2, (0, 1, 1)), (Psk(3), 1, (0, 0, 1))):
            self.assertEqual([point.label for point in softdemap.points(modulation) if point.index == (index,)], [label])

    def test_cellular_labels(self):
        """Those of an axis of 64QAM from the lowest level upward, by the points on the diagonal, where both axes have the same bits."""
        labels = {point.i: "".join(map(str, point.label)) for point in softdemap.points(Cellular(3)) if point.i == point.q}
        wanted = "111 110 100 101 001 000 010 011".split()
        self.assertEqual([labels[level] for level in range(-7, 8, 2)], ["".join(2 * bit for bit in label) for label in wanted])
