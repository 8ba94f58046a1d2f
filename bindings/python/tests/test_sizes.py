"""The call for sizes: against the arithmetic of softdemap.h, and against what the other calls take and give."""

import unittest
from itertools import combinations

import support
from support import softdemap

from softdemap import MAX_ANSWER, MAX_LINE, MAX_SYMBOLS, Cellular, Modulation, Pam, Psk, Qam, Refusal, Sizes, sizes

AXIS = range(1, 7)
MODULATIONS = [Pam(bits) for bits in AXIS] + [Qam(bits_i, bits_q) for bits_i in AXIS for bits_q in AXIS]
MODULATIONS += [Psk(bits) for bits in range(1, 5)] + [Cellular(bits) for bits in range(1, 4)]

# What refuses a frame of 16-QAM with 5 bits of payload, in the order of refusals; the first has the fault of the second too.
FAULTS = {
    Refusal.KIND: {"modulation": Modulation(4, 2, 7)},
    Refusal.BITS_PER_SYMBOL: {"modulation": Qam(2, 7)},
    Refusal.PAYLOAD: {"payload": 1025},
    Refusal.WEIGHT: {"weight": 0},
    Refusal.SHIFT: {"shift": 41},
    Refusal.LIMIT: {"limit": 32768},
}


def payloads(modulation):
    """Around a symbol, some in between, and around a full frame."""
    bits = modulation.bits_per_symbol
    full = MAX_SYMBOLS * bits
    return sorted({1, bits, bits + 1, *range(1, full, 97), full - 1, full})


def by_header(modulation, payload, weighted=False):
    """As softdemap.h has it."""
    bits = modulation.bits_per_symbol
    symbols = -(-payload // bits)
    single, axes = isinstance(modulation, Pam), 2 if isinstance(modulation, (Qam, Cellular)) else 1
    line = 20 + (12 if single else 20) * symbols + (4 * symbols if weighted else 0)
    return Sizes(symbols, 0 if single else symbols, symbols * (bits + axes), line, 6 + 4 * payload)


def zeros(modulation, payload, found):
    """A frame of zeros as a line, as long as its sizes have it."""
    header = (modulation.kind, modulation.bits_i, modulation.bits_q, payload, 1, 0, 32767)
    return ("%02X%02X%02X%04X%04X%02X%04X" % header).ljust(found.line, "0")


class Accepted(unittest.TestCase):
    def test_every_modulation(self):
        self.assertEqual(len(set(MODULATIONS)), 49)
        for modulation in MODULATIONS:
            for payload in payloads(modulation):
                self.assertEqual(sizes(modulation, payload), by_header(modulation, payload), f"{modulation}, {payload} bits")
                self.assertEqual(sizes(modulation, payload, weighted=True), by_header(modulation, payload, True), f"{modulation}, {payload} bits")

    def test_other_calls(self):
        """Frames, maps and lines of these sizes are taken and give these sizes, and frames of others are refused."""
        for modulation in MODULATIONS:
            for payload in payloads(modulation)[::9]:
                found = sizes(modulation, payload)
                gains, yi, yq = [1] * found.symbols, [0] * found.symbols, [0] * found.quadrature
                reading = softdemap.demap_frame(modulation, gains, yi, yq, payload=payload)
                self.assertEqual((len(reading.probe_index), len(reading.probe_cost), reading.probes), 3 * (found.probes,))
                self.assertEqual((len(reading.hard), len(reading.soft)), (payload, payload))
                self.assertEqual(tuple(map(len, softdemap.map_bits(modulation, 1, reading.hard))), found[:2])
                self.assertEqual(len(softdemap.answer_line(zeros(modulation, payload, found))), found.answer)
                for inputs in ((gains + [0], yi, yq), (gains, yi[1:], yq), (gains, yi, yq + [0])):
                    _, refused = support.answer_of(softdemap.demap_frame, modulation, *inputs, payload=payload)
                    self.assertEqual(refused, (Refusal.INPUT_LENGTH, 0))

    def test_greatest(self):
        found = [sizes(modulation, payloads(modulation)[-1], weighted=True) for modulation in MODULATIONS]
        for name, greatest in (("symbols", MAX_SYMBOLS), ("line", MAX_LINE), ("answer", MAX_ANSWER)):
            self.assertEqual(max(getattr(each, name) for each in found), greatest)

    def test_scale(self):
        """Weight, shift and limit change no size."""
        self.assertEqual(sizes(Qam(2, 2), 5, weight=4095, shift=40, limit=1), sizes(Qam(2, 2), 5))


class Refused(unittest.TestCase):
    def try_faults(self, refusal, faults):
        self.assertEqual(support.answer_of(sizes, **{"modulation": Qam(2, 2), "payload": 5, **faults})[1], (refusal, 0))

    def test_first_fault(self):
        for refusal, fault in FAULTS.items():
            self.try_faults(refusal, fault)
        for (first, fault), (_, later) in combinations(FAULTS.items(), 2):
            self.try_faults(first, {**later, **fault})

    def test_payloads(self):
        for modulation in MODULATIONS:
            for payload in (0, MAX_SYMBOLS * modulation.bits_per_symbol + 1, 65535):
                self.assertEqual(support.answer_of(sizes, modulation, payload)[1], (Refusal.PAYLOAD, 0))

    def test_modulations(self):
        two_axes = (1, 2), (1, 0, 2), (1, 7, 2), (1, 2, 7), (3, 0), (3, 2), (3, 0, 2), (3, 1, 2), (3, 3, 2), (3, 4, 4)
        for numbers in ((0, 0), (0, 7), (0, 3, 1), (2, 0), (2, 5), (2, 2, 2), *two_axes):
            self.assertEqual(support.answer_of(sizes, Modulation(*numbers), 1)[1], (Refusal.BITS_PER_SYMBOL, 0))
        for kind in (4, 5, 127, 132, 255):
            self.assertEqual(support.answer_of(sizes, Modulation(kind, 2, 2), 1)[1], (Refusal.KIND, 0))
            self.assertEqual(support.answer_of(sizes, Modulation(kind, 2, 2), 1, weighted=True)[1], (Refusal.KIND, 0))

    def test_weights(self):
        """A weight in the header of a weighted kind; and that kind by its number."""
        for weight in (1, 4095, 4096, 65535):
            self.assertEqual(support.answer_of(sizes, Qam(2, 2), 1, weighted=True, weight=weight)[1], (Refusal.HEADER_WEIGHT, 0))
        self.assertEqual(support.answer_of(sizes, Qam(2, 2), 1, weighted=True, weight=1, shift=41, limit=0)[1], (Refusal.HEADER_WEIGHT, 0))
        self.assertEqual(support.answer_of(sizes, Qam(2, 2), 0, weighted=True, weight=1)[1], (Refusal.PAYLOAD, 0))
        self.assertEqual(sizes(Modulation(0x81, 2, 2), 1, weight=0), sizes(Qam(2, 2), 1, weighted=True))

    def test_other_calls_decide_themselves(self):
        """Where sizes are refused, the refusal is that of the call, in its own order."""
        for refusal, fault in FAULTS.items():
            arguments = {"modulation": Qam(2, 2), "payload": 5, "gains": [9999], "yi": [], **fault}
            self.assertEqual(support.answer_of(softdemap.demap_frame, **arguments)[1], (refusal, 0))
        self.assertEqual(support.answer_of(softdemap.map_bits, Qam(2, 2), 1, [1] * 65537)[1], (Refusal.PAYLOAD, 0))
        self.assertEqual(support.answer_of(softdemap.map_bits, Qam(2, 7), 9999, [7] * 65537)[1], (Refusal.BITS_PER_SYMBOL, 0))
