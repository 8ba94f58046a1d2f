"""Frames written as lines, and draws of them."""

from collections import namedtuple
from itertools import zip_longest

from constellations import CELLULAR, KINDS, PAM, PSK, QAM, bits_per_symbol
from draws import Draws
from frames import Frame
from headers import FIELDS, WEIGHTED, Headed
from lines import read_header, read_symbols

SAMPLE = 1048576


class Fields(Headed, namedtuple("Fields", (*FIELDS, "symbols", "weights"), defaults=((),))):
    """A line's fields; a symbol is (gain, yI, yQ), and yQ is left out where the kind has none, as are weights where symbols have none."""

    __slots__ = ()


def has_quadrature(kind):
    """Whether a line of this kind number, which may be one that there is not, is written with yQ."""
    plain = kind % WEIGHTED
    return plain not in KINDS or KINDS[plain].has_quadrature


def symbol_text(symbol, weight, with_q):
    """A symbol's digits, its samples in two's complement; the weight is None where it has none."""
    gain, sample_i, sample_q = symbol
    text = "%04X" % gain + ("" if weight is None else "%04X" % weight) + "%08X" % (sample_i & 0xFFFFFFFF)
    return text + ("%08X" % (sample_q & 0xFFFFFFFF) if with_q else "")


def written(fields):
    """The line of these fields, whether or not they are in range."""
    header = "%02X%02X%02X%04X%04X%02X%04X" % fields.header
    pairs = zip_longest(fields.symbols, fields.weights[: len(fields.symbols)])
    symbols = [symbol_text(symbol, weight, has_quadrature(fields.kind)) for symbol, weight in pairs]
    return (header + "".join(symbols)).encode("ascii")


def frame_of(fields):
    """The same frame as the arguments of a frame call."""
    gains, yi, yq = (list(column) for column in zip(*fields.symbols)) if fields.symbols else ([], [], [])
    return Frame(*fields.header, gains, list(fields.weights), yi, yq if has_quadrature(fields.kind) else [])


def fields_of(line):
    """The fields of a line of digits that has the length its header calls for."""
    header = read_header(line)
    symbols, weights = read_symbols(line, header)
    return Fields(*header, tuple(symbols), tuple(weights))


def filled(modulation, symbols, weight, shift, limit, padding=0):
    """A frame of these symbols with `padding` bits of the last one unused."""
    payload = len(symbols) * bits_per_symbol(modulation) - padding
    return Fields(*modulation, payload, weight, shift, limit, tuple(symbols))


def weighted(fields, weights):
    """The frame with a weight for each symbol in place of the header's."""
    return fields._replace(kind=fields.kind + WEIGHTED, weight=0, weights=tuple(weights))


def one_weight(fields):
    """A plain frame with the header's weight for each symbol."""
    return weighted(fields, [fields.weight] * len(fields.symbols))


def replaced(entries, place, entry):
    """The entries with one replaced."""
    return (*entries[:place], entry, *entries[place + 1 :])


def with_symbol(fields, place, symbol):
    """The frame with one symbol replaced."""
    return fields._replace(symbols=replaced(fields.symbols, place, symbol))


def with_weight(fields, place, weight):
    """The frame with the weight of one symbol replaced."""
    return fields._replace(weights=replaced(fields.weights, place, weight))


# The line of the requirements, and a frame of two symbols with padding of each kind, plain and with weights.
WORKED = Fields(QAM, 2, 2, 3, 1, 2, 0x7FFF, ((5, 3, -20),))
PAM_FRAME = Fields(PAM, 3, 0, 5, 9, 3, 1000, ((10, -33, 0), (12, 7, 0)))
QAM_FRAME = Fields(QAM, 2, 3, 9, 5, 2, 900, ((10, -33, 8), (12, 7, -51)))
PSK_FRAME = Fields(PSK, 3, 0, 5, 3, 1, 800, ((9, 120, -35), (11, -64, 90)))
CELLULAR_FRAME = Fields(CELLULAR, 3, 3, 9, 5, 2, 850, ((10, 45, -60), (12, -7, 38)))
PLAIN_FRAMES = (PAM_FRAME, QAM_FRAME, PSK_FRAME, CELLULAR_FRAME)
WEIGHTED_FRAMES = tuple(weighted(frame, (frame.weight, frame.weight + 2)) for frame in PLAIN_FRAMES)
KIND_FRAMES = PLAIN_FRAMES + WEIGHTED_FRAMES


class LineDraws(Draws):
    """Random frames most of whose soft values are within the limit."""

    def symbol(self, reach_bits, gain_bits):
        """A gain of so many bits and samples no farther out than the reach."""
        reach = min(SAMPLE, 2**reach_bits)
        gain = self.between(0, 2**gain_bits - 1)
        return (gain, self.between(-reach, reach), self.between(-reach, reach))

    def frame(self, modulation, count, padding=0):
        """An accepted frame of so many symbols."""
        gain_bits = self.between(3, 12)
        weight_bits = self.between(1, 12)
        axis = max(modulation[1:])
        psk = modulation[0] == PSK
        reach = self.between(4, 20) if psk else min(20, gain_bits + axis)
        size = gain_bits + weight_bits + reach + (2 if psk else 1 + axis)
        shift = max(0, min(40, size - 14 - self.between(0, 3)))
        limit = (32767, 32767, 2047, 127)[self.between(0, 3)]
        symbols = [self.symbol(reach, gain_bits) for _ in range(count)]
        weight = self.between(1, 2**weight_bits - 1)
        return filled(modulation, symbols, weight, shift, limit, padding)

    def weighted(self, fields):
        """The frame with a weight for each symbol, about as large as the header's was."""
        return weighted(fields, [self.between(1, min(4095, 2 * fields.weight)) for _ in fields.symbols])
