"""What a frame is set up with, its limits, and refusals 4 to 11 and 18 (REQUIREMENTS, "Frames", "Refusals"). A refusal is a number, 0 for none."""

from collections import namedtuple
from itertools import zip_longest

from constellations import KINDS, bits_per_symbol

MOST_SYMBOLS = 256
MOST_WEIGHT = 4095
MOST_SHIFT = 40
MOST_LIMIT = 32767

# What is added to a kind number where each symbol has a weight of its own.
WEIGHTED = 0x80


# A modulation, the payload's bit count, w, s and T.
FIELDS = ("kind", "bits_i", "bits_q", "payload", "weight", "shift", "limit")


class Headed:
    """What begins with these fields."""

    __slots__ = ()

    @property
    def weighted(self):
        """Whether each symbol has a weight of its own."""
        return self.kind >= WEIGHTED

    @property
    def modulation(self):
        """The kind without what is added for weights, mI and mQ."""
        return self.kind - WEIGHTED * self.weighted, self.bits_i, self.bits_q

    @property
    def header(self):
        return Header(*self[: len(FIELDS)])


class Header(Headed, namedtuple("Header", FIELDS)):
    __slots__ = ()


def most_bits(modulation):
    """The payload of a full frame."""
    return MOST_SYMBOLS * bits_per_symbol(modulation)


def symbols_for(modulation, payload):
    """How many symbols are just enough for the payload."""
    return -(-payload // bits_per_symbol(modulation))


def setup_refusal(modulation, payload):
    """Refusals 4, 5 and 6."""
    kind, bits_i, bits_q = modulation
    if kind not in KINDS:
        return 4
    if (bits_i, bits_q) not in KINDS[kind].bit_counts:
        return 5
    return 0 if 1 <= symbols_for(modulation, payload) <= MOST_SYMBOLS else 6


def header_refusal(header):
    """Refusals 4 to 6, 7 or, where each symbol has a weight, 18, then 8 and 9."""
    number = setup_refusal(header.modulation, header.payload)
    if number:
        return number
    if header.weighted and header.weight != 0:
        return 18
    if not header.weighted and not 1 <= header.weight <= MOST_WEIGHT:
        return 7
    if header.shift > MOST_SHIFT:
        return 8
    return 0 if 1 <= header.limit <= MOST_LIMIT else 9


def first_refused(modulation, symbols, weights):
    """Refusal 10, 7 or 11 with the symbol's number, of the first symbol (gain, yI, yQ) that has one; None for none. Plain kinds have no weights."""
    kind = KINDS[modulation[0]]
    for place, ((gain, sample_i, sample_q), weight) in enumerate(zip_longest(symbols, weights, fillvalue=1)):
        if gain > kind.most_gain:
            return 10, place
        if not 1 <= weight <= MOST_WEIGHT:
            return 7, place
        if max(abs(sample_i), abs(sample_q)) > kind.most_sample:
            return 11, place
    return None
