"""The frame call (REQUIREMENTS, "Frames", "Soft values").

As in the other calls here, an accepted call gives its outputs and None, a refused one None and (refusal, symbol). Rooms are the lengths of
the lent output buffers; without them each is as long as the answer.
"""

from collections import namedtuple

from constellations import KINDS, constellation_of, probes_per_symbol
from headers import FIELDS, Headed, first_refused, header_refusal, symbols_for
from search import decided, met


class Frame(Headed, namedtuple("Frame", (*FIELDS, "gains", "weights", "yi", "yq"))):
    """The arguments of a frame call: a header, and lists, of which that of weights is empty for plain kinds."""

    __slots__ = ()

    @property
    def symbols(self):
        """Each symbol as (gain, yI, yQ), of a frame whose lengths are right."""
        return list(zip(self.gains, self.yi, self.yq if KINDS[self.modulation[0]].has_quadrature else [0] * len(self.yi)))


def soft_value(difference, places, limit):
    """A weighted N over 2^places, rounded with halves away from zero and held within the limit."""
    size, divisor = abs(difference), 2**places
    rounded = (2 * size + divisor) // (2 * divisor)
    met["halves"] += 2 * (size % divisor) == divisor
    met["held"] += rounded > limit
    held = min(rounded, limit)
    return held if difference >= 0 else -held


def weighed(header, symbols, weights):
    """Each symbol with its weight: its own, and for plain kinds that of the header."""
    return list(zip(symbols, weights if header.weighted else [header.weight] * len(symbols)))


def soft_values(header, symbol, weight):
    """The soft values of all bits of a symbol with a weight, and its hard bits."""
    places = header.shift + KINDS[header.modulation[0]].fraction_bits
    hard, differences = decided(constellation_of(header.modulation).points, symbol, weight)
    return hard, [soft_value(difference, places, header.limit) for difference in differences]


def needed(header):
    """The lengths of the answer: hard bits, soft values, probe indices, probe costs."""
    probes = symbols_for(header.modulation, header.payload) * probes_per_symbol(header.modulation)
    return header.payload, header.payload, probes, probes


def frame_refusal(frame, rooms=None):
    """Those of the header, 16, 15, then of each symbol in turn 10, 7 and 11; None for none."""
    number = header_refusal(frame.header)
    if number:
        return number, 0
    symbols = symbols_for(frame.modulation, frame.payload)
    in_quadrature = symbols if KINDS[frame.modulation[0]].has_quadrature else 0
    own_weights = symbols if frame.weighted else 0
    if (len(frame.gains), len(frame.weights), len(frame.yi), len(frame.yq)) != (symbols, own_weights, symbols, in_quadrature):
        return 16, 0
    if rooms and any(room < need for room, need in zip(rooms, needed(frame.header))):
        return 15, 0
    return first_refused(frame.modulation, frame.symbols, frame.weights)


def probes(modulation, symbol):
    """The probe list of a symbol: indices and costs, without a weight."""
    listed = []
    for part in constellation_of(modulation).parts:
        costs = part.points.costs(symbol)
        listed += [(index, costs[index]) for index in part.probed(symbol)]
    return listed


def read_frame(frame, rooms=None):
    """Hard bits, soft values, probe indices and probe costs; those of padding bits are dropped, but not their probes."""
    refusal = frame_refusal(frame, rooms)
    if refusal:
        return None, refusal
    hard, soft, listed = [], [], []
    for symbol, weight in weighed(frame, frame.symbols, frame.weights):
        bits, values = soft_values(frame.header, symbol, weight)
        hard += bits
        soft += values
        listed += probes(frame.modulation, symbol)
    return (hard[: frame.payload], soft[: frame.payload], [index for index, _ in listed], [cost for _, cost in listed]), None
