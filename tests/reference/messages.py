"""The mapping call (REQUIREMENTS, "Frames"); answers as in `frames`."""

from functools import lru_cache

from constellations import KINDS, bits_per_symbol, constellation_of
from headers import setup_refusal, symbols_for


@lru_cache(maxsize=None)
def places_by_label(modulation):
    """Where the point of each label stands."""
    labels = constellation_of(modulation).points.labels
    places = {label: place for place, label in enumerate(labels)}
    assert len(places) == len(labels) == 2 ** bits_per_symbol(modulation), "a label of two points"
    return places


def needed(modulation, count):
    """The lengths of the answer to so many bits, in phase and in quadrature."""
    symbols = symbols_for(modulation, count)
    return symbols, symbols if KINDS[modulation[0]].has_quadrature else 0


def map_refusal(modulation, gain, bits, rooms=None):
    """Refusals 4, 5, 6, 10, 17 and 15; None for none."""
    number = setup_refusal(modulation, len(bits))
    if number:
        return number, 0
    if gain > KINDS[modulation[0]].most_gain:
        return 10, 0
    if not set(bits) <= {0, 1}:
        return 17, 0
    if rooms and any(room < need for room, need in zip(rooms, needed(modulation, len(bits)))):
        return 15, 0
    return None


def map_bits(modulation, gain, bits, rooms=None):
    """The noise-free samples of bits, in phase and in quadrature; the second is empty where no quadrature sample is sent."""
    refusal = map_refusal(modulation, gain, bits, rooms)
    if refusal:
        return None, refusal
    size = bits_per_symbol(modulation)
    filled = list(bits) + [0] * (-len(bits) % size)
    labels = [tuple(filled[start : start + size]) for start in range(0, len(filled), size)]
    sent = [constellation_of(modulation).sent(places_by_label(modulation)[label], gain) for label in labels]
    in_quadrature = [v for _, v in sent] if KINDS[modulation[0]].has_quadrature else []
    return ([u for u, _ in sent], in_quadrature), None
