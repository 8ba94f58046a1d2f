"""The binary32 calls in exact fractions (REQUIREMENTS, "Captures in binary32"); answers as in `frames`.

A binary32 number is known by its pattern: a sign, 8 bits of exponent, 23 of fraction.
"""

from fractions import Fraction

from constellations import KINDS
from headers import WEIGHTED

MOST_SCALE = 20
MOST_SOFT_SCALE = 14
MOST_SAMPLE = 1048576


def value_of(pattern):
    """The number, exactly; None where it is infinite or not a number."""
    sign, exponent, fraction = pattern >> 31, pattern >> 23 & 255, pattern & 0x7FFFFF
    if exponent == 255:
        return None
    size = fraction + 0x800000 if exponent else fraction
    return (1 - 2 * sign) * size * Fraction(2) ** (max(exponent, 1) - 150)


def pattern_of(size, places):
    """The pattern of size / 2^places, for a size from 0 to 2^24 - 1 and an exponent in range."""
    if size == 0:
        return 0
    length = size.bit_length()
    return (126 + length - places) << 23 | (size << (24 - length)) - 0x800000


def coordinate(scale, pattern):
    """The number times 2^scale as a whole number, halves to even, and 0; or None and its refusal, 12 or 13."""
    value = value_of(pattern)
    if value is None:
        return None, 12
    whole = round(value * 2**scale)  # of an exact fraction, so halves go to the even number
    return (whole, 0) if abs(whole) <= MOST_SAMPLE else (None, 13)


def converted(scale, patterns, width):
    """The whole numbers of samples of `width` numbers each, in-phase first; refusals 12 and 13 with the sample's number."""
    found = []
    for place, pattern in enumerate(patterns):
        whole, number = coordinate(scale, pattern)
        if number:
            return None, (number, place // width)
        found.append(whole)
    return found, None


def read_sample(scale, patterns):
    """One sample of one or two numbers; its refusals are 14, then 12 and 13."""
    if scale > MOST_SCALE:
        return None, (14, 0)
    return converted(scale, patterns, len(patterns))


def is_kind(kind):
    """Whether there is the kind, or that less what is added for weights."""
    return kind % WEIGHTED in KINDS


def width_of(kind):
    """The numbers of a sample of a kind that there is."""
    return 2 if KINDS[kind % WEIGHTED].has_quadrature else 1


def read_capture(kind, scale, patterns, rooms=None):
    """The samples of a capture, in phase and in quadrature; refusals 14, 4, 16, 15, then sample by sample 12 and 13."""
    if scale > MOST_SCALE:
        return None, (14, 0)
    if not is_kind(kind):
        return None, (4, 0)
    width = width_of(kind)
    if len(patterns) % width:
        return None, (16, 0)
    if rooms and any(room < len(patterns) // width for room in rooms[:width]):
        return None, (15, 0)
    found, refusal = converted(scale, patterns, width)
    if refusal:
        return None, refusal
    return ((found, []) if width == 1 else (found[::2], found[1::2])), None


def soft_pattern(scale, value):
    """The pattern of a soft value over 2^scale, exactly; zero is plus zero."""
    return (value < 0) << 31 | pattern_of(abs(value), scale)


def write_softs(scale, values, room=None):
    """The patterns of soft values; refusals 14 and 15."""
    if scale > MOST_SOFT_SCALE:
        return None, (14, 0)
    if room is not None and room < len(values):
        return None, (15, 0)
    return [soft_pattern(scale, value) for value in values], None
